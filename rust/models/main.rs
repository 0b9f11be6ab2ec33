//! Models of the part of the crate that nobody proves: calls beside one another, in every order that
//! loom finds with so many preemptions as `.cargo/config.toml` says, and with what weak orders of
//! memory allow. A run in which nobody can go on fails: a wake-up was lost, or some code of a caller
//! ran under the lock and called the channel.

use std::future::Future;
use std::pin::Pin;
use std::sync::Arc;
use std::task::{Context, Wake, Waker};

use loom::thread::JoinHandle;
use vamorilesh::{Sender, WeakSender};

/// Runs these beside one another until all have ended.
macro_rules! beside {
    ($first:expr $(, $other:expr)+ $(,)?) => {
        crate::joined($first, [$(loom::thread::spawn($other)),+])
    };
}

fn joined<const N: usize>(first: impl FnOnce(), others: [JoinHandle<()>; N]) {
    first();
    others.into_iter().for_each(|other| other.join().unwrap());
}

/// A task that nobody runs. It calls a channel when it is woken and when it is dropped.
struct Caller<T>(WeakSender<T>);

impl<T> Caller<T> {
    fn call(&self) {
        drop(self.0.upgrade());
    }
}

impl<T> Wake for Caller<T>
where
    Caller<T>: Send + Sync,
{
    fn wake(self: Arc<Self>) {
        self.call();
    }
}

impl<T> Drop for Caller<T> {
    fn drop(&mut self) {
        self.call();
    }
}

/// A waker of such a task.
fn caller<T: Send + 'static>(of: &Sender<T>) -> Waker {
    Waker::from(Arc::new(Caller(of.downgrade())))
}

/// Polls a future, with the waker of a task that goes at once.
fn is_ready<F: Future + ?Sized>(future: &mut Pin<Box<F>>, waker: Waker) -> bool {
    future.as_mut().poll(&mut Context::from_waker(&waker)).is_ready()
}

mod batches;
mod handles;
mod messages;
mod orders;
mod questions;
mod wakers;
