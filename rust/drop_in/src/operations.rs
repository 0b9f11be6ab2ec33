//! Operations that may wait: futures, streams and blocking calls.

use std::future::Future;
use std::pin::Pin;
use std::sync::atomic::{AtomicUsize, Ordering};
use std::sync::Arc;
use std::task::{Context, Poll, Wake, Waker};
use std::thread;

use async_channel::{bounded, unbounded, Closed, Receiver, Recv, RecvError, Send, Sender};
use futures_core::stream::{FusedStream, Stream};
use futures_lite::future::block_on;

#[derive(Default)]
struct Count(AtomicUsize);

impl Wake for Count {
    fn wake(self: Arc<Self>) {
        self.0.fetch_add(1, Ordering::SeqCst);
    }
}

/// A future, polled by hand, and how often it was woken.
struct Task<F> {
    future: Pin<Box<F>>,
    count: Arc<Count>,
}

impl<F: Future> Task<F> {
    fn new(future: F) -> Task<F> {
        Task { future: Box::pin(future), count: Arc::default() }
    }

    fn poll(&mut self) -> Poll<F::Output> {
        let waker = Waker::from(self.count.clone());
        self.future.as_mut().poll(&mut Context::from_waker(&waker))
    }

    fn woken(&self) -> usize {
        self.count.0.load(Ordering::SeqCst)
    }
}

/// One poll of a stream.
fn next<T>(stream: &mut Pin<Box<Receiver<T>>>, count: &Arc<Count>) -> Poll<Option<T>> {
    let waker = Waker::from(count.clone());
    stream.as_mut().poll_next(&mut Context::from_waker(&waker))
}

pub fn futures() {
    let (s, r) = bounded(1);
    let send: Send<'_, u8> = s.send(1);
    let mut second = Task::new(s.send(2));
    println!("send: {:?} {:?} {}", block_on(send), second.poll(), second.woken());
    println!("recv: {:?} {} {:?}", block_on(r.recv()), second.woken(), second.poll());
    let recv: Recv<'_, u8> = r.recv();
    println!("recv: {:?}", block_on(recv));
    let (mut first, mut other) = (Task::new(r.recv()), Task::new(r.recv()));
    println!("recv: {:?} {:?}", first.poll(), other.poll());
    println!("try_send: {:?} {} {}", s.try_send(3), first.woken(), other.woken());
    println!("recv: {:?} {:?}", first.poll(), other.poll());
    println!("close: {} {}", s.close(), other.woken());
    println!("recv: {:?} {:?}", other.poll(), block_on(r.recv()));
    println!("send: {:?} {:?}", block_on(s.send(4)), r.is_terminated());
    let (s, r) = bounded::<u8>(1);
    let closed: Closed<'_, u8> = s.closed();
    let mut closed = Task::new(closed);
    println!("closed: {:?} {}", closed.poll(), closed.woken());
    drop(r);
    println!("closed: {:?} {}", closed.poll(), closed.woken());
}

pub fn streams() {
    let (s, r) = unbounded();
    let (mut r, count) = (Box::pin(r), Arc::new(Count::default()));
    println!("next: {:?} {}", next(&mut r, &count), r.is_terminated());
    println!("try_send: {:?} {:?}", s.try_send("a"), s.try_send("b"));
    println!("woken: {}", count.0.load(Ordering::SeqCst));
    println!("next: {:?}", next(&mut r, &count));
    println!("close: {} {}", r.close(), r.is_terminated());
    println!("next: {:?} {}", next(&mut r, &count), r.is_terminated());
    println!("next: {:?} {:?}", next(&mut r, &count), r.size_hint());
}

pub fn blocking() {
    let (s, r) = bounded(1);
    let received = thread::spawn(move || {
        let taken: Vec<u8> = std::iter::from_fn(|| r.recv_blocking().ok()).collect();
        (taken, r.recv_blocking())
    });
    let sent: Vec<_> = (0..5).map(|message| s.send_blocking(message)).collect();
    drop(s);
    println!("blocking: {sent:?} {:?}", received.join().unwrap());
    let (s, r): (Sender<u8>, Receiver<u8>) = bounded(1);
    drop(r);
    println!("send_blocking: {:?}", s.send_blocking(9).map_err(|error| error.0));
    let (s, r): (Sender<u8>, Receiver<u8>) = unbounded();
    drop(s);
    println!("recv_blocking: {}", r.recv_blocking() == Err(RecvError));
}

pub fn cancelled() {
    let (s, r) = bounded(1);
    println!("try_send: {:?}", s.try_send(1));
    let (mut first, mut second) = (Task::new(s.send(2)), Task::new(s.send(3)));
    println!("send: {:?} {:?}", first.poll(), second.poll());
    println!("try_recv: {:?} {} {}", r.try_recv(), first.woken(), second.woken());
    drop(first);
    println!("cancelled: {} {:?} {:?}", second.woken(), second.poll(), r.try_recv());
    let (mut first, mut second) = (Task::new(r.recv()), Task::new(r.recv()));
    println!("recv: {:?} {:?}", first.poll(), second.poll());
    println!("try_send: {:?} {} {}", s.try_send(4), first.woken(), second.woken());
    drop(first);
    println!("cancelled: {} {:?}", second.woken(), second.poll());
}

pub fn texts() {
    let (s, r) = bounded::<u8>(1);
    println!("{s:?} {r:?} {:?} {:?}", s.downgrade(), r.downgrade());
    println!("{s:#?} {r:#?} {:#?} {:#?}", s.downgrade(), r.downgrade());
    let operations = (s.send(1), r.recv(), s.closed());
    let written = format!("{operations:?}");
    println!("{}", ["Send", "Recv", "Closed"].iter().all(|name| written.contains(name)));
}

/// If the rules differ from the original: `closed` waits for the last receiver's end, as its
/// documentation says, and a told stream that goes hands nothing on.
pub fn by_rule() {
    let (s, r) = bounded::<u8>(1);
    let mut closed = Task::new(s.closed());
    println!("by rule: {:?} {} {}", closed.poll(), r.close(), closed.woken());
    println!("by rule: {:?}", closed.poll());
    drop(r);
    println!("by rule: {:?} {}", Task::new(s.closed()).poll(), closed.woken());
    let (s, r) = unbounded();
    let (mut told, mut waits) = (Box::pin(r.clone()), Box::pin(r.clone()));
    let (first, second) = (Arc::new(Count::default()), Arc::new(Count::default()));
    println!("by rule: {:?} {:?}", next(&mut told, &first), next(&mut waits, &second));
    println!("by rule: {:?} {:?}", s.try_send(1), r.try_recv());
    println!("by rule: {:?}", next(&mut waits, &second));
    drop(told);
    println!("by rule: {}", second.0.load(Ordering::SeqCst));
}
