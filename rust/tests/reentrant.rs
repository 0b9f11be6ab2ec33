//! Wakers and messages are the caller's: whatever they run when they are woken or dropped, a call
//! of the same channel among it, they never meet its lock, and a panic in them harms no handle.

mod support;

use std::panic::{catch_unwind, AssertUnwindSafe};
use std::sync::atomic::{AtomicUsize, Ordering};
use std::sync::Arc;
use std::task::{Poll, Wake, Waker};

use vamorilesh::{bounded, unbounded, Receiver, Sender};

/// A waker that calls the channel when it is woken and when it is dropped.
struct Caller {
    sender: Sender<usize>,
    receiver: Receiver<usize>,
    calls: Arc<AtomicUsize>,
}

impl Caller {
    fn waker(sender: &Sender<usize>, receiver: &Receiver<usize>) -> (Waker, Arc<AtomicUsize>) {
        let (sender, receiver) = (sender.clone(), receiver.clone());
        let calls = Arc::new(AtomicUsize::new(0));
        let caller = Caller { sender, receiver, calls: calls.clone() };
        (Waker::from(Arc::new(caller)), calls)
    }

    fn call(&self) {
        let _ = (self.sender.try_send(9), self.receiver.len());
        let _ = self.sender.downgrade().upgrade();
        self.calls.fetch_add(1, Ordering::SeqCst);
    }
}

impl Wake for Caller {
    fn wake(self: Arc<Self>) {
        self.call();
    }
}

impl Drop for Caller {
    fn drop(&mut self) {
        self.call();
    }
}

#[test]
fn a_waker_may_call_the_channel_when_it_is_woken() {
    let (s, r) = unbounded();
    let (waker, calls) = Caller::waker(&s, &r);
    let mut receive = Box::pin(r.recv());
    assert!(support::poll_with(&mut receive, &waker).is_pending());
    drop(waker);
    assert_eq!((s.try_send(1), calls.load(Ordering::SeqCst)), (Ok(()), 2));
    assert_eq!([r.try_recv(), r.try_recv(), r.try_recv()], [Ok(1), Ok(9), Ok(9)]);
}

#[test]
fn a_waker_may_call_the_channel_when_it_is_dropped() {
    let (s, r) = bounded(1);
    let (waker, calls) = Caller::waker(&s, &r);
    let mut receive = Box::pin(r.recv());
    assert!(support::poll_with(&mut receive, &waker).is_pending());
    drop(waker);
    let other = support::Log::default().waker(0);
    assert!(support::poll_with(&mut receive, &other).is_pending());
    assert_eq!((calls.load(Ordering::SeqCst), r.try_recv()), (1, Ok(9)));
    let (waker, calls) = Caller::waker(&s, &r);
    assert!(support::poll_with(&mut receive, &waker).is_pending());
    drop(waker);
    drop(receive);
    assert_eq!((calls.load(Ordering::SeqCst), r.try_recv()), (1, Ok(9)));
}

#[test]
fn a_stream_may_be_cancelled_with_a_waker_that_calls() {
    let (s, r) = unbounded();
    let (waker, calls) = Caller::waker(&s, &r);
    let mut stream = Box::pin(futures_lite::StreamExt::count(Box::pin(r.clone())));
    assert!(support::poll_with(&mut stream, &waker).is_pending());
    drop(waker);
    drop(stream);
    assert_eq!((calls.load(Ordering::SeqCst), r.try_recv()), (1, Ok(9)));
}

/// A waker that panics when it is woken.
struct Fails;

impl Wake for Fails {
    fn wake(self: Arc<Self>) {
        panic!("woken");
    }
}

#[test]
fn a_waker_that_panics_harms_no_handle() {
    let (s, r) = unbounded();
    let mut receive = Box::pin(r.recv());
    let waker = Waker::from(Arc::new(Fails));
    assert!(support::poll_with(&mut receive, &waker).is_pending());
    assert!(catch_unwind(AssertUnwindSafe(|| s.try_send(1))).is_err());
    assert_eq!((s.len(), s.try_send(2)), (1, Ok(())));
    assert_eq!(support::poll_with(&mut receive, &waker), Poll::Ready(Ok(1)));
    assert_eq!((r.try_recv(), s.close()), (Ok(2), true));
}

/// A message that panics when it is dropped.
struct Breaks;

impl Drop for Breaks {
    fn drop(&mut self) {
        panic!("dropped");
    }
}

#[test]
fn a_message_that_panics_harms_no_handle() {
    let (s, r) = bounded(1);
    assert!(s.try_send(Breaks).is_ok());
    assert!(catch_unwind(AssertUnwindSafe(|| drop(r.try_recv()))).is_err());
    assert!(s.try_send(Breaks).is_ok());
    assert!(catch_unwind(AssertUnwindSafe(|| drop(s.force_send(Breaks)))).is_err());
    let mut send = Box::pin(s.send(Breaks));
    let waker = support::Log::default().waker(0);
    assert!(support::poll_with(&mut send, &waker).is_pending());
    assert!(catch_unwind(AssertUnwindSafe(|| drop(send))).is_err());
    assert_eq!((s.len(), r.is_closed(), r.close()), (1, false, true));
    std::mem::forget(r.try_recv());
}

/// A message that calls its own channel when it is dropped.
struct Calls(Sender<Calls>);

impl Drop for Calls {
    fn drop(&mut self) {
        let _ = (self.0.len(), self.0.is_closed());
    }
}

#[test]
fn a_message_may_call_its_channel_when_it_is_dropped() {
    let (s, r) = bounded(1);
    assert!(s.try_send(Calls(s.clone())).is_ok());
    drop(s.force_send(Calls(s.clone())));
    drop(s.send(Calls(s.clone())));
    drop(s.try_send(Calls(s.clone())));
    drop(r.try_recv());
    assert_eq!((s.len(), s.sender_count()), (0, 1));
}
