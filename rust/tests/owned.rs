//! Operations that have their handle: they go where they like, and the handle goes with them.

mod support;

use std::future::Future;
use std::thread;

use futures_lite::future::block_on;
use support::Task;
use vamorilesh::{bounded, unbounded, RecvError, SendError};

fn elsewhere<F>(operation: F) -> F::Output
where
    F: Future + Send + 'static,
    F::Output: Send,
{
    thread::spawn(|| block_on(operation)).join().unwrap()
}

#[test]
fn they_answer_as_those_that_borrow_theirs() {
    let (s, r) = bounded(1);
    assert_eq!(elsewhere(s.clone().into_send(1)), Ok(()));
    assert_eq!(elsewhere(r.clone().into_recv()), Ok(1));
    let closed = s.clone().into_closed();
    drop(r);
    elsewhere(closed);
    assert_eq!(elsewhere(s.into_send(2)), Err(SendError(2)));
}

#[test]
fn their_handle_keeps_the_channel_open_until_they_go() {
    let (s, r) = unbounded();
    let send = s.into_send(1);
    assert_eq!((r.sender_count(), r.is_closed()), (1, false));
    drop(send);
    assert!(r.is_closed());

    let (s, r) = unbounded::<u64>();
    let mut receive = Task::new(r.into_recv());
    assert!(receive.poll().is_pending());
    assert_eq!((s.receiver_count(), s.is_closed()), (1, false));
    assert_eq!(s.try_send(1), Ok(()));
    assert_eq!(receive.poll(), std::task::Poll::Ready(Ok(1)));
    assert!(!s.is_closed());
    drop(receive);
    assert!(s.is_closed());
}

#[test]
fn their_wait_is_given_up_before_their_handle() {
    let (s, r) = unbounded::<u64>();
    let mut receive = Task::new(r.into_recv());
    assert!(receive.poll().is_pending());
    let count = receive.count();
    // The end of the last receiver wakes all that wait: it doesn't any more.
    drop(receive);
    assert_eq!(count.woken(), 0);
    assert!(s.is_closed());
}

#[test]
fn a_send_that_is_given_up_hands_its_message_back() {
    let (s, r) = bounded(1);
    let mut send = s.send(1);
    assert_eq!(block_on(&mut send), Ok(()));
    assert_eq!(send.into_msg(), None);
    assert_eq!(s.send(2).into_msg(), Some(2));

    // Its notice goes to the next.
    let mut waiting = s.send(3);
    assert!(block_on(futures_lite::future::poll_once(&mut waiting)).is_none());
    let mut next = Task::new(s.send(4));
    assert!(next.poll().is_pending());
    assert_eq!(r.try_recv(), Ok(1));
    assert_eq!((waiting.into_msg(), next.woken()), (Some(3), 1));
    assert!(next.poll().is_ready());
}

#[test]
fn iterators_block_until_the_end() {
    let (s, r) = bounded(1);
    let sending = thread::spawn(move || {
        for message in 0..10 {
            s.send_blocking(message).unwrap();
        }
    });
    assert!(r.iter().take(3).eq(0..3));
    assert!((&r).into_iter().take(3).eq(3..6));
    let mut rest = r.clone().into_iter();
    assert!(rest.by_ref().eq(6..10));
    assert_eq!((rest.next(), r.recv_blocking()), (None, Err(RecvError)));
    sending.join().unwrap();
}
