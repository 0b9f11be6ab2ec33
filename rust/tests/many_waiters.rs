//! A hundred thousand waiting operations on one channel.

mod support;

use std::task::Poll::Ready;

use support::{Draw, Log};
use vamorilesh::{bounded, unbounded, Recv, RecvError, Send, SendError};

const WAITERS: usize = 100_000;

/// Polls the operation `name`, which has to wait.
fn wait<F: std::future::Future>(operation: F, name: usize, log: &Log) -> std::pin::Pin<Box<F>> {
    let mut operation = Box::pin(operation);
    assert!(support::poll_with(&mut operation, &log.waker(name)).is_pending());
    operation
}

#[test]
fn receives_go_on_one_by_one_in_order() {
    let ((s, r), log) = (unbounded(), Log::default());
    let mut waiting: Vec<_> = (0..WAITERS).map(|name| wait(r.recv(), name, &log)).collect();
    for (name, receive) in waiting.iter_mut().enumerate() {
        assert_eq!((s.try_send(name), log.take()), (Ok(()), vec![name]));
        assert_eq!(support::poll_with(receive, &log.waker(name)), Ready(Ok(name)));
    }
    assert!(log.take().is_empty());
}

#[test]
fn sends_go_on_one_by_one_in_order() {
    let ((s, r), log) = (bounded(1), Log::default());
    assert_eq!(s.try_send(0), Ok(()));
    let mut waiting: Vec<_> = (0..WAITERS).map(|name| wait(s.send(name), name, &log)).collect();
    for (name, send) in waiting.iter_mut().enumerate() {
        assert_eq!((r.try_recv().is_ok(), log.take()), (true, vec![name]));
        assert_eq!(support::poll_with(send, &log.waker(name)), Ready(Ok(())));
    }
    assert_eq!(r.try_recv(), Ok(WAITERS - 1));
}

#[test]
fn cancelled_in_any_order() {
    let ((s, r), log) = (bounded(1), Log::default());
    assert_eq!(s.try_send(0), Ok(()));
    let sends = (0..WAITERS).map(|name| wait(s.send(name), name, &log));
    let mut waiting: Vec<Option<_>> = sends.map(Some).collect();
    let mut draw = Draw::from_seed(1);
    for _ in 0..WAITERS {
        waiting[draw.below(WAITERS)] = None;
    }
    let left = waiting.iter().position(Option::is_some).unwrap();
    assert!(log.take().is_empty());
    assert_eq!((r.try_recv(), log.take()), (Ok(0), vec![left]));
}

#[test]
fn a_notice_is_handed_on_through_all_of_them() {
    let ((s, r), log) = (unbounded(), Log::default());
    let waiting: Vec<_> = (0..WAITERS).map(|name| wait(r.recv(), name, &log)).collect();
    assert_eq!(s.try_send(7), Ok(()));
    drop(waiting);
    assert!(log.take().into_iter().eq(0..WAITERS));
    assert_eq!(r.try_recv(), Ok(7));
}

#[test]
fn closing_wakes_all_in_order() {
    let ((s, r), log) = (bounded(1), Log::default());
    let receives: Vec<_> = (0..WAITERS).map(|name| wait(r.recv(), name, &log)).collect();
    assert!(s.close());
    assert!(log.take().into_iter().eq(0..WAITERS));
    assert!(receives.into_iter().all(|receive: std::pin::Pin<Box<Recv<'_, usize>>>| {
        futures_lite::future::block_on(receive) == Err(RecvError)
    }));
    let ((s, r), log) = (bounded(1), Log::default());
    assert_eq!(s.try_send(0), Ok(()));
    let sends: Vec<_> = (0..WAITERS).map(|name| wait(s.send(name), name, &log)).collect();
    drop(r);
    assert!(log.take().into_iter().eq(0..WAITERS));
    for (name, send) in sends.into_iter().enumerate() {
        let send: std::pin::Pin<Box<Send<'_, usize>>> = send;
        assert_eq!(futures_lite::future::block_on(send), Err(SendError(name)));
    }
}
