//! A handle that is given up before its pending operation: its count falls, the closing comes, and
//! whoever waits is told. The operation gives its place up when it is dropped.

mod support;

use std::pin::pin;
use std::sync::Arc;
use std::task::Waker;

use support::{poll_pinned, Count};
use vamorilesh::{bounded, unbounded, RecvError, TryRecvError, TrySendError};

/// A counting waker, and its count.
fn counting() -> (Waker, Arc<Count>) {
    let count = Count::new();
    (Waker::from(count.clone()), count)
}

#[test]
fn the_last_receiver_goes_before_its_receive() {
    let (s, r) = bounded::<u8>(1);
    let (closed_waker, told_closed) = counting();
    let (waker, told) = counting();
    let mut closed = pin!(s.closed());
    assert!(poll_pinned(&mut closed, &closed_waker).is_pending());
    {
        let mut receive = pin!(r.recv());
        assert!(poll_pinned(&mut receive, &waker).is_pending());
        drop(r);
        assert_eq!((s.receiver_count(), s.is_closed(), told.woken()), (0, true, 1));
        assert_eq!(s.try_send(1), Err(TrySendError::Closed(1)));
        assert_eq!(told_closed.woken(), 1);
        assert!(poll_pinned(&mut closed, &closed_waker).is_ready());
    }
    assert_eq!((s.receiver_count(), s.sender_count(), told.woken()), (0, 1, 1));
}

#[test]
fn a_told_receive_whose_receiver_is_gone_hands_its_notice_on() {
    let (s, r) = unbounded();
    let other = r.clone();
    let ((waker, told), (other_waker, told_other)) = (counting(), counting());
    let mut second;
    {
        let mut first = pin!(r.recv());
        assert!(poll_pinned(&mut first, &waker).is_pending());
        second = Box::pin(other.recv());
        assert!(poll_pinned(&mut second.as_mut(), &other_waker).is_pending());
        drop(r);
        assert_eq!((s.receiver_count(), s.is_closed()), (1, false));
        assert_eq!(s.try_send(7), Ok(()));
        assert_eq!((told.woken(), told_other.woken()), (1, 0));
    }
    assert_eq!(told_other.woken(), 1);
    assert_eq!(poll_pinned(&mut second.as_mut(), &other_waker), std::task::Poll::Ready(Ok(7)));
}

#[test]
fn an_untold_receive_whose_receiver_is_gone_is_passed_over_once_it_is_dropped() {
    let (s, r) = unbounded();
    let other = r.clone();
    let ((waker, told), (other_waker, told_other)) = (counting(), counting());
    {
        let mut first = pin!(r.recv());
        assert!(poll_pinned(&mut first, &waker).is_pending());
        drop(r);
    }
    let mut second = pin!(other.recv());
    assert!(poll_pinned(&mut second, &other_waker).is_pending());
    assert_eq!(s.try_send(7), Ok(()));
    assert_eq!((told.woken(), told_other.woken()), (0, 1));
}

#[test]
fn the_last_sender_goes_before_its_send() {
    let (s, r) = bounded(1);
    let (message, (waker, told)) = (Arc::new(2), counting());
    let (receive_waker, told_receive) = counting();
    let mut receive = pin!(r.recv());
    assert!(poll_pinned(&mut receive, &receive_waker).is_pending());
    assert_eq!(s.try_send(Arc::new(1)), Ok(()));
    {
        let mut send = pin!(s.send(message.clone()));
        assert!(poll_pinned(&mut send, &waker).is_pending());
        drop(s);
        assert_eq!((r.sender_count(), r.is_closed(), told.woken()), (0, true, 1));
        assert_eq!((told_receive.woken(), Arc::strong_count(&message)), (1, 2));
    }
    // The message that wasn't sent went with its send, and the one before it is there.
    assert_eq!(Arc::strong_count(&message), 1);
    assert_eq!(r.try_recv(), Ok(Arc::new(1)));
    assert_eq!(r.try_recv(), Err(TryRecvError::Closed));
}

#[test]
fn a_told_send_whose_sender_is_gone_hands_its_notice_on() {
    let (s, r) = bounded(1);
    let other = s.clone();
    let ((waker, told), (other_waker, told_other)) = (counting(), counting());
    assert_eq!(s.try_send(1), Ok(()));
    let mut second;
    {
        let mut first = pin!(s.send(2));
        assert!(poll_pinned(&mut first, &waker).is_pending());
        second = Box::pin(other.send(3));
        assert!(poll_pinned(&mut second.as_mut(), &other_waker).is_pending());
        drop(s);
        assert_eq!((r.try_recv(), told.woken(), told_other.woken()), (Ok(1), 1, 0));
    }
    assert_eq!((r.sender_count(), told_other.woken()), (1, 1));
    assert!(poll_pinned(&mut second.as_mut(), &other_waker).is_ready());
    assert_eq!(r.try_recv(), Ok(3));
}

#[test]
fn the_last_sender_goes_before_its_closed_operation() {
    let (s, r) = unbounded::<u8>();
    let ((waker, told), (receive_waker, told_receive)) = (counting(), counting());
    {
        let mut closed = pin!(s.closed());
        assert!(poll_pinned(&mut closed, &waker).is_pending());
        {
            let mut receive = pin!(r.recv());
            assert!(poll_pinned(&mut receive, &receive_waker).is_pending());
            drop(s);
            assert_eq!((r.sender_count(), r.is_closed(), told_receive.woken()), (0, true, 1));
            let answer = poll_pinned(&mut receive, &receive_waker);
            assert_eq!(answer, std::task::Poll::Ready(Err(RecvError)));
        }
        assert_eq!(told.woken(), 0);
        drop(r);
        assert_eq!(told.woken(), 1);
    }
    assert_eq!(told.woken(), 1);
}

#[test]
fn a_closed_operation_whose_sender_is_gone_leaves_its_waker_with_nobody() {
    let (s, r) = unbounded::<u8>();
    let (waker, told) = counting();
    {
        let mut closed = pin!(s.closed());
        assert!(poll_pinned(&mut closed, &waker).is_pending());
        drop(s);
    }
    // Those of the test are left: the receiver has none.
    assert_eq!(Arc::strong_count(&told), 2);
    drop(r);
    assert_eq!(told.woken(), 0);
}

#[test]
fn messages_go_with_the_last_handle_whatever_operation_is_pending() {
    let (message, (waker, told)) = (Arc::new(0), counting());
    let (s, r) = bounded(2);
    let mut receive = pin!(r.recv());
    assert!(poll_pinned(&mut receive, &waker).is_pending());
    let mut closed = pin!(s.closed());
    assert!(poll_pinned(&mut closed, &waker).is_pending());
    for _ in 0..2 {
        assert_eq!(s.try_send(message.clone()), Ok(()));
    }
    let mut send = pin!(s.send(message.clone()));
    assert!(poll_pinned(&mut send, &waker).is_pending());
    drop(r);
    assert_eq!((Arc::strong_count(&message), told.woken()), (4, 3));
    drop(s);
    // The send has its message still.
    assert_eq!((Arc::strong_count(&message), told.woken()), (2, 3));
}

#[test]
fn messages_of_a_channel_with_a_weak_handle_stay() {
    let (message, (waker, _told)) = (Arc::new(0), counting());
    let (s, r) = unbounded();
    let mut receive = pin!(r.recv());
    assert!(poll_pinned(&mut receive, &waker).is_pending());
    assert_eq!(s.try_send(message.clone()), Ok(()));
    let weak = s.downgrade();
    drop((s, r));
    assert_eq!(Arc::strong_count(&message), 2);
    drop(weak);
    assert_eq!(Arc::strong_count(&message), 1);
}

#[test]
fn a_reply_that_cannot_come_is_not_waited_for() {
    let (waker, _told) = counting();
    let (requests, server) = unbounded();
    let (reply, answer) = bounded::<u8>(1);
    let mut receive = pin!(server.recv());
    assert!(poll_pinned(&mut receive, &waker).is_pending());
    assert!(requests.try_send(reply).is_ok());
    drop((requests, server));
    assert_eq!(answer.try_recv(), Err(TryRecvError::Closed));
}

#[test]
fn a_forgotten_operation_keeps_no_message() {
    let (message, (waker, _told)) = (Arc::new(0), counting());
    let (s, r) = unbounded();
    let mut receive = Box::pin(r.recv());
    assert!(poll_pinned(&mut receive.as_mut(), &waker).is_pending());
    assert_eq!(s.try_send(message.clone()), Ok(()));
    std::mem::forget(receive);
    drop((s, r));
    assert_eq!(Arc::strong_count(&message), 1);
}
