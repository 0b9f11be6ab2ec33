//! Each call on a handle and its answers, in one thread.

mod support;

use std::cell::Cell;
use std::panic::{catch_unwind, AssertUnwindSafe};
use std::rc::Rc;
use std::task::Poll;

use futures_core::stream::{FusedStream, Stream};
use futures_lite::future::block_on;
use futures_lite::StreamExt;
use vamorilesh::{bounded, unbounded, RecvError, SendError, TryRecvError, TrySendError};

/// Neither text, nor a copy, nor equality.
struct Plain(u8);

#[test]
fn a_new_channel_is_open_and_empty() {
    let (s, r) = bounded::<u8>(2);
    assert_eq!((s.capacity(), r.capacity()), (Some(2), Some(2)));
    assert_eq!((s.len(), r.len()), (0, 0));
    assert!(s.is_empty() && r.is_empty());
    assert!(!s.is_full() && !r.is_full());
    assert!(!s.is_closed() && !r.is_closed() && !r.is_terminated());
    assert_eq!((s.sender_count(), s.receiver_count()), (1, 1));
    assert_eq!((r.sender_count(), r.receiver_count()), (1, 1));
}

#[test]
fn an_unbounded_channel_is_never_full() {
    let (s, r) = unbounded();
    for message in 0..1_000 {
        assert_eq!(s.try_send(message), Ok(()));
    }
    assert_eq!((s.capacity(), r.capacity()), (None, None));
    assert_eq!((s.len(), r.is_full(), s.is_full()), (1_000, false, false));
}

#[test]
fn every_handle_answers_the_questions_alike() {
    for capacity in [None, Some(1), Some(3)] {
        for (held, closed) in (0..=capacity.unwrap_or(3)).flat_map(|n| [(n, false), (n, true)]) {
            let (s, r) = capacity.map_or_else(unbounded, bounded);
            let (other, upgraded) = (s.clone(), s.downgrade().upgrade().unwrap());
            let (other_r, upgraded_r) = (r.clone(), r.downgrade().upgrade().unwrap());
            (0..held).for_each(|message| s.try_send(message).unwrap());
            assert_eq!(closed, closed && r.close());
            let right = (held, held == 0, capacity == Some(held), closed, capacity);
            for s in [&s, &other, &upgraded] {
                let told = (s.len(), s.is_empty(), s.is_full(), s.is_closed(), s.capacity());
                assert_eq!(told, right);
                assert_eq!((s.sender_count(), s.receiver_count()), (3, 3));
            }
            for r in [&r, &other_r, &upgraded_r] {
                let told = (r.len(), r.is_empty(), r.is_full(), r.is_closed(), r.capacity());
                assert_eq!(told, right);
                assert_eq!((r.sender_count(), r.receiver_count()), (3, 3));
                assert_eq!(r.is_terminated(), closed && held == 0);
            }
        }
    }
}

#[test]
#[should_panic(expected = "capacity cannot be zero")]
fn a_channel_without_room_panics() {
    bounded::<u8>(0);
}

#[test]
fn a_channel_with_more_room_than_there_is_memory_panics() {
    // As in async-channel, where a place takes eight bytes more than its message.
    let most = isize::MAX as usize;
    let text = |panic: std::thread::Result<()>| *panic.unwrap_err().downcast::<&str>().unwrap();
    assert_eq!(text(catch_unwind(|| drop(bounded::<u64>(most / 16 + 1)))), "capacity overflow");
    assert_eq!(text(catch_unwind(|| drop(bounded::<u8>(most / 16 + 1)))), "capacity overflow");
    assert_eq!(text(catch_unwind(|| drop(bounded::<()>(usize::MAX)))), "capacity overflow");
    let (s, r) = bounded(most / 8);
    assert_eq!((s.try_send(()), s.capacity(), r.is_full()), (Ok(()), Some(most / 8), false));
}

#[test]
fn try_send_fills_and_hands_back() {
    let (s, r) = bounded(1);
    assert_eq!(s.try_send(1), Ok(()));
    assert!(s.is_full() && r.is_full());
    assert_eq!(s.try_send(2), Err(TrySendError::Full(2)));
    drop(r);
    assert_eq!(s.try_send(3), Err(TrySendError::Closed(3)));
}

#[test]
fn force_send_displaces_the_oldest() {
    let (s, r) = bounded(3);
    assert_eq!(s.try_send(1), Ok(()));
    assert_eq!(s.try_send(2), Ok(()));
    assert_eq!(s.force_send(3), Ok(None));
    assert_eq!(s.force_send(4), Ok(Some(1)));
    assert_eq!([r.try_recv(), r.try_recv(), r.try_recv()], [Ok(2), Ok(3), Ok(4)]);
    drop(r);
    assert_eq!(s.force_send(5), Err(SendError(5)));
}

#[test]
fn an_unbounded_force_send_displaces_nothing() {
    let (s, r) = unbounded();
    assert_eq!([s.force_send(1), s.force_send(2)], [Ok(None), Ok(None)]);
    assert_eq!([r.try_recv(), r.try_recv()], [Ok(1), Ok(2)]);
}

#[test]
fn try_recv_tells_empty_from_closed() {
    let (s, r) = unbounded();
    assert_eq!(r.try_recv(), Err(TryRecvError::Empty));
    assert_eq!(s.try_send(7), Ok(()));
    drop(s);
    assert_eq!(r.try_recv(), Ok(7));
    assert_eq!(r.try_recv(), Err(TryRecvError::Closed));
}

#[test]
fn a_channel_is_closed_once_and_keeps_its_messages() {
    let (s, r) = bounded(2);
    assert_eq!(s.try_send(1), Ok(()));
    assert_eq!([r.close(), s.close(), r.close()], [true, false, false]);
    assert!(s.is_closed() && r.is_closed() && !r.is_terminated());
    assert_eq!(s.try_send(2), Err(TrySendError::Closed(2)));
    assert_eq!((r.try_recv(), r.is_terminated()), (Ok(1), true));
}

#[test]
fn closed_comes_before_full() {
    let (s, r) = bounded(1);
    assert_eq!(s.try_send(1), Ok(()));
    assert!(s.close());
    assert_eq!(s.try_send(2), Err(TrySendError::Closed(2)));
    assert_eq!(s.force_send(3), Err(SendError(3)));
    assert_eq!([r.try_recv(), r.try_recv()], [Ok(1), Err(TryRecvError::Closed)]);
}

#[test]
fn the_last_handle_of_a_side_closes() {
    let (s, r) = unbounded::<u8>();
    let second = s.clone();
    drop(s);
    assert!(!r.is_closed());
    drop(second);
    assert!(r.is_closed());
    let (s, r) = unbounded::<u8>();
    let second = r.clone();
    drop(r);
    assert!(!s.is_closed());
    drop(second);
    assert!(s.is_closed());
}

#[test]
fn counts_are_of_live_handles() {
    let (s, r) = bounded::<u8>(5);
    let senders: Vec<_> = (0..3).map(|_| s.clone()).collect();
    let receivers: Vec<_> = (0..2).map(|_| r.clone()).collect();
    assert_eq!((s.sender_count(), r.sender_count()), (4, 4));
    assert_eq!((s.receiver_count(), r.receiver_count()), (3, 3));
    drop(senders);
    drop(r);
    assert_eq!((s.sender_count(), receivers[0].receiver_count()), (1, 2));
    drop(receivers);
    assert_eq!((s.sender_count(), s.receiver_count()), (1, 0));
}

#[test]
fn weak_handles_neither_count_nor_keep_open() {
    let (s, r) = unbounded::<u8>();
    let (ws, wr) = (s.downgrade(), r.downgrade());
    let again = (ws.clone(), wr.clone());
    assert_eq!((s.sender_count(), s.receiver_count()), (1, 1));
    drop(s);
    assert!(r.is_closed());
    assert!(ws.upgrade().is_none() && wr.upgrade().is_none());
    assert!(again.0.upgrade().is_none() && again.1.upgrade().is_none());
}

#[test]
fn upgrades_are_handles_of_the_same_channel() {
    let (s, r) = bounded(1);
    let (ws, wr) = (s.downgrade(), r.downgrade());
    let (second, other) = (ws.upgrade().unwrap(), wr.upgrade().unwrap());
    assert!(second.same_channel(&s) && other.same_channel(&r));
    assert_eq!((s.sender_count(), s.receiver_count()), (2, 2));
    assert_eq!((second.try_send(1), other.try_recv()), (Ok(()), Ok(1)));
    drop((s, r));
    assert!(!second.is_closed() && !other.is_closed());
}

#[test]
fn an_upgrade_fails_on_a_closed_channel_with_live_handles() {
    let (s, r) = bounded::<u8>(1);
    let (ws, wr) = (s.downgrade(), r.downgrade());
    assert!(r.close());
    assert!(ws.upgrade().is_none() && wr.upgrade().is_none());
    assert_eq!((s.sender_count(), r.receiver_count()), (1, 1));
}

#[test]
fn same_channel_tells_channels_apart() {
    let ((s, r), (other_s, other_r)) = (unbounded::<u8>(), unbounded::<u8>());
    assert!(s.same_channel(&s.clone()) && r.same_channel(&r.clone()));
    assert!(!s.same_channel(&other_s) && !r.same_channel(&other_r));
}

#[test]
fn blocking_calls_that_can_go_on_answer_at_once() {
    let (s, r) = bounded(1);
    assert_eq!(s.send_blocking(1), Ok(()));
    assert_eq!(r.recv_blocking(), Ok(1));
    assert_eq!(s.send_blocking(2), Ok(()));
    s.close();
    assert_eq!(s.send_blocking(3), Err(SendError(3)));
    assert_eq!([r.recv_blocking(), r.recv_blocking()], [Ok(2), Err(RecvError)]);
}

#[test]
fn futures_that_can_go_on_answer_at_once() {
    let (s, r) = bounded(2);
    let mut r = Box::pin(r);
    block_on(async {
        assert_eq!(s.send(1).await, Ok(()));
        assert_eq!(s.send(2).await, Ok(()));
        assert_eq!(r.recv().await, Ok(1));
        assert_eq!(r.next().await, Some(2));
        s.close();
        assert_eq!(s.send(3).await, Err(SendError(3)));
        assert_eq!(r.recv().await, Err(RecvError));
        assert_eq!(r.next().await, None);
        drop(r);
        s.closed().await;
    });
}

#[test]
fn what_is_left_comes_out_of_a_stream() {
    let (s, r) = unbounded();
    for message in 0..5 {
        assert_eq!(s.try_send(message), Ok(()));
    }
    drop(s);
    assert_eq!(block_on(r.collect::<Vec<_>>()), [0, 1, 2, 3, 4]);
}

#[test]
fn messages_go_to_one_receiver_each() {
    let (s, r) = unbounded();
    let second = r.clone();
    for message in 0..4 {
        assert_eq!(s.try_send(message), Ok(()));
    }
    let taken = [r.try_recv(), second.try_recv(), second.try_recv(), r.try_recv()];
    assert_eq!(taken, [Ok(0), Ok(1), Ok(2), Ok(3)]);
}

#[test]
fn messages_without_size() {
    let (s, r) = bounded(2);
    assert_eq!([s.try_send(()), s.try_send(())], [Ok(()), Ok(())]);
    assert_eq!((s.len(), s.is_empty(), s.is_full()), (2, false, true));
    assert_eq!(s.try_send(()), Err(TrySendError::Full(())));
    assert_eq!(r.try_recv(), Ok(()));
    assert_eq!((s.len(), s.is_empty(), s.is_full()), (1, false, false));
}

#[test]
fn messages_of_any_type() {
    let (s, r) = bounded(1);
    s.try_send(Plain(1)).unwrap();
    assert_eq!(s.try_send(Plain(2)).unwrap_err().into_inner().0, 2);
    assert_eq!(r.try_recv().unwrap().0, 1);
    let (s, r) = unbounded();
    s.try_send(Rc::new(Cell::new(1))).unwrap();
    assert_eq!(r.try_recv().unwrap().get(), 1);
}

#[test]
fn messages_left_go_with_the_last_handle() {
    let kept = Rc::new(());
    let (s, r) = bounded(3);
    for _ in 0..3 {
        s.try_send(kept.clone()).unwrap();
    }
    drop(r.try_recv());
    assert_eq!(Rc::strong_count(&kept), 3);
    drop(r);
    drop(s);
    assert_eq!(Rc::strong_count(&kept), 1);
}

#[test]
fn an_unfinished_send_drops_its_message() {
    let kept = Rc::new(());
    let (s, _r) = bounded(1);
    s.try_send(kept.clone()).unwrap();
    let mut send = support::Task::new(s.send(kept.clone()));
    assert!(send.poll().is_pending());
    assert_eq!(Rc::strong_count(&kept), 3);
    drop(send);
    assert_eq!(Rc::strong_count(&kept), 2);
}

#[test]
fn nothing_happens_before_the_first_poll() {
    let (s, r) = bounded(1);
    let (send, recv, closed) = (s.send(1), r.recv(), s.closed());
    assert_eq!((s.len(), r.is_closed()), (0, false));
    drop((recv, closed));
    assert_eq!((block_on(send), r.len()), (Ok(()), 1));
}

#[test]
fn a_send_that_has_finished_is_not_polled_again() {
    let (s, r) = bounded(1);
    for answer in [Ok(()), Err(SendError(1))] {
        let mut send = support::Task::new(s.send(1));
        assert_eq!(send.poll(), Poll::Ready(answer));
        let panic = catch_unwind(AssertUnwindSafe(|| send.poll().is_ready())).unwrap_err();
        let text = "called `Option::unwrap()` on a `None` value";
        assert_eq!(panic.downcast_ref::<&str>(), Some(&text));
        assert_eq!((r.len(), r.close()), (1, answer.is_ok()));
    }
}

#[test]
fn a_receive_that_has_finished_may_begin_anew() {
    let (s, r) = unbounded();
    let mut receive = support::Task::new(r.recv());
    for message in 0..3 {
        assert!(receive.poll().is_pending());
        assert_eq!((s.try_send(message), receive.woken()), (Ok(()), 1 + message));
        assert_eq!(receive.poll(), Poll::Ready(Ok(message)));
    }
    drop(s);
    assert_eq!([receive.poll(), receive.poll()], [Poll::Ready(Err(RecvError)); 2]);
}

#[test]
fn a_stream_promises_no_message() {
    let (s, r) = unbounded();
    for message in 0..3 {
        assert_eq!((r.size_hint(), s.try_send(message)), ((0, None), Ok(())));
    }
    assert_eq!((s.close(), r.size_hint()), (true, (0, None)));
}

#[test]
fn a_leaked_future_keeps_the_channel() {
    let (s, r) = bounded(1);
    assert_eq!(s.try_send(1), Ok(()));
    let mut send = support::Task::new(s.send(2));
    assert!(send.poll().is_pending());
    std::mem::forget(send);
    assert_eq!([r.try_recv(), r.try_recv()], [Ok(1), Err(TryRecvError::Empty)]);
    assert_eq!((s.try_send(3), r.try_recv()), (Ok(()), Ok(3)));
}
