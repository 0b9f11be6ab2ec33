//! Worked rows: who is woken by what, and which operation goes on, as far as handles show it.

mod support;

use std::task::Poll::{Pending, Ready};

use futures_core::stream::FusedStream;
use futures_lite::StreamExt;
use support::Task;
use vamorilesh::{bounded, unbounded, RecvError, SendError, TryRecvError};

#[test]
fn an_untold_one_steals() {
    let (s, r) = bounded(1);
    let (mut first, mut second) = (Task::new(r.recv()), Task::new(r.recv()));
    assert!(first.poll().is_pending() && second.poll().is_pending());
    assert_eq!(s.try_send(1), Ok(()));
    assert_eq!((first.woken(), second.woken()), (1, 0));
    assert_eq!(second.poll(), Ready(Ok(1)));
    assert_eq!((first.poll(), first.woken()), (Pending, 1));
}

#[test]
fn a_notice_handed_on() {
    let (s, r) = bounded(1);
    assert_eq!(s.try_send(1), Ok(()));
    let (mut first, mut second) = (Task::new(s.send(2)), Task::new(s.send(3)));
    assert!(first.poll().is_pending() && second.poll().is_pending());
    assert_eq!(r.try_recv(), Ok(1));
    assert_eq!((first.woken(), second.woken()), (1, 0));
    drop(first);
    assert_eq!(second.woken(), 1);
    assert_eq!(second.poll(), Ready(Ok(())));
    assert_eq!(r.try_recv(), Ok(3));
}

#[test]
fn a_forced_send_tells_no_send() {
    let (s, r) = bounded(1);
    assert_eq!(s.try_send(1), Ok(()));
    let mut send = Task::new(s.send(2));
    assert!(send.poll().is_pending());
    assert_eq!((s.force_send(3), send.woken()), (Ok(Some(1)), 0));
    assert!(send.poll().is_pending());
    assert_eq!((r.try_recv(), send.woken()), (Ok(3), 1));
    assert_eq!(send.poll(), Ready(Ok(())));
    assert_eq!(r.try_recv(), Ok(2));
}

#[test]
fn a_told_poll_in_vain_loses_its_place() {
    let (s, r) = unbounded();
    let (mut first, mut second) = (Task::new(r.recv()), Task::new(r.recv()));
    assert!(first.poll().is_pending() && second.poll().is_pending());
    assert_eq!((s.try_send(1), r.try_recv()), (Ok(()), Ok(1)));
    assert_eq!((first.woken(), first.poll()), (1, Pending));
    assert_eq!(s.try_send(2), Ok(()));
    assert_eq!((first.woken(), second.woken()), (1, 1));
    assert_eq!(second.poll(), Ready(Ok(2)));
}

#[test]
fn a_stream_told_in_vain() {
    let (s, r) = unbounded();
    let mut receives: Vec<_> = (0..3).map(|_| Task::new(r.recv())).collect();
    assert!(receives.iter_mut().all(|receive| receive.poll().is_pending()));
    let mut other = Box::pin(r.clone());
    let mut stream = Task::new(other.next());
    assert!(stream.poll().is_pending());
    assert_eq!(s.try_send(1), Ok(()));
    let woken: Vec<_> = receives.iter().map(Task::woken).collect();
    assert_eq!((woken, stream.woken()), (vec![1, 0, 0], 1));
    assert_eq!(receives[0].poll(), Ready(Ok(1)));
    assert_eq!((stream.poll(), s.is_empty()), (Pending, true));
    assert_eq!((receives[1].woken(), stream.woken()), (0, 1));
}

#[test]
fn closing_with_every_side() {
    let (s, r) = bounded(1);
    assert_eq!(s.try_send(1), Ok(()));
    let (mut send, mut closed) = (Task::new(s.send(2)), Task::new(s.closed()));
    assert!(send.poll().is_pending() && closed.poll().is_pending());
    assert!(r.close());
    assert_eq!((send.woken(), closed.woken()), (1, 0));
    assert_eq!(send.poll(), Ready(Err(SendError(2))));
    assert_eq!((r.try_recv(), r.is_terminated()), (Ok(1), true));
    assert!(closed.poll().is_pending());
    drop(r);
    assert_eq!((closed.woken(), closed.poll()), (1, Ready(())));
}

#[test]
fn upgrades() {
    let (s, r) = unbounded();
    let (weak_sender, weak_receiver) = (s.downgrade(), r.downgrade().clone());
    drop(weak_receiver.upgrade().unwrap());
    assert_eq!(s.force_send(1), Ok(None));
    let second = weak_sender.upgrade().unwrap();
    assert_eq!((r.sender_count(), second.close()), (2, true));
    assert!(weak_sender.upgrade().is_none() && weak_receiver.upgrade().is_none());
    assert_eq!(s.receiver_count(), 1);
}

#[test]
fn every_receive_goes_on_when_the_last_sender_goes() {
    let (s, r) = unbounded();
    let (mut first, mut second) = (Task::new(r.recv()), Task::new(r.recv()));
    assert!(first.poll().is_pending() && second.poll().is_pending());
    assert_eq!(s.try_send(1), Ok(()));
    drop(s);
    assert_eq!((first.woken(), second.woken()), (1, 1));
    assert_eq!((second.poll(), first.poll()), (Ready(Ok(1)), Ready(Err(RecvError))));
}

#[test]
fn a_stream_to_its_end() {
    let (s, r) = unbounded();
    let mut r = Box::pin(r);
    assert_eq!(s.try_send(1), Ok(()));
    assert_eq!(Task::new(r.next()).poll(), Ready(Some(1)));
    let mut stream = Task::new(r.next());
    assert_eq!((stream.poll(), stream.woken()), (Pending, 0));
    drop(s);
    assert_eq!((stream.woken(), stream.poll()), (1, Ready(None)));
    drop(stream);
    assert!(r.is_terminated());
}

#[test]
fn closed_waits_for_the_last_receiver() {
    let (s, r) = bounded(1);
    assert_eq!(Task::new(s.send(7)).poll(), Ready(Ok(())));
    let mut closed = Task::new(s.closed());
    assert!(closed.poll().is_pending());
    let second = r.clone();
    assert_eq!(r.try_recv(), Ok(7));
    drop(r);
    assert_eq!((closed.woken(), closed.poll()), (0, Pending));
    drop(second);
    assert_eq!((closed.woken(), closed.poll()), (1, Ready(())));
    assert_eq!(Task::new(s.closed()).poll(), Ready(()));
}

#[test]
fn a_forgotten_blocked_sender() {
    let (s, r) = bounded(2);
    let second = s.clone();
    assert_eq!((s.try_send(3), s.try_send(7)), (Ok(()), Ok(())));
    let (mut first, mut other) = (Task::new(s.send(13)), Task::new(second.send(42)));
    assert!(first.poll().is_pending() && other.poll().is_pending());
    assert_eq!((r.try_recv(), r.try_recv()), (Ok(3), Ok(7)));
    assert_eq!((other.poll(), r.try_recv()), (Ready(Ok(())), Ok(42)));
    assert_eq!(first.woken(), 1);
}

#[test]
fn a_forgotten_blocked_receiver() {
    let (s, r) = bounded(2);
    let second = r.clone();
    let (mut first, mut other) = (Task::new(r.recv()), Task::new(second.recv()));
    assert!(first.poll().is_pending() && other.poll().is_pending());
    assert_eq!(Task::new(s.send(3)).poll(), Ready(Ok(())));
    assert_eq!(Task::new(s.send(7)).poll(), Ready(Ok(())));
    assert_eq!((other.woken(), other.poll()), (1, Ready(Ok(3))));
    assert_eq!((s.try_send(42), first.woken()), (Ok(()), 1));
}

#[test]
fn forced_sends_wake_receives() {
    let (s, r) = bounded(1);
    assert_eq!((s.force_send(7), s.force_send(8)), (Ok(None), Ok(Some(7))));
    assert_eq!(Task::new(r.recv()).poll(), Ready(Ok(8)));
    for message in [9, 10] {
        let mut receive = Task::new(r.recv());
        assert!(receive.poll().is_pending());
        assert_eq!((s.force_send(message), receive.woken()), (Ok(None), 1));
        assert_eq!(receive.poll(), Ready(Ok(message)));
    }
    assert_eq!(r.try_recv(), Err(TryRecvError::Empty));
}

#[test]
fn a_pending_poll_replaces_the_waker() {
    let (s, r) = unbounded();
    let mut receive = Box::pin(r.recv());
    let log = support::Log::default();
    assert!(support::poll_with(&mut receive, &log.waker(1)).is_pending());
    assert!(support::poll_with(&mut receive, &log.waker(2)).is_pending());
    assert_eq!((s.try_send(5), log.take()), (Ok(()), vec![2]));
}

#[test]
fn polls_wake_nobody_of_their_own() {
    let (s, r) = unbounded();
    let mut receive = Task::new(r.recv());
    assert!(receive.poll().is_pending() && receive.poll().is_pending());
    assert_eq!(receive.woken(), 0);
    assert_eq!((s.try_send(5), receive.poll()), (Ok(()), Ready(Ok(5))));
    assert_eq!(receive.woken(), 1);
}

/// A task polls operations that go on at once, or after they waited, while another of its own waits
/// for that.
#[test]
fn operations_of_one_task_wake_it_for_each_other() {
    for waits in [false, true] {
        for is_batch in [false, true] {
            let ((s, r), log) = (bounded(1), support::Log::default());
            let waker = log.waker(1);
            let mut send = Box::pin(async {
                if is_batch {
                    return s.send_many([1]).await.is_ok();
                }
                s.send(1).await.is_ok()
            });
            if waits {
                assert_eq!(s.try_send(0), Ok(()));
                assert!(support::poll_with(&mut send, &waker).is_pending());
                assert_eq!((r.try_recv(), log.take()), (Ok(0), vec![1]));
            }
            let mut receive = Box::pin(r.recv());
            assert!(support::poll_with(&mut receive, &waker).is_pending());
            assert_eq!(support::poll_with(&mut send, &waker), Ready(true));
            assert_eq!(log.take(), [1]);
            assert_eq!(support::poll_with(&mut receive, &waker), Ready(Ok(1)));
        }
        for kind in 0..3 {
            let ((s, mut r), log) = (bounded(1), support::Log::default());
            let (waker, _other) = (log.waker(1), r.clone());
            let mut receive = Box::pin(async move {
                match kind {
                    0 => r.recv().await.is_ok(),
                    1 => r.recv_many(&mut Vec::new(), 1).await > 0,
                    _ => r.next().await.is_some(),
                }
            });
            assert!(!waits || support::poll_with(&mut receive, &waker).is_pending());
            assert_eq!(s.try_send(0), Ok(()));
            let mut send = Box::pin(s.send(1));
            assert!(support::poll_with(&mut send, &waker).is_pending());
            assert_eq!(log.take(), vec![1; usize::from(waits)]);
            assert_eq!(support::poll_with(&mut receive, &waker), Ready(true));
            assert_eq!(log.take(), [1]);
            assert!(support::poll_with(&mut send, &waker).is_ready());
        }
    }
}

#[test]
fn a_cancelled_wait_of_a_stream_is_handed_to_nobody() {
    let (s, r) = unbounded();
    let (mut told, mut waits) = (Box::pin(r.clone()), Box::pin(r.clone()));
    assert!(Task::new(told.next()).poll().is_pending());
    let mut other = Task::new(waits.next());
    assert!(other.poll().is_pending());
    assert_eq!((s.try_send(1), other.woken()), (Ok(()), 1));
    assert_eq!((r.try_recv(), other.poll()), (Ok(1), Pending));
    drop(told);
    assert_eq!(other.woken(), 1);
}
