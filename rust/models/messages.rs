//! Sends and receives beside one another, beside the last drops, closes and upgrades.

use std::future::{poll_fn, Future};
use std::pin::Pin;
use std::task::{Context, Poll};

use futures_core::{FusedStream, Stream};
use loom::model;
use vamorilesh::{block_on, bounded, unbounded, Receiver, RecvError, Sender, TryRecvError};

use super::{caller, is_ready};

#[test]
fn sends_beside_receives() {
    model(|| {
        let (s, r) = bounded(1);
        beside!(|| assert!((0..2).all(|message| r.recv_blocking() == Ok(message))), move || (0..2)
            .for_each(|message| s.send_blocking(message).unwrap()),);
    });
}

#[test]
fn two_sends_beside_receives() {
    model(|| {
        let (s, r) = bounded(1);
        let send = |s: Sender<u64>, message| move || s.send_blocking(message).unwrap();
        let receive = || {
            let taken = [r.recv_blocking(), r.recv_blocking()].map(Result::unwrap);
            assert!(taken == [1, 2] || taken == [2, 1]);
        };
        beside!(receive, send(s.clone(), 1), send(s, 2));
    });
}

#[test]
fn two_receives_beside_sends() {
    model(|| {
        let (s, r) = unbounded();
        let receive = |r: Receiver<u64>| move || assert!(r.recv_blocking().is_ok());
        let send = || (0..2).for_each(|message| s.try_send(message).unwrap());
        beside!(send, receive(r.clone()), receive(r));
    });
}

#[test]
fn what_is_seen_without_the_lock_is_what_stands_at_last() {
    model(|| {
        let (s, r) = bounded(2);
        let send = |s: Sender<u64>| {
            move || {
                s.try_send(1).unwrap();
                assert!(!s.is_empty());
            }
        };
        beside!(send(s.clone()), send(s.clone()));
        assert_eq!((s.len(), r.is_full(), r.is_closed()), (2, true, false));
        assert!(r.close() && s.is_closed() && !r.is_terminated());
    });
}

#[test]
fn the_last_sender_beside_an_upgrade() {
    model(|| {
        let (s, r) = unbounded();
        let weak = s.downgrade();
        let upgrade = move || match weak.upgrade() {
            Some(s) => assert_eq!((s.try_send(1), r.sender_count() > 0), (Ok(()), true)),
            None => assert_eq!((r.is_closed(), r.try_recv()), (true, Err(TryRecvError::Closed))),
        };
        beside!(upgrade, move || drop(s));
    });
}

/// Whether a closed operation is ready at once.
fn has_ended(s: &Sender<u64>) -> bool {
    is_ready(&mut Box::pin(s.closed()), caller(s))
}

#[test]
fn the_last_receiver_beside_an_upgrade() {
    model(|| {
        let (s, r) = unbounded();
        let weak = r.downgrade();
        let upgrade = move || match weak.upgrade() {
            Some(r) => assert_eq!((s.try_send(1), r.try_recv()), (Ok(()), Ok(1))),
            None => assert!(s.is_closed() && s.try_send(1).is_err() && has_ended(&s)),
        };
        beside!(upgrade, move || drop(r));
    });
}

#[test]
fn the_last_receiver_beside_an_upgrade_and_a_closed_operation() {
    for is_closed in [false, true] {
        model(move || {
            let (s, r) = unbounded::<u64>();
            assert!(!is_closed || r.close());
            let weak = r.downgrade();
            let closed = || {
                block_on(s.closed());
                assert!(s.is_closed());
            };
            beside!(closed, move || drop(r), move || drop(weak.upgrade()));
        });
    }
}

#[test]
fn the_last_sender_beside_a_close_and_a_receive() {
    model(|| {
        let (s, r) = unbounded::<u64>();
        let (receiver, closer) = (r.clone(), r.clone());
        let close = move || {
            closer.close();
            assert!(closer.is_closed());
        };
        let receive = move || assert_eq!(receiver.recv_blocking(), Err(RecvError));
        beside!(receive, move || drop(s), close);
        assert!(r.is_terminated());
    });
}

#[test]
fn the_last_receiver_beside_those_who_wait() {
    model(|| {
        let (s, r) = bounded(1);
        s.try_send(0).unwrap();
        let other = s.clone();
        let send = move || assert_eq!(s.send_blocking(1).unwrap_err().into_inner(), 1);
        beside!(move || drop(r), send, move || block_on(other.closed()));
    });
}

#[test]
fn a_count_of_none_is_seen_with_a_closed_channel() {
    model(|| {
        let (s, r) = unbounded::<u64>();
        beside!(|| assert!(r.sender_count() > 0 || r.is_closed()), move || drop(s));
    });
    for is_closed in [false, true] {
        model(move || {
            let (s, r) = unbounded::<u64>();
            assert!(!is_closed || r.close());
            let look = || assert!(s.receiver_count() > 0 || s.is_closed() && has_ended(&s));
            beside!(look, move || drop(r));
        });
    }
}

#[test]
fn what_seems_to_be_the_end_of_a_channel_is() {
    model(|| {
        let (s, r) = unbounded();
        let other = r.clone();
        let look = move || assert!(!r.is_terminated() || r.try_recv() == Err(TryRecvError::Closed));
        // Who looks comes last: loom doesn't put a store before another's load if it follows a load
        // of its own.
        beside!(move || s.try_send(1).unwrap(), look);
        drop(other);
    });
}

#[test]
fn copies_beside_drops() {
    model(|| {
        let (s, r) = unbounded();
        let copy = |s: Sender<u64>| {
            move || {
                let copy = s.clone();
                drop(s);
                assert_eq!(copy.try_send(1), Ok(()));
            }
        };
        beside!(copy(s.clone()), copy(s));
        assert_eq!((r.is_closed(), r.sender_count(), r.len()), (true, 0, 2));
    });
}

#[test]
fn a_receive_given_up_beside_a_send_and_another() {
    model(|| {
        let (s, r) = unbounded();
        let first = r.clone();
        let mut wait = Box::pin(async move { assert!(first.recv().await.is_ok()) });
        assert!(!is_ready(&mut wait, caller(&s)));
        let send = || s.try_send(7).unwrap();
        beside!(send, move || drop(wait), move || assert_eq!(r.recv_blocking(), Ok(7)));
    });
}

#[test]
fn a_send_given_up_beside_a_receive_and_another() {
    model(|| {
        let (s, r) = bounded(1);
        s.try_send(0).unwrap();
        let (first, waker) = (s.clone(), caller(&s));
        let mut wait = Box::pin(async move { first.send(1).await.unwrap() });
        assert!(!is_ready(&mut wait, waker));
        let receive = || assert_eq!(r.try_recv(), Ok(0));
        beside!(receive, move || drop(wait), move || s.send_blocking(7).unwrap());
    });
}

#[test]
fn a_send_polled_and_given_up_beside_a_receive_and_a_close() {
    model(|| {
        let (s, r) = bounded(1);
        s.try_send(0).unwrap();
        let (first, waker, other) = (s.clone(), caller(&s), r.clone());
        let mut wait = Box::pin(async move { first.send(1).await.is_ok() });
        assert!(!is_ready(&mut wait, waker.clone()));
        let mut is_sent = false;
        let look = || {
            let polled = wait.as_mut().poll(&mut Context::from_waker(&waker));
            is_sent = polled == Poll::Ready(true);
            drop(wait);
        };
        let close = move || assert!(s.close());
        beside!(look, move || assert_eq!(other.try_recv(), Ok(0)), close);
        assert_eq!(r.try_recv(), if is_sent { Ok(1) } else { Err(TryRecvError::Closed) });
    });
}

#[test]
fn a_forced_send_beside_a_receive_and_a_send() {
    model(|| {
        let (s, r) = bounded(1);
        let (forces, sends) = (s.clone(), s.clone());
        let force = loom::thread::spawn(move || forces.force_send(2).unwrap());
        let send = loom::thread::spawn(move || sends.send_blocking(1).unwrap());
        let taken = r.recv_blocking().unwrap();
        let displaced = force.join().unwrap();
        send.join().unwrap();
        let ends = [(1, None, Ok(2)), (2, None, Ok(1)), (2, Some(1), Err(TryRecvError::Empty))];
        assert!(ends.contains(&(taken, displaced, r.try_recv())));
        drop(s);
    });
}

#[test]
fn a_forced_send_displaces_one_message_beside_a_receive_and_a_send() {
    model(|| {
        let (s, r) = bounded(1);
        s.try_send(0).unwrap();
        let (forces, sends) = (s.clone(), s.clone());
        let force = loom::thread::spawn(move || forces.force_send(2).unwrap());
        let send = loom::thread::spawn(move || sends.send_blocking(1).unwrap());
        let mut taken = vec![r.recv_blocking().unwrap()];
        let displaced = force.join().unwrap();
        while taken.len() + displaced.iter().len() < 3 {
            taken.push(r.recv_blocking().unwrap());
        }
        send.join().unwrap();
        match displaced {
            None => assert!(taken == [0, 1, 2] || taken == [0, 2, 1]),
            Some(0) => assert_eq!(taken, [2, 1]),
            Some(other) => assert_eq!((other, taken), (1, vec![0, 2])),
        }
        drop(s);
    });
}

#[test]
fn a_stream_beside_a_send_that_another_receive_takes() {
    model(|| {
        let (s, mut r) = unbounded();
        let (other, again) = (r.clone(), s.clone());
        let next = move || {
            let next = poll_fn(|context| Pin::new(&mut r).poll_next(context));
            assert!(block_on(next).is_some());
        };
        let take = move || {
            if other.try_recv().is_ok() {
                again.try_send(2).unwrap();
            }
        };
        beside!(next, move || s.try_send(1).unwrap(), take);
    });
}

#[test]
fn what_another_takes_meanwhile_is_waited_for() {
    let are_at_the_end: [fn(&mut Receiver<u64>, &mut Context<'_>) -> bool; 2] = [
        |r, context| Pin::new(&mut r.recv()).poll(context) == Poll::Ready(Err(RecvError)),
        |r, context| Pin::new(r).poll_next(context) == Poll::Ready(None),
    ];
    for is_at_the_end in are_at_the_end {
        model(move || {
            let (s, r) = unbounded();
            let (mut receiver, other, waker) = (r.clone(), r.clone(), caller(&s));
            let look = move || {
                assert!(!is_at_the_end(&mut receiver, &mut Context::from_waker(&waker)));
            };
            let take = move || {
                let _ = other.try_recv();
            };
            beside!(|| s.try_send(1).unwrap(), look, take);
            drop(r);
        });
    }
    model(|| {
        let (s, r) = bounded(1);
        s.try_send(0).unwrap();
        let (sender, other, waker) = (s.clone(), s.clone(), caller(&s));
        let look = move || {
            let (mut send, context) = (sender.send(1), &mut Context::from_waker(&waker));
            // A poll of a send that has finished would panic.
            let _ = Pin::new(&mut send).poll(context).is_ready()
                || Pin::new(&mut send).poll(context).is_ready();
        };
        let fill = move || {
            let _ = other.try_send(2);
        };
        beside!(|| assert!(r.try_recv().is_ok()), look, fill);
        drop(s);
    });
}

#[test]
fn two_closes() {
    model(|| {
        let (s, r) = unbounded::<u64>();
        let other = loom::thread::spawn(move || r.close());
        assert!(s.close() != other.join().unwrap());
    });
}
