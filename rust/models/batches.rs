//! Many messages in one call, beside other calls.

use std::collections::{BTreeSet, VecDeque};
use std::future::Future;
use std::pin::Pin;
use std::sync::{Arc, Mutex};
use std::task::Waker;

use loom::model;
use vamorilesh::{block_on, bounded, unbounded, Receiver, SendError, Sender};
use vamorilesh::{TrySendError, WeakSender, ROUND_LIMIT};

use super::{caller, is_ready};

#[test]
fn a_batch_beside_two_receives() {
    model(|| {
        let (s, r) = unbounded();
        let receive = |r: Receiver<u64>| move || assert!(r.recv_blocking().is_ok());
        let send = || assert_eq!(s.try_send_many(&mut [1, 2].into()), Ok(2));
        beside!(send, receive(r.clone()), receive(r));
    });
}

#[test]
fn a_batch_beside_two_sends() {
    model(|| {
        let (s, r) = bounded(2);
        assert_eq!(s.try_send_many(&mut [1, 2].into()), Ok(2));
        let send = |s: Sender<u64>| move || s.send_blocking(3).unwrap();
        let receive = || assert_eq!(r.try_recv_many(&mut Vec::new(), 2), Ok(2));
        beside!(receive, send(s.clone()), send(s));
    });
}

#[test]
fn a_blocking_batch_beside_receives() {
    model(|| {
        let (s, r) = bounded(1);
        let receive = || {
            let mut into = Vec::new();
            while r.recv_many_blocking(&mut into, 2) > 0 {}
            assert_eq!(into, [0, 1]);
        };
        beside!(receive, move || s.send_many_blocking(0..2).unwrap());
    });
}

#[test]
fn a_batch_takes_no_more_than_its_limit() {
    model(|| {
        let (s, r) = unbounded();
        let other = s.clone();
        let receive = || {
            let mut into = Vec::with_capacity(8);
            assert_eq!((r.recv_many_blocking(&mut into, 2), into), (2, vec![1, 2]));
        };
        let send = move || assert_eq!(other.try_send_many(&mut [1, 2, 3].into()), Ok(3));
        beside!(receive, send);
        assert_eq!(s.try_send_many(&mut [4, 5].into()), Ok(2));
        let mut into = Vec::with_capacity(8);
        assert_eq!((r.try_recv_many(&mut into, 2), into), (Ok(2), vec![3, 4]));
    });
}

#[test]
fn a_batch_beside_a_close() {
    model(|| {
        let (s, r) = bounded(2);
        let other = r.clone();
        let close = move || {
            assert!(other.try_recv_many(&mut Vec::new(), 1).map_or(true, |count| count == 1));
            other.close();
        };
        let mut left = VecDeque::new();
        let send = || {
            left = s.send_many_blocking(1..=3).map_or_else(SendError::into_inner, |()| [].into());
        };
        beside!(send, close);
        let all: Vec<_> = r.try_iter().chain(left).collect();
        assert!(all == [1, 2, 3] || all == [2, 3]);
    });
}

type Found = Arc<Mutex<BTreeSet<usize>>>;

/// Has to find these numbers, and no others, in all runs of a model.
fn finds<const N: usize>(numbers: [usize; N], run: impl Fn() -> usize + Send + Sync + 'static) {
    let found = Found::default();
    let all = found.clone();
    model(move || all.lock().unwrap().extend([run()]));
    assert!(found.lock().unwrap().iter().eq(&numbers));
}

/// A message that is in no batch.
const OTHER: usize = usize::MAX;

/// Where that message comes out, or how many come out without it.
fn place(r: &Receiver<usize>) -> usize {
    r.try_iter().take_while(|message| *message != OTHER).count()
}

#[test]
fn others_send_between_two_rounds_of_a_batch_alone() {
    finds([0, ROUND_LIMIT, ROUND_LIMIT + 1], || {
        let (s, r) = unbounded();
        let other = s.clone();
        let all = ROUND_LIMIT + 1;
        let send = move || assert_eq!(s.try_send_many(&mut (0..all).collect()), Ok(all));
        beside!(send, move || other.try_send(OTHER).unwrap());
        place(&r)
    });
}

/// What a receive takes first that stands beside a call.
fn taken_beside(s: Sender<usize>, r: Receiver<usize>, call: impl FnOnce() + 'static) -> usize {
    let mut taken = s.len();
    beside!(|| taken = r.try_recv().unwrap_or(taken), call);
    taken
}

#[test]
fn others_receive_between_two_rounds_of_a_batch_alone() {
    finds([0, ROUND_LIMIT, ROUND_LIMIT + 1], || {
        let (s, r) = unbounded();
        let all = ROUND_LIMIT + 1;
        assert_eq!(s.try_send_many(&mut (0..all + 1).collect()), Ok(all + 1));
        let other = r.clone();
        let receive = move || assert_eq!(other.try_recv_many(&mut Vec::new(), all), Ok(all));
        taken_beside(s, r, receive)
    });
}

#[test]
fn no_message_comes_between_those_of_a_round() {
    let sends: [fn(Sender<usize>); 3] = [
        |s| assert_eq!(s.try_send_many(&mut (0..3).collect()), Ok(3)),
        |s| assert_eq!(s.send_many_blocking(0..3), Ok(())),
        |s| assert_eq!(block_on(s.send_many(0..3)), Ok(())),
    ];
    for send in sends {
        finds([0, 3], move || {
            let (s, r) = unbounded();
            let other = s.clone();
            beside!(move || send(s), move || other.try_send(OTHER).unwrap());
            place(&r)
        });
    }
}

#[test]
fn no_receive_comes_between_the_messages_of_a_round() {
    let receives: [fn(Receiver<usize>); 3] = [
        |r| assert!(r.try_recv_many(&mut Vec::new(), 3).is_ok()),
        |r| assert!(r.recv_many_blocking(&mut Vec::new(), 3) > 0),
        |r| assert!(block_on(r.recv_many(&mut Vec::new(), 3)) > 0),
    ];
    for receive in receives {
        finds([0, 3], move || {
            let (s, r) = unbounded();
            assert_eq!(s.try_send_many(&mut (0..3).collect()), Ok(3));
            let other = r.clone();
            taken_beside(s, r, move || receive(other))
        });
    }
}

/// A batch that waits.
type Waits = Pin<Box<dyn Future<Output = ()>>>;

fn poll(wait: &mut Waits, waker: Waker) {
    let _ = is_ready(wait, waker);
}

#[test]
fn no_message_comes_between_those_of_a_batch_that_waited() {
    finds([0, 2], || {
        let (s, r) = bounded(2);
        assert_eq!(s.try_send_many(&mut [7, 7].into()), Ok(2));
        let other = s.clone();
        let waker = caller(&s);
        let mut wait: Waits = Box::pin(async move { s.send_many([0, 1]).await.unwrap() });
        assert!(!is_ready(&mut wait, waker.clone()));
        assert_eq!(r.try_recv_many(&mut Vec::new(), 2), Ok(2));
        let send = move || assert_ne!(other.try_send(OTHER), Err(TrySendError::Closed(OTHER)));
        beside!(move || poll(&mut wait, waker), send);
        place(&r)
    });
}

#[test]
fn no_receive_comes_between_the_messages_of_a_batch_that_waited() {
    finds([0, 2], || {
        let (s, r) = unbounded();
        let (other, waker) = (r.clone(), caller(&s));
        let mut wait: Waits = Box::pin(async move {
            r.recv_many(&mut Vec::new(), 2).await;
        });
        assert!(!is_ready(&mut wait, waker.clone()));
        assert_eq!(s.try_send_many(&mut (0..2).collect()), Ok(2));
        taken_beside(s, other, move || poll(&mut wait, waker))
    });
}

#[test]
fn a_receive_of_many_given_up_beside_a_send_and_another() {
    model(|| {
        let (s, r) = unbounded();
        let first = r.clone();
        let mut wait: Waits = Box::pin(async move {
            first.recv_many(&mut Vec::new(), 2).await;
        });
        assert!(!is_ready(&mut wait, caller(&s)));
        let send = || s.try_send(7).unwrap();
        beside!(send, move || drop(wait), move || assert_eq!(r.recv_blocking(), Ok(7)));
    });
}

#[test]
fn a_send_of_many_given_up_beside_a_receive_and_another() {
    model(|| {
        let (s, r) = bounded(1);
        let first = s.clone();
        let mut wait: Waits = Box::pin(async move { first.send_many([0, 1, 2]).await.unwrap() });
        assert!(!is_ready(&mut wait, caller(&s)));
        let receive = || assert_eq!(r.try_recv(), Ok(0));
        beside!(receive, move || drop(wait), move || s.send_blocking(7).unwrap());
    });
}

/// A message that calls its channel when it is dropped.
struct Message(WeakSender<Message>);

impl Drop for Message {
    fn drop(&mut self) {
        drop(self.0.upgrade());
    }
}

#[test]
fn a_batch_runs_no_code_of_its_callers_under_the_lock() {
    model(|| {
        let (s, r) = bounded(2);
        let messages = |count: usize| {
            let weak = s.downgrade();
            (0..count).map(move |_| {
                drop(weak.upgrade());
                Message(weak.clone())
            })
        };
        let look = |count| {
            let mut send = Box::pin(s.send_many(messages(count)));
            assert!(!is_ready(&mut send, caller(&s)));
            assert!(!is_ready(&mut send, caller(&s)));
        };
        look(4);
        assert!(s.try_send_many(&mut messages(1).collect()).is_err());
        assert_eq!(r.try_recv_many(&mut Vec::new(), 1), Ok(1));
        look(3);
        r.close();
        assert_eq!(s.send_many_blocking(messages(3)).unwrap_err().into_inner().len(), 3);
        assert_eq!(r.recv_many_blocking(&mut Vec::new(), 9), 2);
    });
}
