//! What a thread did before a call is seen by whoever sees that call.

use std::cell::RefCell;
use std::sync::Arc;

use futures_core::FusedStream;
use loom::model;
use loom::sync::atomic::{AtomicUsize, Ordering};
use vamorilesh::{bounded, unbounded, Receiver, Sender, TryRecvError, TrySendError};

/// What the one who did something calls, and the handles that it keeps until the end.
type Call<H> = fn(H) -> Vec<H>;

/// Nothing: it drops its handle.
fn none<H>(_: H) -> Vec<H> {
    vec![]
}

/// One thread leaves a mark and makes a call of its handle. Another, with the other handle, has to see
/// the mark if it sees the call.
fn is_in_order<H: 'static, O: 'static>(
    ends: fn() -> (H, O),
    call: Call<H>,
    sees: impl Fn(&O) -> bool + Send + Sync + 'static,
) {
    model(move || {
        let (own, other) = ends();
        let mark = Arc::new(AtomicUsize::new(0));
        let left = mark.clone();
        let calls = loom::thread::spawn(move || {
            left.store(1, Ordering::Relaxed);
            call(own)
        });
        let (is_seen, mark) = (sees(&other), mark.load(Ordering::Relaxed));
        assert!(!is_seen || mark == 1);
        calls.join().unwrap();
    });
}

fn back() -> (Receiver<u64>, Sender<u64>) {
    let (s, r) = unbounded();
    (r, s)
}

#[test]
fn of_messages() {
    let send: Call<Sender<u64>> = |s| {
        s.try_send(1).unwrap();
        vec![s]
    };
    let sees: [fn(&Receiver<u64>) -> bool; 5] = [
        |r| !r.is_empty(),
        |r| r.len() == 1,
        |r| r.try_recv().is_ok(),
        |r| r.recv_blocking().is_ok(),
        |r| r.recv_many_blocking(&mut Vec::new(), 2) == 1,
    ];
    sees.into_iter().for_each(|sees| is_in_order(unbounded, send, sees));
}

#[test]
fn of_what_a_plain_call_sees() {
    let full = || {
        let (s, r) = bounded(1);
        s.try_send(1).unwrap();
        (r.clone(), (s, r))
    };
    let receive: Call<Receiver<u64>> = |r| {
        let _ = r.try_recv();
        vec![r]
    };
    is_in_order(full, receive, |(_, r)| r.try_recv() == Err(TryRecvError::Empty));
    let close: Call<Receiver<u64>> = |r| {
        r.close();
        vec![r]
    };
    is_in_order(full, close, |(s, _)| s.try_send(2) == Err(TrySendError::Closed(2)));
    is_in_order(full, close, |(s, _)| s.force_send(2).is_err());
    let empty = || {
        let (s, r) = bounded(1);
        (s.clone(), (s, r))
    };
    let send: Call<Sender<u64>> = |s| {
        let _ = s.try_send(1);
        vec![s]
    };
    is_in_order(empty, send, |(s, _)| s.try_send(2) == Err(TrySendError::Full(2)));
}

#[test]
fn of_closes() {
    let close: Call<Sender<u64>> = |s| {
        s.close();
        vec![s]
    };
    let sees: [fn(&Receiver<u64>) -> bool; 4] = [
        |r| r.is_closed(),
        |r| r.is_terminated(),
        |r| r.try_recv() == Err(TryRecvError::Closed),
        |r| !r.close(),
    ];
    sees.into_iter().for_each(|sees| is_in_order(unbounded, close, sees));
}

#[test]
fn of_the_number_of_senders() {
    let calls: [(Call<Sender<u64>>, usize); 3] = [
        (|s| vec![s.clone(), s], 2),
        (|s| vec![s.downgrade().upgrade().unwrap(), s], 2),
        (none, 0),
    ];
    for (call, count) in calls {
        is_in_order(unbounded, call, move |r| r.sender_count() == count);
    }
}

#[test]
fn of_the_number_of_receivers() {
    let calls: [(Call<Receiver<u64>>, usize); 3] = [
        (|r| vec![r.clone(), r], 2),
        (|r| vec![r.downgrade().upgrade().unwrap(), r], 2),
        (none, 0),
    ];
    for (call, count) in calls {
        is_in_order(back, call, move |s| s.receiver_count() == count);
    }
}

#[test]
fn of_the_last_handles() {
    let senders = || {
        let (s, r) = unbounded::<u64>();
        let weak = s.downgrade();
        (s, (weak, r))
    };
    is_in_order(senders, none, |(weak, _)| weak.upgrade().is_none());
    let receivers = || {
        let (s, r) = unbounded::<u64>();
        let weak = r.downgrade();
        (r, (weak, s))
    };
    is_in_order(receivers, none, |(weak, _)| weak.upgrade().is_none());
    // Who drops the last one has to see what was done before the others.
    let two_senders = || {
        let (s, r) = unbounded::<u64>();
        (s.clone(), (RefCell::new(Some(s)), r))
    };
    is_in_order(two_senders, none, |(last, r)| {
        last.take();
        r.is_closed()
    });
}
