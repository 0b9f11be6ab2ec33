//! Threads: what they hand each other, and that each of them ends.

mod support;

use std::sync::atomic::{AtomicUsize, Ordering};
use std::thread;
use std::time::Duration;

use futures_lite::future::{block_on, poll_once};
use futures_lite::StreamExt;
use vamorilesh::{bounded, unbounded, Receiver, RecvError, SendError, Sender, TryRecvError};

/// Messages that each sending thread sends.
const EACH: usize = 5_000;
/// Threads on a side.
const SIDE: usize = 4;

/// A channel of each kind that the tests go through.
fn channels() -> [(Sender<usize>, Receiver<usize>); 4] {
    [bounded(1), bounded(3), bounded(128), unbounded()]
}

/// Gives every other thread some time. No answer below depends on how much.
fn let_others_run() {
    thread::sleep(Duration::from_millis(20));
}

#[test]
fn one_to_one_in_order() {
    for (s, r) in channels() {
        thread::scope(|scope| {
            scope.spawn(move || (0..EACH).for_each(|message| s.send_blocking(message).unwrap()));
            (0..EACH).for_each(|message| assert_eq!(r.recv_blocking(), Ok(message)));
            assert_eq!(r.recv_blocking(), Err(RecvError));
        });
    }
}

#[test]
fn one_to_one_by_futures() {
    for (s, r) in channels() {
        thread::scope(|scope| {
            scope.spawn(move || {
                block_on(async {
                    for message in 0..EACH {
                        s.send(message).await.unwrap();
                    }
                })
            });
            let taken: Vec<_> = block_on(Box::pin(r).collect());
            assert!(taken.into_iter().eq(0..EACH));
        });
    }
}

/// Sends `SIDE * EACH` messages by `send` and takes them by `receive`; each comes once.
fn many_to_many(
    (s, r): (Sender<usize>, Receiver<usize>),
    send: impl Fn(&Sender<usize>, usize) -> Result<(), SendError<usize>> + Sync,
    receive: impl Fn(&Receiver<usize>) -> Result<usize, RecvError> + Sync,
) {
    let taken: Vec<AtomicUsize> = (0..SIDE * EACH).map(|_| AtomicUsize::new(0)).collect();
    thread::scope(|scope| {
        for part in 0..SIDE {
            let (s, r, send, receive, taken) = (s.clone(), r.clone(), &send, &receive, &taken);
            scope.spawn(move || {
                (part * EACH..(part + 1) * EACH).for_each(|message| send(&s, message).unwrap());
            });
            scope.spawn(move || {
                while let Ok(message) = receive(&r) {
                    taken[message].fetch_add(1, Ordering::Relaxed);
                }
            });
        }
        drop((s, r));
    });
    assert!(taken.iter().all(|times| times.load(Ordering::Relaxed) == 1));
}

#[test]
fn many_to_many_blocking() {
    for channel in channels() {
        many_to_many(channel, Sender::send_blocking, Receiver::recv_blocking);
    }
}

#[test]
fn many_to_many_blocking_and_futures_mixed() {
    for channel in channels() {
        many_to_many(channel, |s, m| block_on(s.send(m)), Receiver::recv_blocking);
    }
    for channel in channels() {
        many_to_many(channel, Sender::send_blocking, |r| block_on(r.recv()));
    }
}

#[test]
fn many_streams_share_the_messages() {
    for (s, r) in channels() {
        let total = AtomicUsize::new(0);
        thread::scope(|scope| {
            for _ in 0..SIDE {
                let (s, r, total) = (s.clone(), r.clone(), &total);
                scope
                    .spawn(move || (0..EACH).for_each(|message| s.send_blocking(message).unwrap()));
                scope.spawn(move || {
                    let count = block_on(Box::pin(r).count());
                    total.fetch_add(count, Ordering::Relaxed);
                });
            }
            drop((s, r));
        });
        assert_eq!(total.into_inner(), SIDE * EACH);
    }
}

#[test]
fn a_sender_keeps_its_own_order() {
    let (s, r) = bounded(2);
    thread::scope(|scope| {
        for part in 0..SIDE {
            let s = s.clone();
            scope.spawn(move || {
                (0..EACH).for_each(|number| s.send_blocking((part, number)).unwrap());
            });
        }
        drop(s);
        let mut next = [0; SIDE];
        while let Ok((part, number)) = r.recv_blocking() {
            assert_eq!(number, next[part]);
            next[part] += 1;
        }
        assert_eq!(next, [EACH; SIDE]);
    });
}

#[test]
fn closing_from_outside_ends_blocked_receives() {
    for (s, r) in [bounded::<u8>(1), unbounded()] {
        thread::scope(|scope| {
            let blocked: Vec<_> = (0..SIDE)
                .map(|_| scope.spawn(|| r.recv_blocking()))
                .chain((0..SIDE).map(|_| scope.spawn(|| block_on(r.recv()))))
                .collect();
            let_others_run();
            assert!(s.close());
            for thread in blocked {
                assert_eq!(thread.join().unwrap(), Err(RecvError));
            }
        });
    }
}

#[test]
fn closing_from_outside_ends_blocked_sends() {
    let (s, r) = bounded(1);
    assert_eq!(s.try_send(0), Ok(()));
    thread::scope(|scope| {
        let s = &s;
        let blocked: Vec<_> = (1..=SIDE)
            .map(|m| scope.spawn(move || (m, s.send_blocking(m))))
            .chain((5..=8).map(|m| scope.spawn(move || (m, block_on(s.send(m))))))
            .collect();
        let_others_run();
        assert!(r.close());
        for thread in blocked {
            let (message, answer) = thread.join().unwrap();
            assert_eq!(answer, Err(SendError(message)));
        }
    });
    assert_eq!(r.recv_blocking(), Ok(0));
}

#[test]
fn the_last_sender_ends_streams_and_the_last_receiver_ends_sends() {
    for (s, r) in [bounded::<u8>(1), unbounded()] {
        thread::scope(|scope| {
            let stream = scope.spawn(move || block_on(Box::pin(r).count()));
            let_others_run();
            drop(s);
            assert_eq!(stream.join().unwrap(), 0);
        });
    }
    let (s, r) = bounded(1);
    assert_eq!(s.try_send(1), Ok(()));
    thread::scope(|scope| {
        let send = scope.spawn(move || (s.send_blocking(2), block_on(s.closed())));
        let_others_run();
        drop(r);
        assert_eq!(send.join().unwrap(), (Err(SendError(2)), ()));
    });
}

#[test]
fn cancelled_receives_lose_no_message() {
    for (s, r) in channels() {
        let taken = AtomicUsize::new(0);
        thread::scope(|scope| {
            for _ in 0..SIDE {
                let (s, r, taken) = (s.clone(), r.clone(), &taken);
                scope
                    .spawn(move || (0..EACH).for_each(|message| s.send_blocking(message).unwrap()));
                scope.spawn(move || impatient(&r, taken));
            }
            drop((s, r));
        });
        assert_eq!(taken.into_inner(), SIDE * EACH);
    }
}

/// Takes messages until the channel is closed. Every other receive is cancelled if its first
/// poll gives nothing.
fn impatient(r: &Receiver<usize>, taken: &AtomicUsize) {
    loop {
        let hasty = block_on(poll_once(r.recv()));
        match hasty.unwrap_or_else(|| r.recv_blocking()) {
            Ok(_) => taken.fetch_add(1, Ordering::Relaxed),
            Err(RecvError) => return,
        };
    }
}

#[test]
fn cancelled_sends_leave_no_message() {
    let (s, r) = bounded(1);
    let sent = AtomicUsize::new(0);
    thread::scope(|scope| {
        for _ in 0..SIDE {
            let (s, sent) = (s.clone(), &sent);
            scope.spawn(move || {
                for message in 0..EACH {
                    match block_on(poll_once(s.send(message))) {
                        Some(answer) => answer.unwrap(),
                        None => s.send_blocking(message).unwrap(),
                    }
                    sent.fetch_add(1, Ordering::Relaxed);
                }
            });
        }
        drop(s);
        let mut taken = 0;
        while r.recv_blocking().is_ok() {
            taken += 1;
        }
        assert_eq!((taken, sent.load(Ordering::Relaxed)), (SIDE * EACH, SIDE * EACH));
    });
}

#[test]
fn round_trips_between_two_threads() {
    let ((s, r), (back_s, back_r)) = (bounded(1), bounded(1));
    thread::scope(|scope| {
        scope.spawn(move || {
            while let Ok(message) = r.recv_blocking() {
                back_s.send_blocking(message).unwrap();
            }
        });
        for message in 0..EACH {
            assert_eq!(s.send_blocking(message), Ok(()));
            assert_eq!(back_r.recv_blocking(), Ok(message));
        }
        drop(s);
        assert_eq!(back_r.recv_blocking(), Err(RecvError));
    });
}

#[test]
fn handles_are_made_and_given_up_everywhere() {
    let (s, r) = unbounded::<u8>();
    let weak = (s.downgrade(), r.downgrade());
    thread::scope(|scope| {
        for _ in 0..SIDE {
            scope.spawn(|| {
                for _ in 0..EACH {
                    drop((s.clone(), r.clone(), s.downgrade(), r.downgrade()));
                    drop((weak.0.upgrade().unwrap(), weak.1.upgrade().unwrap()));
                }
            });
        }
    });
    assert_eq!((s.sender_count(), s.receiver_count(), s.is_closed()), (1, 1, false));
}

#[test]
fn whoever_sees_no_handle_of_a_side_sees_a_closed_channel() {
    for _ in 0..200 {
        let (s, r) = unbounded::<u8>();
        let weak = s.downgrade();
        thread::scope(|scope| {
            scope.spawn(move || drop(s));
            while r.sender_count() > 0 && weak.upgrade().is_some() {}
            assert_eq!((r.is_closed(), r.try_recv()), (true, Err(TryRecvError::Closed)));
        });
        let (s, r) = unbounded::<u8>();
        let weak = r.downgrade();
        thread::scope(|scope| {
            scope.spawn(move || drop(r));
            while s.receiver_count() > 0 && weak.upgrade().is_some() {}
            let closed = block_on(poll_once(s.closed()));
            assert_eq!((s.is_closed(), s.try_send(1).is_err(), closed), (true, true, Some(())));
        });
    }
}

#[test]
fn a_channel_is_closed_by_one_caller_only() {
    for _ in 0..200 {
        let (s, r) = unbounded::<u8>();
        let closers = AtomicUsize::new(0);
        thread::scope(|scope| {
            for _ in 0..SIDE {
                scope.spawn(|| closers.fetch_add(usize::from(s.close()), Ordering::Relaxed));
                scope.spawn(|| closers.fetch_add(usize::from(r.close()), Ordering::Relaxed));
            }
        });
        assert_eq!(closers.into_inner(), 1);
    }
}

#[test]
fn force_send_keeps_the_newest() {
    let (s, r) = bounded(4);
    let displaced = AtomicUsize::new(0);
    thread::scope(|scope| {
        for _ in 0..SIDE {
            scope.spawn(|| {
                for message in 0..EACH {
                    let out = s.force_send(message).unwrap();
                    displaced.fetch_add(usize::from(out.is_some()), Ordering::Relaxed);
                }
            });
        }
    });
    assert_eq!((s.len(), displaced.into_inner()), (4, SIDE * EACH - 4));
    assert!((0..4).all(|_| r.try_recv().is_ok()));
}

#[cfg(target_os = "linux")]
#[test]
fn an_unpark_that_comes_during_a_blocking_call_is_its_callers() {
    let (s, r) = unbounded();
    let (tell, told) = std::sync::mpsc::channel();
    let waiting = thread::spawn(move || {
        tell.send(support::own_folder()).unwrap();
        assert_eq!(r.recv_blocking(), Ok(1));
        let start = std::time::Instant::now();
        thread::park_timeout(Duration::from_secs(20));
        start.elapsed()
    });
    support::await_sleep(&told.recv().unwrap(), 1);
    waiting.thread().unpark();
    let_others_run();
    s.try_send(1).unwrap();
    assert!(waiting.join().unwrap() < Duration::from_secs(10));
}

#[cfg(target_os = "linux")]
#[test]
fn threads_that_wait_sleep() {
    let full = || {
        let (s, r) = bounded(1);
        s.try_send(0).unwrap();
        (s, r)
    };
    let waits: [fn(Sender<usize>, Receiver<usize>); 4] = [
        |_, r| assert_eq!(r.recv_blocking(), Err(RecvError)),
        |_, r| assert_eq!(r.recv_many_blocking(&mut Vec::new(), 2), 0),
        |s, _| assert_eq!(s.send_blocking(1), Err(SendError(1))),
        |s, _| assert_eq!(s.send_many_blocking([1, 2]), Err(SendError([1, 2].into()))),
    ];
    for (number, wait) in waits.into_iter().enumerate() {
        let (s, r) = if number < 2 { bounded(1) } else { full() };
        let (tell, told) = std::sync::mpsc::channel();
        let (other, other_r) = (s.clone(), r.clone());
        let waiting = thread::spawn(move || {
            tell.send(support::own_folder()).unwrap();
            wait(other, other_r);
        });
        // Half a second: if anything wakes it, a busy system runs it sooner.
        support::await_sleep(&told.recv().unwrap(), 25);
        s.close();
        waiting.join().unwrap();
    }
}
