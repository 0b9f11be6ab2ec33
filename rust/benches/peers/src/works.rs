//! Works of one thread.

use std::future::Future;
use std::hint::black_box;
use std::pin::{pin, Pin};
use std::sync::Arc;
use std::task::{Context, Wake, Waker};
use std::time::Duration;

use futures_lite::future::{block_on, zip};

use crate::peers::{Async, AsyncChannel, Closes, Crossbeam, Flume, Here, Many, Peer, Tokio};
use crate::Work;

/// A work and its run on each of the peers named. One with parts has a row for each of them, and its
/// run answers as many numbers.
macro_rules! work {
    ($name:expr, $run:ident $arguments:tt: $($peer:ident)+) => {
        Work {
            names: vec![$name],
            runs: vec![$(($peer::NAME, || vec![$run::<$peer> $arguments])),+],
        }
    };
    ($name:expr, [$($part:literal),+], $run:ident $arguments:tt: $($peer:ident)+) => {
        Work {
            names: vec![$(concat!($name, $part)),+],
            runs: vec![$(($peer::NAME, || $run::<$peer> $arguments.to_vec())),+],
        }
    };
}
pub(crate) use work;

pub fn all() -> Vec<Work> {
    vec![
        work!("pair, bounded(1)", pair(Some(1)):
            AsyncChannel Here Flume Crossbeam Tokio),
        work!("pair, bounded(1024)", pair(Some(1024)):
            AsyncChannel Here Flume Crossbeam Tokio),
        work!("pair, unbounded", pair(None):
            AsyncChannel Here Flume Crossbeam Tokio),
        work!("fill and drain, bounded(100000)", fill_and_drain(Some(100_000)):
            AsyncChannel Here Flume Crossbeam Tokio),
        work!("fill and drain 100000, unbounded", fill_and_drain(None):
            AsyncChannel Here Flume Crossbeam Tokio),
        work!("ready futures, bounded(16)", ready_futures():
            AsyncChannel Here Flume Tokio),
        work!("a receive that waits", waiting_receive():
            AsyncChannel Here Flume Tokio),
        work!("a receive that waits and is given up", given_up_receive():
            AsyncChannel Here Flume Tokio),
        work!("a poll again with the same waker", polls_again():
            AsyncChannel Here Flume Tokio),
        work!("clone and drop a sender", clone_and_drop():
            AsyncChannel Here Flume Crossbeam Tokio),
        work!("len", len(): AsyncChannel Here Flume Crossbeam),
        work!("is_full", is_full(): AsyncChannel Here Flume Crossbeam),
        work!("is_closed", is_closed(): AsyncChannel Here),
        work!("a million through two tasks, bounded(128)", two_tasks(Some(128)):
            AsyncChannel Here Flume Tokio),
        work!("a million through two tasks, unbounded", two_tasks(None):
            AsyncChannel Here Flume Tokio),
    ]
}

/// The time for which a thread, or all threads, had a processor: other work on the machine hardly
/// changes it.
pub struct ProcessorTime {
    clock: libc::clockid_t,
    start: Duration,
}

impl ProcessorTime {
    /// Of this thread.
    pub fn now() -> Self {
        let clock = libc::CLOCK_THREAD_CPUTIME_ID;
        ProcessorTime { clock, start: Self::time(clock) }
    }

    /// Of all threads of this program.
    pub fn of_all() -> Self {
        let clock = libc::CLOCK_PROCESS_CPUTIME_ID;
        ProcessorTime { clock, start: Self::time(clock) }
    }

    fn time(clock: libc::clockid_t) -> Duration {
        let mut time = libc::timespec { tv_sec: 0, tv_nsec: 0 };
        // SAFETY: the clock writes the time that it is handed.
        let status = unsafe { libc::clock_gettime(clock, &mut time) };
        assert_eq!(status, 0);
        Duration::new(time.tv_sec as u64, time.tv_nsec as u32)
    }

    pub fn elapsed(&self) -> Duration {
        Self::time(self.clock) - self.start
    }
}

/// Nanoseconds for each of `count` in a time.
pub fn each(time: Duration, count: u64) -> f64 {
    time.as_nanos() as f64 / count as f64
}

const SHORT: u64 = 200_000;

fn pair<P: Peer>(capacity: Option<usize>) -> f64 {
    let (tx, mut rx) = P::make(capacity);
    let start = ProcessorTime::now();
    for message in 0..SHORT {
        assert!(P::try_send(&tx, black_box(message)));
        assert!(black_box(P::try_recv(&mut rx)).is_some());
    }
    each(start.elapsed(), SHORT)
}

fn fill_and_drain<P: Peer>(capacity: Option<usize>) -> f64 {
    const HELD: u64 = 100_000;
    let (tx, mut rx) = P::make(capacity);
    let start = ProcessorTime::now();
    for message in 0..HELD {
        assert!(P::try_send(&tx, black_box(message)));
    }
    for message in 0..HELD {
        assert!(black_box(P::try_recv(&mut rx)) == Some(message));
    }
    each(start.elapsed(), HELD)
}

fn ready_futures<P: Async>() -> f64 {
    let (tx, mut rx) = P::make(Some(16));
    let start = ProcessorTime::now();
    block_on(async {
        for message in 0..SHORT {
            P::send_async(&tx, black_box(message)).await;
            assert!(black_box(P::recv_async(&mut rx).await).is_some());
        }
    });
    each(start.elapsed(), SHORT)
}

struct Nobody;

impl Wake for Nobody {
    fn wake(self: Arc<Self>) {}
}

/// One poll of a future that is new each time.
fn poll<F: Future>(future: Pin<&mut F>, waker: &Waker) -> bool {
    future.poll(&mut Context::from_waker(waker)).is_ready()
}

fn waiting_receive<P: Async>() -> f64 {
    let (tx, mut rx) = P::make(Some(16));
    let waker = Waker::from(Arc::new(Nobody));
    let start = ProcessorTime::now();
    for message in 0..SHORT {
        let mut receive = pin!(P::recv_async(&mut rx));
        assert!(!poll(receive.as_mut(), &waker));
        assert!(P::try_send(&tx, black_box(message)));
        assert!(poll(receive, &waker));
    }
    each(start.elapsed(), SHORT)
}

fn given_up_receive<P: Async>() -> f64 {
    let (_tx, mut rx) = P::make(Some(16));
    let waker = Waker::from(Arc::new(Nobody));
    let start = ProcessorTime::now();
    for _ in 0..SHORT {
        let mut receive = pin!(P::recv_async(&mut rx));
        assert!(!poll(receive.as_mut(), &waker));
    }
    each(start.elapsed(), SHORT)
}

fn clone_and_drop<P: Peer>() -> f64 {
    let (tx, _rx) = P::make(Some(16));
    let start = ProcessorTime::now();
    for _ in 0..SHORT {
        drop(black_box(P::clone_tx(&tx)));
    }
    each(start.elapsed(), SHORT)
}

/// A question on a channel of sixteen places that holds one message.
fn question<P: Peer>(is_right: fn(&P::Rx) -> bool) -> f64 {
    let (tx, rx) = P::make(Some(16));
    assert!(P::try_send(&tx, 1));
    let start = ProcessorTime::now();
    for _ in 0..SHORT {
        assert!(black_box(is_right(black_box(&rx))));
    }
    each(start.elapsed(), SHORT)
}

fn len<P: Many>() -> f64 {
    question::<P>(|rx| P::len(rx) == 1)
}

fn is_full<P: Many>() -> f64 {
    question::<P>(|rx| !P::is_full(rx))
}

fn is_closed<P: Closes>() -> f64 {
    question::<P>(|rx| !P::is_closed(rx))
}

/// A receive that waits is polled again and again.
fn polls_again<P: Async>() -> f64 {
    let (_tx, mut rx) = P::make(Some(16));
    let waker = Waker::from(Arc::new(Nobody));
    let mut receive = pin!(P::recv_async(&mut rx));
    assert!(!poll(receive.as_mut(), &waker));
    let start = ProcessorTime::now();
    for _ in 0..SHORT {
        assert!(!poll(black_box(receive.as_mut()), &waker));
    }
    each(start.elapsed(), SHORT)
}

fn two_tasks<P: Async>(capacity: Option<usize>) -> f64 {
    const COUNT: u64 = 1_000_000;
    let (tx, mut rx) = P::make(capacity);
    let start = ProcessorTime::now();
    let send = async {
        let tx = tx;
        for message in 0..COUNT {
            P::send_async(&tx, black_box(message)).await;
        }
    };
    let receive = async {
        let mut taken = 0;
        while P::recv_async(&mut rx).await.is_some() {
            taken += 1;
        }
        taken
    };
    assert!(block_on(zip(send, receive)).1 == COUNT);
    each(start.elapsed(), COUNT)
}
