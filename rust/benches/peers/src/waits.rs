//! Works of threads that wait: for how long they keep processors.

use std::sync::Barrier;
use std::thread;
use std::time::{Duration, Instant};

use futures_lite::future::{block_on, or};

use crate::peers::{Async, AsyncChannel, Crossbeam, Flume, Here, Many, Peer, Tokio};
use crate::threads::{over_all, single, timed, SIDE};
use crate::works::{each, work, ProcessorTime};
use crate::Work;

pub fn all() -> Vec<Work> {
    vec![
        work!("a receive that gets one each 75 µs", seldom(20, 2_000):
            AsyncChannel Here Flume Crossbeam Tokio),
        work!("a receive that gets one each 155 µs", seldom(100, 1_000):
            AsyncChannel Here Flume Crossbeam Tokio),
        work!("a receive that gets one each 1,060 µs", seldom(1_000, 200):
            AsyncChannel Here Flume Crossbeam Tokio),
        work!("one to one, bounded(1)", of_both(Some(1), 20_000):
            AsyncChannel Here Flume Crossbeam Tokio),
        work!("one to one, bounded(4)", of_both(Some(4), 50_000):
            AsyncChannel Here Flume Crossbeam Tokio),
        work!("one to one, bounded(16)", of_both(Some(16), 100_000):
            AsyncChannel Here Flume Crossbeam Tokio),
        work!("one to one, bounded(64)", of_both(Some(64), 200_000):
            AsyncChannel Here Flume Crossbeam Tokio),
        work!("one to one, bounded(128)", of_both(Some(128), 200_000):
            AsyncChannel Here Flume Crossbeam Tokio),
        work!("one to one, bounded(1024)", of_both(Some(1_024), 200_000):
            AsyncChannel Here Flume Crossbeam Tokio),
        work!("one to one, unbounded", of_both(None, 200_000):
            AsyncChannel Here Flume Crossbeam Tokio),
        work!("a pool of three workers", ["", ", time"], pool(Some(16), 20_000):
            AsyncChannel Here Flume),
        work!("a pool without a bound", ["", ", time"], pool(None, 20_000):
            AsyncChannel Here Flume),
        work!("`try_recv` of an empty channel, four threads", empty(50_000):
            AsyncChannel Here Flume Crossbeam),
        work!("`try_send` into a closed channel", closed(200_000):
            AsyncChannel Here Flume Crossbeam Tokio),
    ]
}

/// The processor time of a thread that receives a message each so many microseconds, and some 55 for
/// which the one that sends oversleeps.
fn seldom<P: Peer>(gap: u64, count: u64) -> f64 {
    let (tx, mut rx) = P::make(Some(16));
    thread::scope(|scope| {
        let receiving = scope.spawn(move || {
            let start = ProcessorTime::now();
            (0..count).for_each(|message| assert!(P::recv(&mut rx) == message));
            each(start.elapsed(), count)
        });
        for message in 0..count {
            thread::sleep(Duration::from_micros(gap));
            P::send(&tx, message);
        }
        receiving.join().unwrap()
    })
}

/// The processor time of both threads.
fn of_both<P: Peer>(capacity: Option<usize>, count: u64) -> f64 {
    let start = ProcessorTime::of_all();
    single::<P>(capacity, count);
    each(start.elapsed(), count)
}

/// How long a job of the pool takes, and how many workers it has.
const JOB: Duration = Duration::from_micros(2);
const WORKERS: usize = 3;

/// Three queues of jobs, the most urgent first, and a channel that never has a message: a worker takes
/// from the first that has a job, and ends when the last closes. The thread that sends blocks. The
/// numbers are the processor time of all for a job, and the time.
fn pool<P: Async + Many>(capacity: Option<usize>, count: u64) -> [f64; 2]
where
    P::Tx: Sync,
{
    let (jobs, queues): (Vec<_>, Vec<_>) = (0..3).map(|_| P::make(capacity)).unzip();
    let (running, ends) = P::make(Some(1));
    let (clock, start) = (ProcessorTime::of_all(), Instant::now());
    thread::scope(|scope| {
        for _ in 0..WORKERS {
            let mut queues: Vec<_> = queues.iter().map(P::clone_rx).collect();
            let mut ends = P::clone_rx(&ends);
            scope.spawn(move || {
                while block_on(next::<P>(&mut queues, &mut ends)) {
                    let start = Instant::now();
                    while start.elapsed() < JOB {
                        std::hint::spin_loop();
                    }
                }
            });
        }
        for job in 0..count {
            P::send(&jobs[job as usize % jobs.len()], job);
        }
        drop(running);
    });
    [each(clock.elapsed(), count), each(start.elapsed(), count)]
}

/// Whether there is one more job.
async fn next<P: Async>(queues: &mut [P::Rx], ends: &mut P::Rx) -> bool {
    let [urgent, usual, idle] = queues else { unreachable!() };
    let has_come = |came: Option<u64>| came.is_some();
    let [urgent, usual, idle, ends] =
        [urgent, usual, idle, ends].map(|rx| async move { has_come(P::recv_async(rx).await) });
    or(urgent, or(usual, or(idle, ends))).await
}

/// Four threads ask an empty channel for a message.
fn empty<P: Many>(count: u64) -> f64 {
    let (_tx, rx) = P::make(Some(16));
    let ready = &Barrier::new(SIDE as usize);
    thread::scope(|scope| {
        let ask = |_| {
            let mut rx = P::clone_rx(&rx);
            scope.spawn(move || {
                timed(ready, || (0..count).for_each(|_| assert!(P::try_recv(&mut rx).is_none())))
            })
        };
        let threads: Vec<_> = (0..SIDE).map(ask).collect();
        let spans: Vec<_> = threads.into_iter().map(|thread| thread.join().unwrap()).collect();
        over_all(&spans, count)
    })
}

fn closed<P: Peer>(count: u64) -> f64 {
    let (tx, rx) = P::make(Some(16));
    drop(rx);
    let start = ProcessorTime::now();
    (0..count).for_each(|message| assert!(!P::try_send(&tx, message)));
    each(start.elapsed(), count)
}
