//! Works of many threads.

use std::sync::Barrier;
use std::thread;
use std::time::Instant;

use crate::peers::{Async, AsyncChannel, Crossbeam, Flume, Here, Many, Peer, Tokio};
use crate::works::{each, work};
use crate::Work;

/// Threads, or tasks, on a side.
pub const SIDE: u64 = 4;

pub fn all() -> Vec<Work> {
    vec![
        work!("one thread to one, bounded(1)", single(Some(1), 20_000):
            AsyncChannel Here Flume Crossbeam Tokio),
        work!("one thread to one, bounded(4)", single(Some(4), 50_000):
            AsyncChannel Here Flume Crossbeam Tokio),
        work!("one thread to one, bounded(16)", single(Some(16), 100_000):
            AsyncChannel Here Flume Crossbeam Tokio),
        work!("one thread to one, bounded(64)", single(Some(64), 200_000):
            AsyncChannel Here Flume Crossbeam Tokio),
        work!("one thread to one, bounded(128)", single(Some(128), 200_000):
            AsyncChannel Here Flume Crossbeam Tokio),
        work!("one thread to one, bounded(1024)", single(Some(1_024), 200_000):
            AsyncChannel Here Flume Crossbeam Tokio),
        work!("one thread to one, unbounded", single(None, 200_000):
            AsyncChannel Here Flume Crossbeam Tokio),
        work!("four threads to four, bounded(1)", many(Some(1), SIDE, 20_000):
            AsyncChannel Here Flume Crossbeam),
        work!("four threads to four, bounded(128)", many(Some(128), SIDE, 100_000):
            AsyncChannel Here Flume Crossbeam),
        work!("four threads to four, unbounded", many(None, SIDE, 100_000):
            AsyncChannel Here Flume Crossbeam),
        work!("one task to one on tokio, bounded(128)", single_task(Some(128)):
            AsyncChannel Here Flume Tokio),
        work!("four tasks to four on tokio, bounded(128)", many_tasks(Some(128)):
            AsyncChannel Here Flume),
    ]
}

/// Works for one processor.
pub fn crowds() -> Vec<Work> {
    vec![
        work!("1 to 1, bounded(128)", single(Some(128), 200_000):
            AsyncChannel Here Flume Crossbeam Tokio),
        work!("1 to 1, unbounded", single(None, 200_000):
            AsyncChannel Here Flume Crossbeam Tokio),
        work!("4 to 4, bounded(128)", many(Some(128), SIDE, 100_000):
            AsyncChannel Here Flume Crossbeam),
        work!("32 to 32, bounded(128)", many(Some(128), 32, 102_400):
            AsyncChannel Here Flume Crossbeam),
        work!("32 to 32, unbounded", many(None, 32, 102_400):
            AsyncChannel Here Flume Crossbeam),
    ]
}

/// When a thread began, and when it was done.
pub type Span = (Instant, Instant);

/// Runs `work` once all threads are ready.
pub fn timed(ready: &Barrier, work: impl FnOnce()) -> Span {
    ready.wait();
    let start = Instant::now();
    work();
    (start, Instant::now())
}

/// Nanoseconds for each of `count`, from the first thread's start to the last one's end.
pub fn over_all(spans: &[Span], count: u64) -> f64 {
    let start = spans.iter().map(|span| span.0).min().unwrap();
    let end = spans.iter().map(|span| span.1).max().unwrap();
    (end - start).as_nanos() as f64 / count as f64
}

/// One thread sends to another.
pub fn single<P: Peer>(capacity: Option<usize>, count: u64) -> f64 {
    let (tx, mut rx) = P::make(capacity);
    let ready = &Barrier::new(2);
    thread::scope(|scope| {
        let sending = scope
            .spawn(move || timed(ready, || (0..count).for_each(|message| P::send(&tx, message))));
        let received = timed(ready, || {
            (0..count).for_each(|message| assert!(P::recv(&mut rx) == message));
        });
        over_all(&[received, sending.join().unwrap()], count)
    })
}

fn many<P: Many>(capacity: Option<usize>, side: u64, count: u64) -> f64 {
    let (tx, rx) = P::make(capacity);
    let ready = &Barrier::new(2 * side as usize);
    let each_thread = 0..count / side;
    thread::scope(|scope| {
        let mut threads = Vec::new();
        for _ in 0..side {
            let (tx, mut rx) = (P::clone_tx(&tx), P::clone_rx(&rx));
            let (sends, receives) = (each_thread.clone(), each_thread.clone());
            threads.push(
                scope.spawn(move || {
                    timed(ready, || sends.for_each(|message| P::send(&tx, message)))
                }),
            );
            threads.push(scope.spawn(move || {
                timed(ready, || receives.for_each(|_| assert!(P::recv(&mut rx) < count)))
            }));
        }
        let spans: Vec<_> = threads.into_iter().map(|thread| thread.join().unwrap()).collect();
        over_all(&spans, count)
    })
}

const TASKS: u64 = 100_000;

fn runtime() -> tokio::runtime::Runtime {
    let mut builder = tokio::runtime::Builder::new_multi_thread();
    builder.worker_threads(4).build().unwrap()
}

async fn send_all<P: Async>(tx: P::Tx, count: u64)
where
    P::Tx: Sync,
{
    for message in 0..count {
        P::send_async(&tx, message).await;
    }
}

async fn receive_all<P: Async>(mut rx: P::Rx) -> u64 {
    let mut taken = 0;
    while P::recv_async(&mut rx).await.is_some() {
        taken += 1;
    }
    taken
}

fn single_task<P: Async>(capacity: Option<usize>) -> f64
where
    P::Tx: Sync,
{
    let (runtime, (tx, rx)) = (runtime(), P::make(capacity));
    let start = Instant::now();
    let taken = runtime.block_on(async {
        tokio::spawn(send_all::<P>(tx, TASKS));
        tokio::spawn(receive_all::<P>(rx)).await
    });
    assert!(taken.unwrap() == TASKS);
    each(start.elapsed(), TASKS)
}

fn many_tasks<P: Async + Many>(capacity: Option<usize>) -> f64
where
    P::Tx: Sync,
{
    let (runtime, (tx, rx)) = (runtime(), P::make(capacity));
    let start = Instant::now();
    let taken = runtime.block_on(async {
        for _ in 0..SIDE {
            tokio::spawn(send_all::<P>(P::clone_tx(&tx), TASKS / SIDE));
        }
        drop(tx);
        let receive = |_| tokio::spawn(receive_all::<P>(P::clone_rx(&rx)));
        let tasks: Vec<_> = (0..SIDE).map(receive).collect();
        let mut taken = 0;
        for task in tasks {
            taken += task.await.unwrap();
        }
        taken
    });
    assert!(taken == TASKS);
    each(start.elapsed(), TASKS)
}
