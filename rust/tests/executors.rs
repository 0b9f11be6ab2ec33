//! Tasks on executors of many threads: tokio's, and smol's.

use std::future::Future;
use std::thread;

use async_executor::Executor;
use futures_lite::future::{block_on, or, yield_now};
use futures_lite::StreamExt;
use vamorilesh::{bounded, unbounded, Receiver, SendError, Sender};

/// Messages that each sending task sends.
const EACH: u64 = 2_000;
/// Tasks on a side.
const SIDE: u64 = 8;
/// Threads that an executor has.
const THREADS: usize = 4;

/// Runs `future` on tokio's executor, and then again on smol's.
fn on_both<F: Future<Output = ()>>(make: impl Fn(Spawn) -> F) {
    let tokio =
        tokio::runtime::Builder::new_multi_thread().worker_threads(THREADS).build().unwrap();
    tokio.block_on(make(Spawn::Tokio));
    let smol: &'static Executor<'static> = Box::leak(Box::new(Executor::new()));
    let (stop, stopped) = unbounded::<()>();
    thread::scope(|scope| {
        for _ in 0..THREADS {
            scope.spawn(|| block_on(smol.run(async { stopped.recv().await.unwrap_err() })));
        }
        block_on(make(Spawn::Smol(smol)));
        drop(stop);
    });
}

/// Where tasks are spawned.
#[derive(Clone, Copy)]
enum Spawn {
    Tokio,
    Smol(&'static Executor<'static>),
}

impl Spawn {
    fn task(self, future: impl Future<Output = u64> + Send + 'static) -> Task {
        match self {
            Spawn::Tokio => Task::Tokio(tokio::spawn(future)),
            Spawn::Smol(executor) => Task::Smol(executor.spawn(future)),
        }
    }
}

/// A spawned task and its answer to come.
enum Task {
    Tokio(tokio::task::JoinHandle<u64>),
    Smol(async_executor::Task<u64>),
}

impl Task {
    async fn answer(self) -> u64 {
        match self {
            Task::Tokio(task) => task.await.unwrap(),
            Task::Smol(task) => task.await,
        }
    }
}

/// The sum of all tasks' answers.
async fn sum(tasks: Vec<Task>) -> u64 {
    let mut total = 0;
    for task in tasks {
        total += task.answer().await;
    }
    total
}

/// What `SIDE` senders of `EACH` messages send together.
const ALL: u64 = SIDE * EACH * (EACH - 1) / 2;

async fn send_all(s: Sender<u64>) -> u64 {
    for message in 0..EACH {
        s.send(message).await.unwrap();
    }
    0
}

async fn receive_all(r: Receiver<u64>) -> u64 {
    let mut total = 0;
    while let Ok(message) = r.recv().await {
        total += message;
    }
    total
}

async fn stream_all(r: Receiver<u64>) -> u64 {
    Box::pin(r).fold(0, |total, message| total + message).await
}

/// Receives, but gives up every receive that isn't ready at its first poll, and begins anew.
async fn receive_by_halves(r: Receiver<u64>) -> u64 {
    let mut total = 0;
    loop {
        let given_up = async {
            yield_now().await;
            None
        };
        match or(async { Some(r.recv().await) }, given_up).await {
            Some(Ok(message)) => total += message,
            Some(Err(_)) => return total,
            None => {}
        }
    }
}

async fn many_to_many(spawn: Spawn, (s, r): (Sender<u64>, Receiver<u64>)) {
    let mut tasks = Vec::new();
    for part in 0..SIDE {
        tasks.push(spawn.task(send_all(s.clone())));
        tasks.push(match part % 3 {
            0 => spawn.task(receive_all(r.clone())),
            1 => spawn.task(stream_all(r.clone())),
            _ => spawn.task(receive_by_halves(r.clone())),
        });
    }
    drop((s, r));
    assert_eq!(sum(tasks).await, ALL);
}

#[test]
fn many_to_many_through_small_channels() {
    on_both(|spawn| many_to_many(spawn, bounded(1)));
    on_both(|spawn| many_to_many(spawn, bounded(16)));
}

#[test]
fn many_to_many_through_an_unbounded_channel() {
    on_both(|spawn| many_to_many(spawn, unbounded()));
}

#[test]
fn tasks_and_threads_mixed() {
    on_both(|spawn| async move {
        let (s, r) = bounded(2);
        let tasks = (0..SIDE).map(|_| spawn.task(send_all(s.clone()))).collect();
        drop(s);
        let received = move || std::iter::from_fn(|| r.recv_blocking().ok()).sum::<u64>();
        let thread = thread::spawn(received);
        assert_eq!(sum(tasks).await, 0);
        assert_eq!(thread.join().unwrap(), ALL);
    });
}

#[test]
fn a_chain_of_tasks() {
    on_both(|spawn| async move {
        let (first, mut last) = bounded(1);
        let mut tasks = Vec::new();
        for _ in 0..20 {
            let (s, r) = bounded(1);
            let from = std::mem::replace(&mut last, r);
            tasks.push(spawn.task(async move {
                while let Ok(message) = from.recv().await {
                    s.send(message).await.unwrap();
                }
                0
            }));
        }
        tasks.push(spawn.task(send_all(first)));
        tasks.push(spawn.task(receive_all(last)));
        assert_eq!(sum(tasks).await, EACH * (EACH - 1) / 2);
    });
}

#[test]
fn closed_operations_end_with_the_last_receiver() {
    on_both(|spawn| async move {
        let (s, r) = bounded::<u64>(1);
        let wait = |s: Sender<u64>| async move {
            s.closed().await;
            u64::from(s.is_closed())
        };
        let tasks: Vec<_> = (0..SIDE).map(|_| spawn.task(wait(s.clone()))).collect();
        yield_now().await;
        drop((r.clone(), r));
        assert_eq!((sum(tasks).await, s.send(1).await), (SIDE, Err(SendError(1))));
    });
}
