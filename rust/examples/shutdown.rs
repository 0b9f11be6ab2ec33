//! Workers that end when no more jobs come: on threads, and as tasks.

use std::thread;

use futures_lite::future::{block_on, zip};
use vamorilesh::{bounded, Receiver};

/// Adds up jobs until the channel is closed and empty.
fn work(jobs: Receiver<u64>) -> u64 {
    let mut sum = 0;
    while let Ok(job) = jobs.recv_blocking() {
        sum += job;
    }
    sum
}

/// The same in a task.
async fn work_in_task(jobs: Receiver<u64>) -> u64 {
    let mut sum = 0;
    while let Ok(job) = jobs.recv().await {
        sum += job;
    }
    sum
}

fn on_threads() -> u64 {
    let (s, r) = bounded(16);
    let copies = [r.clone(), r.clone(), r];
    let workers = copies.map(|jobs| thread::spawn(move || work(jobs)));
    for job in 1..=100 {
        // An error if no worker is left: all receivers are theirs.
        s.send_blocking(job).unwrap();
    }
    // No more will come. What the channel holds is still received.
    drop(s);
    workers.map(|worker| worker.join().unwrap()).iter().sum()
}

async fn in_tasks() -> u64 {
    let (s, r) = bounded(16);
    let send = async move {
        for job in 1..=100 {
            s.send(job).await.unwrap();
        }
        // Here s is dropped.
    };
    let workers = zip(work_in_task(r.clone()), work_in_task(r));
    let ((), (one, two)) = zip(send, workers).await;
    one + two
}

fn main() {
    assert_eq!(on_threads(), 5050);
    assert_eq!(block_on(in_tasks()), 5050);
    println!("all jobs were done");
}
