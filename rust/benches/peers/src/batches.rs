//! Works of threads that send and receive many messages in one call.

use std::sync::Barrier;
use std::thread;

use crate::peers::{AsyncChannel, Batches, Crossbeam, Flume, Here, Peer};
use crate::threads::{over_all, timed, SIDE};
use crate::works::work;
use crate::{names, Work};

/// Messages of one thread's work, and of all threads' work. Each batch divides a thread's part.
const ONE: u64 = 204_800;
const ALL: u64 = 102_400;

/// A row for each size of a batch, on one kind of channel.
macro_rules! rows {
    ($channel:literal, $capacity:expr, of $($batch:literal)+) => {
        [
            $(work!(concat!("one to one, batches of ", $batch, ", ", $channel),
                single($capacity, $batch): AsyncChannel Here Flume Crossbeam),)+
            $(work!(concat!("four to four, batches of ", $batch, ", ", $channel),
                many($capacity, $batch): AsyncChannel Here Flume Crossbeam),)+
        ]
    };
}

pub fn all() -> Vec<Work> {
    let rows = [
        rows!("bounded(128)", Some(128), of 1 8 32 128),
        rows!("bounded(1024)", Some(1024), of 1 8 32 128),
        rows!("unbounded", None, of 1 8 32 128),
    ];
    rows.into_iter().flatten().collect()
}

/// The table of the page, of the times of each work on each peer.
pub fn print(time: impl Fn(&'static str, &'static str) -> f64) {
    println!("| Threads and channel | crossbeam | 8 | 32 | 128 | to single | to best |");
    println!("|---|---|---|---|---|---|---|");
    let names: Vec<_> = names(&all()).collect();
    for side in ["one to one", "four to four"] {
        for channel in ["bounded(128)", "bounded(1024)", "unbounded"] {
            let is_row = |name: &&str| name.starts_with(side) && name.ends_with(channel);
            let row: Vec<_> = names.iter().copied().filter(is_row).collect();
            let here: Vec<_> = row.iter().map(|work| time(work, Here::NAME)).collect();
            let theirs: Vec<_> = row.iter().map(|work| time(work, Crossbeam::NAME)).collect();
            let best = theirs.iter().copied().fold(f64::INFINITY, f64::min);
            let (single, many) = (theirs[0], here[2]);
            let batches: String = here[1..].iter().map(|time| format!("{time:.0} | ")).collect();
            let (to_single, to_best) = (many / single, many / best);
            println!(
                "| {side}, {channel} | {single:.0} | {batches}{to_single:.2} | {to_best:.2} |"
            );
        }
    }
}

/// Sends `count` messages in batches, and gives the sender up.
fn send<P: Batches>(tx: P::Tx, batch: usize, count: u64) {
    for first in (0..count).step_by(batch) {
        P::send_batch(&tx, first..first + batch as u64);
    }
}

/// Receives in batches until there are no senders.
fn receive<P: Batches>(mut rx: P::Rx, batch: usize) -> u64 {
    let (mut into, mut taken) = (Vec::with_capacity(batch), 0);
    while P::recv_batch(&mut rx, &mut into, batch) > 0 {
        taken += into.len() as u64;
        into.clear();
    }
    taken
}

fn single<P: Batches>(capacity: Option<usize>, batch: usize) -> f64 {
    run::<P>(capacity, batch, 1, ONE)
}

fn many<P: Batches>(capacity: Option<usize>, batch: usize) -> f64 {
    run::<P>(capacity, batch, SIDE, ALL)
}

/// So many threads on each side, and so many messages in all.
fn run<P: Batches>(capacity: Option<usize>, batch: usize, side: u64, count: u64) -> f64 {
    let (tx, rx) = P::make(capacity);
    let ready = &Barrier::new(2 * side as usize);
    thread::scope(|scope| {
        let (mut sends, mut receives) = (Vec::new(), Vec::new());
        for _ in 0..side {
            let (tx, rx) = (P::clone_tx(&tx), P::clone_rx(&rx));
            sends.push(scope.spawn(move || timed(ready, || send::<P>(tx, batch, count / side))));
            receives.push(scope.spawn(move || {
                let mut taken = 0;
                (timed(ready, || taken = receive::<P>(rx, batch)), taken)
            }));
        }
        drop((tx, rx));
        let mut spans: Vec<_> = sends.into_iter().map(|thread| thread.join().unwrap()).collect();
        let received: Vec<_> = receives.into_iter().map(|thread| thread.join().unwrap()).collect();
        assert!(received.iter().map(|(_, taken)| taken).sum::<u64>() == count);
        spans.extend(received.into_iter().map(|(span, _)| span));
        over_all(&spans, count)
    })
}
