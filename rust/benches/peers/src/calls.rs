//! How long single calls take beside another thread's: half of them, all but one of a hundred and all
//! but one of a thousand take at most so long. What the clock takes is a part of it.

use std::sync::atomic::{AtomicBool, Ordering};
use std::thread;
use std::time::Instant;

use crate::peers::{AsyncChannel, Crossbeam, Flume, Here, Peer};
use crate::works::work;
use crate::{Measured, Work, BASE, HERE};

/// The work of a call on a kind of channel.
macro_rules! row {
    ($call:literal, $channel:literal, $run:ident $arguments:tt) => {
        work!(concat!($call, $channel), ["", ", 99th", ", 99.9th"], $run $arguments:
            AsyncChannel Here Flume Crossbeam)
    };
}

/// A work for each kind of channel.
macro_rules! rows {
    ($call:literal, $run:ident) => {
        [
            row!($call, ", bounded(1)", $run(Some(1), 20_000)),
            row!($call, ", bounded(4)", $run(Some(4), 20_000)),
            row!($call, ", bounded(16)", $run(Some(16), 50_000)),
            row!($call, ", bounded(64)", $run(Some(64), 50_000)),
            row!($call, ", bounded(128)", $run(Some(128), 50_000)),
            row!($call, ", bounded(1024)", $run(Some(1_024), 50_000)),
            row!($call, ", unbounded", $run(None, 50_000)),
        ]
    };
}

pub fn all() -> Vec<Work> {
    let rows = [
        rows!("`try_send`", try_sends),
        rows!("`send_blocking`", sends),
        rows!("`recv_blocking`", receives),
    ];
    rows.into_iter().flatten().collect()
}

/// The table of the page: a row for each work.
pub fn print(measured: &Measured) {
    println!(
        "| Call and channel | 50th | 99th | 99.9th | to 50th | to 99th | to 99.9th | flume, to 99.9th \
         | crossbeam, to 99.9th |"
    );
    println!("|---|---|---|---|---|---|---|---|---|");
    for work in all() {
        let time = |row: usize, peer| measured[&(work.names[row], peer)].median;
        let times = [0, 1, 2].map(|row| format!("{:.0}", time(row, HERE)));
        let ratio = |row, peer| format!("{:.2}", time(row, peer) / time(row, BASE));
        let [flume, crossbeam] = [Flume::NAME, Crossbeam::NAME].map(|peer| ratio(2, peer));
        let ratios = [0, 1, 2].map(|row| ratio(row, HERE)).join(" | ");
        println!(
            "| {} | {} | {ratios} | {flume} | {crossbeam} |",
            work.names[0],
            times.join(" | ")
        );
    }
}

/// How long each of so many calls takes: the 50th and the 99th of a hundred, and the 999th of a
/// thousand.
fn slowest(count: u64, mut call: impl FnMut(u64)) -> [f64; 3] {
    let timed = |message| {
        let start = Instant::now();
        call(message);
        start.elapsed().as_nanos() as f64
    };
    let mut times: Vec<f64> = (0..count).map(timed).collect();
    times.sort_by(f64::total_cmp);
    [500, 990, 999].map(|of_thousand| times[times.len() * of_thousand / 1_000])
}

/// Calls of `try_send`, eight times as many, beside a thread that receives without waiting.
fn try_sends<P: Peer>(capacity: Option<usize>, count: u64) -> [f64; 3] {
    let (tx, mut rx) = P::make(capacity);
    let done = &AtomicBool::new(false);
    thread::scope(|scope| {
        scope.spawn(move || {
            while !done.load(Ordering::Relaxed) {
                P::try_recv(&mut rx);
            }
        });
        let times = slowest(8 * count, |message| {
            P::try_send(&tx, message);
        });
        done.store(true, Ordering::Relaxed);
        times
    })
}

/// Sends that block beside a thread that receives and blocks.
fn sends<P: Peer>(capacity: Option<usize>, count: u64) -> [f64; 3] {
    let (tx, mut rx) = P::make(capacity);
    thread::scope(|scope| {
        scope.spawn(move || (0..count).for_each(|message| assert!(P::recv(&mut rx) == message)));
        slowest(count, |message| P::send(&tx, message))
    })
}

/// Receives that block beside a thread that sends and blocks.
fn receives<P: Peer>(capacity: Option<usize>, count: u64) -> [f64; 3] {
    let (tx, mut rx) = P::make(capacity);
    thread::scope(|scope| {
        scope.spawn(move || (0..count).for_each(|message| P::send(&tx, message)));
        slowest(count, |message| assert!(P::recv(&mut rx) == message))
    })
}
