//! What one lock allows: one thread fills a channel, then the other one drains it, and so on. They
//! never meet at the lock. So a message costs its two steps, one after the other, and the way of its
//! cache lines from one processor to the other.
//!
//!     cargo run --release --bin turns

use std::hint;
use std::sync::atomic::{AtomicUsize, Ordering};
use std::thread;
use std::time::Instant;

use vamorilesh::{bounded, Receiver, Sender};

const MESSAGES: usize = 2_000_000;
const ROUNDS: usize = 9;
const BATCH: usize = 32;

/// Does one side's turns, each after one of the other side.
fn take_turns(turn: &AtomicUsize, side: usize, turns: usize, mut work: impl FnMut()) {
    for own in (0..turns).map(|it| 2 * it + side) {
        while turn.load(Ordering::Acquire) != own {
            hint::spin_loop();
        }
        work();
        turn.store(own + 1, Ordering::Release);
    }
}

/// Nanoseconds a message, the middle of the rounds. The calls are made so often that each fills the
/// channel, or drains it.
fn time(
    places: usize,
    calls: usize,
    send: impl Fn(&Sender<u64>) + Copy + Send,
    recv: impl Fn(&Receiver<u64>) + Copy,
) -> f64 {
    let turns = MESSAGES / places;
    let round = |_| {
        let (tx, rx) = bounded(places);
        let turn = &AtomicUsize::new(0);
        let start = Instant::now();
        thread::scope(|scope| {
            scope.spawn(move || take_turns(turn, 0, turns, || (0..calls).for_each(|_| send(&tx))));
            take_turns(turn, 1, turns, || (0..calls).for_each(|_| recv(&rx)));
        });
        start.elapsed().as_nanos() as f64 / (turns * places) as f64
    };
    let mut times: Vec<f64> = (0..ROUNDS).map(round).collect();
    times.sort_by(f64::total_cmp);
    times[ROUNDS / 2]
}

fn main() {
    println!("| Places | one by one, ns a message | in batches of {BATCH} |");
    println!("|---|---|---|");
    for places in [128, 1024] {
        let one = time(places, places, |tx| tx.try_send(7).unwrap(), |rx| {
            assert_eq!(rx.try_recv(), Ok(7));
        });
        let send = |tx: &Sender<u64>| tx.send_many_blocking(0..BATCH as u64).unwrap();
        let recv = |rx: &Receiver<u64>| {
            let mut into = Vec::with_capacity(BATCH);
            assert_eq!(rx.recv_many_blocking(&mut into, BATCH), BATCH);
        };
        let many = time(places, places / BATCH, send, recv);
        println!("| {places} | {one:.0} | {many:.0} |");
    }
}
