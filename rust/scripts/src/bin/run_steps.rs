//! How long a run takes for a step and to settle, with few names live and with many.
//!
//! It measures the erased run, which looks names and operations up in std's maps: what a step costs
//! may grow with the depth of a map, and never with the number of names.
//!
//! ```text
//! cargo run --release --bin run_steps
//! ```

use std::time::Instant;
use vamorilesh::run::{Global, Kind, Reply, Run, Side, Step};

/// How many steps are timed together, if they are made next to the names.
const STEPS: u64 = 1_000;
/// How often each is timed: the best time counts.
const ROUNDS: usize = 5;

/// What one step takes next to this many names, in nanoseconds.
type Measure = fn(u64) -> f64;

/// Makes a step that isn't refused.
fn make(run: &mut Run<u64>, step: Step<u64>) {
    assert!(!matches!(run.step(step), Reply::Refused(..)), "a step was refused");
}

fn new_run() -> Run<u64> {
    Run::new(Global, Kind::Unbounded).expect("a run takes no memory yet")
}

/// A run with this many senders besides its first.
fn with_senders(names: u64) -> Run<u64> {
    let mut run = new_run();
    for new in 1..=names {
        make(&mut run, Step::CloneSender { of: 0, new });
    }
    run
}

/// A run with this many receives of its first receiver, which all wait.
fn with_receives(names: u64) -> Run<u64> {
    let mut run = new_run();
    for op in 0..names {
        make(&mut run, Step::StartRecv { op, receiver: 0 });
        make(&mut run, Step::Poll(op));
    }
    run
}

/// A sender is copied, again and again.
fn copy_senders(names: u64) -> f64 {
    let start = Instant::now();
    let run = with_senders(names);
    let taken = each(start, names);
    drop(run);
    taken
}

/// Senders are given up, next to the operations of another.
fn drop_senders(names: u64) -> f64 {
    let mut run = with_senders(STEPS);
    for op in 0..names {
        make(&mut run, Step::StartSend { op, sender: 0, msg: op });
    }
    let start = Instant::now();
    for name in 1..=STEPS {
        make(&mut run, Step::DropSender(name));
    }
    each(start, STEPS)
}

/// The stream of a receiver is polled, next to the receives of another.
fn poll_stream(names: u64) -> f64 {
    let mut run = with_receives(names);
    make(&mut run, Step::CloneReceiver { of: 0, new: 1 });
    let start = Instant::now();
    for _ in 0..STEPS {
        make(&mut run, Step::PollNext(1));
    }
    each(start, STEPS)
}

/// A message goes in and out, next to senders.
fn send_and_receive(names: u64) -> f64 {
    let mut run = with_senders(names);
    let start = Instant::now();
    for message in 0..STEPS {
        make(&mut run, Step::TrySend(0, message));
        make(&mut run, Step::TryRecv(0));
    }
    each(start, STEPS)
}

/// Receives that wait are settled after a close. The time is that of one of them.
fn settle(names: u64) -> f64 {
    let mut run = with_receives(names);
    make(&mut run, Step::Close(Side::Receiver(0)));
    let start = Instant::now();
    let settled = run.settle();
    let taken = each(start, names);
    assert!(settled.is_ok(), "memory was refused");
    taken
}

/// The nanoseconds since the start, for each of these steps.
#[allow(clippy::cast_precision_loss)]
fn each(start: Instant, steps: u64) -> f64 {
    start.elapsed().as_nanos() as f64 / steps as f64
}

fn best(measure: Measure, names: u64) -> f64 {
    (0..ROUNDS).map(|_| measure(names)).fold(f64::INFINITY, f64::min)
}

fn main() {
    let works: [(&str, Measure); 5] = [
        ("a sender is copied", copy_senders),
        ("a sender is given up beside operations of another", drop_senders),
        ("a stream is polled beside receives of another", poll_stream),
        ("a message goes in and out", send_and_receive),
        ("a receive is settled after a close", settle),
    ];
    println!("| A step, in ns | 100 names | 10,000 | 100,000 |");
    println!("|---|---|---|---|");
    for (work, measure) in works {
        let [few, many, most] = [100, 10_000, 100_000].map(|names| best(measure, names));
        println!("| {work} | {few:.0} | {many:.0} | {most:.0} |");
    }
    let ratio = 2.0 * best(settle, 20_000) / best(settle, 10_000);
    println!("\nSettling 20,000 takes {ratio:.1} times as long as settling 10,000.");
}
