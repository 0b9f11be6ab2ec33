//! Measures channels side by side: prints a table of times as ratios to `async-channel`.
//!
//!     cargo run --release [ROUNDS] [WORD..]      only works whose name has one of the words
//!     cargo run --release [ROUNDS] table NAME    one_thread, threads, one_processor, batches, waits,
//!                                                busy or calls, as docs/figures.txt has it
//!
//! Each round runs every work on every peer in turn, so that all share the machine's bad moments.
//! A ratio below 1 is faster than `async-channel`. After the ratio of the medians stands the one of
//! the least times, which other work on the machine disturbs less. Works of one thread are measured
//! by the time for which it had a processor; works of many count on a quiet machine.

mod batches;
mod calls;
mod peers;
mod threads;
mod waits;
mod works;

use std::collections::BTreeMap;

/// A peer's name, and its run of a work, which answers nanoseconds for each of the work's rows.
type Run = (&'static str, fn() -> Vec<f64>);

/// One piece of work, the names of its rows, and each peer that can do it.
pub struct Work {
    pub names: Vec<&'static str>,
    pub runs: Vec<Run>,
}

const BASE: &str = "async-channel";
const HERE: &str = "vamorilesh";
const LOCK: &str = include_str!(concat!(env!("CARGO_MANIFEST_DIR"), "/Cargo.lock"));

/// The version of a package that this program was built with.
fn version(package: &str) -> &'static str {
    let mut lines = LOCK.lines();
    let name = format!("name = \"{package}\"");
    lines.find(|line| *line == name);
    let version = lines.next().and_then(|line| line.split('"').nth(1));
    version.unwrap_or("unknown")
}

/// Nanoseconds of the rounds of a work on a peer.
#[derive(Clone, Copy)]
struct Times {
    least: f64,
    median: f64,
}

impl Times {
    fn of(mut times: Vec<f64>) -> Times {
        times.sort_by(f64::total_cmp);
        Times { least: times[0], median: times[times.len() / 2] }
    }
}

/// What was measured of each row and peer.
type Measured = BTreeMap<(&'static str, &'static str), Times>;

fn measure(works: &[Work], rounds: usize) -> Measured {
    let mut times = BTreeMap::<_, Vec<f64>>::new();
    for _ in 0..rounds {
        for work in works {
            for (peer, run) in &work.runs {
                for (name, time) in work.names.iter().zip(run()) {
                    times.entry((*name, *peer)).or_default().push(time);
                }
            }
        }
    }
    times.into_iter().map(|(key, times)| (key, Times::of(times))).collect()
}

/// The names of all rows.
fn names(works: &[Work]) -> impl Iterator<Item = &'static str> + '_ {
    works.iter().flat_map(|work| &work.names).copied()
}

fn print_table(works: &[Work], measured: &Measured) {
    println!("| Work | {BASE} {} | {HERE} | ratio | of the least |", version(BASE));
    println!("|---|---|---|---|---|");
    for name in names(works) {
        let (base, here) = (measured[&(name, BASE)], measured[&(name, HERE)]);
        let (ratio, least) = (here.median / base.median, here.least / base.least);
        let times = format!("{:.0} ns | {:.0} ns", base.median, here.median);
        println!("| {name} | {times} | {ratio:.2} | {least:.2} |");
    }
    let others = ["flume", "crossbeam-channel", "tokio"];
    println!("\n| Work | {} |", others.map(|peer| format!("{peer} {}", version(peer))).join(" | "));
    println!("|---|---|---|---|");
    for name in names(works) {
        let ratio = |peer| ratio(measured, name, peer);
        println!("| {name} | {} |", others.map(ratio).join(" | "));
    }
}

/// The median of a row and a peer as a ratio to that of `async-channel`, if the peer has it.
fn ratio(measured: &Measured, name: &'static str, peer: &'static str) -> String {
    let base = measured[&(name, BASE)].median;
    let times = measured.get(&(name, peer));
    times.map_or(String::new(), |times| format!("{:.2}", times.median / base))
}

/// A table as docs/figures.txt has it: nanoseconds of the crate, and ratios to `async-channel`.
fn print_rows(works: &[Work], measured: &Measured, here: &str) {
    println!("| Work | ns | {here} | flume | crossbeam | tokio |\n|---|---|---|---|---|---|");
    for name in names(works) {
        let ratio = |peer| ratio(measured, name, peer);
        let ratios = [HERE, "flume", "crossbeam-channel", "tokio"].map(ratio).join(" | ");
        println!("| {name} | {:.0} | {ratios} |", measured[&(name, HERE)].median);
    }
}

/// What stands above a table of times.
macro_rules! elapsed {
    () => {
        ": ns elapsed, and the same ratios."
    };
}

/// Each table: its works, how it is printed, and what stands above it.
fn print_of_page(name: &str, rounds: usize) {
    let (works, about) = match name {
        "one_thread" => (works::all(), "One thread: the crate's ns of processor time"),
        "threads" => (threads::all(), concat!("Threads, and tasks on tokio", elapsed!())),
        "one_processor" => (threads::crowds(), concat!("Threads on one processor", elapsed!())),
        "waits" => (
            waits::all(),
            "Threads that wait: ns of processor time a message, or what a row says, and the same \
             ratios. A worker of a pool selects among four receives, and a job takes it 2 µs.",
        ),
        "busy" => (
            waits::all(),
            "The same as for threads that wait, while as many other programs as there are processors \
             have one each.",
        ),
        "calls" => (
            calls::all(),
            "How long single calls take beside a thread of the other side, a `try_send` beside a \
             `try_recv` again and again: so many of a hundred take at most so many ns. Ratios are to \
             async-channel's.",
        ),
        "batches" => {
            (batches::all(), "Batches of 8, 32 and 128, by the blocking calls: ns a message")
        }
        _ => panic!("there is no table {name}"),
    };
    measure(&works, 1);
    let measured = measure(&works, rounds);
    let [flume, crossbeam, tokio] = ["flume", "crossbeam-channel", "tokio"].map(version);
    if name == "batches" {
        println!(
            "said: {about}, beside crossbeam-channel's single messages. Ratios are of batches of 32 \
             to these, and to its best (`try_iter` of 1, 8, 32 or 128)."
        );
        batches::print(|work, peer| measured[&(work, peer)].median);
        return;
    }
    if name == "calls" {
        println!("said: {about}");
        calls::print(&measured);
        return;
    }
    if name != "one_thread" {
        println!("said: {about}");
        print_rows(&works, &measured, "ratio");
        return;
    }
    println!(
        "said: {about}, and ratios to async-channel {} of the crate, flume {flume}, \
         crossbeam-channel {crossbeam} and tokio {tokio}'s mpsc.",
        version(BASE)
    );
    print_rows(&works, &measured, "here");
}

fn main() {
    let mut words: Vec<String> = std::env::args().skip(1).collect();
    let rounds = words.first().and_then(|word| word.parse().ok());
    if rounds.is_some() {
        words.remove(0);
    }
    let rounds = rounds.unwrap_or(7);
    if let [table, name] = &words[..] {
        if table == "table" {
            return print_of_page(name, rounds);
        }
    }
    let works = [works::all(), threads::all(), threads::crowds(), batches::all()];
    let waits = [waits::all(), calls::all()];
    let mut works = works.into_iter().chain(waits).flatten().collect::<Vec<_>>();
    if !words.is_empty() {
        works.retain(|work| words.iter().any(|word| work.names[0].contains(word.as_str())));
    }
    measure(&works, 1);
    let measured = measure(&works, rounds);
    print_table(&works, &measured);
}
