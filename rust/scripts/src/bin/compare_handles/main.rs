//! Compares the crate's handles with the erased run, on random scripts of single calls and batches.
//!
//! Each line of a script is made by both. The answers have to be the same, with what a batch took
//! and what it left; so have those to all questions, and what comes out at the end. Those whom the
//! line tells in the run are those whom it wakes by a handle, in the same order, each by the waker
//! of its last poll.
//!
//! ```text
//! cargo run --release --bin compare_handles
//! ```

use std::collections::BTreeMap;
use std::fmt::Debug;
use std::process::ExitCode;

use vamorilesh::run::{Side, Step};

use handles::Handles;
use lines::{kinds_of, Line};
use runs::Runs;
use writer::Writer;

mod batches;
mod handles;
mod lines;
mod operations;
mod runs;
#[path = "../../../../tests/support/mod.rs"]
mod support;
mod writer;

/// How many scripts there are. The seed of each is its number.
const SCRIPTS: u64 = 10_000;

/// How many kinds of answers a batch can have.
const KINDS: usize = 80;

/// How many scripts that differ are printed.
const PRINTED: usize = 3;

/// The questions that any handle answers.
const QUESTIONS: [fn(Side) -> Step<u64>; 7] = [
    Step::IsClosed,
    Step::IsEmpty,
    Step::IsFull,
    Step::Len,
    Step::SenderCount,
    Step::ReceiverCount,
    Step::Capacity,
];

/// One script, made by the run and by the handles.
struct Script {
    writer: Writer,
    runs: Runs,
    handles: Handles,
    lines: Vec<Line>,
    /// How often each kind of answer came to a batch.
    kinds: BTreeMap<String, usize>,
}

impl Script {
    fn new(seed: u64) -> Script {
        let mut writer = Writer::new(seed);
        let kind = writer.kind();
        Script {
            writer,
            runs: Runs::new(kind),
            handles: Handles::new(kind, seed),
            lines: Vec::new(),
            kinds: BTreeMap::new(),
        }
    }

    /// Makes all lines. An error says what differs.
    fn run(&mut self) -> Result<(), String> {
        for _line in 0..self.writer.count() {
            let told = self.runs.waiting_told();
            if let Some(line) = self.writer.line(&self.handles, &told) {
                self.make(line)?;
                self.ask()?;
            }
        }
        // What is left comes out.
        let receiver = self.handles.receivers.keys().next().copied();
        receiver.map_or(Ok(()), |receiver| self.make(Line::TryIter { receiver, limit: usize::MAX }))
    }

    /// Makes a line on both, unless the run refuses it.
    fn make(&mut self, line: Line) -> Result<(), String> {
        let Some(expected) = self.runs.make(&line) else {
            return Ok(());
        };
        self.lines.push(line.clone());
        let answer = self.handles.make(&line);
        same("answer", &expected, &answer)?;
        let told: Vec<_> = self.runs.told().into_iter().map(|who| (who, true)).collect();
        for kind in kinds_of(&line, &expected, told.len()).into_iter().flatten() {
            *self.kinds.entry(kind).or_default() += 1;
        }
        same("told, by its last waker", &told, &self.handles.woken())
    }

    /// Asks all questions of a sender and of a receiver.
    fn ask(&mut self) -> Result<(), String> {
        let sender = self.handles.senders.keys().next().copied();
        let receiver = self.handles.receivers.keys().next().copied();
        let sides = sender.map(Side::Sender).into_iter().chain(receiver.map(Side::Receiver));
        let questions = sides.flat_map(|side| QUESTIONS.map(|question| question(side)));
        for step in questions.chain(receiver.map(Step::IsTerminated)) {
            let (expected, answer) = (self.runs.ask(step), self.handles.step(step));
            same("question", &(step, expected), &(step, answer))?;
        }
        Ok(())
    }
}

fn same<A: PartialEq + Debug>(what: &str, run: &A, handles: &A) -> Result<(), String> {
    if run == handles {
        return Ok(());
    }
    Err(format!("{what}:\n    by the run      {run:?}\n    by the handles  {handles:?}"))
}

/// What came of all scripts.
#[derive(Default)]
struct Sums {
    replies: usize,
    differences: usize,
    kinds: BTreeMap<String, usize>,
}

impl Sums {
    /// Makes a script, and prints what differs.
    fn add(&mut self, seed: u64) {
        let mut script = Script::new(seed);
        if let Err(difference) = script.run() {
            self.differences += 1;
            if self.differences <= PRINTED {
                println!("script {seed} differs, on a channel that is {:?}:", script.runs.kind);
                script.lines.iter().for_each(|line| println!("  {line:?}"));
                println!("  {difference}");
            }
        }
        self.replies += script.lines.len();
        for (kind, times) in script.kinds {
            *self.kinds.entry(kind).or_default() += times;
        }
    }
}

fn main() -> ExitCode {
    let mut sums = Sums::default();
    (0..SCRIPTS).for_each(|seed| sums.add(seed));
    let Sums { replies, differences, kinds } = sums;
    if std::env::args().nth(1).as_deref() == Some("--kinds") {
        kinds.iter().for_each(|(kind, times)| println!("{times:9} {kind}"));
    }
    println!(
        "{SCRIPTS} scripts, {replies} replies, {differences} differences; {} of {KINDS} kinds of \
         answers to batches came up",
        kinds.len()
    );
    if differences == 0 && kinds.len() == KINDS {
        ExitCode::SUCCESS
    } else {
        ExitCode::FAILURE
    }
}
