//! The run that judges: what it answers is what the handles have to answer.

use std::collections::{BTreeMap, BTreeSet};
use std::mem;
use std::task::Poll;

use vamorilesh::run::{Global, Kind, Notice, Reply, Run, Step, Who};

use crate::batches::Batch;
use crate::lines::{Answer, Line};

/// A run, and one that makes each batch in single steps, so that it shows in which order
/// a batch tells.
pub struct Runs {
    pub(crate) kind: Kind,
    pub(crate) run: Run<u64>,
    single: Run<u64>,
    /// All steps that `single` made.
    steps: Vec<Step<u64>>,
    /// All who may wait.
    names: Vec<Who>,
    /// The operations of many messages.
    pub(crate) batches: BTreeMap<u64, Batch>,
    /// The sends that have finished.
    pub(crate) finished: BTreeSet<u64>,
    /// Whom the last line told, in order.
    told: Vec<Who>,
}

impl Runs {
    pub fn new(kind: Kind) -> Runs {
        Runs {
            kind,
            run: new_run(kind),
            single: new_run(kind),
            steps: Vec::new(),
            names: vec![Who::Receiver(0)],
            batches: BTreeMap::new(),
            finished: BTreeSet::new(),
            told: Vec::new(),
        }
    }

    /// Makes a line. None if the run refuses it, or if a handle would block or panic.
    pub fn make(&mut self, line: &Line) -> Option<Answer> {
        match line {
            // The crate panics there.
            Line::One(Step::Poll(op)) if self.finished.contains(op) => None,
            Line::One(Step::Poll(op)) if self.batches.contains_key(op) => self.poll_batch(*op),
            Line::One(step) => self.make_one(*step),
            line => self.make_batch(line.clone()),
        }
    }

    /// The answer of a question.
    pub fn ask(&mut self, question: Step<u64>) -> Reply<u64> {
        self.run.step(question)
    }

    /// Those who were told and weren't polled since.
    pub fn waiting_told(&self) -> Vec<Who> {
        told_of(&self.run, &self.names)
    }

    /// Whom the last line told, in order.
    pub fn told(&mut self) -> Vec<Who> {
        let single = told_of(&self.single, &self.names);
        assert!(self.waiting_told() == single, "a batch tells whom its single steps tell");
        mem::take(&mut self.told)
    }

    fn make_one(&mut self, step: Step<u64>) -> Option<Answer> {
        let reply = self.step(step)?;
        match (step, &reply) {
            (Step::Poll(op), Reply::SendPolled(Poll::Ready(_))) => {
                self.finished.insert(op);
            }
            (Step::DropOp(op), _) => {
                self.batches.remove(&op);
            }
            _ => {}
        }
        Some(Answer::One(reply))
    }

    /// Makes a single step. None if it is refused.
    pub(crate) fn step(&mut self, step: Step<u64>) -> Option<Reply<u64>> {
        let reply = self.run.step(step);
        if matches!(reply, Reply::Refused(..)) {
            return None;
        }
        assert_eq!(self.step_single(step), reply, "a single step");
        Some(reply)
    }

    /// Makes a step of the run of single steps, and notes whom it tells.
    pub(crate) fn step_single(&mut self, step: Step<u64>) -> Reply<u64> {
        match step {
            Step::StartSend { op, .. }
            | Step::StartRecv { op, .. }
            | Step::StartClosed { op, .. } => self.names.push(Who::Op(op)),
            Step::CloneReceiver { new, .. } | Step::UpgradeReceiver { new, .. } => {
                self.names.push(Who::Receiver(new));
            }
            Step::DropOp(op) => self.names.retain(|who| *who != Who::Op(op)),
            Step::DropReceiver(name) => self.names.retain(|who| *who != Who::Receiver(name)),
            _ => {}
        }
        let before = told_of(&self.single, &self.names);
        let reply = self.single.step(step);
        self.steps.push(step);
        let mut newly = told_of(&self.single, &self.names);
        newly.retain(|who| !before.contains(who));
        let newly = if newly.len() > 1 { self.in_order(&newly) } else { newly };
        self.told.extend(newly);
        reply
    }

    /// Those whom the last single step told, in the order in which it told them: each kind in the
    /// order of its list, which is that in which settling polls them.
    fn in_order(&self, newly: &[Who]) -> Vec<Who> {
        let mut run = new_run(self.kind);
        for step in &self.steps {
            run.step(*step);
        }
        let mut kinds: [Vec<Who>; 4] = Default::default();
        while let Some((who, reply)) = run.poll_first_told() {
            let kind = match reply {
                Reply::SendPolled(_) => &mut kinds[0],
                Reply::RecvPolled(_) => &mut kinds[1],
                Reply::NextPolled(_) => &mut kinds[2],
                _ => &mut kinds[3],
            };
            if newly.contains(&who) && !kind.contains(&who) {
                kind.push(who);
            }
        }
        kinds.concat()
    }
}

fn new_run(kind: Kind) -> Run<u64> {
    Run::new(Global, kind).expect("memory isn't refused")
}

/// Those of the names who wait and were told.
fn told_of(run: &Run<u64>, names: &[Who]) -> Vec<Who> {
    names.iter().copied().filter(|who| run.notice_of(*who) == Notice::Told).collect()
}
