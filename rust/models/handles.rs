//! Copies, drops, upgrades and closes of two threads: the answers and the numbers of
//! handles are those of some order of the rules.

use loom::model;
use vamorilesh::{unbounded, Receiver, Sender};

/// What a thread does with the handles of its side.
#[derive(Clone, Copy, Debug)]
enum Act {
    Copy,
    Drop,
    Upgrade,
    Close,
}

const ACTS: [Act; 4] = [Act::Copy, Act::Drop, Act::Upgrade, Act::Close];
const SENDERS: usize = 0;
const RECEIVERS: usize = 1;

/// What a thread does: its side, and one act after the other.
type Part = (usize, Vec<Act>);

/// What can be seen at last: the answers of each thread, the numbers of senders and receivers, and
/// whether the channel is closed.
#[derive(Clone, Debug, PartialEq)]
struct Seen {
    answers: [Vec<bool>; 2],
    counts: [usize; 2],
    closed: bool,
}

/// A channel by the rules, with two threads that each begin with one handle.
#[derive(Clone)]
struct Rules {
    seen: Seen,
    /// How many handles each thread has.
    held: [usize; 2],
}

impl Rules {
    fn act(&mut self, thread: usize, side: usize, act: Act) {
        let Seen { answers, counts, closed } = &mut self.seen;
        let (count, held) = (&mut counts[side], &mut self.held[thread]);
        match act {
            Act::Copy if *held > 0 => (*count, *held) = (*count + 1, *held + 1),
            Act::Drop if *held > 0 => {
                (*count, *held) = (*count - 1, *held - 1);
                *closed |= *count == 0;
            }
            Act::Close if *held > 0 => answers[thread].push(!std::mem::replace(closed, true)),
            Act::Copy | Act::Drop | Act::Close => {}
            Act::Upgrade => {
                answers[thread].push(!*closed);
                let raised = usize::from(!*closed);
                (*count, *held) = (*count + raised, *held + raised);
            }
        }
    }

    /// What may be seen after both parts, in whatever order.
    fn ends(&self, parts: &[(usize, &[Act]); 2]) -> Vec<Seen> {
        if parts.iter().all(|(_, acts)| acts.is_empty()) {
            return vec![self.seen.clone()];
        }
        let mut ends = Vec::new();
        for thread in 0..2 {
            let (side, acts) = parts[thread];
            if let Some((act, later)) = acts.split_first() {
                let (mut next, mut left) = (self.clone(), *parts);
                next.act(thread, side, *act);
                left[thread] = (side, later);
                ends.extend(next.ends(&left));
            }
        }
        ends
    }
}

/// Upgrades a weak handle.
type Weak = Box<dyn Fn() -> Option<Box<dyn Handle>>>;

trait Handle {
    fn copy(&self) -> Box<dyn Handle>;
    fn weak(&self) -> Weak;
    fn close(&self) -> bool;
    /// The numbers of senders and receivers, and whether the channel is closed.
    fn seen(&self) -> ([usize; 2], bool);
}

macro_rules! handle {
    ($handle:ident) => {
        impl Handle for $handle<u64> {
            fn copy(&self) -> Box<dyn Handle> {
                Box::new(self.clone())
            }
            fn weak(&self) -> Weak {
                let weak = self.downgrade();
                Box::new(move || Some(Box::new(weak.upgrade()?)))
            }
            fn close(&self) -> bool {
                self.close()
            }
            fn seen(&self) -> ([usize; 2], bool) {
                ([self.sender_count(), self.receiver_count()], self.is_closed())
            }
        }
    };
}

handle!(Sender);
handle!(Receiver);

/// What the acts answer, and the handles that they leave.
fn acted(handle: Box<dyn Handle>, acts: Vec<Act>) -> (Vec<bool>, Vec<Box<dyn Handle>>) {
    let weak = handle.weak();
    let (mut held, mut answers) = (vec![handle], Vec::new());
    for act in acts {
        match act {
            Act::Copy => held.extend(held.last().map(|own| own.copy())),
            Act::Drop => drop(held.pop()),
            Act::Close => answers.extend(held.last().map(|own| own.close())),
            Act::Upgrade => {
                let raised = weak();
                answers.push(raised.is_some());
                held.extend(raised);
            }
        }
    }
    (answers, held)
}

/// What may be seen of two threads at a channel that has `others` more handles on each side.
fn ends(parts: &[Part; 2], others: usize, is_closed: bool) -> Vec<Seen> {
    let counts = [SENDERS, RECEIVERS]
        .map(|side| others + parts.iter().filter(|(own, _)| *own == side).count());
    let closed = is_closed || counts.contains(&0);
    let seen = Seen { answers: Default::default(), counts, closed };
    let parts = [0, 1].map(|thread: usize| (parts[thread].0, &parts[thread].1[..]));
    Rules { seen, held: [1, 1] }.ends(&parts)
}

/// Two threads at a channel that has `others` more handles on each side.
fn try_out(parts: [Part; 2], others: usize, is_closed: bool) {
    let ends = ends(&parts, others, is_closed);
    model(move || {
        let (s, r) = unbounded::<u64>();
        if is_closed {
            s.close();
        }
        let [one, other] = parts.clone().map(|(side, acts)| {
            let own = if side == SENDERS { s.copy() } else { r.copy() };
            move || acted(own, acts)
        });
        let weak = [s.weak(), r.weak()];
        let copies = |handle: &dyn Handle| (0..others).map(|_| handle.copy()).collect::<Vec<_>>();
        let mut left = [copies(&s), copies(&r)];
        drop((s, r));
        let other = loom::thread::spawn(other);
        let both = [one(), other.join().unwrap()];
        let answers = [0, 1].map(|thread: usize| both[thread].0.clone());
        for ((_, held), (side, _)) in both.into_iter().zip(&parts) {
            left[*side].extend(held);
        }
        // Without any handle a channel is closed if none can be upgraded.
        let look = |left: &[Vec<Box<dyn Handle>>; 2]| match left.iter().flatten().next() {
            Some(handle) => handle.seen(),
            None => ([0, 0], weak.iter().all(|weak| weak().is_none())),
        };
        let (counts, closed) = look(&left);
        let seen = Seen { answers, counts, closed };
        assert!(ends.contains(&seen), "{seen:?} after {parts:?}");
        left[parts[0].0].clear();
        assert!(look(&left).1, "open without a handle of a side after {parts:?}");
    });
}

const SIDES: [[usize; 2]; 3] = [[SENDERS, SENDERS], [SENDERS, RECEIVERS], [RECEIVERS, RECEIVERS]];

/// Every pair of acts.
fn pairs() -> impl Iterator<Item = [Act; 2]> {
    ACTS.into_iter().flat_map(|one| ACTS.map(|other| [one, other]))
}

#[test]
fn an_act_beside_an_act_on_open_and_closed_channels() {
    for [one, other] in SIDES {
        for [first, second] in pairs() {
            for (others, is_closed) in [(0, false), (0, true), (1, false), (1, true)] {
                try_out([(one, vec![first]), (other, vec![second])], others, is_closed);
            }
        }
    }
}

#[test]
fn an_act_beside_two_acts_of_the_last_handle() {
    for [one, other] in SIDES {
        for both in pairs() {
            for act in ACTS {
                try_out([(one, both.to_vec()), (other, vec![act])], 0, false);
            }
        }
    }
}
