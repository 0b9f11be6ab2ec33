//! Calls that answer by a look and calls that make a step, beside one another: the answers and what is
//! left are those of some order of the rules.

use loom::model;
use vamorilesh::{bounded, Receiver, Sender, TryRecvError, TrySendError};

/// What a thread does at a channel of one place.
#[derive(Clone, Copy, Debug)]
enum Act {
    Send,
    Force,
    Receive,
    Close,
}

const ACTS: [Act; 4] = [Act::Send, Act::Force, Act::Receive, Act::Close];

/// What an act answers.
#[derive(Clone, Debug, PartialEq)]
enum Answer {
    Done(Option<u64>),
    Full,
    Empty,
    Closed,
}

/// A channel by the rules.
#[derive(Clone, Default)]
struct Rules {
    held: Option<u64>,
    closed: bool,
}

impl Rules {
    /// What an act answers whose message would be this one.
    fn act(&mut self, act: Act, message: u64) -> Answer {
        match act {
            Act::Receive => match self.held.take() {
                None if self.closed => Answer::Closed,
                None => Answer::Empty,
                taken => Answer::Done(taken),
            },
            _ if self.closed => Answer::Closed,
            Act::Send if self.held.is_some() => Answer::Full,
            Act::Send | Act::Force => Answer::Done(self.held.replace(message)),
            Act::Close => {
                self.closed = true;
                Answer::Done(None)
            }
        }
    }

    /// The answers of two threads' acts, and then of a receive, in each order.
    fn ends(&self, parts: [&[Act]; 2], answers: &[Vec<Answer>; 2]) -> Vec<Seen> {
        if parts.concat().is_empty() {
            return vec![(answers.clone(), self.clone().act(Act::Receive, 0))];
        }
        let mut ends = Vec::new();
        for thread in 0..2 {
            if let Some((act, later)) = parts[thread].split_first() {
                let (mut next, mut left, mut said) = (self.clone(), parts, answers.clone());
                left[thread] = later;
                said[thread].push(next.act(*act, message(thread, later)));
                ends.extend(next.ends(left, &said));
            }
        }
        ends
    }
}

/// The answers of each thread, and of a receive after them.
type Seen = ([Vec<Answer>; 2], Answer);

/// The message of a thread's act that so many more follow.
fn message(thread: usize, later: &[Act]) -> u64 {
    (2 * later.len() + thread) as u64
}

fn receive(r: &Receiver<u64>) -> Answer {
    match r.try_recv() {
        Ok(message) => Answer::Done(Some(message)),
        Err(TryRecvError::Empty) => Answer::Empty,
        Err(TryRecvError::Closed) => Answer::Closed,
    }
}

/// What a thread's acts answer.
fn acted(s: &Sender<u64>, r: &Receiver<u64>, thread: usize, acts: &[Act]) -> Vec<Answer> {
    let act = |(at, act): (usize, &Act)| {
        let message = message(thread, &acts[at + 1..]);
        match act {
            Act::Receive => receive(r),
            Act::Force => s.force_send(message).map_or(Answer::Closed, Answer::Done),
            Act::Close if s.close() => Answer::Done(None),
            Act::Close => Answer::Closed,
            Act::Send => match s.try_send(message) {
                Ok(()) => Answer::Done(None),
                Err(TrySendError::Full(_)) => Answer::Full,
                Err(TrySendError::Closed(_)) => Answer::Closed,
            },
        }
    };
    acts.iter().enumerate().map(act).collect()
}

#[test]
fn an_act_beside_two_acts() {
    let triples = ACTS.into_iter().flat_map(|one| ACTS.map(|two| [one, two]));
    for ([one, two], other) in triples.flat_map(|pair| ACTS.map(|other| (pair, other))) {
        for held in [None, Some(9)] {
            let rules = Rules { held, closed: false };
            let ends = rules.ends([&[one, two], &[other]], &Default::default());
            model(move || {
                let (s, r) = bounded(1);
                held.into_iter().for_each(|message| s.try_send(message).unwrap());
                let (other_s, other_r) = (s.clone(), r.clone());
                let beside = loom::thread::spawn(move || acted(&other_s, &other_r, 1, &[other]));
                let answers = [acted(&s, &r, 0, &[one, two]), beside.join().unwrap()];
                let seen = (answers, receive(&r));
                assert!(ends.contains(&seen), "{seen:?} of {one:?}, {two:?} beside {other:?}");
            });
        }
    }
}
