//! Makes random runs of single calls over async-channel and over the crate here, and compares them:
//! each answer, which messages each call drops, and what is left once all who were woken went on.
//!
//! Futures outlive their handles. Left out is what the crate's README says differs: batches, in which
//! order others are woken, a `closed` after a close by hand, and polls of a stream that nothing woke.

#[path = "../../tests/support/mod.rs"]
mod support;

use std::cell::RefCell;
use std::collections::BTreeSet;
use std::process::ExitCode;

const RUNS: u64 = 20_000;
const STEPS: usize = 120;
/// How many kinds of answers come up.
const KINDS: usize = 38;
/// The answer to a poll of an operation whose handle was given up.
const GONE: &str = "gone";

thread_local! {
    /// The messages that were dropped since this was taken last.
    static DROPPED: RefCell<Vec<usize>> = const { RefCell::new(Vec::new()) };
}

#[derive(Debug)]
struct Message(usize);

impl Drop for Message {
    fn drop(&mut self) {
        DROPPED.with(|dropped| dropped.borrow_mut().push(self.0));
    }
}

macro_rules! peer {
    ($peer:ident, $channel:ident) => {
        mod $peer {
            use crate::support::{poll_with, Count, Draw};
            use crate::{Message, DROPPED, GONE, STEPS};
            use futures_core::Stream;
            use std::future::Future;
            use std::pin::Pin;
            use std::sync::Arc;
            use std::task::{Context, Poll, Waker};
            use $channel::{Receiver, Sender, TrySendError, WeakReceiver, WeakSender};

            /// A handle, or nothing once it is given up. Its operations may outlive it.
            struct Slot<H>(*mut H);

            impl<H> Slot<H> {
                fn new(handle: H) -> Self {
                    Slot(Box::into_raw(Box::new(handle)))
                }
                fn get(&self) -> Option<&'static mut H> {
                    // SAFETY: it is there until it is given up, and used by this thread alone. Who
                    // polls a stream has no operation of its receiver.
                    unsafe { self.0.as_mut() }
                }
                fn give_up(&mut self) {
                    if !self.0.is_null() {
                        // SAFETY: it was made by `new`, and goes once.
                        drop(unsafe { Box::from_raw(std::mem::replace(&mut self.0, std::ptr::null_mut())) });
                    }
                }
            }

            struct Operation {
                future: Pin<Box<dyn Future<Output = String>>>,
                count: Arc<Count>,
                /// How often it was woken when it was polled last. None before, and once it is done.
                polled: Option<usize>,
                is_sends: bool,
                owner: usize,
                name: &'static str,
            }

            #[derive(Default)]
            struct World {
                senders: Vec<Slot<Sender<Message>>>,
                /// Each with the news at its stream's last poll.
                receivers: Vec<(Slot<Receiver<Message>>, usize)>,
                weak: Vec<(Option<WeakSender<Message>>, Option<WeakReceiver<Message>>)>,
                operations: Vec<Operation>,
                messages: usize,
                /// How often something came that wakes all streams.
                news: usize,
                trace: Vec<String>,
            }

            fn sent(answer: Result<(), TrySendError<Message>>) -> String {
                match answer {
                    Ok(()) => "ok".into(),
                    Err(TrySendError::Full(message)) => format!("full {}", message.0),
                    Err(TrySendError::Closed(message)) => format!("closed {}", message.0),
                }
            }

            impl World {
                fn message(&mut self) -> Message {
                    self.messages += 1;
                    Message(self.messages)
                }

                fn start(&mut self, name: &'static str, is_sends: bool, owner: usize,
                    future: Pin<Box<dyn Future<Output = String>>>) {
                    let count = Count::new();
                    let operation = Operation { future, count, polled: None, is_sends, owner, name };
                    self.operations.push(operation);
                }

                fn has_operation(&self, is_sends: bool, owner: usize) -> bool {
                    self.operations.iter().any(|one| (one.is_sends, one.owner) == (is_sends, owner))
                }

                fn poll(&mut self, at: usize) -> String {
                    let one = &mut self.operations[at];
                    let handle = match one.is_sends {
                        true => self.senders[one.owner].0.is_null(),
                        false => self.receivers[one.owner].0 .0.is_null(),
                    };
                    if handle {
                        return GONE.into();
                    }
                    one.polled = Some(one.count.woken());
                    let name = one.name;
                    match poll_with(&mut one.future, &Waker::from(one.count.clone())) {
                        Poll::Pending => format!("{name} pending"),
                        Poll::Ready(answer) => {
                            self.operations.swap_remove(at);
                            self.news += 1;
                            format!("{name} {answer}")
                        }
                    }
                }

                fn step(&mut self, draw: &mut Draw, closes: bool) -> Option<String> {
                    let sender = draw.below(self.senders.len());
                    let receiver = draw.below(self.receivers.len());
                    let (s, r) = (self.senders[sender].get(), self.receivers[receiver].0.get());
                    let answer = match draw.below(24) {
                        0..=3 => {
                            self.news += 1;
                            let message = self.message();
                            format!("try_send {}", sent(s?.try_send(message)))
                        }
                        4 => {
                            self.news += 1;
                            let message = self.message();
                            match s?.force_send(message) {
                                Ok(oldest) => format!("force_send {:?}", oldest.map(|one| one.0)),
                                Err(error) => format!("force_send closed {}", error.0 .0),
                            }
                        }
                        5..=7 => format!("try_recv {:?}", r?.try_recv().map(|one| one.0)),
                        8 if self.senders.len() < 6 => {
                            let copy = s?.clone();
                            self.senders.push(Slot::new(copy));
                            "clone s".into()
                        }
                        9 if self.receivers.len() < 6 => {
                            let copy = r?.clone();
                            self.receivers.push((Slot::new(copy), 0));
                            "clone r".into()
                        }
                        10 => {
                            self.news += 1;
                            self.senders[sender].give_up();
                            "drop s".into()
                        }
                        11 => {
                            self.news += 1;
                            self.receivers[receiver].0.give_up();
                            "drop r".into()
                        }
                        12 if closes => {
                            self.news += 1;
                            format!("close {}", s?.close())
                        }
                        12 => {
                            let wait = s?.closed();
                            self.start("closed", true, sender, Box::pin(async move {
                                wait.await;
                                "ready".into()
                            }));
                            "closed".into()
                        }
                        13 | 14 => {
                            let send = s?.send(self.message());
                            self.start("send", true, sender, Box::pin(async move {
                                match send.await {
                                    Ok(()) => "ok".into(),
                                    Err(error) => format!("closed {}", error.0 .0),
                                }
                            }));
                            "send".into()
                        }
                        15 | 16 => {
                            let receive = r?.recv();
                            self.start("recv", false, receiver, Box::pin(async move {
                                format!("{:?}", receive.await.map(|one| one.0))
                            }));
                            "recv".into()
                        }
                        17..=19 if !self.operations.is_empty() => {
                            let at = draw.below(self.operations.len());
                            self.poll(at)
                        }
                        20 if !self.operations.is_empty() => {
                            let at = draw.below(self.operations.len());
                            drop(self.operations.swap_remove(at));
                            "drop".into()
                        }
                        21 => self.next(receiver)?,
                        22 => {
                            self.weak.push((s.map(|s| s.downgrade()), r.map(|r| r.downgrade())));
                            "downgrade".into()
                        }
                        23 if !self.weak.is_empty() => {
                            let at = draw.below(self.weak.len());
                            let (ws, wr) = self.weak.swap_remove(at);
                            let s = ws.and_then(|weak| weak.upgrade());
                            let r = wr.and_then(|weak| weak.upgrade());
                            let answer = format!("upgrade {} {}", s.is_some(), r.is_some());
                            self.senders.extend(s.map(Slot::new));
                            self.receivers.extend(r.map(|r| (Slot::new(r), 0)));
                            answer
                        }
                        _ => return None,
                    };
                    Some(answer)
                }

                /// Polls a stream, unless it waits and nothing has woken it.
                fn next(&mut self, receiver: usize) -> Option<String> {
                    if self.has_operation(false, receiver) {
                        return None;
                    }
                    let (slot, polled) = &mut self.receivers[receiver];
                    if *polled == self.news + 1 {
                        return None;
                    }
                    *polled = self.news + 1;
                    // SAFETY: a receiver stays at its place until it is given up.
                    let stream = unsafe { Pin::new_unchecked(slot.get()?) };
                    let waker = Waker::from(Count::new());
                    let next = stream.poll_next(&mut Context::from_waker(&waker));
                    Some(format!("next {:?}", next.map(|one| one.map(|one| one.0))))
                }

                /// Notes an answer with the messages that were dropped for it, and all questions.
                fn note(&mut self, answer: String) {
                    let dropped = DROPPED.with(|dropped| std::mem::take(&mut *dropped.borrow_mut()));
                    let s = self.senders.iter().find_map(|slot| slot.get()).map(|s| {
                        (s.len(), s.is_full(), s.is_closed(), s.sender_count(), s.receiver_count())
                    });
                    let r = self.receivers.iter().find_map(|slot| slot.0.get());
                    let r = r.map(|r| (r.len(), r.is_empty(), r.is_closed(), r.capacity()));
                    self.trace.push(format!("{answer}; dropped {dropped:?}; {s:?} {r:?}"));
                }

                /// Polls those who were woken until nobody is, and says how many sends and receives wait.
                fn settle(&mut self) -> String {
                    loop {
                        let woken = |one: &Operation| one.polled.is_some_and(|at| at < one.count.woken());
                        match self.operations.iter().position(woken) {
                            Some(at) if self.poll(at) == GONE => drop(self.operations.swap_remove(at)),
                            Some(_) => {}
                            None => break,
                        }
                    }
                    let wait = |name| self.operations.iter().filter(|one| one.name == name && one.polled.is_some()).count();
                    format!("settle {:?}", ["send", "recv"].map(wait))
                }
            }

            /// What a run answers.
            pub fn run(seed: u64) -> Vec<String> {
                // What waits at the end of a run goes after it.
                DROPPED.with(|dropped| dropped.borrow_mut().clear());
                let mut draw = Draw::from_seed(seed);
                let (s, r) = match draw.below(4) {
                    0 => $channel::unbounded(),
                    capacity => $channel::bounded(capacity),
                };
                let mut world = World::default();
                world.senders.push(Slot::new(s));
                world.receivers.push((Slot::new(r), 0));
                for _ in 0..STEPS {
                    if let Some(answer) = world.step(&mut draw, seed % 2 == 0) {
                        world.note(answer);
                    }
                }
                let settled = world.settle();
                // Which of those who waited got which message is left open.
                DROPPED.with(|dropped| dropped.borrow_mut().clear());
                world.trace.push(settled);
                world.senders.iter_mut().for_each(Slot::give_up);
                world.receivers.iter_mut().for_each(|slot| slot.0.give_up());
                world.weak.clear();
                let left = DROPPED.with(|dropped| std::mem::take(&mut *dropped.borrow_mut()));
                world.trace.push(format!("with the last handle go {}", left.len()));
                world.trace
            }
        }
    };
}

peer!(original, async_channel);
peer!(here, vamorilesh);

fn main() -> ExitCode {
    let (mut differences, mut answers, mut kinds) = (0, 0, BTreeSet::new());
    for seed in 0..RUNS {
        let (expected, trace) = (original::run(seed), here::run(seed));
        answers += expected.len();
        for answer in &expected {
            let words = answer.split(';').next().unwrap_or_default();
            kinds.insert(words.replace(|letter: char| letter.is_ascii_digit(), ""));
        }
        if expected != trace {
            differences += 1;
            if differences <= 3 {
                println!("run {seed} differs:");
                let same = expected.iter().zip(&trace).take_while(|(a, b)| a == b).count();
                expected[..=same].iter().for_each(|answer| println!("  {answer}"));
                println!("  here: {}", trace[same]);
            }
        }
    }
    println!(
        "{RUNS} runs, {answers} answers, {differences} differences; {} of {KINDS} kinds",
        kinds.len()
    );
    if std::env::args().len() > 1 {
        kinds.iter().for_each(|kind| println!("{kind}"));
    }
    ExitCode::from(u8::from(differences > 0 || kinds.len() != KINDS))
}
