//! A channel of the crate, whose handles and operations have names.

use std::collections::BTreeMap;
use std::pin::Pin;
use std::rc::Rc;
use std::task::{Context, Poll, Waker};

use futures_core::stream::{FusedStream, Stream};
use vamorilesh::run::{Kind, Reply, Side, Step, Who};
use vamorilesh::{bounded, unbounded, Receiver, SendError, Sender, WeakReceiver, WeakSender};

use crate::lines::{Answer, Line};
use crate::operations::Operation;
use crate::support::{Draw, Log};

/// All that is live. Names are those of the run. What the run refuses isn't asked of it.
pub struct Handles {
    pub senders: BTreeMap<u64, Rc<Sender<u64>>>,
    pub receivers: BTreeMap<u64, Rc<Receiver<u64>>>,
    pub weak_senders: BTreeMap<u64, WeakSender<u64>>,
    pub weak_receivers: BTreeMap<u64, WeakReceiver<u64>>,
    pub operations: BTreeMap<u64, Operation>,
    wakers: Wakers,
}

/// The answer of a question, by the handle that is asked.
macro_rules! ask {
    ($handles:expr, $side:expr, $question:ident) => {
        match $side {
            Side::Sender(name) => $handles.senders[&name].$question(),
            Side::Receiver(name) => $handles.receivers[&name].$question(),
        }
    };
}

impl Handles {
    pub fn new(kind: Kind, seed: u64) -> Handles {
        let (s, r) = match kind {
            Kind::Bounded(capacity) => bounded(capacity),
            Kind::Unbounded => unbounded(),
        };
        Handles {
            senders: [(0, Rc::new(s))].into(),
            receivers: [(0, Rc::new(r))].into(),
            weak_senders: BTreeMap::new(),
            weak_receivers: BTreeMap::new(),
            operations: BTreeMap::new(),
            wakers: Wakers::new(seed),
        }
    }

    /// Those who were woken since this was asked last, in order, each with whether its waker was
    /// that of its last poll.
    pub fn woken(&mut self) -> Vec<(Who, bool)> {
        self.wakers.woken()
    }

    /// Makes the call of a line.
    pub fn make(&mut self, line: &Line) -> Answer {
        match line.clone() {
            Line::One(Step::Poll(op)) => self.poll(op),
            Line::One(step) => Answer::One(self.step(step)),
            Line::TryRecvMany { receiver, before, limit } => {
                let mut into = with_room(before);
                let answer = self.receivers[&receiver].try_recv_many(&mut into, limit);
                Answer::TryReceived(answer, into)
            }
            Line::TrySendMany { sender, messages: mut from } => {
                let answer = self.senders[&sender].try_send_many(&mut from);
                Answer::TrySent(answer, from)
            }
            Line::RecvManyBlocking { receiver, before, limit } => {
                let mut into = with_room(before);
                let count = self.receivers[&receiver].recv_many_blocking(&mut into, limit);
                Answer::Received(Poll::Ready(count), into)
            }
            Line::SendManyBlocking { sender, messages } => {
                let count = messages.len();
                let sent = self.senders[&sender].send_many_blocking(messages);
                let sent = sent.map_err(SendError::into_inner);
                let left = sent.as_ref().map_or_else(|left| left.len(), |()| 0);
                Answer::Sent(Poll::Ready(sent), count - left)
            }
            Line::TryIter { receiver, limit } => {
                Answer::Messages(self.receivers[&receiver].try_iter().take(limit).collect())
            }
            line => self.operate(line),
        }
    }

    /// Begins an operation of many messages, or gives one up.
    fn operate(&mut self, line: Line) -> Answer {
        let (op, operation) = match line {
            Line::StartRecvMany { op, receiver, before, limit } => {
                let (receiver, into) = (self.receivers[&receiver].clone(), with_room(before));
                (op, Operation::recv_many(receiver, into, limit))
            }
            Line::StartSendMany { op, sender, messages } => {
                (op, Operation::send_many(self.senders[&sender].clone(), messages))
            }
            Line::IntoUnsent(op) => return taken(&mut self.operations, op).into_unsent(),
            _ => unreachable!("no other line operates"),
        };
        self.operations.insert(op, operation);
        Answer::One(Reply::Done)
    }

    /// Polls an operation. A batch that lets others run has woken itself, and is polled again:
    /// nobody comes in between here.
    fn poll(&mut self, op: u64) -> Answer {
        let who = Who::Op(op);
        let waker = self.wakers.of(who);
        let operation = self.operations.get_mut(&op).expect("it is live");
        loop {
            let answer = operation.poll(&waker);
            if !is_pending_batch(&answer) || !self.wakers.forget_last(who) {
                return answer;
            }
        }
    }

    /// Makes a single step, but no poll of an operation.
    pub fn step(&mut self, step: Step<u64>) -> Reply<u64> {
        match step {
            Step::TrySend(sender, message) => {
                Reply::TrySent(self.senders[&sender].try_send(message))
            }
            Step::ForceSend(sender, message) => {
                Reply::Forced(self.senders[&sender].force_send(message))
            }
            Step::TryRecv(receiver) => Reply::Received(self.receivers[&receiver].try_recv()),
            Step::PollNext(receiver) => self.poll_next(receiver),
            Step::Close(side) => Reply::Flag(ask!(self, side, close)),
            Step::IsClosed(side) => Reply::Flag(ask!(self, side, is_closed)),
            Step::IsEmpty(side) => Reply::Flag(ask!(self, side, is_empty)),
            Step::IsFull(side) => Reply::Flag(ask!(self, side, is_full)),
            Step::Len(side) => Reply::Count(ask!(self, side, len)),
            Step::SenderCount(side) => Reply::Count(ask!(self, side, sender_count)),
            Step::ReceiverCount(side) => Reply::Count(ask!(self, side, receiver_count)),
            Step::Capacity(side) => Reply::Capacity(ask!(self, side, capacity)),
            Step::IsTerminated(receiver) => Reply::Flag(self.receivers[&receiver].is_terminated()),
            Step::UpgradeSender { of, new } => self.upgrade_sender(of, new),
            Step::UpgradeReceiver { of, new } => self.upgrade_receiver(of, new),
            step => {
                self.rename(step);
                Reply::Done
            }
        }
    }

    fn poll_next(&mut self, receiver: u64) -> Reply<u64> {
        let waker = self.wakers.of(Who::Receiver(receiver));
        let stream = self.receivers.get_mut(&receiver).and_then(Rc::get_mut);
        let stream = Pin::new(stream.expect("no receive borrows it"));
        Reply::NextPolled(stream.poll_next(&mut Context::from_waker(&waker)))
    }

    fn upgrade_sender(&mut self, of: u64, new: u64) -> Reply<u64> {
        let upgraded = self.weak_senders[&of].upgrade().map(Rc::new);
        let is_raised = upgraded.is_some();
        self.senders.extend(upgraded.map(|sender| (new, sender)));
        Reply::Upgraded(is_raised)
    }

    fn upgrade_receiver(&mut self, of: u64, new: u64) -> Reply<u64> {
        let upgraded = self.weak_receivers[&of].upgrade().map(Rc::new);
        let is_raised = upgraded.is_some();
        self.receivers.extend(upgraded.map(|receiver| (new, receiver)));
        Reply::Upgraded(is_raised)
    }

    /// Makes a name, or gives one up.
    fn rename(&mut self, step: Step<u64>) {
        match step {
            Step::CloneSender { of, new } => {
                let copy = Sender::clone(&self.senders[&of]);
                self.senders.insert(new, Rc::new(copy));
            }
            Step::CloneReceiver { of, new } => {
                let copy = Receiver::clone(&self.receivers[&of]);
                self.receivers.insert(new, Rc::new(copy));
            }
            Step::CloneWeakSender { of, new } => {
                self.weak_senders.insert(new, self.weak_senders[&of].clone());
            }
            Step::CloneWeakReceiver { of, new } => {
                self.weak_receivers.insert(new, self.weak_receivers[&of].clone());
            }
            Step::DowngradeSender { of, new } => {
                self.weak_senders.insert(new, self.senders[&of].downgrade());
            }
            Step::DowngradeReceiver { of, new } => {
                self.weak_receivers.insert(new, self.receivers[&of].downgrade());
            }
            Step::DropSender(name) => drop(sole(taken(&mut self.senders, name))),
            Step::DropReceiver(name) => drop(sole(taken(&mut self.receivers, name))),
            Step::DropWeakSender(name) => drop(taken(&mut self.weak_senders, name)),
            Step::DropWeakReceiver(name) => drop(taken(&mut self.weak_receivers, name)),
            step => self.rename_operation(step),
        }
    }

    fn rename_operation(&mut self, step: Step<u64>) {
        let (op, operation) = match step {
            Step::StartSend { op, sender, msg } => {
                (op, Operation::send(self.senders[&sender].clone(), msg))
            }
            Step::StartRecv { op, receiver } => {
                (op, Operation::recv(self.receivers[&receiver].clone()))
            }
            Step::StartClosed { op, sender } => {
                (op, Operation::closed(self.senders[&sender].clone()))
            }
            Step::DropOp(op) => return drop(taken(&mut self.operations, op)),
            _ => unreachable!("no other step makes a name"),
        };
        self.operations.insert(op, operation);
    }
}

fn is_pending_batch(answer: &Answer) -> bool {
    matches!(answer, Answer::Received(Poll::Pending, _) | Answer::Sent(Poll::Pending, _))
}

/// A list that has room for the first few messages, and none for many.
fn with_room(before: Vec<u64>) -> Vec<u64> {
    let mut list = Vec::with_capacity(4);
    list.extend(before);
    list
}

/// Takes out what is live under a name.
fn taken<V>(live: &mut BTreeMap<u64, V>, name: u64) -> V {
    live.remove(&name).expect("it is live")
}

/// A handle that no operation has.
fn sole<H>(handle: Rc<H>) -> H {
    Rc::into_inner(handle).expect("no operation borrows it")
}

/// The wakers of those who were polled. Each has a number, which it logs when it is woken.
struct Wakers {
    log: Log,
    draw: Draw,
    /// Whose waker is which, by its number.
    whose: Vec<Who>,
    /// The last one of each who was polled, with its number.
    last: Vec<(Who, usize, Waker)>,
}

impl Wakers {
    fn new(seed: u64) -> Wakers {
        let (log, draw) = (Log::default(), Draw::from_seed(seed));
        Wakers { log, draw, whose: Vec::new(), last: Vec::new() }
    }

    /// A waker for a poll: the last one's, or a new one.
    fn of(&mut self, who: Who) -> Waker {
        let place = self.last.iter().position(|(last, ..)| *last == who);
        if let Some(place) = place {
            if self.draw.below(2) == 0 {
                return self.last[place].2.clone();
            }
            self.last.swap_remove(place);
        }
        let number = self.whose.len();
        let waker = self.log.waker(number);
        self.whose.push(who);
        self.last.push((who, number, waker.clone()));
        waker
    }

    /// Forgets the last waking if it was by the last waker of this one, and says whether it was.
    fn forget_last(&self, who: Who) -> bool {
        let last = self.last.iter().find(|(last, ..)| *last == who);
        last.is_some_and(|(_, number, _)| self.log.forget_last(*number))
    }

    fn woken(&mut self) -> Vec<(Who, bool)> {
        let is_last = |number: &usize| self.last.iter().any(|(_, last, _)| last == number);
        let numbers = self.log.take();
        numbers.iter().map(|number| (self.whose[*number], is_last(number))).collect()
    }
}
