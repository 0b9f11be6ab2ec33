//! Batches on the run that judges. A handle makes a large one in rounds. Nobody comes in between
//! here, so that they are one batch of the run.

use std::collections::VecDeque;
use std::task::Poll;

use vamorilesh::run::{Global, Kind, Over, Reply, Side, Step};
use vamorilesh::{SendError, TryRecvError, TrySendError};

use crate::lines::{Answer, Line};
use crate::runs::Runs;

/// The run's own list of messages.
type List = Over<Vec<u64>>;

/// An operation of many messages. To the run it is a receive or a send of one.
pub enum Batch {
    Receive { receiver: u64, into: List, limit: usize },
    Send { sender: u64, left: VecDeque<u64>, sent: usize },
}

impl Runs {
    /// Makes a line that is no single step.
    pub(crate) fn make_batch(&mut self, line: Line) -> Option<Answer> {
        match line {
            Line::One(_) => unreachable!("it is no batch"),
            Line::TryRecvMany { receiver, before, limit } => {
                let mut into = list(before);
                let answer = self.receive(receiver, &mut into, limit)?;
                Some(Answer::TryReceived(answer, into.to_vec()))
            }
            Line::TrySendMany { sender, messages: mut from } => {
                let answer = self.send(sender, &mut from)?;
                Some(Answer::TrySent(answer, from.clone()))
            }
            Line::RecvManyBlocking { receiver, before, limit } => {
                self.receive_blocking(receiver, list(before), limit)
            }
            Line::SendManyBlocking { sender, messages } => self.send_blocking(sender, messages),
            Line::TryIter { receiver, limit } => {
                let mut into = list(Vec::new());
                let _ = self.receive(receiver, &mut into, limit)?;
                Some(Answer::Messages(into.to_vec()))
            }
            Line::StartRecvMany { op, receiver, before, limit } => {
                let batch = Batch::Receive { receiver, into: list(before), limit };
                self.start(Step::StartRecv { op, receiver }, op, batch)
            }
            Line::StartSendMany { op, sender, messages } => {
                let msg = first_of(&messages);
                let batch = Batch::Send { sender, left: messages, sent: 0 };
                self.start(Step::StartSend { op, sender, msg }, op, batch)
            }
            Line::IntoUnsent(op) => self.unsent(op),
        }
    }

    /// The run's batch, and as many single receives.
    fn receive(
        &mut self,
        receiver: u64,
        into: &mut List,
        limit: usize,
    ) -> Option<Result<usize, TryRecvError>> {
        let before = into.len();
        let answer = self.run.try_recv_many(receiver, into, limit).ok()?;
        for message in &into[before..] {
            let single = self.step_single(Step::TryRecv(receiver));
            assert_eq!(single, Reply::Received(Ok(*message)), "a batch takes in turn");
        }
        Some(answer)
    }

    /// The run's batch, and as many single sends.
    fn send(
        &mut self,
        sender: u64,
        from: &mut VecDeque<u64>,
    ) -> Option<Result<usize, TrySendError<()>>> {
        let messages = from.clone();
        let send = |from: &mut _| self.run.try_send_many(sender, from, usize::MAX);
        let answer = Over::lent(from, send).ok()?;
        for message in messages.iter().take(answer.unwrap_or(0)) {
            let single = self.step_single(Step::TrySend(sender, *message));
            assert_eq!(single, Reply::TrySent(Ok(())), "a batch sends in turn");
        }
        Some(answer)
    }

    /// A receive that doesn't wait. With a limit of 0 it makes no step.
    fn receive_blocking(&mut self, receiver: u64, mut into: List, limit: usize) -> Option<Answer> {
        let count = match limit {
            0 => 0,
            _ => match self.receive(receiver, &mut into, limit)? {
                Ok(count) => count,
                Err(TryRecvError::Closed) => 0,
                Err(TryRecvError::Empty) => return None,
            },
        };
        Some(Answer::Received(Poll::Ready(count), into.to_vec()))
    }

    /// A send that doesn't wait. With no message it makes no step.
    fn send_blocking(&mut self, sender: u64, mut from: VecDeque<u64>) -> Option<Answer> {
        let count = from.len();
        if count == 0 {
            return Some(Answer::Sent(Poll::Ready(Ok(())), 0));
        }
        if self.would_block(sender, count) {
            return None;
        }
        let sent = match self.send(sender, &mut from)? {
            Ok(_) => Ok(()),
            Err(_) => Err(from.clone()),
        };
        Some(Answer::Sent(Poll::Ready(sent), count - from.len()))
    }

    fn would_block(&mut self, sender: u64, count: usize) -> bool {
        let side = Side::Sender(sender);
        match (self.kind, self.ask(Step::IsClosed(side)), self.ask(Step::Len(side))) {
            (Kind::Bounded(capacity), Reply::Flag(false), Reply::Count(held)) => {
                held + count > capacity
            }
            _ => false,
        }
    }

    fn start(&mut self, step: Step<u64>, op: u64, batch: Batch) -> Option<Answer> {
        let reply = self.step(step)?;
        self.batches.insert(op, batch);
        Some(Answer::One(reply))
    }

    pub(crate) fn poll_batch(&mut self, op: u64) -> Option<Answer> {
        let mut batch = self.batches.remove(&op)?;
        let answer = match &mut batch {
            Batch::Receive { receiver, into, limit } => {
                let polled = self.poll_receive(op, *receiver, into, *limit);
                // While it is pending the list is lent.
                let list = if polled.is_ready() { into.to_vec() } else { Vec::new() };
                Answer::Received(polled, list)
            }
            Batch::Send { sender, left, sent } => {
                let before = left.len();
                let polled = self.poll_send(op, *sender, left);
                *sent += before - left.len();
                if polled.is_ready() {
                    self.finished.insert(op);
                }
                Answer::Sent(polled.map_err(|SendError(())| std::mem::take(left)), *sent)
            }
        };
        self.batches.insert(op, batch);
        Some(answer)
    }

    /// The poll of a receive of one, and a batch after it. With a limit of 0 it makes no step.
    fn poll_receive(
        &mut self,
        op: u64,
        receiver: u64,
        into: &mut List,
        limit: usize,
    ) -> Poll<usize> {
        if limit == 0 {
            return Poll::Ready(0);
        }
        match self.step(Step::Poll(op)) {
            Some(Reply::RecvPolled(Poll::Ready(Ok(message)))) => {
                into.extend([message]);
                let more = self.receive(receiver, into, limit - 1).expect("it is live");
                Poll::Ready(1 + more.unwrap_or(0))
            }
            Some(Reply::RecvPolled(Poll::Ready(Err(_)))) => Poll::Ready(0),
            _ => Poll::Pending,
        }
    }

    /// The poll of a send of the first message, and a batch after it. If some are left, the next
    /// one is a new send to the run.
    fn poll_send(
        &mut self,
        op: u64,
        sender: u64,
        left: &mut VecDeque<u64>,
    ) -> Poll<Result<(), SendError<()>>> {
        while !left.is_empty() {
            match self.step(Step::Poll(op)) {
                Some(Reply::SendPolled(Poll::Ready(Ok(())))) => {}
                Some(Reply::SendPolled(Poll::Ready(Err(_)))) => {
                    return Poll::Ready(Err(SendError(())));
                }
                _ => return Poll::Pending,
            }
            left.pop_front();
            let _ = self.send(sender, left);
            self.step(Step::DropOp(op));
            self.step(Step::StartSend { op, sender, msg: first_of(left) });
        }
        Poll::Ready(Ok(()))
    }

    /// A send is given up. None if the operation is none.
    fn unsent(&mut self, op: u64) -> Option<Answer> {
        let Some(Batch::Send { left, .. }) = self.batches.get(&op) else {
            return None;
        };
        let unsent = left.iter().copied().collect();
        self.batches.remove(&op);
        self.step(Step::DropOp(op))?;
        Some(Answer::Messages(unsent))
    }
}

fn list(messages: Vec<u64>) -> List {
    let mut list = List::new(Global);
    list.extend(messages);
    list
}

/// The first message. If there is none, one that is never sent.
fn first_of(messages: &VecDeque<u64>) -> u64 {
    messages.front().copied().unwrap_or(u64::MAX)
}
