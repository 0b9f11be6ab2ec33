//! The lines of a script, and what answers them.

use std::collections::VecDeque;
use std::fmt::Debug;
use std::task::Poll;

use vamorilesh::run::{Reply, Step};
use vamorilesh::{TryRecvError, TrySendError, ROUND_LIMIT};

/// One call, by the names of its handles and operations.
///
/// A receive of many puts its messages after those that are `before` in its list.
#[derive(Clone, Debug)]
pub enum Line {
    /// A single step.
    One(Step<u64>),
    TryRecvMany {
        receiver: u64,
        before: Vec<u64>,
        limit: usize,
    },
    TrySendMany {
        sender: u64,
        messages: VecDeque<u64>,
    },
    RecvManyBlocking {
        receiver: u64,
        before: Vec<u64>,
        limit: usize,
    },
    SendManyBlocking {
        sender: u64,
        messages: VecDeque<u64>,
    },
    /// Takes so many from an iterator over what is there.
    TryIter {
        receiver: u64,
        limit: usize,
    },
    /// A receive of many begins. It is polled and given up by single steps.
    StartRecvMany {
        op: u64,
        receiver: u64,
        before: Vec<u64>,
        limit: usize,
    },
    /// A send of many begins. It is polled and given up by single steps.
    StartSendMany {
        op: u64,
        sender: u64,
        messages: VecDeque<u64>,
    },
    /// A send of many is given up for the messages that haven't gone in.
    IntoUnsent(u64),
}

/// What a line answers.
#[derive(Debug, PartialEq)]
pub enum Answer {
    One(Reply<u64>),
    /// To `TryRecvMany`, with the whole list.
    TryReceived(Result<usize, TryRecvError>, Vec<u64>),
    /// To `TrySendMany`, with what is left.
    TrySent(Result<usize, TrySendError<()>>, VecDeque<u64>),
    /// To a poll of a receive of many, or one that blocks, with the whole list if it is ready.
    Received(Poll<usize>, Vec<u64>),
    /// To a poll of a send of many, or one that blocks, with how many went in.
    Sent(Poll<Result<(), VecDeque<u64>>>, usize),
    /// To `TryIter`: what came. To `IntoUnsent`: what hasn't gone in.
    Messages(Vec<u64>),
}

/// Which kind of answer a batch has, and how many it tells. None if the line is no batch.
pub fn kinds_of(line: &Line, answer: &Answer, told: usize) -> Option<[String; 2]> {
    let call = match line {
        Line::One(Step::Poll(_)) => "poll of",
        Line::RecvManyBlocking { .. } | Line::SendManyBlocking { .. } => "blocking",
        Line::IntoUnsent(_) => "into_unsent of",
        _ => "try",
    };
    let (batch, came) = match answer {
        Answer::One(_) => return None,
        Answer::TryReceived(answer, _) => ("recv_many", of_result(answer)),
        Answer::TrySent(answer, left) => ("send_many", of_result(answer) + of_left(left.len())),
        Answer::Received(Poll::Ready(count), _) => ("recv_many", of_count(*count)),
        Answer::Received(Poll::Pending, _) => ("recv_many", "pending".into()),
        Answer::Sent(Poll::Ready(Ok(())), count) => ("send_many", of_count(*count)),
        Answer::Sent(Poll::Ready(Err(_)), count) => ("send_many", of_count(*count) + ", closed"),
        Answer::Sent(Poll::Pending, count) => ("send_many", of_count(*count) + ", pending"),
        Answer::Messages(messages) => ("messages", of_count(messages.len())),
    };
    Some([format!("{call} {batch}: {came}"), format!("{call} {batch} tells {}", of_count(told))])
}

fn of_result<E: Debug>(answer: &Result<usize, E>) -> String {
    answer.as_ref().map_or_else(|error| format!("{error:?}"), |count| of_count(*count))
}

fn of_left(count: usize) -> &'static str {
    if count == 0 {
        ""
    } else {
        ", some left"
    }
}

fn of_count(count: usize) -> String {
    let count = match count {
        0 => "none",
        1 => "one",
        2..=ROUND_LIMIT => "several",
        _ => "rounds",
    };
    count.into()
}
