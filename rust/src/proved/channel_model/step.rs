// Taken out of crates/channel_model/src/step.rt by tools/erase. Change that file, not this one.
//! Steps by any party on a channel, and their replies.
//!
//! One step is one call on the channel's whole state, made while nobody else makes one. So a list
//! of steps is any way in which the calls of any number of parties follow one another.

use crate::proved::channel_core::{RecvError, SendError, TryRecvError, TrySendError};
use std::task::Poll;

/// How many messages a channel may hold.
#[derive(Clone, Copy, Debug, PartialEq, Eq)]
pub enum Kind {
    /// This many at the most. The number is positive.
    Bounded(usize),
    /// As many as memory allows.
    Unbounded,
}

/// The handle by which a channel is closed, or a question is put to it.
#[derive(Clone, Copy, Debug, PartialEq, Eq)]
pub enum Side {
    /// The sender of this name.
    Sender(u64),
    /// The receiver of this name.
    Receiver(u64),
}

/// Who may wait on a channel.
#[derive(Clone, Copy, Debug, PartialEq, Eq)]
pub enum Who {
    /// The operation of this name: a send, a receive or a closed operation.
    Op(u64),
    /// The stream of the receiver of this name.
    Receiver(u64),
}

impl Who {
    /// The poll of who waits.
    #[inline]
    pub fn poll<T>(self) -> Step<T> {
        match self {
            Who::Op(op) => Step::Poll(op),
            Who::Receiver(receiver) => Step::PollNext(receiver),
        }
    }
}

/// Whether somebody waits, and was told to try again.
#[derive(Clone, Copy, Debug, PartialEq, Eq)]
pub enum Notice {
    /// Nobody of this name waits.
    Absent,
    /// Somebody waits, and wasn't told since.
    Untold,
    /// Somebody waits, and was told that a poll may be ready.
    Told,
}

/// Why a step wasn't made. If several apply, the first of them is answered.
#[derive(Clone, Copy, Debug, PartialEq, Eq)]
pub enum Refusal {
    /// No handle or operation of this name is live.
    Unknown,
    /// The name that the step was to make is live already.
    Taken,
    /// A live operation borrows the handle that was to be given up, or a live receive the receiver
    /// whose stream was to be polled.
    Borrowed,
    /// There are more handles of this kind than half of the greatest `usize`.
    TooMany,
    /// Memory was refused.
    OutOfMemory,
}

/// One step by any party. Names lie in five spaces: senders, receivers, weak senders, weak
/// receivers, operations. A new channel has sender 0 and receiver 0. The name of what was given up
/// may be used again.
#[derive(Clone, Copy, Debug, PartialEq, Eq)]
pub enum Step<T> {
    /// A sender sends a message, if the channel is open and not full.
    TrySend(u64, T),
    /// A sender sends a message, and if the channel is full displaces the oldest one.
    ForceSend(u64, T),
    /// A receiver takes the oldest message, if there is one.
    TryRecv(u64),
    /// The channel is closed by hand. Its messages stay.
    Close(Side),
    /// Whether the channel is closed.
    IsClosed(Side),
    /// Whether no message is held.
    IsEmpty(Side),
    /// Whether as many messages are held as the capacity allows.
    IsFull(Side),
    /// Whether the receiver's stream is at its end: the channel is closed and empty.
    IsTerminated(u64),
    /// How many messages are held.
    Len(Side),
    /// How many senders are live.
    SenderCount(Side),
    /// How many receivers are live.
    ReceiverCount(Side),
    /// How many messages may be held.
    Capacity(Side),
    /// A sender is copied.
    CloneSender { of: u64, new: u64 },
    /// A receiver is copied.
    CloneReceiver { of: u64, new: u64 },
    /// A weak sender is copied.
    CloneWeakSender { of: u64, new: u64 },
    /// A weak receiver is copied.
    CloneWeakReceiver { of: u64, new: u64 },
    /// A weak sender is made from a sender. It doesn't keep the channel open.
    DowngradeSender { of: u64, new: u64 },
    /// A weak receiver is made from a receiver. It doesn't keep the channel open.
    DowngradeReceiver { of: u64, new: u64 },
    /// A sender is made from a weak one, if the channel is open.
    UpgradeSender { of: u64, new: u64 },
    /// A receiver is made from a weak one, if the channel is open.
    UpgradeReceiver { of: u64, new: u64 },
    /// A sender is given up. With the last one the channel is closed.
    DropSender(u64),
    /// A receiver is given up, and its stream with it. With the last one the channel is closed.
    DropReceiver(u64),
    /// A weak sender is given up.
    DropWeakSender(u64),
    /// A weak receiver is given up.
    DropWeakReceiver(u64),
    /// A send of this message begins, which borrows the sender. It is no poll: nothing is sent yet.
    StartSend { op: u64, sender: u64, msg: T },
    /// A receive begins, which borrows the receiver. It is no poll.
    StartRecv { op: u64, receiver: u64 },
    /// A closed operation begins, which borrows the sender, and is ready if no receiver is live.
    /// It is no poll.
    StartClosed { op: u64, sender: u64 },
    /// An operation is polled: it is done, or it waits.
    Poll(u64),
    /// A receiver's stream is polled for its next message.
    PollNext(u64),
    /// An operation is given up. If it was a told send or receive, another one is told in its
    /// place.
    DropOp(u64),
}

/// What a step answers.
#[derive(Debug, PartialEq, Eq)]
pub enum Reply<T> {
    /// To `TrySend`: the message went in, or comes back.
    TrySent(Result<(), TrySendError<T>>),
    /// To `ForceSend`: the message went in, and displaced this one; or it comes back.
    Forced(Result<Option<T>, SendError<T>>),
    /// To `TryRecv`.
    Received(Result<T, TryRecvError>),
    /// To `Close`, whether the channel was open; to a question, yes or no.
    Flag(bool),
    /// To a question for a number.
    Count(usize),
    /// To `Capacity`: none for an unbounded channel.
    Capacity(Option<usize>),
    /// A name was made or given up.
    Done,
    /// To an upgrade: whether it made a handle.
    Upgraded(bool),
    /// To `Poll` of a send. A send that finished before is pending.
    SendPolled(Poll<Result<(), SendError<T>>>),
    /// To `Poll` of a receive.
    RecvPolled(Poll<Result<T, RecvError>>),
    /// To `Poll` of a closed operation.
    ClosedPolled(Poll<()>),
    /// To `PollNext`: a message, or the stream's end.
    NextPolled(Poll<Option<T>>),
    /// The step changed nothing. The message of `TrySend`, `ForceSend` or `StartSend` is here
    /// again.
    Refused(Refusal, Option<T>),
}

impl<T> Reply<T> {
    /// Whether memory was refused. Nothing has changed then, and the same step may be made again.
    #[inline]
    pub fn wants_memory(&self) -> bool {
        matches!(self, Reply::Refused(Refusal::OutOfMemory, _))
    }

    /// Whether this answers a poll that was ready.
    #[inline]
    pub fn is_ready(&self) -> bool {
        match self {
            Reply::SendPolled(poll) => poll.is_ready(),
            Reply::RecvPolled(poll) => poll.is_ready(),
            Reply::ClosedPolled(poll) => poll.is_ready(),
            Reply::NextPolled(poll) => poll.is_ready(),
            _ => false,
        }
    }

    /// Whether this answers a poll that was pending.
    #[inline]
    pub fn is_pending(&self) -> bool {
        match self {
            Reply::SendPolled(poll) => poll.is_pending(),
            Reply::RecvPolled(poll) => poll.is_pending(),
            Reply::ClosedPolled(poll) => poll.is_pending(),
            Reply::NextPolled(poll) => poll.is_pending(),
            _ => false,
        }
    }
}
