// Taken out of crates/channel_core/src/errors.rt by tools/erase. Change that file, not this one.
//! What a call answers if it doesn't do what was asked.
//!
//! Nothing has changed after any of these, and a message that was handed in comes back. No text and
//! no `Debug` asks anything of the message's type. Two of a type are equal if they are the same case
//! with equal messages, as their derived `PartialEq` says.

use std::error::Error;
use std::fmt;

/// The channel is closed. The message comes back.
#[derive(Clone, Copy, PartialEq, Eq)]
pub struct SendError<T>(pub T);

/// The message can't be sent now. It comes back.
#[derive(Clone, Copy, PartialEq, Eq)]
pub enum TrySendError<T> {
    /// The channel is full, and open.
    Full(T),
    /// The channel is closed.
    Closed(T),
}

/// The channel is empty and closed, so that no message will come.
#[derive(Clone, Copy, PartialEq, Eq)]
pub struct RecvError;

/// No message can be received now.
#[derive(Clone, Copy, PartialEq, Eq)]
pub enum TryRecvError {
    /// The channel is empty, and open.
    Empty,
    /// The channel is empty and closed.
    Closed,
}

/// Memory was refused.
#[derive(Clone, Copy, PartialEq, Eq)]
pub struct OutOfMemory;

/// Memory was refused. The message comes back.
#[derive(Clone, Copy, PartialEq, Eq)]
pub struct NoMemory<T>(pub T);

impl<T> SendError<T> {
    /// The message.
    #[inline]
    pub fn into_inner(self) -> T {
        let SendError(message) = self;
        message
    }
}

impl<T> TrySendError<T> {
    /// The message.
    #[inline]
    pub fn into_inner(self) -> T {
        match self {
            TrySendError::Full(message) => message,
            TrySendError::Closed(message) => message,
        }
    }

    /// Whether the channel was full, and open.
    #[inline]
    pub fn is_full(&self) -> bool {
        matches!(self, TrySendError::Full(_))
    }

    /// Whether the channel was closed.
    #[inline]
    pub fn is_closed(&self) -> bool {
        matches!(self, TrySendError::Closed(_))
    }
}

impl TryRecvError {
    /// Whether the channel was empty, and open.
    #[inline]
    pub fn is_empty(&self) -> bool {
        matches!(self, TryRecvError::Empty)
    }

    /// Whether the channel was empty and closed.
    #[inline]
    pub fn is_closed(&self) -> bool {
        matches!(self, TryRecvError::Closed)
    }
}

impl<T> fmt::Display for SendError<T> {
    #[inline]
    fn fmt(&self, f: &mut fmt::Formatter<'_>) -> fmt::Result {
        f.write_str("sending into a closed channel")
    }
}

impl<T> fmt::Debug for SendError<T> {
    #[inline]
    fn fmt(&self, f: &mut fmt::Formatter<'_>) -> fmt::Result {
        f.write_str("SendError(..)")
    }
}

impl<T> Error for SendError<T> {}

impl<T> fmt::Display for TrySendError<T> {
    #[inline]
    fn fmt(&self, f: &mut fmt::Formatter<'_>) -> fmt::Result {
        match self {
            TrySendError::Full(_) => f.write_str("sending into a full channel"),
            TrySendError::Closed(_) => f.write_str("sending into a closed channel"),
        }
    }
}

impl<T> fmt::Debug for TrySendError<T> {
    #[inline]
    fn fmt(&self, f: &mut fmt::Formatter<'_>) -> fmt::Result {
        match self {
            TrySendError::Full(_) => f.write_str("Full(..)"),
            TrySendError::Closed(_) => f.write_str("Closed(..)"),
        }
    }
}

impl<T> Error for TrySendError<T> {}

impl fmt::Display for RecvError {
    #[inline]
    fn fmt(&self, f: &mut fmt::Formatter<'_>) -> fmt::Result {
        f.write_str("receiving from an empty and closed channel")
    }
}

impl fmt::Debug for RecvError {
    #[inline]
    fn fmt(&self, f: &mut fmt::Formatter<'_>) -> fmt::Result {
        f.write_str("RecvError")
    }
}

impl Error for RecvError {}

impl fmt::Display for TryRecvError {
    #[inline]
    fn fmt(&self, f: &mut fmt::Formatter<'_>) -> fmt::Result {
        f.write_str(match self {
            TryRecvError::Empty => "receiving from an empty channel",
            TryRecvError::Closed => "receiving from an empty and closed channel",
        })
    }
}

impl fmt::Debug for TryRecvError {
    #[inline]
    fn fmt(&self, f: &mut fmt::Formatter<'_>) -> fmt::Result {
        f.write_str(match self {
            TryRecvError::Empty => "Empty",
            TryRecvError::Closed => "Closed",
        })
    }
}

impl Error for TryRecvError {}

impl fmt::Display for OutOfMemory {
    #[inline]
    fn fmt(&self, f: &mut fmt::Formatter<'_>) -> fmt::Result {
        f.write_str("out of memory")
    }
}

impl fmt::Debug for OutOfMemory {
    #[inline]
    fn fmt(&self, f: &mut fmt::Formatter<'_>) -> fmt::Result {
        f.write_str("OutOfMemory")
    }
}

impl Error for OutOfMemory {}

impl<T> fmt::Display for NoMemory<T> {
    #[inline]
    fn fmt(&self, f: &mut fmt::Formatter<'_>) -> fmt::Result {
        f.write_str("out of memory")
    }
}

impl<T> fmt::Debug for NoMemory<T> {
    #[inline]
    fn fmt(&self, f: &mut fmt::Formatter<'_>) -> fmt::Result {
        f.write_str("NoMemory(..)")
    }
}

impl<T> Error for NoMemory<T> {}
