// Taken out of crates/channel_core/src/state.rt by tools/erase. Change that file, not this one.
//! The state of a channel. Each call is one step of it.
//!
//! Whoever can't go on leaves an entry in the waiting list of its kind. A step that makes room for
//! others tells them so, and rings for each with the payload in its entry:
//!
//! - if a message was accepted, one receive and all streams;
//! - if a message was received, one send;
//! - if the channel was closed, all sends, receives and streams;
//! - if the last receiver was given up, all closed operations.
//!
//! Why it is enough to tell one: if a receive waits and was not told, at least as many receives
//! are told as messages are held; if such a send waits, as many sends are told as places are
//! free. An accepted message tells one more. A message that anybody takes lowers the number that is
//! owed. Who was told and polls takes what it was told of, or finds it taken by somebody else and
//! goes last, untold. Who was told and is given up hands its notice to the next one. So the
//! numbers stay right, and nobody waits for what is there. Streams are told together, since a
//! receiver that never polls its stream again would keep a notice to itself; so a stream that
//! leaves has none to hand on.
//!
//! A poll looks first, and waits only if it can't go on: its own entry leaves before anybody is
//! told, so that it never tells itself.

use crate::errors::OutOfMemory;
use crate::proved::channel_core::queue::Queue;
use crate::proved::channel_core::waiting::WaitLists;
use crate::proved::event_list::{Bell, Ticket};
use crate::shim::Global;

mod batches;
mod calls;
mod handles;
mod polls;

/// Who waits for the same.
#[derive(Clone, Copy, Debug, PartialEq, Eq)]
pub enum Group {
    /// Sends wait for a free place, or the close.
    Sends,
    /// Receives wait for a message, or the close.
    Receives,
    /// Streams wait for a message, or the close.
    Streams,
    /// Closed operations wait until no receiver is left.
    Closeds,
}

/// What became of a wish for one more strong handle.
#[cfg(vamorilesh_run)]
#[derive(Clone, Copy, Debug, PartialEq, Eq)]
pub enum Upgrade {
    /// The count was raised by 1.
    Raised,
    /// The channel is closed.
    Closed,
    /// There are more handles of the kind than half of what a `usize` can count.
    TooMany,
}

/// A channel as its one owner sees it. Each call is one atomic step.
///
/// A payload `W` is what a waiter leaves to be told by, as a waker of its task: a call that tells
/// somebody rings its [`Bell`] with it. The law of notices is the invariant of the type: whoever
/// waits untold could not go on, or enough others were told.
pub struct Core<T, W> {
    // The messages that were accepted and not taken yet.
    queue: Queue<T>,
    // Whether the channel was closed: it never opens again.
    closed: bool,
    // How many senders are live.
    senders: usize,
    // How many receivers are live.
    receivers: usize,
    // Who waits, each with the payload by which it is told.
    lists: WaitLists<W>,
}

/// Half of what a `usize` can count. If there are more handles of a kind, no further one is
/// made.
pub const HANDLE_LIMIT: usize = usize::MAX / 2;

// Closes a channel by its flag and its lists, and answers whether it was open.
#[inline]
fn shut<W, B: Bell<W>>(closed: &mut bool, lists: &mut WaitLists<W>, bell: &mut B) -> bool {
    if *closed {
        return false;
    }
    *closed = true;
    lists.tell_closed(bell);
    true
}

impl<T, W> Core<T, W> {
    /// An open and empty channel that holds at most `cap` messages, with one sender and one
    /// receiver.
    ///
    /// The capacity has to be positive. All memory for messages is taken here, or refused.
    #[inline]
    pub fn bounded(alloc: Global, cap: usize) -> Result<Core<T, W>, OutOfMemory> {
        let queue = Queue::bounded(alloc, cap)?;
        Ok(Core::over(alloc, queue))
    }

    /// An open and empty channel without a capacity, with one sender and one receiver.
    #[inline]
    pub fn unbounded(alloc: Global) -> Core<T, W> {
        Core::over(alloc, Queue::unbounded(alloc))
    }

    #[inline]
    fn over(alloc: Global, queue: Queue<T>) -> Core<T, W> {
        Core {
            queue,
            closed: false,
            senders: 1,
            receivers: 1,
            lists: WaitLists::new(alloc),
        }
    }

    /// Whether the channel is closed.
    #[inline]
    pub fn is_closed(&self) -> bool {
        self.closed
    }

    /// Whether no message is held.
    #[inline]
    pub fn is_empty(&self) -> bool {
        self.queue.len() == 0
    }

    /// Whether as many messages are held as the capacity allows. Without a capacity it is never so.
    #[inline]
    pub fn is_full(&self) -> bool {
        match self.queue.capacity() {
            Some(cap) => self.queue.len() >= cap,
            None => false,
        }
    }

    /// Whether the channel is closed and no message is held, so that none will come.
    #[cfg(vamorilesh_run)]
    #[inline]
    pub fn is_terminated(&self) -> bool {
        self.closed && self.is_empty()
    }

    /// The message in this place, from 0 for the oldest.
    #[cfg(vamorilesh_run)]
    #[inline]
    pub fn message(&self, place: usize) -> Option<&T> {
        self.queue.get(place)
    }

    /// The number of messages.
    #[inline]
    pub fn len(&self) -> usize {
        self.queue.len()
    }

    /// The number of senders.
    #[cfg(vamorilesh_run)]
    #[inline]
    pub fn sender_count(&self) -> usize {
        self.senders
    }

    /// The number of receivers.
    #[cfg(vamorilesh_run)]
    #[inline]
    pub fn receiver_count(&self) -> usize {
        self.receivers
    }

    /// The most messages that there may be, if there is a capacity.
    #[cfg(vamorilesh_run)]
    #[inline]
    pub fn capacity(&self) -> Option<usize> {
        self.queue.capacity()
    }

    /// How many wait in the group, told ones among them.
    #[cfg(vamorilesh_run)]
    #[inline]
    pub fn waiting(&self, g: Group) -> usize {
        self.lists.of(g).len()
    }

    /// The key of the first one in the group, if somebody there is told.
    #[cfg(vamorilesh_run)]
    #[inline]
    pub fn first_told(&self, g: Group) -> Option<usize> {
        self.lists.of(g).first_told()
    }

    /// Whether the ticket's entry is told, or nothing if it isn't in the group's list.
    #[cfg(vamorilesh_run)]
    #[inline]
    pub fn is_told(&self, g: Group, t: &Ticket) -> Option<bool> {
        self.lists.of(g).is_told(t)
    }

    /// What a waiting operation left to be told by, or nothing if it is told or doesn't wait.
    #[inline]
    pub fn payload(&self, g: Group, t: &Ticket) -> Option<&W> {
        self.lists.of(g).payload(t)
    }
}
