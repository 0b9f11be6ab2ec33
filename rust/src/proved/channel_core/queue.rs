// Taken out of crates/channel_core/src/queue.rt by tools/erase. Change that file, not this one.
//! The queue of a channel's messages.

use crate::errors::{NoMemory, OutOfMemory};
use crate::shim::HeapCircularBuffer;
use crate::shim::Global;
use crate::shim::VecDeque;
use std::mem::size_of;

/// How many bytes a queue without a bound keeps in any case, for the messages to come.
const KEPT_BYTES: usize = 4096;

/// How many messages it keeps room for in any case, so that large ones don't ask for memory at each
/// push into an empty queue.
const KEPT_MESSAGES: usize = 4;

enum Store<T> {
    Ring(HeapCircularBuffer<T>),
    Deque(VecDeque<T, Global>),
}

/// Messages in order, the oldest first.
///
/// A bounded queue has all its memory from the start, so that a push into it never asks for any. An
/// unbounded one grows as messages come, and gives memory back as they go: once a quarter of its
/// room is used it keeps half of it. A few KB stay for the messages to come.
pub struct Queue<T> {
    store: Store<T>,
}

/// Gives room back once a quarter of it is used, or none, and keeps twice what is used. So a message
/// is moved for it only after as many have left. If memory is refused for that all stays as it is.
#[inline(always)]
fn give_room_back<T>(deque: &mut VecDeque<T, Global>) {
    let (used, room) = (deque.len(), deque.capacity());
    if (used == room / 4 || used == 0) && is_large::<T>(room) {
        deque.shrink_to(used.saturating_mul(2));
    }
}

/// Whether so many messages take more memory than is kept.
#[inline]
fn is_large<T>(capacity: usize) -> bool {
    KEPT_MESSAGES < capacity && KEPT_BYTES < capacity.saturating_mul(message_size::<T>())
}

/// The bytes that a message takes in a queue.
#[inline]
fn message_size<T>() -> usize {
    size_of::<T>()
}

impl<T> Queue<T> {
    /// An empty queue that holds at most `cap` messages.
    #[inline]
    pub fn bounded(alloc: Global, cap: usize) -> Result<Queue<T>, OutOfMemory> {
        match HeapCircularBuffer::with_capacity(alloc, cap) {
            Ok(ring) => Ok(Queue {
                store: Store::Ring(ring),
            }),
            Err(_) => Err(OutOfMemory),
        }
    }

    /// An empty queue without a bound. It takes no memory yet.
    #[inline]
    pub fn unbounded(alloc: Global) -> Queue<T> {
        Queue {
            store: Store::Deque(VecDeque::new(alloc)),
        }
    }

    /// Puts a message last. A full queue hands it back.
    ///
    /// The outer error, with the message, says that memory was refused. It comes of an unbounded
    /// queue alone.
    #[inline(always)]
    pub fn push(&mut self, message: T) -> Result<Result<(), T>, NoMemory<T>> {
        match &mut self.store {
            Store::Ring(ring) => Ok(ring.try_push_back(message)),
            Store::Deque(deque) => match deque.push_back(message) {
                Ok(()) => Ok(Ok(())),
                Err(refused) => Err(NoMemory(refused.value)),
            },
        }
    }

    /// Puts a message last, in any case. A full queue gives its oldest message for it.
    ///
    /// The error, with the message, says that memory was refused. It comes of an unbounded queue
    /// alone.
    #[inline]
    pub fn force_push(&mut self, message: T) -> Result<Option<T>, NoMemory<T>> {
        match &mut self.store {
            Store::Ring(ring) => Ok(ring.push_back(message)),
            Store::Deque(deque) => match deque.push_back(message) {
                Ok(()) => Ok(None),
                Err(refused) => Err(NoMemory(refused.value)),
            },
        }
    }

    /// Takes the oldest message.
    #[inline(always)]
    pub fn pop(&mut self) -> Option<T> {
        match &mut self.store {
            Store::Ring(ring) => ring.pop_front(),
            Store::Deque(deque) => {
                let message = deque.pop_front();
                give_room_back(deque);
                message
            }
        }
    }

    /// The message in this place, from 0 for the oldest.
    #[cfg(vamorilesh_run)]
    #[inline]
    pub fn get(&self, place: usize) -> Option<&T> {
        match &self.store {
            Store::Ring(ring) => ring.get(place),
            Store::Deque(deque) => deque.get(place),
        }
    }

    /// The number of messages.
    #[inline]
    pub fn len(&self) -> usize {
        match &self.store {
            Store::Ring(ring) => ring.len(),
            Store::Deque(deque) => deque.len(),
        }
    }

    /// The most messages that there may be, if there is a bound.
    #[inline]
    pub fn capacity(&self) -> Option<usize> {
        match &self.store {
            Store::Ring(ring) => Some(ring.capacity()),
            Store::Deque(_) => None,
        }
    }
}
