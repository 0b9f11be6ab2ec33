// Taken out of crates/channel_run/src/operations.rt by tools/erase. Change that file, not this one.
//! Operations that were started, with the tickets of their waits.

use crate::proved::channel_run::tally::Tally;
use crate::proved::channel_run::tickets::has_key;
use crate::proved::channel_core::{Core, Group};
use crate::proved::channel_model::OutOfMemory;
use crate::proved::event_list::{Quiet, Ticket};
use crate::shim::Global;
use crate::shim::BTreeMap;

/// An operation that was started and not given up. It borrows its handle all that time.
pub enum Operation<T> {
    /// A send, with its message until it has finished.
    Send {
        sender: u64,
        message: Option<T>,
        ticket: Option<Ticket>,
    },
    /// A receive.
    Recv {
        receiver: u64,
        ticket: Option<Ticket>,
    },
    /// An operation that waits for the last receiver.
    Closed {
        sender: u64,
        ticket: Option<Ticket>,
    },
}

impl<T> Operation<T> {
    /// The message of a send that hasn't finished, and doesn't wait.
    #[inline]
    pub(super) fn into_message(self) -> Option<T> {
        match self {
            Operation::Send {
                message,
                ticket,
                sender: _,
            } => {
                Ticket::destroy_none(ticket);
                message
            }
            Operation::Recv {
                ticket,
                receiver: _,
            } => {
                Ticket::destroy_none(ticket);
                None
            }
            Operation::Closed { ticket, sender: _ } => {
                Ticket::destroy_none(ticket);
                None
            }
        }
    }

    /// Gives its wait up.
    #[inline]
    pub(super) fn cancel(self, core: &mut Core<T, ()>) {
        match self {
            Operation::Send {
                message: _message,
                mut ticket,
                sender: _,
            } => {
                core.cancel_send(&mut ticket, &mut Quiet);
                Ticket::destroy_none(ticket);
            }
            Operation::Recv {
                mut ticket,
                receiver: _,
            } => {
                core.cancel_recv(&mut ticket, &mut Quiet);
                Ticket::destroy_none(ticket);
            }
            Operation::Closed {
                mut ticket,
                sender: _,
            } => {
                core.cancel_closed(&mut ticket);
                Ticket::destroy_none(ticket);
            }
        }
    }

    /// Whether it waits in the group, and by a ticket of this key.
    #[inline]
    pub(super) fn waits_with(&self, group: Group, key: usize) -> bool {
        match self {
            Operation::Send { ticket, .. } => group == Group::Sends && has_key(ticket, key),
            Operation::Recv { ticket, .. } => group == Group::Receives && has_key(ticket, key),
            Operation::Closed { ticket, .. } => group == Group::Closeds && has_key(ticket, key),
        }
    }
}

/// The live operations by name, and how many of them borrow each handle.
pub struct Operations<T> {
    // each with the ticket of its wait; a poll changes an operation, but never what it borrows
    pub(super) by_name: BTreeMap<u64, Operation<T>>,
    // how many borrow each sender, and each receiver
    pub(super) by_sender: Tally,
    pub(super) by_receiver: Tally,
}

impl<T> Operations<T> {
    /// None.
    #[inline]
    pub(super) fn new(alloc: Global) -> Operations<T> {
        Operations {
            by_name: BTreeMap::new(alloc),
            by_sender: Tally::new(alloc),
            by_receiver: Tally::new(alloc),
        }
    }

    /// Whether a live send or closed operation borrows the sender.
    #[inline]
    pub(super) fn is_sender_borrowed(&self, name: u64) -> bool {
        self.by_sender.get(name) > 0
    }

    /// Whether a live receive borrows the receiver.
    #[inline]
    pub(super) fn is_receiver_borrowed(&self, name: u64) -> bool {
        self.by_receiver.get(name) > 0
    }

    /// Puts an operation under a name that isn't live, or hands it back.
    #[inline]
    pub(super) fn put(&mut self, op: u64, operation: Operation<T>) -> Result<(), Operation<T>> {
        if self.count(&operation).is_err() {
            return Err(operation);
        }
        match self.by_name.insert(op, operation) {
            Ok(earlier) => match earlier {
                None => Ok(()),
                Some(_) => unreachable!(),
            },
            Err(refused) => {
                let operation = refused.value.1;
                self.discount(&operation);
                Err(operation)
            }
        }
    }

    /// Takes out the operation of a name.
    #[inline]
    pub(super) fn take(&mut self, op: u64) -> Option<Operation<T>> {
        // proof: the call promises that the names are different
        let _count = self.by_name.len();
        let operation = self.by_name.remove(&op)?;
        self.discount(&operation);
        Some(operation)
    }

    // Counts what one more operation borrows.
    #[inline]
    fn count(&mut self, operation: &Operation<T>) -> Result<(), OutOfMemory> {
        // proof: no count is above the number of operations, so that it can be raised
        let _count = self.by_name.len();
        match operation {
            Operation::Send { sender, .. } => self.by_sender.raise(*sender),
            Operation::Recv { receiver, .. } => self.by_receiver.raise(*receiver),
            Operation::Closed { sender, .. } => self.by_sender.raise(*sender),
        }
    }

    // Takes back what an operation borrows.
    #[inline]
    fn discount(&mut self, operation: &Operation<T>) {
        match operation {
            Operation::Send { sender, .. } => self.by_sender.lower(*sender),
            Operation::Recv { receiver, .. } => self.by_receiver.lower(*receiver),
            Operation::Closed { sender, .. } => self.by_sender.lower(*sender),
        }
    }
}
