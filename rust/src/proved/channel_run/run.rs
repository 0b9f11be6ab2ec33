// Taken out of crates/channel_run/src/run.rt by tools/erase. Change that file, not this one.
//! A channel with named handles and operations, and lists of steps by any parties.
//!
//! A run is a core, and what the core doesn't know: which names are live, which operation
//! borrows which handle, and by which ticket it waits. [`Run::step`] finds the method of its step.
//! Those methods stand by topic in the modules below: `messages`, `questions`, `handles` and
//! `operations`; `batches` has many messages in one step, and `told` what settling needs. Each goes like this:
//!
//! 1. It refuses what it must, and the first that applies is the answer: a name that isn't live,
//!    one that is taken, a handle that is borrowed, a handle too many. A message comes back.
//! 2. It takes room for a name that it makes. If memory is refused the core hasn't been touched,
//!    so that nothing has to be undone.
//! 3. It makes the step on the core. Nobody sleeps here, so its bell does nothing.
//! 4. It writes down what became of the names, the operation and its ticket.
//!
//! Who waits is known to the core by a key, and to the run by a name; the ticket joins the two. To
//! ask whether a name was told is to look its ticket up in the list of its kind. To find whom to
//! poll next is to take the first told key of a list, and to look for the ticket that has it. A
//! settling that takes a second poll notes who holds which ticket, and looks for no further one.

use crate::shim::Vec;

mod batches;
mod handles;
mod messages;
mod operations;
mod questions;
mod told;

use crate::proved::channel_run::names::Names;
use crate::proved::channel_run::operations::{Operation, Operations};
use crate::proved::channel_run::tickets::put_receiver;
use crate::proved::channel_core::{Core, Group};
use crate::proved::channel_model::{Kind, Notice, OutOfMemory, Reply, Side, Step, Who};
use crate::proved::event_list::Ticket;
use crate::shim::Global;
use crate::shim::BTreeMap;

/// A channel with named handles and operations. It begins with sender 0 and receiver 0.
///
/// A step by any party is made whole, while nobody else makes one. So what a list of steps does to
/// a run is what the parties' calls do to a channel, in any way in which they may follow one
/// another.
pub struct Run<T> {
    // where the memory of names and operations comes from
    alloc: Global,
    // the channel; it counts the handles that have names
    core: Core<T, ()>,
    // the live names of each space
    senders: Names,
    // each with the ticket of its stream's wait
    receivers: BTreeMap<u64, Option<Ticket>>,
    weak_senders: Names,
    weak_receivers: Names,
    // the live operations, and who is borrowed by them
    operations: Operations<T>,
}

impl<T> Run<T> {
    /// A run of a new channel.
    ///
    /// A bounded channel's capacity has to be positive. If memory is refused there is no run.
    #[inline]
    pub fn new(alloc: Global, kind: Kind) -> Result<Run<T>, OutOfMemory> {
        let core = match kind {
            Kind::Bounded(capacity) => Core::bounded(alloc, capacity)?,
            Kind::Unbounded => Core::unbounded(alloc),
        };
        let mut senders = Names::new(alloc);
        senders.add(0)?;
        let mut receivers = BTreeMap::new(alloc);
        if put_receiver(&mut receivers, 0).is_err() {
            receivers.destroy_empty();
            return Err(OutOfMemory);
        }
        Ok(Run {
            alloc,
            core,
            senders,
            receivers,
            weak_senders: Names::new(alloc),
            weak_receivers: Names::new(alloc),
            operations: Operations::new(alloc),
        })
    }

    /// Makes a step, or refuses it.
    ///
    /// A refused step changes nothing, and hands the message back that it brought.
    #[inline]
    pub fn step(&mut self, step: Step<T>) -> Reply<T> {
        self.make(step)
    }

    /// Whether somebody waits, and was told. Who has no live name doesn't wait.
    #[inline]
    pub fn notice_of(&self, who: Who) -> Notice {
        match who {
            Who::Op(op) => match self.operations.by_name.get(&op) {
                Some(Operation::Send { ticket, .. }) => notice(&self.core, Group::Sends, ticket),
                Some(Operation::Recv { ticket, .. }) => notice(&self.core, Group::Receives, ticket),
                Some(Operation::Closed { ticket, .. }) => notice(
                    &self.core,
                    Group::Closeds,
                    ticket,
                ),
                None => Notice::Absent,
            },
            Who::Receiver(receiver) => match self.receivers.get(&receiver) {
                Some(ticket) => notice(&self.core, Group::Streams, ticket),
                None => Notice::Absent,
            },
        }
    }

    /// The message that is held in this place, from 0 for the oldest.
    #[inline]
    pub fn message(&self, place: usize) -> Option<&T> {
        self.core.message(place)
    }

    /// How many messages are held.
    #[inline]
    pub fn message_count(&self) -> usize {
        self.core.len()
    }

    // The step that was asked for.
    #[inline]
    fn make(&mut self, step: Step<T>) -> Reply<T> {
        match step {
            Step::TrySend(sender, message) => self.try_send(sender, message),
            Step::ForceSend(sender, message) => self.force_send(sender, message),
            Step::TryRecv(receiver) => self.try_recv(receiver),
            Step::Close(side) => self.close(side),
            Step::IsClosed(side) => self.is_closed(side),
            Step::IsEmpty(side) => self.is_empty(side),
            Step::IsFull(side) => self.is_full(side),
            Step::IsTerminated(receiver) => self.is_terminated(receiver),
            Step::Len(side) => self.len(side),
            Step::SenderCount(side) => self.sender_count(side),
            Step::ReceiverCount(side) => self.receiver_count(side),
            Step::Capacity(side) => self.capacity(side),
            Step::CloneSender { of, new } => self.clone_sender(of, new),
            Step::CloneReceiver { of, new } => self.clone_receiver(of, new),
            Step::CloneWeakSender { of, new } => self.clone_weak_sender(of, new),
            Step::CloneWeakReceiver { of, new } => self.clone_weak_receiver(of, new),
            Step::DowngradeSender { of, new } => self.downgrade_sender(of, new),
            Step::DowngradeReceiver { of, new } => self.downgrade_receiver(of, new),
            Step::UpgradeSender { of, new } => self.upgrade_sender(of, new),
            Step::UpgradeReceiver { of, new } => self.upgrade_receiver(of, new),
            Step::DropSender(name) => self.drop_sender(name),
            Step::DropReceiver(name) => self.drop_receiver(name),
            Step::DropWeakSender(name) => self.drop_weak_sender(name),
            Step::DropWeakReceiver(name) => self.drop_weak_receiver(name),
            Step::StartSend { op, sender, msg } => self.start_send(op, sender, msg),
            Step::StartRecv { op, receiver } => self.start_recv(op, receiver),
            Step::StartClosed { op, sender } => self.start_closed(op, sender),
            Step::Poll(op) => self.poll(op),
            Step::PollNext(receiver) => self.poll_next(receiver),
            Step::DropOp(op) => self.drop_op(op),
        }
    }

    #[inline]
    fn has_handle(&self, side: Side) -> bool {
        match side {
            Side::Sender(name) => self.senders.has(name),
            Side::Receiver(name) => self.has_receiver(name),
        }
    }

    #[inline]
    fn has_receiver(&self, name: u64) -> bool {
        self.receivers.contains_key(&name)
    }

    #[inline]
    fn has_operation(&self, op: u64) -> bool {
        self.operations.by_name.contains_key(&op)
    }
}

// Whether the entry of a ticket waits, and was told.
#[inline]
fn notice<T>(core: &Core<T, ()>, group: Group, ticket: &Option<Ticket>) -> Notice {
    let Some(ticket) = ticket else {
        return Notice::Absent;
    };
    match core.is_told(group, ticket) {
        Some(told) => { if told { Notice::Told } else { Notice::Untold } }
        None => Notice::Absent,
    }
}
