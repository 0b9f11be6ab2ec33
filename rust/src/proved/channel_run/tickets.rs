// Taken out of crates/channel_run/src/tickets.rt by tools/erase. Change that file, not this one.
//! Who holds a ticket, by its key.

use crate::proved::channel_run::names::put;
use crate::proved::channel_run::operations::Operation;
use crate::proved::channel_core::Group;
use crate::proved::channel_model::OutOfMemory;
use crate::proved::event_list::Ticket;
use crate::shim::BTreeMap;

/// Whether there is a ticket, and it has the key.
#[inline]
pub(super) fn has_key(ticket: &Option<Ticket>, key: usize) -> bool {
    match ticket {
        Some(ticket) => ticket.key() == key,
        None => false,
    }
}

/// The name of the operation that waits in the group by a ticket of this key. It is looked up if
/// the guess is right, and else walked for.
#[inline]
pub(super) fn operation_with<T>(
    operations: &BTreeMap<u64, Operation<T>>,
    group: Group,
    key: usize,
    guess: Option<u64>,
) -> Option<u64> {
    if let Some(name) = guess {
        if waits_with(operations, name, group, key) {
            return Some(name);
        }
    }
    let (name, _operation) = operations
        .iter()
        .find(|(_, operation)| operation.waits_with(group, key))?;
    Some(*name)
}

// Whether the operation of this name waits in the group by a ticket of this key.
#[inline]
fn waits_with<T>(
    operations: &BTreeMap<u64, Operation<T>>,
    name: u64,
    group: Group,
    key: usize,
) -> bool {
    match operations.get(&name) {
        Some(operation) => operation.waits_with(group, key),
        None => false,
    }
}

/// The name of the receiver whose stream waits by a ticket of this key. It is looked up if the
/// guess is right, and else walked for.
#[inline]
pub(super) fn receiver_with(
    receivers: &BTreeMap<u64, Option<Ticket>>,
    key: usize,
    guess: Option<u64>,
) -> Option<u64> {
    if let Some(name) = guess {
        if streams_with(receivers, name, key) {
            return Some(name);
        }
    }
    let (name, _ticket) = receivers.iter().find(|(_, ticket)| has_key(ticket, key))?;
    Some(*name)
}

/// Makes the name of a receiver whose stream doesn't wait.
#[inline]
pub(super) fn put_receiver(
    receivers: &mut BTreeMap<u64, Option<Ticket>>,
    name: u64,
) -> Result<(), OutOfMemory> {
    match put(receivers, name, None) {
        Ok(()) => Ok(()),
        Err(back) => {
            Ticket::destroy_none(back);
            Err(OutOfMemory)
        }
    }
}

// Whether the stream of the receiver of this name waits by a ticket of this key.
#[inline]
fn streams_with(receivers: &BTreeMap<u64, Option<Ticket>>, name: u64, key: usize) -> bool {
    match receivers.get(&name) {
        Some(ticket) => has_key(ticket, key),
        None => false,
    }
}
