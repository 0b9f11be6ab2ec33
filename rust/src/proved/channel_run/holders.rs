// Taken out of crates/channel_run/src/holders.rt by tools/erase. Change that file, not this one.
//! Who probably holds a ticket, by its key.

use crate::proved::channel_run::operations::Operation;
use crate::proved::channel_core::Group;
use crate::proved::channel_model::OutOfMemory;
use crate::proved::event_list::Ticket;
use crate::shim::Global;
use crate::shim::BTreeMap;

/// The names under which tickets stood, by group and key.
///
/// It is a hint, and no clause speaks of it: it isn't kept up to date, and may lack names for which
/// memory was refused. Whoever asks it looks the name up, and walks if it is wrong.
pub struct Holders {
    sends: BTreeMap<usize, u64>,
    receives: BTreeMap<usize, u64>,
    streams: BTreeMap<usize, u64>,
    closeds: BTreeMap<usize, u64>,
}

impl Holders {
    /// No name.
    #[inline]
    pub(super) fn new(alloc: Global) -> Holders {
        Holders {
            sends: BTreeMap::new(alloc),
            receives: BTreeMap::new(alloc),
            streams: BTreeMap::new(alloc),
            closeds: BTreeMap::new(alloc),
        }
    }

    /// The name under which a ticket of the key stood.
    #[inline]
    pub(super) fn get(&self, group: Group, key: usize) -> Option<u64> {
        let name = match group {
            Group::Sends => self.sends.get(&key),
            Group::Receives => self.receives.get(&key),
            Group::Streams => self.streams.get(&key),
            Group::Closeds => self.closeds.get(&key),
        };
        Some(*name?)
    }

    /// Adds the names of all tickets, or of some, if memory is refused.
    #[inline]
    pub(super) fn add_all<T>(
        &mut self,
        operations: &BTreeMap<u64, Operation<T>>,
        receivers: &BTreeMap<u64, Option<Ticket>>,
    ) -> Result<(), OutOfMemory> {
        for (name, operation) in operations.iter() {
            match operation {
                Operation::Send { ticket, .. } => self.add(Group::Sends, ticket, *name)?,
                Operation::Recv { ticket, .. } => self.add(Group::Receives, ticket, *name)?,
                Operation::Closed { ticket, .. } => self.add(Group::Closeds, ticket, *name)?,
            }
        }
        for (name, ticket) in receivers.iter() {
            self.add(Group::Streams, ticket, *name)?;
        }
        Ok(())
    }

    // Adds the name under which a ticket stands, if there is a ticket.
    #[inline]
    fn add(&mut self, group: Group, ticket: &Option<Ticket>, name: u64) -> Result<(), OutOfMemory> {
        let Some(ticket) = ticket else {
            return Ok(());
        };
        let key = ticket.key();
        let added = match group {
            Group::Sends => self.sends.insert(key, name),
            Group::Receives => self.receives.insert(key, name),
            Group::Streams => self.streams.insert(key, name),
            Group::Closeds => self.closeds.insert(key, name),
        };
        match added {
            Ok(_) => Ok(()),
            Err(_) => Err(OutOfMemory),
        }
    }
}
