// Taken out of crates/event_list/src/links.rt by tools/erase. Change that file, not this one.
//! The entries of a waiting list with what is kept beside them, and all work on them.
//!
//! Entries stand in order of arrival, and those that were told are always the front of the list. So
//! three keys serve every call: the first entry's, the last one's, and the cursor, which is the key
//! of the first entry that isn't told.
//!
//! ```text
//! told  <->  told  <->  untold  <->  untold
//! first                 cursor           last
//! ```
//!
//! A new entry goes behind the last one, untold. To tell one is to tell the entry at the cursor and
//! to move the cursor to its neighbour behind. An entry leaves by letting its neighbours name one
//! another, and an end or the cursor that named it names its neighbour. Who waits again leaves and
//! comes last, under the same key, if it was told, and stays where it is otherwise. So no call
//! walks along the list.
//!
//! Each look-up is counted on the ledger that a call is handed. No other can be opened here, and no
//! entry is reached without one: see `steps`.

use crate::proved::event_list::bell::Bell;
use crate::proved::event_list::ends::Ends;
use crate::proved::event_list::entries::{Entries, EntryState};
use crate::proved::event_list::list::NoRoom;
use crate::proved::event_list::list::steps::Lookups;
use crate::proved::event_list::ticket::Ticket;
use crate::shim::Global;
use crate::shim::Ledger;

/// How many entries there is room for in any case once nobody waits any more.
const KEPT_ENTRIES: usize = 64;

/// The entries in order of arrival, of which the first `told` are told.
pub struct Links<W> {
    // Each with the keys of its neighbours.
    entries: Entries<W>,
    // The keys of the first one, of the last, and of the first untold one.
    ends: Ends,
    // How many entries there are.
    len: usize,
    // How many of them are told.
    told: usize,
}

impl<W> Links<W> {
    /// A list where nobody waits. It takes no memory.
    #[inline]
    pub(super) fn new(alloc: Global) -> Self {
        Links {
            entries: Entries::new(alloc),
            ends: Ends {
                first: None,
                last: None,
                cursor: None,
            },
            len: 0,
            told: 0,
        }
    }

    /// A new entry goes last, untold, under a key that isn't in the list. At most 6 look-ups.
    #[inline]
    pub(super) fn listen<L: Ledger>(
        &mut self,
        payload: W,
        lookups: &mut Lookups<L>,
    ) -> Result<Ticket, NoRoom<W>> {
        if !self.entries.reserve(lookups) {
            return Err(NoRoom(payload));
        }
        let key = self.ends.put_last(&mut self.entries, payload, lookups);
        self.len += 1;
        Ok(Ticket { key })
    }

    /// The entry waits again with this payload, and gives the one that it had. At most 6 look-ups.
    #[inline]
    pub(super) fn renew<L: Ledger>(
        &mut self,
        ticket: &Ticket,
        payload: W,
        lookups: &mut Lookups<L>,
    ) -> Result<Option<W>, W> {
        let Some(notice) = self.entries.notice(ticket.key, lookups) else {
            return Err(payload);
        };
        if !notice.is_told() {
            return Ok(self.entries.set_payload(ticket.key, payload, lookups));
        }
        self.ends.take_out(&mut self.entries, ticket.key, lookups);
        self.ends.put_last(&mut self.entries, payload, lookups);
        self.told -= 1;
        Ok(None)
    }

    /// Tells the longest waiting untold entry. At most one look-up.
    #[inline]
    pub(super) fn tell_one<B: Bell<W>, L: Ledger>(
        &mut self,
        bell: &mut B,
        lookups: &mut Lookups<L>,
    ) -> bool {
        let Some(key) = self.ends.cursor else {
            return false;
        };
        let Some((payload, behind)) = self.entries.tell(key, lookups) else {
            unreachable!()
        };
        self.ends.cursor = behind;
        self.told += 1;
        bell.ring(payload);
        true
    }

    /// Tells every untold entry. At most one look-up for each.
    #[inline]
    pub(super) fn tell_all<B: Bell<W>, L: Ledger>(
        &mut self,
        bell: &mut B,
        lookups: &mut Lookups<L>,
    ) -> usize {
        let untold = self.len() - self.told();
        for _turn in 0..untold {
            self.tell_one(bell, lookups);
        }
        untold
    }

    /// The entry leaves, and is the answer. At most 6 look-ups.
    #[inline]
    pub(super) fn unregister<L: Ledger>(
        &mut self,
        key: usize,
        lookups: &mut Lookups<L>,
    ) -> Option<EntryState<W>> {
        let entry = self.ends.take_out(&mut self.entries, key, lookups)?;
        self.len -= 1;
        if entry.is_told() {
            self.told -= 1;
        }
        Some(entry)
    }

    /// The ticket's entry, or nothing if it isn't in the list. One look-up.
    #[inline]
    pub(super) fn entry<L: Ledger>(
        &self,
        ticket: &Ticket,
        lookups: &mut Lookups<L>,
    ) -> Option<&EntryState<W>> {
        self.entries.notice(ticket.key, lookups)
    }

    /// Whether somebody is untold.
    #[inline(always)]
    pub(super) fn has_untold(&self) -> bool {
        self.ends.cursor.is_some()
    }

    /// How many wait.
    #[inline]
    pub(super) fn len(&self) -> usize {
        self.len
    }

    /// Whether nobody waits, and there is more room than is kept.
    #[inline]
    pub(super) fn is_left(&self) -> bool {
        self.len == 0 && self.entries.capacity() > KEPT_ENTRIES
    }

    /// How many are told.
    #[inline]
    pub(super) fn told(&self) -> usize {
        self.told
    }

    /// The key of the first entry, if somebody is told.
    #[cfg(vamorilesh_run)]
    #[inline]
    pub(super) fn first_told(&self) -> Option<usize> {
        if self.told == 0 {
            return None;
        }
        self.ends.first
    }
}
