// Taken out of crates/event_list/src/entries.rt by tools/erase. Change that file, not this one.
//! The entries of a waiting list. A call reaches at most one of them.

use crate::proved::event_list::list::steps::Lookups;
use crate::shim::Slab;
use crate::shim::Global;
use crate::shim::Ledger;

/// Whether an entry is told, and its payload if it isn't.
pub enum EntryState<W> {
    /// The bell was rung with the payload.
    Told,
    /// The payload is there still.
    Untold(W),
}

impl<W> EntryState<W> {
    /// Whether the entry is told.
    #[inline]
    pub fn is_told(&self) -> bool {
        match self {
            EntryState::Told => true,
            EntryState::Untold(_) => false,
        }
    }

    /// The payload of an untold entry, which stays.
    #[inline]
    pub(super) fn payload(&self) -> Option<&W> {
        match self {
            EntryState::Told => None,
            EntryState::Untold(payload) => Some(payload),
        }
    }

    /// The payload of an untold entry.
    #[inline]
    pub fn into_payload(self) -> Option<W> {
        match self {
            EntryState::Told => None,
            EntryState::Untold(payload) => Some(payload),
        }
    }
}

/// An entry, with the keys of its neighbours.
pub struct Entry<W> {
    pub before: Option<usize>,
    pub behind: Option<usize>,
    pub notice: EntryState<W>,
}

/// The entries, each under its key: the one way to the slab.
///
/// Each call is one look-up, and raises `lookups` by one; none reaches an entry without it.
pub struct Entries<W> {
    slab: Slab<Entry<W>>,
}

impl<W> Entries<W> {
    /// No entries.
    #[inline]
    pub fn new(alloc: Global) -> Self {
        Entries {
            slab: Slab::new(alloc),
        }
    }

    /// How many entries there is room for.
    #[inline]
    pub fn capacity(&self) -> usize {
        self.slab.capacity()
    }

    /// Makes room for one more entry. The answer is whether there is room.
    #[inline]
    pub fn reserve<L: Ledger>(&mut self, lookups: &mut Lookups<L>) -> bool {
        lookups.raise();
        self.slab.reserve(1).is_ok()
    }

    /// Makes an entry, under the key that the slab picks.
    #[inline]
    pub fn insert<L: Ledger>(&mut self, entry: Entry<W>, lookups: &mut Lookups<L>) -> usize {
        lookups.raise();
        let key = self.slab.insert_reserved(entry);
        // proof: the slab's number of entries is a `usize`, which the clause `fits` hands on
        let _len = self.slab.len();
        key
    }

    /// Takes an entry out, if it is there.
    #[inline]
    pub fn remove<L: Ledger>(&mut self, key: usize, lookups: &mut Lookups<L>) -> Option<Entry<W>> {
        lookups.raise();
        self.slab.try_remove(key)
    }

    /// Gives an entry another neighbour behind, if there is an entry.
    #[inline]
    pub fn set_behind<L: Ledger>(
        &mut self,
        at: Option<usize>,
        behind: Option<usize>,
        lookups: &mut Lookups<L>,
    ) {
        lookups.raise();
        let Some(key) = at else {
            return;
        };
        if let Some(entry) = self.slab.get_mut(key) {
            entry.behind = behind;
        }
    }

    /// Gives an entry another neighbour before, if there is an entry.
    #[inline]
    pub fn set_before<L: Ledger>(
        &mut self,
        at: Option<usize>,
        before: Option<usize>,
        lookups: &mut Lookups<L>,
    ) {
        lookups.raise();
        let Some(key) = at else {
            return;
        };
        if let Some(entry) = self.slab.get_mut(key) {
            entry.before = before;
        }
    }

    /// Makes an entry an untold one with this payload. The answer is the payload that it had.
    #[inline]
    pub fn set_payload<L: Ledger>(
        &mut self,
        key: usize,
        payload: W,
        lookups: &mut Lookups<L>,
    ) -> Option<W> {
        lookups.raise();
        let entry = self.slab.get_mut(key)?;
        std::mem::replace(&mut entry.notice, EntryState::Untold(payload)).into_payload()
    }

    /// Tells an entry. The answer is its payload, if it was untold, and its neighbour
    /// behind.
    #[inline]
    pub fn tell<L: Ledger>(
        &mut self,
        key: usize,
        lookups: &mut Lookups<L>,
    ) -> Option<(W, Option<usize>)> {
        lookups.raise();
        let entry = self.slab.get_mut(key)?;
        match std::mem::replace(&mut entry.notice, EntryState::Told) {
            EntryState::Untold(payload) => Some((payload, entry.behind)),
            EntryState::Told => None,
        }
    }

    /// Whether an entry is told, and its payload if it isn't, if there is an entry.
    #[inline]
    pub fn notice<L: Ledger>(&self, key: usize, lookups: &mut Lookups<L>) -> Option<&EntryState<W>> {
        lookups.raise();
        Some(&self.slab.get(key)?.notice)
    }
}
