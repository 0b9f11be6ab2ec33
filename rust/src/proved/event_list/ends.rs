// Taken out of crates/event_list/src/ends.rt by tools/erase. Change that file, not this one.
//! The ends of a waiting list, and how an entry comes and goes.

use crate::proved::event_list::entries::{Entries, Entry, EntryState};
use crate::proved::event_list::list::steps::Lookups;
use crate::shim::Ledger;

/// The keys of the first entry, of the last, and of the first untold one.
#[derive(Clone, Copy)]
pub struct Ends {
    /// The key of the entry that has waited longest.
    pub first: Option<usize>,
    /// The key of the entry that came last.
    pub last: Option<usize>,
    /// The key of the first entry that isn't told: all in front of it are, and none behind it is.
    pub cursor: Option<usize>,
}

impl Ends {
    /// The ends, once the entry of a key with these neighbours has left.
    #[inline]
    fn without(self, key: usize, before: Option<usize>, behind: Option<usize>) -> Ends {
        Ends {
            first: if before.is_some() { self.first } else { behind },
            last: if behind.is_some() { self.last } else { before },
            cursor: if self.cursor == Some(key) {
                behind
            } else {
                self.cursor
            },
        }
    }

    /// The ends, once a new untold entry has come last.
    #[inline]
    fn with(self, key: usize) -> Ends {
        Ends {
            first: self.first.or(Some(key)),
            last: Some(key),
            cursor: self.cursor.or(Some(key)),
        }
    }

    /// Takes an entry out, and lets its neighbours name one another. The answer is whether it was
    /// told, or its payload, if it was there.
    #[inline(always)]
    pub fn take_out<W, L: Ledger>(
        &mut self,
        entries: &mut Entries<W>,
        key: usize,
        lookups: &mut Lookups<L>,
    ) -> Option<EntryState<W>> {
        let entry = entries.remove(key, lookups)?;
        entries.set_behind(entry.before, entry.behind, lookups);
        entries.set_before(entry.behind, entry.before, lookups);
        *self = self.without(key, entry.before, entry.behind);
        Some(entry.notice)
    }

    /// Puts a new untold entry behind the last one. The answer is its key.
    #[inline(always)]
    pub fn put_last<W, L: Ledger>(
        &mut self,
        entries: &mut Entries<W>,
        payload: W,
        lookups: &mut Lookups<L>,
    ) -> usize {
        let entry = Entry {
            before: self.last,
            behind: None,
            notice: EntryState::Untold(payload),
        };
        let key = entries.insert(entry, lookups);
        entries.set_behind(self.last, Some(key), lookups);
        *self = self.with(key);
        key
    }
}
