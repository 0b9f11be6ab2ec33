// Taken out of crates/event_list/src/list/steps.rt by tools/erase. Change that file, not this one.
//! How many entries were looked up.
//!
//! A caller holds [`Steps`], and the calls that reach the entries take the [`Lookups`] inside it. A
//! caller opens `Steps` on any blank. `Lookups` are opened and taken out of `Steps` in `list` and
//! its modules alone, so that where the entries are worked on every look-up is counted on the
//! ledger that was handed in: there is no other in reach.

use crate::shim::{Blank, Book, Ledger, Share};

/// How many entries were looked up. A contract sees it as that number.
///
/// It is the book of a ledger and takes no bytes, so counting costs nothing when a program runs.
pub struct Steps<L: Ledger> {
    // What the calls on the entries raise.
    pub(super) lookups: Lookups<L>,
}

impl<L: Ledger> Steps<L> {
    /// No steps yet, on the ledger that this blank opens.
    #[inline]
    pub fn of(blank: Blank) -> Self {
        Steps {
            lookups: Lookups::of(blank),
        }
    }
}

/// The number of look-ups, as what works on the entries sees it.
pub struct Lookups<L: Ledger> {
    book: Book<L>,
    share: Share<L>,
}

impl<L: Ledger> Lookups<L> {
    // None yet, on the ledger that this blank opens.
    #[inline]
    fn of(blank: Blank) -> Self {
        let (book, share) = blank.open::<L>();
        Lookups { book, share }
    }

    /// One more look-up.
    #[inline]
    pub(in super::super) fn raise(&mut self) {
        self.book.add(&mut self.share, 1);
    }
}
