// Taken out of crates/event_list/src/ticket.rt by tools/erase. Change that file, not this one.
//! What names an entry of a waiting list.

/// Names an entry of one waiting list. Its key is all that a contract sees of it.
///
/// A ticket is neither `Copy` nor `Clone`, so an entry has one owner. In Rattle it has no `Drop`
/// either: who forgets an entry gets an error of the compiler. A ticket goes back to the list,
/// which takes the entry out and hands a notice on. To another list it means nothing, or whichever
/// entry has the same key there; if no entry has it, the ticket alone goes.
pub struct Ticket {
    pub(super) key: usize,
}

impl Ticket {
    /// The key of the entry.
    #[cfg(vamorilesh_run)]
    #[inline]
    pub fn key(&self) -> usize {
        self.key
    }

    /// Ends a place where no ticket is.
    #[cfg(vamorilesh_run)]
    #[inline]
    pub fn destroy_none(place: Option<Ticket>) {
        match place {
            None => {}
            Some(_) => unreachable!(),
        }
    }
}
