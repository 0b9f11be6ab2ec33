// Taken out of crates/event_list/src/bell.rt by tools/erase. Change that file, not this one.
//! What is rung for those newly told.

/// What is rung with the payload of each newly told entry.
///
/// Each bell says by `rings` how one ring may change it, so that a caller knows from a list's
/// contracts which payloads it was rung with, in which order.
pub trait Bell<W> {
    /// Rings with the payload of an entry that has just been told.
    fn ring(&mut self, payload: W);
}

/// A bell that does nothing, for a list whose waiters are looked after by its owner.
#[cfg(vamorilesh_run)]
pub struct Quiet;

#[cfg(vamorilesh_run)]
impl<W> Bell<W> for Quiet {
    #[inline]
    fn ring(&mut self, payload: W) {
        let _ = payload;
    }
}
