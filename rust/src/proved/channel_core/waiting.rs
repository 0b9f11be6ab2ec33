// Taken out of crates/channel_core/src/waiting.rt by tools/erase. Change that file, not this one.
//! The waiting lists of a channel, and what a ticket that may be there does to one.

use crate::errors::OutOfMemory;
use crate::proved::channel_core::state::Group;
use crate::proved::event_list::{Bell, NoRoom, Ticket, WaitList};
use crate::shim::Global;

/// Who waits for a channel, by what they wait for.
pub struct WaitLists<W> {
    // Sends, for a place or the close.
    pub(super) sends: WaitList<W>,
    // Receives, for a message or the close.
    pub(super) receives: WaitList<W>,
    // Streams, for a message or the close.
    pub(super) streams: WaitList<W>,
    // Closed operations, for the end of the last receiver.
    pub(super) closeds: WaitList<W>,
}

impl<W> WaitLists<W> {
    /// Nobody waits.
    #[inline]
    pub(super) fn new(alloc: Global) -> Self {
        WaitLists {
            sends: WaitList::new(alloc),
            receives: WaitList::new(alloc),
            streams: WaitList::new(alloc),
            closeds: WaitList::new(alloc),
        }
    }

    /// The list of a group.
    #[inline]
    pub(super) fn of(&self, g: Group) -> &WaitList<W> {
        match g {
            Group::Sends => &self.sends,
            Group::Receives => &self.receives,
            Group::Streams => &self.streams,
            Group::Closeds => &self.closeds,
        }
    }

    /// A message was accepted.
    #[inline(always)]
    pub(super) fn tell_accepted<B: Bell<W>>(&mut self, bell: &mut B) {
        self.receives.tell_one(bell);
        self.streams.tell_all(bell);
    }

    /// The channel was closed.
    #[inline(never)]
    pub(super) fn tell_closed<B: Bell<W>>(&mut self, bell: &mut B) {
        self.sends.tell_all(bell);
        self.receives.tell_all(bell);
        self.streams.tell_all(bell);
    }
}

/// The ticket's entry leaves the list, with its notice. The answer is the payload that it held.
#[inline]
pub(super) fn leave<W>(list: &mut WaitList<W>, ticket: &mut Option<Ticket>) -> Option<W> {
    list.unregister(ticket.take()?)?.into_payload()
}

/// The ticket's entry leaves the list, and a notice that it had is handed on. The answer is the
/// payload that it held.
#[inline]
pub(super) fn hand_on<W, B: Bell<W>>(
    list: &mut WaitList<W>,
    ticket: &mut Option<Ticket>,
    bell: &mut B,
) -> Option<W> {
    list.withdraw(ticket.take()?, bell)
}

/// Who can't go on waits with the payload: its entry waits again, or it begins to wait. The answer
/// is the payload that its entry held. If memory was refused, `w` comes back.
#[inline(always)]
pub(super) fn wait<W>(
    list: &mut WaitList<W>,
    ticket: &mut Option<Ticket>,
    w: W,
) -> Result<Option<W>, NoRoom<W>> {
    let mut payload = w;
    if let Some(ticket) = ticket {
        match list.renew(ticket, payload) {
            Ok(had) => return Ok(had),
            Err(back) => payload = back,
        }
    }
    list.listen_anew(ticket, payload)?;
    Ok(None)
}
