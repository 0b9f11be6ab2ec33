// Taken out of crates/channel_core/src/state/handles.rt by tools/erase. Change that file, not this one.
//! The handles of a channel: how many senders and receivers there are, and who is the last.

use crate::proved::channel_core::state::{Core, HANDLE_LIMIT, shut};
#[cfg(vamorilesh_run)]
use crate::proved::channel_core::state::Upgrade;
use crate::proved::channel_core::waiting::leave;
use crate::proved::event_list::{Bell, Ticket};

// Counts one more copy of a handle, if there is one and there may be one more.
#[cfg(vamorilesh_run)]
#[inline]
fn add_handle(count: &mut usize) -> bool {
    if *count == 0 || *count > HANDLE_LIMIT {
        return false;
    }
    *count += 1;
    true
}

// Counts one more handle, made of a weak one.
#[cfg(vamorilesh_run)]
#[inline]
fn upgrade_handle(closed: bool, count: &mut usize) -> Upgrade {
    if closed {
        return Upgrade::Closed;
    }
    if *count > HANDLE_LIMIT {
        return Upgrade::TooMany;
    }
    *count += 1;
    Upgrade::Raised
}

impl<T, W> Core<T, W> {
    /// Counts one more sender, a copy of one that there is. The answer is whether there may be one
    /// more.
    #[cfg(vamorilesh_run)]
    #[inline]
    pub fn add_sender(&mut self) -> bool {
        add_handle(&mut self.senders)
    }

    /// Counts one more receiver, a copy of one that there is. The answer is whether there may be
    /// one more.
    #[cfg(vamorilesh_run)]
    #[inline]
    pub fn add_receiver(&mut self) -> bool {
        add_handle(&mut self.receivers)
    }

    /// Counts one more sender, made of a weak one, if the channel is open.
    #[cfg(vamorilesh_run)]
    #[inline]
    pub fn upgrade_sender(&mut self) -> Upgrade {
        upgrade_handle(self.closed, &mut self.senders)
    }

    /// Counts one more receiver, made of a weak one, if the channel is open.
    #[cfg(vamorilesh_run)]
    #[inline]
    pub fn upgrade_receiver(&mut self) -> Upgrade {
        upgrade_handle(self.closed, &mut self.receivers)
    }

    /// Gives a sender up. The last one closes the channel; the answer is whether that happened.
    /// An open channel has somebody on the other side still.
    #[inline]
    pub fn drop_sender<B: Bell<W>>(&mut self, bell: &mut B) -> bool {
        match self.senders {
            0 => false,
            1 => {
                self.senders = 0;
                shut(&mut self.closed, &mut self.lists, bell)
            }
            _ => {
                self.senders -= 1;
                false
            }
        }
    }

    /// Gives a receiver up, and its stream's wait with it. The last one closes the channel; the
    /// answer is whether that happened. It also tells closed operations, on a channel that was
    /// closed before too.
    #[inline]
    pub fn drop_receiver<B: Bell<W>>(&mut self, stream: &mut Option<Ticket>, bell: &mut B) -> bool {
        leave(&mut self.lists.streams, stream);
        match self.receivers {
            0 => false,
            1 => {
                self.receivers = 0;
                let closed = shut(&mut self.closed, &mut self.lists, bell);
                self.lists.closeds.tell_all(bell);
                closed
            }
            _ => {
                self.receivers -= 1;
                false
            }
        }
    }
}
