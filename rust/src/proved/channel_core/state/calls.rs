// Taken out of crates/channel_core/src/state/calls.rt by tools/erase. Change that file, not this one.
//! The calls that never wait: a message in, a message out, and the end of the channel.

use crate::errors::{NoMemory, SendError, TryRecvError, TrySendError};
use crate::proved::channel_core::state::{Core, shut};
use crate::proved::event_list::Bell;

impl<T, W> Core<T, W> {
    /// Puts a message last, if the channel is open and not full.
    ///
    /// A full or closed channel hands the message back. The outer error, with the message, says
    /// that memory was refused, which an unbounded channel alone may be; nothing has changed then.
    #[inline(always)]
    pub fn try_send<B: Bell<W>>(
        &mut self,
        m: T,
        bell: &mut B,
    ) -> Result<Result<(), TrySendError<T>>, NoMemory<T>> {
        if self.closed {
            return Ok(Err(TrySendError::Closed(m)));
        }
        match self.queue.push(m)? {
            Ok(()) => {
                self.lists.tell_accepted(bell);
                Ok(Ok(()))
            }
            Err(m) => Ok(Err(TrySendError::Full(m))),
        }
    }

    /// Puts a message last, if the channel is open. A full one gives its oldest message for it,
    /// which tells no send.
    ///
    /// A closed channel hands the message back. The outer error, with the message, says that memory
    /// was refused, which an unbounded channel alone may be; nothing has changed then.
    #[inline]
    pub fn force_send<B: Bell<W>>(
        &mut self,
        m: T,
        bell: &mut B,
    ) -> Result<Result<Option<T>, SendError<T>>, NoMemory<T>> {
        if self.closed {
            return Ok(Err(SendError(m)));
        }
        let displaced = self.queue.force_push(m)?;
        self.lists.tell_accepted(bell);
        Ok(Ok(displaced))
    }

    /// Takes the oldest message, and tells a send that there is a place.
    ///
    /// If no message is held nothing changes, and the error says whether the channel is closed.
    #[inline(always)]
    pub fn try_recv<B: Bell<W>>(&mut self, bell: &mut B) -> Result<T, TryRecvError> {
        match self.queue.pop() {
            Some(message) => {
                self.lists.sends.tell_one(bell);
                Ok(message)
            }
            None => Err(self.why_empty()),
        }
    }

    // Why a channel without a message has none: none will come, or none is there yet.
    #[inline(always)]
    pub(in super::super) fn why_empty(&self) -> TryRecvError {
        if self.closed {
            TryRecvError::Closed
        } else {
            TryRecvError::Empty
        }
    }

    /// Closes the channel, and answers whether it was open. The messages stay.
    ///
    /// Closed operations aren't told: they wait until no receiver is left.
    #[inline]
    pub fn close<B: Bell<W>>(&mut self, bell: &mut B) -> bool {
        shut(&mut self.closed, &mut self.lists, bell)
    }
}
