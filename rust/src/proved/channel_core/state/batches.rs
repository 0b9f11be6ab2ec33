// Taken out of crates/channel_core/src/state/batches.rt by tools/erase. Change that file, not this one.
//! Many messages in one call: single steps, one after the other, with nobody's between.

use crate::shim::Vec;

use crate::errors::{NoMemory, OutOfMemory, TryRecvError, TrySendError};
use crate::proved::channel_core::state::Core;
use crate::proved::event_list::Bell;
use crate::shim::Global;
use crate::shim::VecDeque;

impl<T, W> Core<T, W> {
    /// Takes up to `limit` messages, the oldest first, and puts them after those in `into`. Each
    /// tells a send that there is a place, in turn.
    ///
    /// The answer is how many came. If no message is held nothing changes, and the error says
    /// whether the channel is closed. The outer error says that there was no memory in `into`,
    /// which is asked for before the first message is taken; nothing has changed then.
    #[inline]
    pub fn try_recv_many<B: Bell<W>>(
        &mut self,
        into: &mut Vec<T>,
        limit: usize,
        bell: &mut B,
    ) -> Result<Result<usize, TryRecvError>, OutOfMemory> {
        let count = limit.min(self.len());
        if into.try_reserve(count).is_err() {
            return Err(OutOfMemory);
        }
        if self.is_empty() {
            return Ok(Err(self.why_empty()));
        }
        self.take_held(into, count, bell);
        Ok(Ok(count))
    }

    /// Sends messages from the front of `from`, as many as fit, up to `limit`. Each tells a receive
    /// and all streams, in turn. The rest stays in `from`.
    ///
    /// The answer is how many were sent. If the channel is closed or full nothing changes, and
    /// the error says which. The outer error says that memory was refused for the first message,
    /// which an unbounded channel alone may be; nothing has changed then. If it is refused for a
    /// later one, that one stays in `from` with those after it.
    #[inline]
    pub fn try_send_many<B: Bell<W>>(
        &mut self,
        from: &mut VecDeque<T, Global>,
        limit: usize,
        bell: &mut B,
    ) -> Result<Result<usize, TrySendError<()>>, OutOfMemory> {
        if self.closed {
            return Ok(Err(TrySendError::Closed(())));
        }
        if self.is_full() {
            return Ok(Err(TrySendError::Full(())));
        }
        let most = limit.min(from.len());
        let count = self.send_front(from, most, bell);
        if count == 0 && most > 0 {
            return Err(OutOfMemory);
        }
        Ok(Ok(count))
    }

    // Takes so many messages into room that there is.
    #[inline]
    fn take_held<B: Bell<W>>(&mut self, into: &mut Vec<T>, count: usize, bell: &mut B) {
        for _turn in 0..count {
            let Ok(message) = self.try_recv(bell) else {
                unreachable!()
            };
            let Ok(()) = into.push(message) else {
                unreachable!()
            };
        }
    }

    // Sends so many from the front, or those before the first that is refused. The answer is how
    // many were sent.
    #[inline]
    fn send_front<B: Bell<W>>(
        &mut self,
        from: &mut VecDeque<T, Global>,
        most: usize,
        bell: &mut B,
    ) -> usize {
        for count in 0..most {
            if !self.send_first(from, bell) {
                return count;
            }
        }
        most
    }

    // Sends the message at the front. One that is refused stays there. The answer is whether one
    // was sent.
    #[inline]
    fn send_first<B: Bell<W>>(&mut self, from: &mut VecDeque<T, Global>, bell: &mut B) -> bool {
        let Some(message) = from.pop_front() else {
            return false;
        };
        let refused = match self.try_send(message, bell) {
            Ok(Ok(())) => return true,
            Ok(Err(error)) => error.into_inner(),
            Err(NoMemory(message)) => message,
        };
        from.push_front_reserved(refused);
        false
    }
}
