// Taken out of crates/channel_run/src/run/batches.rt by tools/erase. Change that file, not this one.
//! Many messages in one step.

use crate::shim::Vec;

use crate::proved::channel_run::run::Run;
use crate::proved::channel_model::{OutOfMemory, Refusal, TryRecvError, TrySendError};
use crate::proved::event_list::Quiet;
use crate::shim::Global;
use crate::shim::VecDeque;

impl<T> Run<T> {
    /// Takes up to `limit` messages by a receiver, the oldest first, and puts them after those in
    /// `into`. It is as many single receives, with nobody's step between them.
    ///
    /// The answer is how many came. If there is none, it is that of a single receive. A refused
    /// batch changes nothing.
    #[inline]
    pub fn try_recv_many(
        &mut self,
        receiver: u64,
        into: &mut Vec<T>,
        limit: usize,
    ) -> Result<Result<usize, TryRecvError>, Refusal> {
        if !self.has_receiver(receiver) {
            return Err(Refusal::Unknown);
        }
        match self.core.try_recv_many(into, limit, &mut Quiet) {
            Ok(answer) => Ok(answer),
            Err(OutOfMemory) => Err(Refusal::OutOfMemory),
        }
    }

    /// Sends messages from the front of `from` by a sender, as many as fit, up to `limit`. It is as
    /// many single sends, with nobody's step between them. The rest stays in `from`.
    ///
    /// The answer is how many were sent. If the channel is closed or full at once, the error says
    /// which. A refused batch changes nothing.
    #[inline]
    pub fn try_send_many(
        &mut self,
        sender: u64,
        from: &mut VecDeque<T, Global>,
        limit: usize,
    ) -> Result<Result<usize, TrySendError<()>>, Refusal> {
        if !self.senders.has(sender) {
            return Err(Refusal::Unknown);
        }
        match self.core.try_send_many(from, limit, &mut Quiet) {
            Ok(answer) => Ok(answer),
            Err(OutOfMemory) => Err(Refusal::OutOfMemory),
        }
    }
}
