// Taken out of crates/channel_run/src/run/messages.rt by tools/erase. Change that file, not this one.
//! Steps that put a message in, or take one, at once.

use crate::proved::channel_run::run::Run;
use crate::proved::channel_model::{NoMemory, Refusal, Reply};
use crate::proved::event_list::Quiet;

impl<T> Run<T> {
    #[inline]
    pub(super) fn try_send(&mut self, sender: u64, message: T) -> Reply<T> {
        if !self.senders.has(sender) {
            return Reply::Refused(Refusal::Unknown, Some(message));
        }
        match self.core.try_send(message, &mut Quiet) {
            Ok(answer) => Reply::TrySent(answer),
            Err(NoMemory(message)) => Reply::Refused(Refusal::OutOfMemory, Some(message)),
        }
    }

    #[inline]
    pub(super) fn force_send(&mut self, sender: u64, message: T) -> Reply<T> {
        if !self.senders.has(sender) {
            return Reply::Refused(Refusal::Unknown, Some(message));
        }
        match self.core.force_send(message, &mut Quiet) {
            Ok(answer) => Reply::Forced(answer),
            Err(NoMemory(message)) => Reply::Refused(Refusal::OutOfMemory, Some(message)),
        }
    }

    #[inline]
    pub(super) fn try_recv(&mut self, receiver: u64) -> Reply<T> {
        if !self.has_receiver(receiver) {
            return Reply::Refused(Refusal::Unknown, None);
        }
        Reply::Received(self.core.try_recv(&mut Quiet))
    }
}
