// Taken out of crates/channel_run/src/run/questions.rt by tools/erase. Change that file, not this one.
//! What a handle asks of the channel, and what closes it.

use crate::proved::channel_run::run::Run;
use crate::proved::channel_model::{Refusal, Reply, Side};
use crate::proved::event_list::Quiet;

impl<T> Run<T> {
    #[inline]
    pub(super) fn close(&mut self, side: Side) -> Reply<T> {
        if !self.has_handle(side) {
            return Reply::Refused(Refusal::Unknown, None);
        }
        Reply::Flag(self.core.close(&mut Quiet))
    }

    #[inline]
    pub(super) fn is_closed(&self, side: Side) -> Reply<T> {
        self.answer(side, Reply::Flag(self.core.is_closed()))
    }

    #[inline]
    pub(super) fn is_empty(&self, side: Side) -> Reply<T> {
        self.answer(side, Reply::Flag(self.core.is_empty()))
    }

    #[inline]
    pub(super) fn is_full(&self, side: Side) -> Reply<T> {
        self.answer(side, Reply::Flag(self.core.is_full()))
    }

    #[inline]
    pub(super) fn len(&self, side: Side) -> Reply<T> {
        self.answer(side, Reply::Count(self.core.len()))
    }

    #[inline]
    pub(super) fn sender_count(&self, side: Side) -> Reply<T> {
        self.answer(side, Reply::Count(self.core.sender_count()))
    }

    #[inline]
    pub(super) fn receiver_count(&self, side: Side) -> Reply<T> {
        self.answer(side, Reply::Count(self.core.receiver_count()))
    }

    #[inline]
    pub(super) fn capacity(&self, side: Side) -> Reply<T> {
        self.answer(side, Reply::Capacity(self.core.capacity()))
    }

    #[inline]
    pub(super) fn is_terminated(&self, receiver: u64) -> Reply<T> {
        self.answer(
            Side::Receiver(receiver),
            Reply::Flag(self.core.is_terminated()),
        )
    }

    // The reply to a handle that asks, if it is live.
    #[inline]
    fn answer(&self, side: Side, reply: Reply<T>) -> Reply<T> {
        if self.has_handle(side) {
            reply
        } else {
            Reply::Refused(Refusal::Unknown, None)
        }
    }
}
