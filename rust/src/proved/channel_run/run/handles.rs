// Taken out of crates/channel_run/src/run/handles.rt by tools/erase. Change that file, not this one.
//! Handles that are copied, downgraded, upgraded and given up, by name.

use crate::proved::channel_run::names::take;
use crate::proved::channel_run::run::Run;
use crate::proved::channel_run::tickets::put_receiver;
use crate::proved::channel_core::HANDLE_LIMIT;
use crate::proved::channel_model::{OutOfMemory, Refusal, Reply};
use crate::proved::event_list::{Quiet, Ticket};

impl<T> Run<T> {
    #[inline]
    pub(super) fn clone_sender(&mut self, of: u64, new: u64) -> Reply<T> {
        if !self.senders.has(of) {
            return Reply::Refused(Refusal::Unknown, None);
        }
        if self.senders.has(new) {
            return Reply::Refused(Refusal::Taken, None);
        }
        if self.core.sender_count() > HANDLE_LIMIT {
            return Reply::Refused(Refusal::TooMany, None);
        }
        if self.senders.add(new).is_err() {
            return Reply::Refused(Refusal::OutOfMemory, None);
        }
        self.core.add_sender();
        Reply::Done
    }

    #[inline]
    pub(super) fn clone_receiver(&mut self, of: u64, new: u64) -> Reply<T> {
        if !self.has_receiver(of) {
            return Reply::Refused(Refusal::Unknown, None);
        }
        if self.has_receiver(new) {
            return Reply::Refused(Refusal::Taken, None);
        }
        if self.core.receiver_count() > HANDLE_LIMIT {
            return Reply::Refused(Refusal::TooMany, None);
        }
        if put_receiver(&mut self.receivers, new).is_err() {
            return Reply::Refused(Refusal::OutOfMemory, None);
        }
        self.core.add_receiver();
        Reply::Done
    }

    #[inline]
    pub(super) fn clone_weak_sender(&mut self, of: u64, new: u64) -> Reply<T> {
        if !self.weak_senders.has(of) {
            return Reply::Refused(Refusal::Unknown, None);
        }
        self.add_weak_sender(new)
    }

    #[inline]
    pub(super) fn clone_weak_receiver(&mut self, of: u64, new: u64) -> Reply<T> {
        if !self.weak_receivers.has(of) {
            return Reply::Refused(Refusal::Unknown, None);
        }
        self.add_weak_receiver(new)
    }

    #[inline]
    pub(super) fn downgrade_sender(&mut self, of: u64, new: u64) -> Reply<T> {
        if !self.senders.has(of) {
            return Reply::Refused(Refusal::Unknown, None);
        }
        self.add_weak_sender(new)
    }

    #[inline]
    pub(super) fn downgrade_receiver(&mut self, of: u64, new: u64) -> Reply<T> {
        if !self.has_receiver(of) {
            return Reply::Refused(Refusal::Unknown, None);
        }
        self.add_weak_receiver(new)
    }

    #[inline]
    pub(super) fn upgrade_sender(&mut self, of: u64, new: u64) -> Reply<T> {
        if !self.weak_senders.has(of) {
            return Reply::Refused(Refusal::Unknown, None);
        }
        if self.senders.has(new) {
            return Reply::Refused(Refusal::Taken, None);
        }
        if self.core.is_closed() {
            return Reply::Upgraded(false);
        }
        if self.core.sender_count() > HANDLE_LIMIT {
            return Reply::Refused(Refusal::TooMany, None);
        }
        if self.senders.add(new).is_err() {
            return Reply::Refused(Refusal::OutOfMemory, None);
        }
        self.core.upgrade_sender();
        Reply::Upgraded(true)
    }

    #[inline]
    pub(super) fn upgrade_receiver(&mut self, of: u64, new: u64) -> Reply<T> {
        if !self.weak_receivers.has(of) {
            return Reply::Refused(Refusal::Unknown, None);
        }
        if self.has_receiver(new) {
            return Reply::Refused(Refusal::Taken, None);
        }
        if self.core.is_closed() {
            return Reply::Upgraded(false);
        }
        if self.core.receiver_count() > HANDLE_LIMIT {
            return Reply::Refused(Refusal::TooMany, None);
        }
        if put_receiver(&mut self.receivers, new).is_err() {
            return Reply::Refused(Refusal::OutOfMemory, None);
        }
        self.core.upgrade_receiver();
        Reply::Upgraded(true)
    }

    #[inline]
    pub(super) fn drop_sender(&mut self, name: u64) -> Reply<T> {
        if !self.senders.has(name) {
            return Reply::Refused(Refusal::Unknown, None);
        }
        if self.operations.is_sender_borrowed(name) {
            return Reply::Refused(Refusal::Borrowed, None);
        }
        self.senders.remove(name);
        self.core.drop_sender(&mut Quiet);
        Reply::Done
    }

    #[inline]
    pub(super) fn drop_receiver(&mut self, name: u64) -> Reply<T> {
        if !self.has_receiver(name) {
            return Reply::Refused(Refusal::Unknown, None);
        }
        if self.operations.is_receiver_borrowed(name) {
            return Reply::Refused(Refusal::Borrowed, None);
        }
        let mut ticket = take(&mut self.receivers, name).flatten();
        self.core.drop_receiver(&mut ticket, &mut Quiet);
        Ticket::destroy_none(ticket);
        Reply::Done
    }

    #[inline]
    pub(super) fn drop_weak_sender(&mut self, name: u64) -> Reply<T> {
        if !self.weak_senders.has(name) {
            return Reply::Refused(Refusal::Unknown, None);
        }
        self.weak_senders.remove(name);
        Reply::Done
    }

    #[inline]
    pub(super) fn drop_weak_receiver(&mut self, name: u64) -> Reply<T> {
        if !self.weak_receivers.has(name) {
            return Reply::Refused(Refusal::Unknown, None);
        }
        self.weak_receivers.remove(name);
        Reply::Done
    }

    // Makes the name of a weak sender.
    #[inline]
    fn add_weak_sender(&mut self, new: u64) -> Reply<T> {
        if self.weak_senders.has(new) {
            return Reply::Refused(Refusal::Taken, None);
        }
        match self.weak_senders.add(new) {
            Ok(()) => Reply::Done,
            Err(OutOfMemory) => Reply::Refused(Refusal::OutOfMemory, None),
        }
    }

    // Makes the name of a weak receiver.
    #[inline]
    fn add_weak_receiver(&mut self, new: u64) -> Reply<T> {
        if self.weak_receivers.has(new) {
            return Reply::Refused(Refusal::Taken, None);
        }
        match self.weak_receivers.add(new) {
            Ok(()) => Reply::Done,
            Err(OutOfMemory) => Reply::Refused(Refusal::OutOfMemory, None),
        }
    }
}
