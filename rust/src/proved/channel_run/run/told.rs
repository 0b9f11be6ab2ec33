// Taken out of crates/channel_run/src/run/told.rt by tools/erase. Change that file, not this one.
//! Who was told first, and the poll of whoever that is.

use crate::shim::Vec;

use crate::proved::channel_run::holders::Holders;
use crate::proved::channel_run::run::Run;
use crate::proved::channel_run::tickets::{operation_with, receiver_with};
use crate::proved::channel_core::Group;
use crate::proved::channel_model::{OutOfMemory, Reply, Who};

impl<T> Run<T> {
    /// Room for as many replies as there are waiting entries, and for no others.
    #[inline]
    pub(in super::super) fn room_for_replies(&self) -> Result<Vec<(Who, Reply<T>)>, OutOfMemory> {
        match Vec::with_capacity(self.alloc, self.waiting()) {
            Ok(replies) => Ok(replies),
            Err(_) => Err(OutOfMemory),
        }
    }

    /// Who holds which ticket, as far as there is memory to note it.
    #[inline]
    pub(in super::super) fn holders(&self) -> Holders {
        let mut holders = Holders::new(self.alloc);
        // whoever finds no memory is walked for
        let _ = holders.add_all(&self.operations.by_name, &self.receivers);
        holders
    }

    /// Who is polled next: the first told receive, else the first told stream, else the first told
    /// send, else the first told closed operation. It is the same whatever is known of the holders.
    #[inline]
    pub(in super::super) fn first_told(&self, holders: Option<&Holders>) -> Option<Who> {
        if let Some(op) = self.first_in(Group::Receives, holders) {
            return Some(Who::Op(op));
        }
        if let Some(receiver) = self.first_in(Group::Streams, holders) {
            return Some(Who::Receiver(receiver));
        }
        if let Some(op) = self.first_in(Group::Sends, holders) {
            return Some(Who::Op(op));
        }
        let op = self.first_in(Group::Closeds, holders)?;
        Some(Who::Op(op))
    }

    /// Polls the one who was told first, also a stream whose receiver a live receive borrows.
    #[inline]
    pub(in super::super) fn poll_told(&mut self, who: Who) -> Reply<T> {
        // whoever waits is live, as the run's parts fit together
        let _ = &self.core;
        match who {
            Who::Op(op) => self.poll(op),
            Who::Receiver(receiver) => self.poll_stream(receiver),
        }
    }

    // How many entries the waiting lists have.
    #[inline]
    fn waiting(&self) -> usize {
        // proof: no more wait than have names, so that the sum fits
        let _operations = self.operations.by_name.len();
        let _receivers = self.receivers.len();
        self.core.waiting(Group::Sends)
            + self.core.waiting(Group::Receives)
            + self.core.waiting(Group::Streams)
            + self.core.waiting(Group::Closeds)
    }

    // The name of the first who was told in the group.
    #[inline]
    fn first_in(&self, group: Group, holders: Option<&Holders>) -> Option<u64> {
        let key = self.core.first_told(group)?;
        let guess = match holders {
            Some(holders) => holders.get(group, key),
            None => None,
        };
        match group {
            Group::Streams => receiver_with(&self.receivers, key, guess),
            _ => operation_with(&self.operations.by_name, group, key, guess),
        }
    }
}
