// Taken out of crates/channel_core/src/state/polls.rt by tools/erase. Change that file, not this one.
//! The polls of those who may wait, and what they leave when one gives up.

use crate::errors::{NoMemory, OutOfMemory, RecvError, SendError};
use crate::proved::channel_core::state::{Core, Group};
use crate::proved::channel_core::waiting::{hand_on, leave, wait};
use crate::proved::event_list::{Bell, NoRoom, Ticket};
#[cfg(vamorilesh_run)]
use crate::proved::event_list::Quiet;
use std::task::Poll;

impl<T, W> Core<T, W> {
    /// Polls a send: its message and its ticket. One without a message is finished, and stays
    /// pending.
    ///
    /// A ready poll leaves neither message nor ticket. A pending one leaves the ticket of an
    /// untold entry that holds `w`. If memory was refused nothing has changed, the message
    /// and the ticket neither.
    #[cfg(vamorilesh_run)]
    #[inline(always)]
    pub fn poll_send<B: Bell<W>>(
        &mut self,
        m: &mut Option<T>,
        t: &mut Option<Ticket>,
        w: W,
        bell: &mut B,
    ) -> Result<Poll<Result<(), SendError<T>>>, OutOfMemory> {
        let polled = self.finish_send(m, t, bell, &mut None)?;
        if polled.is_pending() && m.is_some() {
            self.wait_or_fail(Group::Sends, t, w)?;
        }
        Ok(polled)
    }

    /// Finishes a send, if it can go on: `poll_send`, but a pending poll changes nothing.
    ///
    /// `back` gets the payload that the send's entry held untold, once that has left its list, and
    /// is none else. One that can't go on waits by [`Core::wait`].
    #[inline(always)]
    pub fn finish_send<B: Bell<W>>(
        &mut self,
        m: &mut Option<T>,
        t: &mut Option<Ticket>,
        bell: &mut B,
        back: &mut Option<W>,
    ) -> Result<Poll<Result<(), SendError<T>>>, OutOfMemory> {
        *back = None;
        let Some(message) = m.take() else {
            return Ok(Poll::Pending);
        };
        if self.closed {
            *back = leave(&mut self.lists.sends, t);
            return Ok(Poll::Ready(Err(SendError(message))));
        }
        match self.queue.push(message) {
            Ok(Ok(())) => {
                *back = leave(&mut self.lists.sends, t);
                self.lists.tell_accepted(bell);
                Ok(Poll::Ready(Ok(())))
            }
            Ok(Err(message)) => {
                *m = Some(message);
                Ok(Poll::Pending)
            }
            Err(NoMemory(message)) => {
                *m = Some(message);
                Err(OutOfMemory)
            }
        }
    }

    /// Polls a receive, by its ticket.
    ///
    /// A ready poll leaves no ticket. A pending one leaves the ticket of an untold entry that
    /// holds `w`. If memory was refused nothing has changed, the ticket neither.
    #[cfg(vamorilesh_run)]
    #[inline(always)]
    pub fn poll_recv<B: Bell<W>>(
        &mut self,
        t: &mut Option<Ticket>,
        w: W,
        bell: &mut B,
    ) -> Result<Poll<Result<T, RecvError>>, OutOfMemory> {
        let polled = self.finish_recv(t, bell, &mut None);
        if polled.is_pending() {
            self.wait_or_fail(Group::Receives, t, w)?;
        }
        Ok(polled)
    }

    /// Finishes a receive, if it can go on: `poll_recv`, but a pending poll changes nothing.
    ///
    /// `back` gets the payload that the receive's entry held untold, once that has left its list,
    /// and is none else. One that can't go on waits by [`Core::wait`].
    #[inline(always)]
    pub fn finish_recv<B: Bell<W>>(
        &mut self,
        t: &mut Option<Ticket>,
        bell: &mut B,
        back: &mut Option<W>,
    ) -> Poll<Result<T, RecvError>> {
        *back = None;
        if let Some(message) = self.queue.pop() {
            *back = leave(&mut self.lists.receives, t);
            self.lists.sends.tell_one(bell);
            return Poll::Ready(Ok(message));
        }
        if self.closed {
            *back = leave(&mut self.lists.receives, t);
            return Poll::Ready(Err(RecvError));
        }
        Poll::Pending
    }

    /// Polls the stream of a receiver, by its ticket.
    ///
    /// A ready poll leaves no ticket. A pending one leaves the ticket of an untold entry that
    /// holds `w`. If memory was refused nothing has changed, the ticket neither.
    #[cfg(vamorilesh_run)]
    #[inline]
    pub fn poll_next<B: Bell<W>>(
        &mut self,
        t: &mut Option<Ticket>,
        w: W,
        bell: &mut B,
    ) -> Result<Poll<Option<T>>, OutOfMemory> {
        let polled = self.finish_next(t, bell, &mut None);
        if polled.is_pending() {
            self.wait_or_fail(Group::Streams, t, w)?;
        }
        Ok(polled)
    }

    /// Takes the next message of a stream, or finds its end: `poll_next`, but a pending poll changes
    /// nothing.
    ///
    /// `back` gets the payload that the stream's entry held untold, once that has left its list, and
    /// is none else. One that can't go on waits by [`Core::wait`].
    #[inline]
    pub fn finish_next<B: Bell<W>>(
        &mut self,
        t: &mut Option<Ticket>,
        bell: &mut B,
        back: &mut Option<W>,
    ) -> Poll<Option<T>> {
        *back = None;
        if let Some(message) = self.queue.pop() {
            *back = leave(&mut self.lists.streams, t);
            self.lists.sends.tell_one(bell);
            return Poll::Ready(Some(message));
        }
        if self.closed {
            *back = leave(&mut self.lists.streams, t);
            return Poll::Ready(None);
        }
        Poll::Pending
    }

    /// Polls a closed operation, by its ticket. It is ready exactly if no receiver is left.
    ///
    /// A ready poll leaves no ticket. A pending one leaves the ticket of an untold entry that
    /// holds `w`. If memory was refused nothing has changed, the ticket neither.
    #[cfg(vamorilesh_run)]
    #[inline]
    pub fn poll_closed(&mut self, t: &mut Option<Ticket>, w: W) -> Result<Poll<()>, OutOfMemory> {
        let polled = self.finish_closed(t, &mut None);
        if polled.is_pending() {
            self.wait_or_fail(Group::Closeds, t, w)?;
        }
        Ok(polled)
    }

    /// Finishes a closed operation, if no receiver is left: `poll_closed`, but a pending poll changes
    /// nothing.
    ///
    /// `back` gets the payload that the operation's entry held untold, once that has left its list,
    /// and is none else. One that can't go on waits by [`Core::wait`].
    #[inline]
    pub fn finish_closed(&mut self, t: &mut Option<Ticket>, back: &mut Option<W>) -> Poll<()> {
        *back = None;
        if self.receivers > 0 {
            return Poll::Pending;
        }
        *back = leave(&mut self.lists.closeds, t);
        Poll::Ready(())
    }

    /// One that can't go on waits: its entry in the group's list waits again, or a new one goes
    /// last. It is untold then, and holds `w`.
    ///
    /// The answer is the payload that its entry held untold before. If memory was refused nothing
    /// has changed, and `w` comes back.
    #[inline(always)]
    pub fn wait(&mut self, g: Group, t: &mut Option<Ticket>, w: W) -> Result<Option<W>, NoRoom<W>> {
        match g {
            Group::Sends => wait(&mut self.lists.sends, t, w),
            Group::Receives => wait(&mut self.lists.receives, t, w),
            Group::Streams => wait(&mut self.lists.streams, t, w),
            Group::Closeds => wait(&mut self.lists.closeds, t, w),
        }
    }

    // `wait`, without the payloads of before and after.
    #[cfg(vamorilesh_run)]
    #[inline(always)]
    fn wait_or_fail(&mut self, g: Group, t: &mut Option<Ticket>, w: W) -> Result<(), OutOfMemory> {
        match self.wait(g, t, w) {
            Ok(_) => Ok(()),
            Err(NoRoom(_)) => Err(OutOfMemory),
        }
    }

    /// Gives a send's wait up. A notice that it had goes to the next send.
    #[cfg(vamorilesh_run)]
    #[inline]
    pub fn cancel_send<B: Bell<W>>(&mut self, t: &mut Option<Ticket>, bell: &mut B) {
        self.withdraw(Group::Sends, t, bell);
    }

    /// Gives a receive's wait up. A notice that it had goes to the next receive.
    #[cfg(vamorilesh_run)]
    #[inline]
    pub fn cancel_recv<B: Bell<W>>(&mut self, t: &mut Option<Ticket>, bell: &mut B) {
        self.withdraw(Group::Receives, t, bell);
    }

    /// Gives a closed operation's wait up. Closed operations are told together, so that no notice
    /// is handed on.
    #[cfg(vamorilesh_run)]
    #[inline]
    pub fn cancel_closed(&mut self, t: &mut Option<Ticket>) {
        self.withdraw(Group::Closeds, t, &mut Quiet);
    }

    /// Gives the wait of one of the group up, as `cancel_send` and its kin do. The answer is the
    /// payload that its entry held untold.
    ///
    /// Who gives a receiver up and wants the payload of its stream back makes this call first, and
    /// then `drop_receiver` without a ticket.
    #[inline]
    pub fn withdraw<B: Bell<W>>(
        &mut self,
        g: Group,
        t: &mut Option<Ticket>,
        bell: &mut B,
    ) -> Option<W> {
        match g {
            Group::Sends => hand_on(&mut self.lists.sends, t, bell),
            Group::Receives => hand_on(&mut self.lists.receives, t, bell),
            Group::Streams => leave(&mut self.lists.streams, t),
            Group::Closeds => leave(&mut self.lists.closeds, t),
        }
    }
}
