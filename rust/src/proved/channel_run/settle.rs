// Taken out of crates/channel_run/src/settle.rt by tools/erase. Change that file, not this one.
//! Settling: those who were told are polled until nobody is told.

use crate::shim::Vec;

use crate::proved::channel_run::run::Run;
use crate::proved::channel_model::{OutOfMemory, Reply, Who};

/// What settling a run came to.
pub struct Settled<T> {
    /// How many polls were made.
    pub polls: u128,
    /// Those whose poll was ready, each with its reply, in the order of the polls.
    pub finished: Vec<(Who, Reply<T>)>,
}

impl<T> Run<T> {
    /// Makes one poll of settling, of who was told first, and answers whose it was. If nobody
    /// was told it does nothing.
    #[inline]
    pub fn poll_first_told(&mut self) -> Option<(Who, Reply<T>)> {
        let who = self.first_told(None)?;
        let reply = self.poll_told(who);
        Some((who, reply))
    }

    /// Polls those who were told, one after the other, until nobody is told. Then nobody waits who
    /// could go on.
    ///
    /// Each time it polls the first told receive; if none is told, the first told stream, then
    /// send, then closed operation. A told stream is polled also if a live receive borrows its
    /// receiver. If `w` wait, it takes `w * (w + 1) / 2` polls at the most.
    ///
    /// Memory has to be had before the first poll alone, for as many replies as there are waiting
    /// entries. A settling of several polls asks for more later on, which only speeds it up and may
    /// be refused without a trace.
    #[inline]
    pub fn settle(&mut self) -> Result<Settled<T>, OutOfMemory> {
        let mut finished = self.room_for_replies()?;
        let mut holders = None;
        for polls in 0..u128::MAX {
            let Some(who) = self.first_told(holders.as_ref()) else {
                return Ok(Settled { polls, finished });
            };
            if polls == 1 {
                // more than one was told: from here on nobody is walked for
                holders = Some(self.holders());
            }
            let reply = self.poll_told(who);
            keep_ready(&mut finished, who, reply);
        }
        // never reached: these would be more polls than the bound
        Ok(Settled {
            polls: u128::MAX,
            finished,
        })
    }
}

// Keeps the reply to a poll, if it was ready.
#[inline]
fn keep_ready<T>(finished: &mut Vec<(Who, Reply<T>)>, who: Who, reply: Reply<T>) {
    if reply.is_ready() {
        match finished.push((who, reply)) {
            Ok(()) => {}
            Err(_) => unreachable!(),
        }
    }
}
