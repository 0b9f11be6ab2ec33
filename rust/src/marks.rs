//! The wakers that waiters leave, on their way into a waiting list and out of it.
//!
//! A waker is the caller's: to copy, to wake or to drop it may run any code, even a call of the
//! same channel, or panic. So none of it happens under the channel's lock. A poll that has to wait
//! lets the lock go before it copies its waker. Those that a step tells are gathered by its bell
//! and woken once the lock is let go. One that leaves its list untold comes back from the step, and
//! is dropped then.

use crate::proved::event_list::Bell;
use std::mem;
use std::panic::{catch_unwind, resume_unwind, AssertUnwindSafe};
use std::task::Waker;

/// The wakers of those whom a step told, in the order in which it told them.
///
/// Most steps tell one at the most, which takes no memory.
#[derive(Default)]
pub(crate) enum Told {
    #[default]
    Nobody,
    One(Waker),
    Many(Vec<Waker>),
}

impl Told {
    /// Wakes them. The lock has been let go by now.
    #[inline]
    pub(crate) fn wake(self) {
        if !matches!(self, Told::Nobody) {
            self.wake_some();
        }
    }

    /// Not in line, so that a step that tells nobody is a short piece.
    #[inline(never)]
    fn wake_some(self) {
        match self {
            Told::Nobody => {}
            Told::One(waker) => waker.wake(),
            Told::Many(wakers) => wake_all(wakers),
        }
    }
}

impl Bell<Waker> for Told {
    fn ring(&mut self, waker: Waker) {
        *self = match mem::take(self) {
            Told::Nobody => Told::One(waker),
            Told::One(first) => Told::Many(vec![first, waker]),
            Told::Many(mut wakers) => {
                wakers.push(waker);
                Told::Many(wakers)
            }
        }
    }
}

/// Wakes each of them, also if one before it panics. The first panic goes on once all are woken.
#[cold]
fn wake_all(wakers: Vec<Waker>) {
    let wake = |waker: Waker| catch_unwind(AssertUnwindSafe(|| waker.wake())).err();
    let panics: Vec<_> = wakers.into_iter().filter_map(wake).collect();
    if let Some(first) = panics.into_iter().next() {
        resume_unwind(first);
    }
}
