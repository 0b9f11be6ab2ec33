// Taken out of crates/channel_run/src/lib.rt by tools/erase. Change that file, not this one.
//! A channel of one owner whose handles and operations have names, and lists of steps on it.
//!
//! A [`Step`] is a call of a channel by a named party, and a [`Run`] makes it. What a run answers
//! is what its past decides.

mod holders;
mod names;
mod operations;
mod run;
mod settle;
mod tally;
mod tickets;

pub use crate::proved::channel_model::{
    Kind, Notice, OutOfMemory, RecvError, Refusal, Reply, SendError, Side, Step, TryRecvError,
    TrySendError, Who,
};
pub use run::Run;
pub use settle::Settled;
