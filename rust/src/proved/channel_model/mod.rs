// Taken out of crates/channel_model/src/lib.rt by tools/erase. Change that file, not this one.
//! What a channel's past decides: replies, what is shown, and laws that hold after every past.
//!
//! A past is the list of the steps that were made on a channel, each with its reply. The
//! definitions say what it decides: the reply that is due to a step, what is held, who is live, who
//! waits and who was told. Of the core they know the errors, the reply tables and the law of notices,
//! and nothing of its code. The crates above prove that what they make of it agrees with them.
//! [`laws`] has what holds after every past that can come about.

mod step;

pub use crate::proved::channel_core::{
    NoMemory, OutOfMemory, RecvError, SendError, TryRecvError, TrySendError,
};
pub use step::{Kind, Notice, Refusal, Reply, Side, Step, Who};
