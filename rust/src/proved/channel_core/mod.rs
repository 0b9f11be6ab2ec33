// Taken out of crates/channel_core/src/lib.rt by tools/erase. Change that file, not this one.
//! The channel as one owner sees it: its errors, its queue and its state.
//!
//! Each call of [`Core`] is one atomic step of a channel.

mod queue;
mod state;
mod waiting;

pub use crate::errors::{NoMemory, OutOfMemory, RecvError, SendError, TryRecvError, TrySendError};
pub use crate::proved::event_list::{Bell, NoRoom, Ticket};
#[cfg(vamorilesh_run)]
pub use crate::proved::event_list::Quiet;
pub use queue::Queue;
pub use state::{Core, Group, HANDLE_LIMIT};
#[cfg(vamorilesh_run)]
pub use state::Upgrade;
