// Taken out of crates/event_list/src/lib.rt by tools/erase. Change that file, not this one.
//! Waiting operations in order of arrival, a told front, and a bell for those newly told.
//!
//! A channel keeps a [`WaitList`] for each reason to wait. Who can't go on listens, and gets a
//! [`Ticket`]. When something changes, the list tells one waiter, or all: it rings the [`Bell`]
//! with the payload that the waiter left, as a waker of its task, and keeps the entry, marked as
//! told, until the waiter takes it out, waits again or gives up.
//!
//! The entries are linked to one another in a slab, so that a call costs as much among a hundred
//! thousand waiters as among ten. [`Steps`] counts the entries that a call looks up.

mod bell;
mod ends;
mod entries;
mod links;
mod list;
mod ticket;

pub use bell::Bell;
#[cfg(vamorilesh_run)]
pub use bell::Quiet;
pub use entries::EntryState;
pub use list::steps::Steps;
pub use list::{NoRoom, WaitList};
pub use ticket::Ticket;
