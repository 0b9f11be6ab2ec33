//! An async multi-producer multi-consumer channel, where each message goes to one receiver.
//!
//! A channel has senders and receivers, as many of each as are wanted, on any threads and tasks. A
//! [`bounded`] channel holds so many messages at the most; an [`unbounded`] one holds any number.
//! Once all senders or all receivers are gone, or one of them says [`close`](Sender::close), it is
//! closed: nothing more goes in, and what is left comes out.
//!
//! The names and answers are those of the crate `async-channel` 2.5. New are the calls for many
//! messages: [`Sender::send_many`] and [`Receiver::recv_many`], their kinds that block or don't
//! wait, and [`Receiver::try_iter`]. So are those that block for so long at the most, as
//! [`Receiver::recv_timeout`], and futures that have their handle, as [`Receiver::into_recv`]. The
//! state of a channel, which decides the answers and who is woken, is proved source with its contracts
//! taken out. What stands round it in this crate is written by hand and tested: the lock, the handles
//! and their numbers, the futures and the blocking calls.
//!
//! ```
//! # futures_lite::future::block_on(async {
//! let (s, r) = vamorilesh::bounded(1);
//!
//! s.send("first").await?;
//! assert!(s.try_send("second").is_err());
//!
//! assert_eq!(r.recv().await, Ok("first"));
//! drop(r);
//! assert!(s.is_closed());
//! # Ok::<_, vamorilesh::SendError<&str>>(())
//! # }).unwrap();
//! ```
//!
//! # Differs from async-channel
//!
//! - [`Sender::closed`] waits until no receiver is left, as async-channel documents it, also if the
//!   channel was closed by hand. A program may wait for ever that didn't before.
//! - A notice that a dropped send or receive had goes to the next one that waits for the same. In
//!   which order others are woken is decided: sends, receives, streams, and then closed operations,
//!   each in order of arrival.
//! - Futures and receivers are `Unpin`. The `Debug` of a future writes its name alone.
//! - What a message type borrows has to live as long as the futures of its channel.
//! - One lock guards a channel, whose queue is lock-free in async-channel. A call may wait for
//!   another's step, which moves at most [`ROUND_LIMIT`] messages.
//! - A new call hides a method of its name that a trait of yours gives a handle: that is called as
//!   `Trait::method(&handle)` then.
//! - `std` is needed. The feature `std` is there by name alone, and `portable-atomic` isn't.

#![forbid(unsafe_code)]
#![warn(missing_docs, missing_debug_implementations, rust_2018_idioms)]
// No thread blocks there, so nothing needs what blocking calls do.
#![cfg_attr(target_family = "wasm", allow(dead_code, unused_imports))]

#[cfg(not(target_family = "wasm"))]
mod blocking;
mod channel;
#[cfg(not(target_family = "wasm"))]
mod deadlines;
// Of the erased source too. It stands here so that the errors have no longer names than these.
#[path = "proved/channel_core/errors.rs"]
#[allow(dead_code, missing_docs)]
#[rustfmt::skip]
mod errors;
mod lock;
mod marks;
mod operations;
mod primitives;
// Written by tools/erase in the layout of its source. Some of it serves the run or the proofs
// alone.
#[allow(dead_code, unused_imports, irrefutable_let_patterns, clippy::all)]
#[allow(missing_docs, missing_debug_implementations)]
#[rustfmt::skip]
mod proved;
mod receiver;
mod sender;

// After those whose handles it gives new calls, so that these stand last in the pages.
mod many;

#[allow(dead_code, missing_docs, missing_debug_implementations)]
mod shim;

#[cfg(not(target_family = "wasm"))]
pub use deadlines::{RecvTimeoutError, SendTimeoutError};
#[cfg(not(target_family = "wasm"))]
pub use many::{IntoIter, Iter};
pub use many::{RecvMany, SendMany, TryIter, ROUND_LIMIT};
pub use operations::{Closed, Recv, Send};
pub use receiver::{Receiver, WeakReceiver};
pub use sender::{Sender, WeakSender};

/// The answer to a send into a closed channel.
///
/// ```
/// use vamorilesh::{unbounded, SendError};
///
/// let (s, r) = unbounded();
/// drop(r);
///
/// let error = s.send_blocking(7).unwrap_err();
/// assert_eq!(error, SendError(7));
/// assert_eq!(error.to_string(), "sending into a closed channel");
/// assert_eq!(error.into_inner(), 7);
/// ```
#[doc(inline)]
pub use errors::SendError;

/// The answer to [`Sender::try_send`] if the message doesn't go in.
///
/// ```
/// use vamorilesh::{bounded, TrySendError};
///
/// let (s, r) = bounded(1);
/// s.try_send(1).unwrap();
///
/// let full = s.try_send(2).unwrap_err();
/// assert_eq!(full, TrySendError::Full(2));
/// assert!(full.is_full());
///
/// drop(r);
/// let closed = s.try_send(3).unwrap_err();
/// assert!(closed.is_closed());
/// assert_eq!(closed.into_inner(), 3);
/// ```
#[doc(inline)]
pub use errors::TrySendError;

/// The answer to a receive from a channel that is empty and closed.
///
/// ```
/// use vamorilesh::{unbounded, RecvError};
///
/// let (s, r) = unbounded::<u64>();
/// drop(s);
///
/// assert_eq!(r.recv_blocking(), Err(RecvError));
/// assert_eq!(RecvError.to_string(), "receiving from an empty and closed channel");
/// ```
#[doc(inline)]
pub use errors::RecvError;

/// The answer to [`Receiver::try_recv`] if there is no message.
///
/// ```
/// use vamorilesh::{unbounded, TryRecvError};
///
/// let (s, r) = unbounded::<u64>();
/// assert!(r.try_recv().unwrap_err().is_empty());
///
/// drop(s);
/// let error = r.try_recv().unwrap_err();
/// assert_eq!(error, TryRecvError::Closed);
/// assert!(error.is_closed());
/// ```
#[doc(inline)]
pub use errors::TryRecvError;

use channel::Channel;
use std::mem;
use std::sync::Arc;

/// The erased run, for the programs in `scripts`. It is no part of the interface.
#[cfg(vamorilesh_run)]
#[doc(hidden)]
pub mod run {
    pub use crate::proved::channel_model::{Kind, Notice, OutOfMemory, Refusal, Reply};
    pub use crate::proved::channel_model::{Side, Step, Who};
    pub use crate::proved::channel_run::{Run, Settled};
    pub use crate::shim::{Global, Over};
}

/// How a thread blocks, for the package in `models`. It is no part of the interface.
#[cfg(vamorilesh_loom)]
#[doc(hidden)]
pub use blocking::block_on;

/// Makes a channel that holds at most `cap` messages.
///
/// The room for all of them is taken at once.
///
/// # Panics
///
/// If `cap` is zero, or more than the program could address.
///
/// ```
/// use vamorilesh::{bounded, TryRecvError, TrySendError};
///
/// let (s, r) = bounded(1);
///
/// assert_eq!(s.try_send(10), Ok(()));
/// assert_eq!(s.try_send(20), Err(TrySendError::Full(20)));
///
/// assert_eq!(r.try_recv(), Ok(10));
/// assert_eq!(r.try_recv(), Err(TryRecvError::Empty));
/// ```
pub fn bounded<T>(cap: usize) -> (Sender<T>, Receiver<T>) {
    assert!(cap > 0, "capacity cannot be zero");
    // In async-channel a place has a number beside its message.
    assert!(cap <= isize::MAX as usize / mem::size_of::<(usize, T)>(), "capacity overflow");
    handles(Channel::new(Some(cap)))
}

/// Makes a channel that holds any number of messages. Once it is drained it gives back the memory
/// that it took for them, but for a few KB.
///
/// ```
/// let (s, r) = vamorilesh::unbounded();
///
/// for message in 0..1000 {
///     s.try_send(message).unwrap();
/// }
/// assert_eq!(r.len(), 1000);
/// assert_eq!(r.try_recv(), Ok(0));
/// ```
pub fn unbounded<T>() -> (Sender<T>, Receiver<T>) {
    handles(Channel::new(None))
}

/// The text of each type is its name. It asks nothing of the message.
macro_rules! write_names {
    ($($name:literal $of:ty,)*) => {$(
        impl<T> std::fmt::Debug for $of {
            fn fmt(&self, f: &mut std::fmt::Formatter<'_>) -> std::fmt::Result {
                f.write_str(concat!($name, " { .. }"))
            }
        }
    )*};
}
write_names! {
    "Sender" Sender<T>, "WeakSender" WeakSender<T>, "Receiver" Receiver<T>,
    "WeakReceiver" WeakReceiver<T>, "Send" Send<'_, T>, "Recv" Recv<'_, T>, "Closed" Closed<'_, T>,
    "SendMany" SendMany<'_, T>, "RecvMany" RecvMany<'_, T>, "TryIter" TryIter<'_, T>,
}
#[cfg(not(target_family = "wasm"))]
write_names! { "Iter" Iter<'_, T>, "IntoIter" IntoIter<T>, }

/// The first two handles of a channel.
fn handles<T>(channel: Channel<T>) -> (Sender<T>, Receiver<T>) {
    let channel = Arc::new(channel);
    (Sender { channel: channel.clone() }, Receiver { channel, stream: None })
}
