//! The sending side: senders, and weak ones.

use crate::channel::{with_memory, Channel, Side};
use crate::operations::{Closed, Held, Send, Wait};
use crate::proved::channel_core::Group;
use crate::{SendError, TrySendError};
use std::sync::Arc;

/// The sending side of a channel.
///
/// It can be cloned, and shared among threads. Once the last one is dropped, the channel is closed.
///
/// ```
/// let (s, r) = vamorilesh::unbounded();
/// let other = s.clone();
///
/// std::thread::spawn(move || other.try_send(1)).join().unwrap().unwrap();
/// assert_eq!(r.try_recv(), Ok(1));
/// # drop(s);
/// ```
pub struct Sender<T> {
    /// What all handles of the channel share.
    pub(crate) channel: Arc<Channel<T>>,
}

impl<T> Sender<T> {
    /// Sends a message at once, or hands it back if the channel is full or closed.
    ///
    /// # Errors
    ///
    /// [`TrySendError::Full`] if the channel is full, and [`TrySendError::Closed`] if it is closed.
    /// Both hand the message back.
    ///
    /// ```
    /// use vamorilesh::{bounded, TrySendError};
    ///
    /// let (s, r) = bounded(1);
    /// assert_eq!(s.try_send(1), Ok(()));
    /// assert_eq!(s.try_send(2), Err(TrySendError::Full(2)));
    ///
    /// drop(r);
    /// assert_eq!(s.try_send(3), Err(TrySendError::Closed(3)));
    /// ```
    #[inline]
    pub fn try_send(&self, msg: T) -> Result<(), TrySendError<T>> {
        if self.is_closed() {
            return Err(TrySendError::Closed(msg));
        }
        if !self.channel.seems_ready(Group::Sends) {
            return Err(TrySendError::Full(msg));
        }
        let mut message = Some(msg);
        match (self.channel.try_send(&mut message), message) {
            (Err(TrySendError::Full(())), Some(msg)) => Err(TrySendError::Full(msg)),
            (Err(TrySendError::Closed(())), Some(msg)) => Err(TrySendError::Closed(msg)),
            _ => Ok(()),
        }
    }

    /// Sends a message, and waits while the channel is full.
    ///
    /// A send that is dropped while it waits drops its message, and nothing was sent.
    ///
    /// # Errors
    ///
    /// The future answers [`SendError`] with the message if the channel is closed.
    ///
    /// ```
    /// # futures_lite::future::block_on(async {
    /// use vamorilesh::{unbounded, SendError};
    ///
    /// let (s, r) = unbounded();
    /// assert_eq!(s.send(1).await, Ok(()));
    ///
    /// drop(r);
    /// assert_eq!(s.send(2).await, Err(SendError(2)));
    /// # });
    /// ```
    #[inline]
    pub fn send(&self, msg: T) -> Send<'_, T> {
        Send { sender: Held::Lent(self), message: Some(msg), wait: Wait::new(Group::Sends) }
    }

    /// [`send`](Sender::send) by a future that has the sender, and so may go where it likes.
    ///
    /// ```
    /// # futures_lite::future::block_on(async {
    /// let (s, r) = vamorilesh::unbounded();
    ///
    /// let send = s.clone().into_send(1);
    /// std::thread::spawn(|| futures_lite::future::block_on(send)).join().unwrap().unwrap();
    /// assert_eq!(r.recv().await, Ok(1));
    /// # drop(s);
    /// # });
    /// ```
    pub fn into_send<'a>(self, msg: T) -> Send<'a, T> {
        let wait = Wait::new(Group::Sends);
        Send { sender: Held::Own(Box::new(self)), message: Some(msg), wait }
    }

    /// Waits until no receiver is left.
    ///
    /// # Differs from async-channel
    ///
    /// A channel that [`close`](Sender::close) closed may have receivers still, which may take what is
    /// left: this goes on waiting then, for ever if a receiver is never dropped. It keeps to what
    /// async-channel documents. The code of async-channel 2.5 ends the wait at any closing, so a
    /// program that relies on that has to drop its receivers, or to look at
    /// [`is_closed`](Sender::is_closed).
    ///
    /// ```
    /// # futures_lite::future::block_on(async {
    /// let (s, r) = vamorilesh::unbounded::<u64>();
    ///
    /// drop(r);
    /// s.closed().await;
    /// # });
    /// ```
    pub fn closed(&self) -> Closed<'_, T> {
        Closed { sender: Held::Lent(self), wait: Wait::new(Group::Closeds) }
    }

    /// [`closed`](Sender::closed) by a future that has the sender, and so may go where it likes.
    ///
    /// ```
    /// # futures_lite::future::block_on(async {
    /// let (s, r) = vamorilesh::unbounded::<u64>();
    /// let closed = s.into_closed();
    ///
    /// drop(r);
    /// closed.await;
    /// # });
    /// ```
    pub fn into_closed<'a>(self) -> Closed<'a, T> {
        Closed { sender: Held::Own(Box::new(self)), wait: Wait::new(Group::Closeds) }
    }

    /// Sends a message, and blocks the thread while the channel is full.
    ///
    /// A task that blocks its thread may keep the very task from running that would make room.
    ///
    /// # Errors
    ///
    /// [`SendError`] with the message if the channel is closed.
    ///
    /// ```
    /// use vamorilesh::{unbounded, SendError};
    ///
    /// let (s, r) = unbounded();
    /// assert_eq!(s.send_blocking(1), Ok(()));
    ///
    /// drop(r);
    /// assert_eq!(s.send_blocking(2), Err(SendError(2)));
    /// ```
    #[cfg(not(target_family = "wasm"))]
    pub fn send_blocking(&self, msg: T) -> Result<(), SendError<T>> {
        self.send_until(msg, None).map_err(|error| SendError(error.into_inner()))
    }

    /// Sends a message at once, also if the channel is full: then the oldest one comes out for it.
    ///
    /// # Errors
    ///
    /// [`SendError`] with the message if the channel is closed.
    ///
    /// ```
    /// use vamorilesh::{bounded, SendError};
    ///
    /// let (s, r) = bounded(2);
    /// assert_eq!(s.force_send(1), Ok(None));
    /// assert_eq!(s.force_send(2), Ok(None));
    /// assert_eq!(s.force_send(3), Ok(Some(1)));
    ///
    /// drop(r);
    /// assert_eq!(s.force_send(4), Err(SendError(4)));
    /// ```
    pub fn force_send(&self, msg: T) -> Result<Option<T>, SendError<T>> {
        if self.is_closed() {
            return Err(SendError(msg));
        }
        self.channel.step(|core, told| with_memory(core.force_send(msg, told)))
    }

    /// Closes the channel, and answers whether it was open. What it holds can still be received.
    ///
    /// ```
    /// let (s, r) = vamorilesh::unbounded();
    /// s.try_send(1).unwrap();
    ///
    /// assert!(s.close());
    /// assert!(!r.close());
    /// assert!(s.try_send(2).is_err());
    /// assert_eq!(r.try_recv(), Ok(1));
    /// ```
    pub fn close(&self) -> bool {
        self.channel.step(|core, told| core.close(told))
    }

    /// Whether the channel is closed.
    ///
    /// ```
    /// let (s, r) = vamorilesh::unbounded::<u64>();
    /// assert!(!s.is_closed());
    ///
    /// drop(r);
    /// assert!(s.is_closed());
    /// ```
    pub fn is_closed(&self) -> bool {
        self.channel.is_closed()
    }

    /// Whether no message is held.
    ///
    /// ```
    /// let (s, r) = vamorilesh::unbounded();
    /// assert!(s.is_empty());
    ///
    /// s.try_send(1).unwrap();
    /// assert!(!s.is_empty());
    /// # drop(r);
    /// ```
    pub fn is_empty(&self) -> bool {
        self.len() == 0
    }

    /// Whether as many messages are held as the capacity allows. An unbounded channel never is
    /// full.
    ///
    /// ```
    /// let (s, r) = vamorilesh::bounded(1);
    /// assert!(!s.is_full());
    ///
    /// s.try_send(1).unwrap();
    /// assert!(s.is_full());
    /// # drop(r);
    /// ```
    pub fn is_full(&self) -> bool {
        self.capacity() == Some(self.len())
    }

    /// How many messages are held.
    ///
    /// ```
    /// let (s, r) = vamorilesh::unbounded();
    /// s.try_send(1).unwrap();
    /// s.try_send(2).unwrap();
    ///
    /// assert_eq!(s.len(), 2);
    /// # drop(r);
    /// ```
    pub fn len(&self) -> usize {
        self.channel.len()
    }

    /// How many messages may be held, if the channel is bounded.
    ///
    /// ```
    /// let (s, r) = vamorilesh::bounded::<u64>(5);
    /// assert_eq!(s.capacity(), Some(5));
    ///
    /// let (s, r) = vamorilesh::unbounded::<u64>();
    /// assert_eq!(s.capacity(), None);
    /// ```
    pub fn capacity(&self) -> Option<usize> {
        self.channel.capacity()
    }

    /// How many receivers there are.
    ///
    /// ```
    /// let (s, r) = vamorilesh::unbounded::<u64>();
    /// let other = r.clone();
    ///
    /// assert_eq!(s.receiver_count(), 2);
    /// # drop((s, other));
    /// ```
    pub fn receiver_count(&self) -> usize {
        self.channel.handle_count(Side::Receivers)
    }

    /// How many senders there are.
    ///
    /// ```
    /// let (s, r) = vamorilesh::unbounded::<u64>();
    /// let other = s.clone();
    ///
    /// assert_eq!(s.sender_count(), 2);
    /// # drop((r, other));
    /// ```
    pub fn sender_count(&self) -> usize {
        self.channel.handle_count(Side::Senders)
    }

    /// A weak sender of this channel.
    ///
    /// ```
    /// let (s, r) = vamorilesh::unbounded::<u64>();
    /// let weak = s.downgrade();
    ///
    /// drop(s);
    /// assert!(r.is_closed());
    /// assert!(weak.upgrade().is_none());
    /// ```
    pub fn downgrade(&self) -> WeakSender<T> {
        WeakSender { channel: self.channel.clone() }
    }

    /// Whether both are senders of one channel.
    ///
    /// ```
    /// let (s, r) = vamorilesh::unbounded::<u64>();
    /// let (s2, r2) = vamorilesh::unbounded::<u64>();
    ///
    /// assert!(s.same_channel(&s.clone()));
    /// assert!(!s.same_channel(&s2));
    /// # drop((r, r2));
    /// ```
    pub fn same_channel(&self, other: &Sender<T>) -> bool {
        Arc::ptr_eq(&self.channel, &other.channel)
    }
}

impl<T> Clone for Sender<T> {
    /// One more sender. The program ends if there are more than half of what a `usize` counts.
    #[inline]
    fn clone(&self) -> Sender<T> {
        self.channel.add_handle(Side::Senders);
        Sender { channel: self.channel.clone() }
    }
}

impl<T> Drop for Sender<T> {
    /// The last sender closes the channel.
    #[inline]
    fn drop(&mut self) {
        self.channel.drop_handle(Side::Senders);
    }
}

/// A sender that doesn't keep its channel open. [`Sender::downgrade`] makes it.
///
/// ```
/// let (s, r) = vamorilesh::unbounded::<u64>();
/// let weak = s.downgrade();
///
/// let other = weak.upgrade().unwrap();
/// assert!(other.same_channel(&s));
/// # drop(r);
/// ```
pub struct WeakSender<T> {
    /// What all handles of the channel share.
    channel: Arc<Channel<T>>,
}

impl<T> WeakSender<T> {
    /// A sender, if the channel is open and has a sender still. As with a copy, the program
    /// ends if there are too many.
    ///
    /// ```
    /// let (s, r) = vamorilesh::unbounded::<u64>();
    /// let weak = s.downgrade();
    /// assert!(weak.upgrade().is_some());
    ///
    /// r.close();
    /// assert!(weak.upgrade().is_none());
    /// ```
    pub fn upgrade(&self) -> Option<Sender<T>> {
        let is_open = self.channel.upgrade(Side::Senders);
        is_open.then(|| Sender { channel: self.channel.clone() })
    }
}

impl<T> Clone for WeakSender<T> {
    fn clone(&self) -> Self {
        WeakSender { channel: self.channel.clone() }
    }
}
