//! Many messages in one call, and the messages that there are one after the other.
//!
//! Many messages move in rounds. A round is one step under the lock, of at most [`ROUND_LIMIT`]
//! messages, so that a large batch keeps nobody out for long. What a round needs of its caller is
//! there before it begins: room for what it takes, and the messages that it sends. So no list of the
//! caller's grows under the lock, and no code of the caller's runs there.

use crate::channel::{with_memory, Channel, Core};
use crate::marks::Told;
use crate::operations::Wait;
use crate::proved::channel_core::Group;
use crate::shim::Over;
use crate::{Receiver, SendError, Sender, TryRecvError, TrySendError};
use std::collections::VecDeque;
use std::future::Future;
use std::iter::FusedIterator;
use std::pin::Pin;
use std::task::{Context, Poll};

/// The most messages that a call moves before it lets others have the channel.
///
/// So many go in or out with nobody's between. A larger batch is made of several such rounds.
///
/// ```
/// use std::collections::VecDeque;
/// use vamorilesh::{unbounded, ROUND_LIMIT};
///
/// let (s, r) = unbounded();
/// let mut from: VecDeque<_> = (0..=ROUND_LIMIT).collect();
///
/// // This takes two rounds.
/// assert_eq!(s.try_send_many(&mut from), Ok(ROUND_LIMIT + 1));
/// assert_eq!(r.len(), ROUND_LIMIT + 1);
/// ```
pub const ROUND_LIMIT: usize = 128;

/// How many rounds a poll makes before it lets other tasks run: that is some 20 microseconds.
const POLL_ROUNDS: usize = 8;

/// Lets other tasks run. The caller's is woken at once, to go on.
fn let_others_run<A>(context: &Context<'_>) -> Poll<A> {
    context.waker().wake_by_ref();
    Poll::Pending
}

impl<T> Sender<T> {
    /// Sends messages from the front of `from` at once, as many as fit, and answers how many went
    /// in. The rest stays there.
    ///
    /// At most [`ROUND_LIMIT`] messages go in together, and others may come in between. The answer
    /// is how many went in also if the channel gets full, or closed, after the first ones.
    ///
    /// # Errors
    ///
    /// [`TrySendError::Full`] if the channel is full, and [`TrySendError::Closed`] if it is closed.
    /// All messages stay in `from` then.
    ///
    /// ```
    /// use std::collections::VecDeque;
    /// use vamorilesh::{bounded, TrySendError};
    ///
    /// let (s, r) = bounded(2);
    /// let mut from = VecDeque::from([1, 2, 3]);
    /// assert_eq!(s.try_send_many(&mut from), Ok(2));
    /// assert_eq!(from, [3]);
    /// assert_eq!(s.try_send_many(&mut from), Err(TrySendError::Full(())));
    ///
    /// drop(r);
    /// assert_eq!(s.try_send_many(&mut from), Err(TrySendError::Closed(())));
    /// assert_eq!(from, [3]);
    /// ```
    pub fn try_send_many(&self, from: &mut VecDeque<T>) -> Result<usize, TrySendError<()>> {
        let before = from.len();
        self.channel.send_round(from)?;
        while !from.is_empty() && self.channel.seems_ready(Group::Sends) {
            if self.channel.send_round(from).is_err() {
                break;
            }
        }
        Ok(before - from.len())
    }

    /// Sends all messages, in order, and waits while the channel is full.
    ///
    /// They are taken out of `messages` at once. They go in as there is room, at most
    /// [`ROUND_LIMIT`] together, and others may come in between. A poll sends so many eight times at
    /// the most, and then lets other tasks run. If there are none it is ready at once, also if the
    /// channel is closed. [`SendMany`] says what becomes of them if it is given up.
    ///
    /// # Errors
    ///
    /// The future answers [`SendError`] if the channel is closed, with the messages that didn't go
    /// in.
    ///
    /// ```
    /// # futures_lite::future::block_on(async {
    /// use vamorilesh::{unbounded, SendError};
    ///
    /// let (s, r) = unbounded();
    /// assert_eq!(s.send_many(1..4).await, Ok(()));
    /// assert_eq!(r.len(), 3);
    ///
    /// drop(r);
    /// assert_eq!(s.send_many([4, 5]).await, Err(SendError([4, 5].into())));
    /// # });
    /// ```
    pub fn send_many<I: IntoIterator<Item = T>>(&self, messages: I) -> SendMany<'_, T> {
        let left: VecDeque<T> = messages.into_iter().collect();
        SendMany {
            sender: self,
            count: left.len(),
            left,
            done: false,
            wait: Wait::new(Group::Sends),
        }
    }

    /// Sends all messages, in order, and blocks the thread while the channel is full.
    ///
    /// They are taken out of `messages` at once. They go in as there is room, at most
    /// [`ROUND_LIMIT`] together, and others may come in between. If there are none it answers at
    /// once, also if the channel is closed.
    ///
    /// A task that blocks its thread may keep the very task from running that would make room.
    ///
    /// # Errors
    ///
    /// [`SendError`] if the channel is closed, with the messages that didn't go in.
    ///
    /// ```
    /// use vamorilesh::{unbounded, SendError};
    ///
    /// let (s, r) = unbounded();
    /// assert_eq!(s.send_many_blocking(1..4), Ok(()));
    /// assert_eq!(r.len(), 3);
    ///
    /// drop(r);
    /// assert_eq!(s.send_many_blocking([4, 5]), Err(SendError([4, 5].into())));
    /// ```
    #[cfg(not(target_family = "wasm"))]
    pub fn send_many_blocking<I: IntoIterator<Item = T>>(
        &self,
        messages: I,
    ) -> Result<(), SendError<VecDeque<T>>> {
        let mut left: VecDeque<T> = messages.into_iter().collect();
        while !left.is_empty() {
            self.channel.await_turn(Group::Sends);
            match self.try_send_many(&mut left) {
                Ok(_) => {}
                Err(TrySendError::Closed(())) => return Err(SendError(left)),
                Err(TrySendError::Full(())) => {
                    return crate::blocking::block_on(self.send_many(left));
                }
            }
        }
        Ok(())
    }
}

impl<T> Receiver<T> {
    /// Takes up to `limit` messages, the oldest first, puts them after those in `into`, and answers
    /// how many came.
    ///
    /// At most [`ROUND_LIMIT`] messages come out together, and others may come in between. The
    /// answer is how many came also if the channel gets empty after the first ones. As long as others
    /// send, it goes on up to the limit. With a limit of 0 it answers 0 if there is a message.
    ///
    /// # Errors
    ///
    /// [`TryRecvError::Empty`] if the channel is empty and open, and [`TryRecvError::Closed`] if it is
    /// empty and closed.
    ///
    /// ```
    /// use vamorilesh::{unbounded, TryRecvError};
    ///
    /// let (s, r) = unbounded();
    /// s.send_many_blocking(1..4).unwrap();
    ///
    /// let mut into = Vec::new();
    /// assert_eq!(r.try_recv_many(&mut into, 2), Ok(2));
    /// assert_eq!(r.try_recv_many(&mut into, 2), Ok(1));
    /// assert_eq!(into, [1, 2, 3]);
    /// assert_eq!(r.try_recv_many(&mut into, 2), Err(TryRecvError::Empty));
    ///
    /// drop(s);
    /// assert_eq!(r.try_recv_many(&mut into, 2), Err(TryRecvError::Closed));
    /// ```
    pub fn try_recv_many(&self, into: &mut Vec<T>, limit: usize) -> Result<usize, TryRecvError> {
        let first = self.channel.recv_round(into, limit)?;
        Ok(first + self.channel.recv_more(into, limit - first))
    }

    /// Takes up to `limit` messages, the oldest first, puts them after those in `into`, and waits
    /// while the channel is open and empty.
    ///
    /// The future answers how many came: at least one, but none if the channel is closed and empty,
    /// or `limit` is 0. It doesn't wait for more than there is. At most [`ROUND_LIMIT`] messages come
    /// out together, and others may come in between. A poll takes so many eight times at the most, and
    /// then lets other tasks run.
    ///
    /// ```
    /// # futures_lite::future::block_on(async {
    /// let (s, r) = vamorilesh::unbounded();
    /// s.send_many(1..4).await.unwrap();
    /// drop(s);
    ///
    /// let mut into = Vec::new();
    /// assert_eq!(r.recv_many(&mut into, 2).await, 2);
    /// assert_eq!(r.recv_many(&mut into, 2).await, 1);
    /// assert_eq!(r.recv_many(&mut into, 2).await, 0);
    /// assert_eq!(into, [1, 2, 3]);
    /// # });
    /// ```
    pub fn recv_many<'a>(&'a self, into: &'a mut Vec<T>, limit: usize) -> RecvMany<'a, T> {
        RecvMany { receiver: self, into, limit, taken: 0, wait: Wait::new(Group::Receives) }
    }

    /// Takes up to `limit` messages, the oldest first, puts them after those in `into`, and blocks
    /// the thread while the channel is open and empty.
    ///
    /// It answers how many came: at least one, but none if the channel is closed and empty, or
    /// `limit` is 0. It doesn't wait for more than there is. At most [`ROUND_LIMIT`] messages come
    /// out together, and others may come in between.
    ///
    /// A task that blocks its thread may keep the very task from running that would send.
    ///
    /// ```
    /// let (s, r) = vamorilesh::unbounded();
    /// std::thread::spawn(move || s.send_many_blocking(1..4));
    ///
    /// let mut into = Vec::new();
    /// while r.recv_many_blocking(&mut into, 2) > 0 {}
    /// assert_eq!(into, [1, 2, 3]);
    /// ```
    #[cfg(not(target_family = "wasm"))]
    pub fn recv_many_blocking(&self, into: &mut Vec<T>, limit: usize) -> usize {
        if limit == 0 {
            return 0;
        }
        self.channel.await_turn(Group::Receives);
        match self.try_recv_many(into, limit) {
            Err(TryRecvError::Empty) => crate::blocking::block_on(self.recv_many(into, limit)),
            answer => answer.unwrap_or(0),
        }
    }

    /// An iterator over the messages to come, which blocks the thread while the channel is open and
    /// empty. It ends once the channel is empty and closed. `for message in &receiver` makes it too.
    ///
    /// A task that blocks its thread may keep the very task from running that would send.
    ///
    /// ```
    /// let (s, r) = vamorilesh::bounded(1);
    /// std::thread::spawn(move || s.send_many_blocking(1..4));
    ///
    /// assert_eq!(r.iter().sum::<u64>(), 6);
    /// ```
    #[cfg(not(target_family = "wasm"))]
    pub fn iter(&self) -> Iter<'_, T> {
        Iter { receiver: self }
    }

    /// An iterator over the messages that there are, which never waits for one.
    ///
    /// ```
    /// let (s, r) = vamorilesh::unbounded();
    /// s.send_many_blocking(1..4).unwrap();
    ///
    /// assert_eq!(r.try_iter().sum::<u64>(), 6);
    /// assert!(r.is_empty());
    /// ```
    pub fn try_iter(&self) -> TryIter<'_, T> {
        TryIter { receiver: self }
    }
}

/// The send of many messages that [`Sender::send_many`] begins. It sends nothing before its first
/// poll.
///
/// One that waits and is dropped drops the messages that haven't gone in; those that have gone in
/// stay in the channel. If it was told of a free place, the next send that waits is told of it. Who
/// may give it up keeps it, and polls it by `&mut`: [`sent`](SendMany::sent) says how many went in,
/// and [`into_unsent`](SendMany::into_unsent) hands the others back.
///
/// # Panics
///
/// A poll of one that has finished panics.
///
/// ```
/// # futures_lite::future::block_on(async {
/// use futures_lite::future::poll_once;
///
/// let (s, r) = vamorilesh::bounded(2);
/// let mut send = s.send_many(["a", "b", "c", "d"]);
/// assert_eq!(poll_once(&mut send).await, None);
///
/// assert_eq!(send.sent(), 2);
/// assert_eq!(send.into_unsent(), ["c", "d"]);
/// assert!(r.try_iter().eq(["a", "b"]));
/// # });
/// ```
#[must_use = "futures do nothing unless you `.await` or poll them"]
pub struct SendMany<'a, T> {
    /// Whose send it is.
    sender: &'a Sender<T>,
    /// The messages that haven't gone in, until they are handed back.
    left: VecDeque<T>,
    /// How many there were, but for those that were handed back.
    count: usize,
    /// Whether it has finished.
    done: bool,
    /// Where it waits.
    wait: Wait<T>,
}

impl<T> SendMany<'_, T> {
    /// How many messages went in.
    ///
    /// ```
    /// # futures_lite::future::block_on(async {
    /// let (s, r) = vamorilesh::unbounded();
    /// let mut send = s.send_many([1, 2]);
    /// assert_eq!(send.sent(), 0);
    ///
    /// (&mut send).await.unwrap();
    /// assert_eq!(send.sent(), 2);
    /// # drop(r);
    /// # });
    /// ```
    pub fn sent(&self) -> usize {
        self.count - self.left.len()
    }

    /// Gives the send up, and hands back the messages that haven't gone in. There are none once it
    /// has finished.
    ///
    /// ```
    /// let (s, r) = vamorilesh::unbounded();
    /// assert_eq!(s.send_many([1, 2]).into_unsent(), [1, 2]);
    /// assert!(r.is_empty());
    /// ```
    pub fn into_unsent(self) -> VecDeque<T> {
        self.left
    }
}

// No reference into a future is handed out, so it may be moved between its polls.
impl<T> Unpin for SendMany<'_, T> {}

impl<T> Future for SendMany<'_, T> {
    type Output = Result<(), SendError<VecDeque<T>>>;

    fn poll(self: Pin<&mut Self>, cx: &mut Context<'_>) -> Poll<Self::Output> {
        let SendMany { sender, left, count, done, wait } = self.get_mut();
        assert!(!*done, "a send was polled after it had finished");
        let mut rounds = POLL_ROUNDS;
        while !left.is_empty() {
            if rounds == 0 {
                return let_others_run(cx);
            }
            rounds -= 1;
            let polled = wait.poll(&sender.channel, cx, |core, ticket, told, back| {
                let mut first = left.pop_front();
                let polled = with_memory(core.finish_send(&mut first, ticket, told, back));
                let polled = polled.map_err(|SendError(unsent)| first = Some(unsent));
                match first {
                    Some(unsent) => left.push_front(unsent),
                    // Those that don't fit stay.
                    None => drop(put(core, left, ROUND_LIMIT - 1, told)),
                }
                polled
            });
            match polled {
                Poll::Ready(Ok(())) => {}
                Poll::Ready(Err(())) => break,
                Poll::Pending => return Poll::Pending,
            }
        }
        *done = true;
        *count -= left.len();
        Poll::Ready(if left.is_empty() { Ok(()) } else { Err(SendError(std::mem::take(left))) })
    }
}

/// The receive of many messages that [`Receiver::recv_many`] begins.
///
/// One that has finished may be polled again, and is a new receive then. One that waits and is
/// dropped takes no message, so that none is lost: if it was told of one, the next receive that
/// waits is told of it. If one is dropped that let other tasks run, what came is in the list.
///
/// ```
/// # futures_lite::future::block_on(async {
/// let (s, r) = vamorilesh::unbounded();
/// let mut into = Vec::new();
/// let receive = r.recv_many(&mut into, 10);
///
/// s.send_many([1, 2]).await.unwrap();
/// assert_eq!(receive.await, 2);
/// assert_eq!(into, [1, 2]);
/// # });
/// ```
#[must_use = "futures do nothing unless you `.await` or poll them"]
pub struct RecvMany<'a, T> {
    /// Whose receive it is.
    receiver: &'a Receiver<T>,
    /// Where the messages go.
    into: &'a mut Vec<T>,
    /// How many it takes at the most.
    limit: usize,
    /// How many it took before it let others run.
    taken: usize,
    /// Where it waits.
    wait: Wait<T>,
}

impl<T> Future for RecvMany<'_, T> {
    type Output = usize;

    fn poll(self: Pin<&mut Self>, cx: &mut Context<'_>) -> Poll<usize> {
        let RecvMany { receiver, into, limit, taken, wait } = self.get_mut();
        let (channel, limit) = (&receiver.channel, *limit);
        if limit == 0 {
            return Poll::Ready(0);
        }
        let most = (limit - *taken).min(POLL_ROUNDS * ROUND_LIMIT);
        let mut came = 0;
        if *taken == 0 {
            let room = channel.make_room(into, most);
            let first = wait.poll(channel, cx, |core, ticket, told, left| {
                core.finish_recv(ticket, told, left).map_ok(|message| {
                    into.push(message);
                    1 + take(core, into, room - 1, told).unwrap_or(0)
                })
            });
            match first {
                Poll::Ready(Ok(first)) => came = first,
                Poll::Ready(Err(_)) => return Poll::Ready(0),
                Poll::Pending => return Poll::Pending,
            }
        }
        came += channel.recv_more(into, most - came);
        *taken += came;
        if came == most && *taken < limit && channel.len() > 0 {
            return let_others_run(cx);
        }
        Poll::Ready(std::mem::take(taken))
    }
}

/// The messages that a channel has, the oldest first: [`Receiver::try_iter`] makes it.
///
/// It ends if the channel has none, and goes on if it has some later. Each message is received when
/// it is asked for, so that others may come in between, and none is lost with the iterator.
///
/// ```
/// let (s, r) = vamorilesh::unbounded();
/// s.try_send(1).unwrap();
///
/// let mut messages = r.try_iter();
/// assert_eq!(messages.next(), Some(1));
/// assert_eq!(messages.next(), None);
///
/// s.try_send(2).unwrap();
/// assert_eq!(messages.next(), Some(2));
/// ```
#[must_use = "iterators are lazy and do nothing unless consumed"]
pub struct TryIter<'a, T> {
    /// Whose messages they are.
    receiver: &'a Receiver<T>,
}

impl<T> Iterator for TryIter<'_, T> {
    type Item = T;

    #[inline]
    fn next(&mut self) -> Option<T> {
        self.receiver.try_recv().ok()
    }
}

/// The messages to come: [`Receiver::iter`] makes it.
///
/// Each message is received when it is asked for, and the thread blocks while there is none. Once the
/// channel is empty and closed it ends.
///
/// ```
/// let (s, r) = vamorilesh::unbounded();
/// s.try_send(1).unwrap();
/// drop(s);
///
/// let mut messages = r.iter();
/// assert_eq!((messages.next(), messages.next()), (Some(1), None));
/// ```
#[cfg(not(target_family = "wasm"))]
#[must_use = "iterators are lazy and do nothing unless consumed"]
pub struct Iter<'a, T> {
    /// Whose messages they are.
    receiver: &'a Receiver<T>,
}

/// The messages to come, by an iterator that has their receiver: `for message in receiver` makes it.
///
/// ```
/// let (s, r) = vamorilesh::bounded(1);
/// std::thread::spawn(move || s.send_many_blocking(1..4));
///
/// let mut sum = 0;
/// for message in r {
///     sum += message;
/// }
/// assert_eq!(sum, 6);
/// ```
#[cfg(not(target_family = "wasm"))]
#[must_use = "iterators are lazy and do nothing unless consumed"]
pub struct IntoIter<T> {
    /// Whose messages they are.
    receiver: Receiver<T>,
}

#[cfg(not(target_family = "wasm"))]
impl<T> Iterator for Iter<'_, T> {
    type Item = T;

    fn next(&mut self) -> Option<T> {
        self.receiver.recv_blocking().ok()
    }
}

#[cfg(not(target_family = "wasm"))]
impl<T> Iterator for IntoIter<T> {
    type Item = T;

    fn next(&mut self) -> Option<T> {
        self.receiver.recv_blocking().ok()
    }
}

// Both end for good: a channel that is empty and closed stays so.
#[cfg(not(target_family = "wasm"))]
impl<T> FusedIterator for Iter<'_, T> {}
#[cfg(not(target_family = "wasm"))]
impl<T> FusedIterator for IntoIter<T> {}

#[cfg(not(target_family = "wasm"))]
impl<'a, T> IntoIterator for &'a Receiver<T> {
    type Item = T;
    type IntoIter = Iter<'a, T>;

    fn into_iter(self) -> Iter<'a, T> {
        self.iter()
    }
}

#[cfg(not(target_family = "wasm"))]
impl<T> IntoIterator for Receiver<T> {
    type Item = T;
    type IntoIter = IntoIter<T>;

    fn into_iter(self) -> IntoIter<T> {
        IntoIter { receiver: self }
    }
}

impl<T> Channel<T> {
    /// Makes room for a round, and answers how many messages it may take.
    fn make_room(&self, into: &mut Vec<T>, limit: usize) -> usize {
        let most = limit.min(ROUND_LIMIT);
        into.reserve(most.min(self.len().max(1)));
        most.min(into.capacity() - into.len())
    }

    /// Takes messages while it has the lock.
    fn recv_round(&self, into: &mut Vec<T>, limit: usize) -> Result<usize, TryRecvError> {
        let room = self.make_room(into, limit);
        self.step(|core, told| take(core, into, room, told))
    }

    /// Takes up to so many messages more, in rounds, as long as there seem to be any.
    fn recv_more(&self, into: &mut Vec<T>, limit: usize) -> usize {
        let mut taken = 0;
        while taken < limit && self.len() > 0 {
            match self.recv_round(into, limit - taken) {
                Ok(more) => taken += more,
                Err(_) => break,
            }
        }
        taken
    }

    /// Sends messages from the front while it has the lock.
    fn send_round(&self, from: &mut VecDeque<T>) -> Result<usize, TrySendError<()>> {
        self.step(|core, told| put(core, from, ROUND_LIMIT, told))
    }
}

/// The core's step that takes up to `limit` messages. There is room for them.
fn take<T>(
    core: &mut Core<T>,
    into: &mut Vec<T>,
    limit: usize,
    told: &mut Told,
) -> Result<usize, TryRecvError> {
    Over::lent(into, |into| with_memory(core.try_recv_many(into, limit, told)))
}

/// The core's step that sends up to `limit` messages from the front.
fn put<T>(
    core: &mut Core<T>,
    from: &mut VecDeque<T>,
    limit: usize,
    told: &mut Told,
) -> Result<usize, TrySendError<()>> {
    Over::lent(from, |from| with_memory(core.try_send_many(from, limit, told)))
}
