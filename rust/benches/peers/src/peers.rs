//! Every channel behind one trait for each kind of call.

use std::future::Future;
use std::ops::Range;

pub trait Peer: 'static {
    const NAME: &'static str;
    type Tx: Send + 'static;
    type Rx: Send + 'static;
    /// A channel of this capacity, or an unbounded one.
    fn make(capacity: Option<usize>) -> (Self::Tx, Self::Rx);
    fn try_send(tx: &Self::Tx, message: u64) -> bool;
    fn try_recv(rx: &mut Self::Rx) -> Option<u64>;
    fn send(tx: &Self::Tx, message: u64);
    fn recv(rx: &mut Self::Rx) -> u64;
    fn clone_tx(tx: &Self::Tx) -> Self::Tx;
}

/// Receivers can be copied, and tell how many messages are held.
pub trait Many: Peer {
    fn clone_rx(rx: &Self::Rx) -> Self::Rx;
    fn len(rx: &Self::Rx) -> usize;
    fn is_full(rx: &Self::Rx) -> bool;
}

/// Receivers tell whether the channel is closed.
pub trait Closes: Peer {
    fn is_closed(rx: &Self::Rx) -> bool;
}

pub trait Async: Peer {
    fn send_async(tx: &Self::Tx, message: u64) -> impl Future<Output = ()> + Send;
    fn recv_async(rx: &mut Self::Rx) -> impl Future<Output = Option<u64>> + Send;
}

/// Messages go in and out by the peer's calls for many, or else one by one. Tokio's `recv_many` came
/// after the version that Debian 12 has.
pub trait Batches: Many {
    fn send_batch(tx: &Self::Tx, messages: Range<u64>) {
        messages.for_each(|message| Self::send(tx, message));
    }
    /// Waits for a message and takes what else there is, `limit` in all. It answers how many came,
    /// none if none will come.
    fn recv_batch(rx: &mut Self::Rx, into: &mut Vec<u64>, limit: usize) -> usize;
}

impl Batches for Here {
    fn send_batch(tx: &Self::Tx, messages: Range<u64>) {
        tx.send_many_blocking(messages).unwrap();
    }
    fn recv_batch(rx: &mut Self::Rx, into: &mut Vec<u64>, limit: usize) -> usize {
        rx.recv_many_blocking(into, limit)
    }
}

/// A first message, and those after it.
fn taken(
    first: Option<u64>,
    others: impl Iterator<Item = u64>,
    into: &mut Vec<u64>,
    limit: usize,
) -> usize {
    let before = into.len();
    if let Some(first) = first {
        into.push(first);
        into.extend(others.take(limit - 1));
    }
    into.len() - before
}

impl Batches for AsyncChannel {
    fn recv_batch(rx: &mut Self::Rx, into: &mut Vec<u64>, limit: usize) -> usize {
        let others = std::iter::from_fn(|| rx.try_recv().ok());
        taken(rx.recv_blocking().ok(), others, into, limit)
    }
}

impl Batches for Crossbeam {
    fn recv_batch(rx: &mut Self::Rx, into: &mut Vec<u64>, limit: usize) -> usize {
        taken(rx.recv().ok(), rx.try_iter(), into, limit)
    }
}

impl Batches for Flume {
    /// Its `drain` takes all that there is, whatever the limit.
    fn recv_batch(rx: &mut Self::Rx, into: &mut Vec<u64>, _limit: usize) -> usize {
        let first = rx.recv().ok();
        taken(first, rx.drain(), into, usize::MAX)
    }
}

macro_rules! async_channel_peer {
    ($peer:ident, $channel:ident, $name:literal) => {
        pub struct $peer;
        impl Peer for $peer {
            const NAME: &'static str = $name;
            type Tx = $channel::Sender<u64>;
            type Rx = $channel::Receiver<u64>;
            fn make(capacity: Option<usize>) -> (Self::Tx, Self::Rx) {
                capacity.map_or_else($channel::unbounded, $channel::bounded)
            }
            fn try_send(tx: &Self::Tx, message: u64) -> bool {
                tx.try_send(message).is_ok()
            }
            fn try_recv(rx: &mut Self::Rx) -> Option<u64> {
                rx.try_recv().ok()
            }
            fn send(tx: &Self::Tx, message: u64) {
                tx.send_blocking(message).unwrap();
            }
            fn recv(rx: &mut Self::Rx) -> u64 {
                rx.recv_blocking().unwrap()
            }
            fn clone_tx(tx: &Self::Tx) -> Self::Tx {
                tx.clone()
            }
        }
        impl Many for $peer {
            fn clone_rx(rx: &Self::Rx) -> Self::Rx {
                rx.clone()
            }
            fn len(rx: &Self::Rx) -> usize {
                rx.len()
            }
            fn is_full(rx: &Self::Rx) -> bool {
                rx.is_full()
            }
        }
        impl Closes for $peer {
            fn is_closed(rx: &Self::Rx) -> bool {
                rx.is_closed()
            }
        }
        impl Async for $peer {
            async fn send_async(tx: &Self::Tx, message: u64) {
                tx.send(message).await.unwrap();
            }
            async fn recv_async(rx: &mut Self::Rx) -> Option<u64> {
                rx.recv().await.ok()
            }
        }
    };
}

async_channel_peer!(Here, vamorilesh, "vamorilesh");
async_channel_peer!(AsyncChannel, async_channel, "async-channel");

macro_rules! blocking_peer {
    ($peer:ident, $channel:ident, $name:literal) => {
        pub struct $peer;
        impl Peer for $peer {
            const NAME: &'static str = $name;
            type Tx = $channel::Sender<u64>;
            type Rx = $channel::Receiver<u64>;
            fn make(capacity: Option<usize>) -> (Self::Tx, Self::Rx) {
                capacity.map_or_else($channel::unbounded, $channel::bounded)
            }
            fn try_send(tx: &Self::Tx, message: u64) -> bool {
                tx.try_send(message).is_ok()
            }
            fn try_recv(rx: &mut Self::Rx) -> Option<u64> {
                rx.try_recv().ok()
            }
            fn send(tx: &Self::Tx, message: u64) {
                tx.send(message).unwrap();
            }
            fn recv(rx: &mut Self::Rx) -> u64 {
                rx.recv().unwrap()
            }
            fn clone_tx(tx: &Self::Tx) -> Self::Tx {
                tx.clone()
            }
        }
        impl Many for $peer {
            fn clone_rx(rx: &Self::Rx) -> Self::Rx {
                rx.clone()
            }
            fn len(rx: &Self::Rx) -> usize {
                rx.len()
            }
            fn is_full(rx: &Self::Rx) -> bool {
                rx.is_full()
            }
        }
    };
}

blocking_peer!(Crossbeam, crossbeam_channel, "crossbeam-channel");
blocking_peer!(Flume, flume, "flume");

impl Async for Flume {
    async fn send_async(tx: &Self::Tx, message: u64) {
        tx.send_async(message).await.unwrap();
    }
    async fn recv_async(rx: &mut Self::Rx) -> Option<u64> {
        rx.recv_async().await.ok()
    }
}

use tokio::sync::mpsc;

/// Tokio's channel has one receiver, and two types of senders.
#[derive(Clone)]
pub enum TokioTx {
    Bounded(mpsc::Sender<u64>),
    Unbounded(mpsc::UnboundedSender<u64>),
}

pub enum TokioRx {
    Bounded(mpsc::Receiver<u64>),
    Unbounded(mpsc::UnboundedReceiver<u64>),
}

pub struct Tokio;

impl Peer for Tokio {
    const NAME: &'static str = "tokio";
    type Tx = TokioTx;
    type Rx = TokioRx;
    fn make(capacity: Option<usize>) -> (TokioTx, TokioRx) {
        if let Some(capacity) = capacity {
            let (tx, rx) = mpsc::channel(capacity);
            return (TokioTx::Bounded(tx), TokioRx::Bounded(rx));
        }
        let (tx, rx) = mpsc::unbounded_channel();
        (TokioTx::Unbounded(tx), TokioRx::Unbounded(rx))
    }
    fn try_send(tx: &TokioTx, message: u64) -> bool {
        match tx {
            TokioTx::Bounded(tx) => tx.try_send(message).is_ok(),
            TokioTx::Unbounded(tx) => tx.send(message).is_ok(),
        }
    }
    fn try_recv(rx: &mut TokioRx) -> Option<u64> {
        match rx {
            TokioRx::Bounded(rx) => rx.try_recv().ok(),
            TokioRx::Unbounded(rx) => rx.try_recv().ok(),
        }
    }
    fn send(tx: &TokioTx, message: u64) {
        match tx {
            TokioTx::Bounded(tx) => tx.blocking_send(message).unwrap(),
            TokioTx::Unbounded(tx) => tx.send(message).unwrap(),
        }
    }
    fn recv(rx: &mut TokioRx) -> u64 {
        match rx {
            TokioRx::Bounded(rx) => rx.blocking_recv().unwrap(),
            TokioRx::Unbounded(rx) => rx.blocking_recv().unwrap(),
        }
    }
    fn clone_tx(tx: &TokioTx) -> TokioTx {
        tx.clone()
    }
}

impl Async for Tokio {
    async fn send_async(tx: &TokioTx, message: u64) {
        match tx {
            TokioTx::Bounded(tx) => tx.send(message).await.unwrap(),
            TokioTx::Unbounded(tx) => tx.send(message).unwrap(),
        }
    }
    async fn recv_async(rx: &mut TokioRx) -> Option<u64> {
        match rx {
            TokioRx::Bounded(rx) => rx.recv().await,
            TokioRx::Unbounded(rx) => rx.recv().await,
        }
    }
}
