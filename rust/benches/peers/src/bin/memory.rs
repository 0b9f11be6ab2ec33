//! Measures by the allocator how many bytes channels of `u64` hold, side by side.
//!
//!     cargo run --release --bin memory

#![allow(dead_code)]

use std::alloc::{GlobalAlloc, Layout, System};
use std::future::Future;
use std::pin::Pin;
use std::sync::atomic::{AtomicIsize, Ordering};
use std::sync::Arc;
use std::task::{Context, Wake, Waker};

#[path = "../peers.rs"]
mod peers;

use peers::{Async, AsyncChannel, Crossbeam, Flume, Here, Many, Peer};

struct Counting;

/// How many bytes are held.
static HELD: AtomicIsize = AtomicIsize::new(0);

// SAFETY: each call is the system's own.
unsafe impl GlobalAlloc for Counting {
    unsafe fn alloc(&self, layout: Layout) -> *mut u8 {
        HELD.fetch_add(layout.size() as isize, Ordering::Relaxed);
        System.alloc(layout)
    }
    unsafe fn dealloc(&self, place: *mut u8, layout: Layout) {
        HELD.fetch_sub(layout.size() as isize, Ordering::Relaxed);
        System.dealloc(place, layout)
    }
}

#[global_allocator]
static ALLOCATOR: Counting = Counting;

/// The bytes that are held more after `work` than before, while what it answers is there.
fn bytes<A>(work: impl FnOnce() -> A) -> isize {
    let before = HELD.load(Ordering::Relaxed);
    let kept = work();
    let bytes = HELD.load(Ordering::Relaxed) - before;
    drop(kept);
    bytes
}

fn idle<P: Peer>(capacity: Option<usize>) -> isize {
    bytes(|| P::make(capacity))
}

/// What is held after ten million messages went in and out.
fn drained<P: Peer>() -> isize {
    const MESSAGES: u64 = 10_000_000;
    let (tx, mut rx) = P::make(None);
    bytes(|| {
        (0..MESSAGES).for_each(|message| assert!(P::try_send(&tx, message)));
        (0..MESSAGES).for_each(|message| assert!(P::try_recv(&mut rx) == Some(message)));
    })
}

struct Nobody;

impl Wake for Nobody {
    fn wake(self: Arc<Self>) {}
}

/// What is held after a million receives waited and were given up.
fn given_up<P: Async + Many>() -> isize {
    const RECEIVES: usize = 1_000_000;
    let (_tx, rx) = P::make(None);
    let waker = Waker::from(Arc::new(Nobody));
    bytes(|| {
        let receive = |_| {
            let mut rx = P::clone_rx(&rx);
            Box::pin(async move { P::recv_async(&mut rx).await.is_some() })
        };
        let mut receives: Vec<Pin<Box<_>>> = (0..RECEIVES).map(receive).collect();
        for receive in &mut receives {
            assert!(receive.as_mut().poll(&mut Context::from_waker(&waker)).is_pending());
        }
    })
}

fn main() {
    println!("| Bytes held | async-channel | vamorilesh | flume | crossbeam-channel |");
    println!("|---|---|---|---|---|");
    let row = |name, cells: [Option<isize>; 4]| {
        let cells = cells.map(|cell| cell.map_or(String::new(), |bytes| bytes.to_string()));
        println!("| {name} | {} |", cells.join(" | "));
    };
    for (name, capacity) in [("idle, bounded(1)", Some(1)), ("idle, unbounded", None)] {
        let others = [idle::<Flume>(capacity), idle::<Crossbeam>(capacity)].map(Some);
        let first = [idle::<AsyncChannel>(capacity), idle::<Here>(capacity)].map(Some);
        row(name, [first[0], first[1], others[0], others[1]]);
    }
    let cells = [drained::<AsyncChannel>(), drained::<Here>(), drained::<Flume>()];
    let cells = [cells[0], cells[1], cells[2], drained::<Crossbeam>()].map(Some);
    row("after ten million messages in and out, unbounded", cells);
    // Flume walks along its list for each that is given up, which takes too long.
    let cells = [given_up::<AsyncChannel>(), given_up::<Here>()].map(Some);
    row("after a million receives waited and were given up", [cells[0], cells[1], None, None]);
}
