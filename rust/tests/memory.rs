//! Memory is given back while a channel is in use: a queue and a list hold little beside what is in
//! them.

mod support;

use std::alloc::{GlobalAlloc, Layout, System};
use std::cell::Cell;
use std::collections::VecDeque;
use std::future::Future;
use std::mem::ManuallyDrop;
use std::pin::{pin, Pin};
use std::task::{Context, Waker};
use std::thread;
use std::time::Duration;

use futures_core::Stream;
use support::{ends, poll_pinned, poll_with, Count};
use vamorilesh::{bounded, unbounded, WeakSender};

/// What a drained queue or an empty list may keep.
const FEW_KB: isize = 8 << 10;

thread_local! {
    /// How many bytes this thread took and hasn't given back, and how often it took some.
    static TAKEN: Cell<(isize, usize)> = const { Cell::new((0, 0)) };
    /// The most bytes that it took or gave back at once.
    static MOST: Cell<usize> = const { Cell::new(0) };
    /// What each request for memory of this thread calls: it takes its channel's lock.
    static CALLED: Cell<ManuallyDrop<Option<WeakSender<u64>>>> =
        const { Cell::new(ManuallyDrop::new(None)) };
}

fn call() {
    let weak = CALLED.try_with(Cell::take).ok().and_then(ManuallyDrop::into_inner);
    if let Some(weak) = weak {
        drop(weak.upgrade());
        CALLED.with(|called| called.set(ManuallyDrop::new(Some(weak))));
    }
}

struct Counting;

fn count(bytes: isize) {
    let _ = TAKEN.try_with(|taken| {
        let (sum, times) = taken.get();
        taken.set((sum + bytes, times + usize::from(bytes > 0)));
    });
    let _ = MOST.try_with(|most| most.set(most.get().max(bytes.unsigned_abs())));
}

// SAFETY: each call is the system's own.
unsafe impl GlobalAlloc for Counting {
    unsafe fn alloc(&self, layout: Layout) -> *mut u8 {
        count(layout.size() as isize);
        call();
        System.alloc(layout)
    }
    unsafe fn dealloc(&self, place: *mut u8, layout: Layout) {
        count(-(layout.size() as isize));
        System.dealloc(place, layout)
    }
}

#[global_allocator]
static ALLOCATOR: Counting = Counting;

/// How many bytes this thread holds, and how often it took some.
fn taken() -> (isize, usize) {
    TAKEN.with(Cell::get)
}

#[test]
fn an_idle_channel_takes_little() {
    let held = |make: fn() -> (vamorilesh::Sender<u64>, vamorilesh::Receiver<u64>)| {
        let before = taken().0;
        let _channel = make();
        taken().0 - before
    };
    for capacity in [1, 10, 1_000] {
        let channel = match capacity {
            1 => held(|| bounded(1)),
            10 => held(|| bounded(10)),
            _ => held(|| bounded(1_000)),
        };
        assert!(channel - 8 * capacity <= 200);
    }
    assert!(held(unbounded) <= 200);
}

#[test]
fn a_bounded_channel_takes_the_memory_of_its_messages_at_once() {
    const MESSAGES: usize = 100_000;
    let before = taken().0;
    let (s, r) = bounded(MESSAGES);
    let made = taken();
    assert!(made.0 - before >= 8 * MESSAGES as isize);
    (0..MESSAGES as u64).for_each(|message| s.try_send(message).unwrap());
    assert!((0..MESSAGES as u64).all(|message| s.force_send(0) == Ok(Some(message))));
    assert_eq!(taken(), made);
    drop((s, r));
    assert_eq!(taken().0, before);
}

#[test]
fn a_channel_gives_all_its_memory_back() {
    let before = taken().0;
    for (s, r) in [bounded(2), unbounded()] {
        let (ws, wr) = (s.downgrade().clone(), r.downgrade().clone());
        drop((ws.upgrade().unwrap(), wr.upgrade().unwrap(), s.clone(), r.clone()));
        (0..2).for_each(|message| s.try_send(Box::new(message)).unwrap());
        assert!(s.close() && ws.upgrade().is_none() && wr.upgrade().is_none());
        drop((s, r));
        assert!(ws.upgrade().is_none() && wr.upgrade().is_none());
    }
    assert_eq!(taken().0, before);
}

#[test]
fn a_channel_gives_all_its_memory_back_whoever_waited() {
    let waker = Waker::from(Count::new());
    let mut context = Context::from_waker(&waker);
    let before = taken().0;
    let (s, mut r) = bounded(1);
    for is_given_up in [true, false] {
        let mut receive = r.recv();
        assert!(Pin::new(&mut receive).poll(&mut context).is_pending());
        if !is_given_up {
            s.try_send(Box::new(0)).unwrap();
            assert!(Pin::new(&mut receive).poll(&mut context).is_ready());
        }
    }
    assert!(Pin::new(&mut r.recv_many(&mut Vec::new(), 2)).poll(&mut context).is_pending());
    assert!(Pin::new(&mut s.closed()).poll(&mut context).is_pending());
    assert!(Pin::new(&mut r).poll_next(&mut context).is_pending());
    s.try_send(Box::new(1)).unwrap();
    assert!(Pin::new(&mut s.send(Box::new(2))).poll(&mut context).is_pending());
    assert!(Pin::new(&mut s.send_many([Box::new(3)])).poll(&mut context).is_pending());
    assert!(Pin::new(&mut r).poll_next(&mut context).is_ready());
    assert!(Pin::new(&mut r).poll_next(&mut context).is_pending());
    drop((s, r));
    assert_eq!(taken().0, before);
}

#[test]
fn a_list_that_takes_many_batches_asks_for_memory_seldom() {
    let (s, r) = unbounded();
    (0..10_000_u64).for_each(|message| s.try_send(message).unwrap());
    let (mut into, before) = (Vec::new(), taken().1);
    while r.try_recv_many(&mut into, 10).is_ok() {}
    assert!(taken().1 - before <= 20);
}

#[test]
fn a_list_that_takes_a_batch_grows_without_the_lock() {
    ends(|| {
        let (s, r) = unbounded();
        (0..1_000).for_each(|message| s.try_send(message).unwrap());
        let mut into = Vec::new();
        CALLED.with(|called| called.set(ManuallyDrop::new(Some(s.downgrade()))));
        assert_eq!(r.try_recv_many(&mut into, 500), Ok(500));
        let count = r.recv_many_blocking(&mut into, 1_000);
        drop(ManuallyDrop::into_inner(CALLED.with(Cell::take)));
        assert_eq!((count, into.len()), (500, 1_000));
    });
}

#[test]
fn a_batch_does_not_move_its_rest_in_each_round() {
    const MESSAGES: u64 = 100_000;
    let (s, _r) = unbounded();
    let mut from: VecDeque<_> = (0..MESSAGES).collect();
    let before = taken().1;
    assert_eq!(s.try_send_many(&mut from), Ok(MESSAGES as usize));
    // The queue asks for each block, and there are four times as many rounds.
    assert!(taken().1 - before <= 300);
}

#[test]
fn a_close_asks_for_memory_seldom_whoever_waits() {
    let (s, r) = unbounded::<u64>();
    let waker = Waker::from(Count::new());
    let mut waiting: Vec<_> = (0..1_000).map(|_| Box::pin(r.recv())).collect();
    assert!(waiting.iter_mut().all(|wait| poll_with(wait, &waker).is_pending()));
    let before = taken().1;
    assert!(s.close());
    assert!(taken().1 - before <= 20);
}

#[test]
fn a_drained_queue_keeps_a_few_kilobytes() {
    const MESSAGES: u64 = 1_000_000;
    let (s, r) = unbounded();
    let before = taken().0;
    (0..MESSAGES).for_each(|message| s.try_send(message).unwrap());
    assert!(taken().0 - before >= 8 * MESSAGES as isize);
    assert!((0..MESSAGES).all(|message| r.try_recv() == Ok(message)));
    assert!(taken().0 - before <= FEW_KB);
}

#[test]
fn a_drained_queue_gives_back_what_is_more_than_it_keeps() {
    let (s, r) = unbounded();
    let before = taken().0;
    for count in [10_000, 600, 513] {
        (0..count).for_each(|message: u64| s.try_send(message).unwrap());
        assert!(taken().0 - before >= 8 * count as isize);
        assert!((0..count).all(|message| r.try_recv() == Ok(message)));
        assert!(taken().0 - before <= FEW_KB / 2);
    }
}

#[test]
fn a_queue_that_isn_t_empty_gives_memory_back_and_seldom_asks_for_some() {
    const MESSAGES: u64 = 1_000_000;
    let (s, r) = unbounded();
    let before = taken();
    for left in [1, 10_000] {
        (0..MESSAGES).for_each(|message| s.try_send(message).unwrap());
        assert!((0..MESSAGES - left).all(|message| r.try_recv() == Ok(message)));
        assert!(taken().0 - before.0 <= FEW_KB + 9 * left as isize);
        let full = taken();
        for message in MESSAGES..2 * MESSAGES {
            s.try_send(message).unwrap();
            assert_eq!(r.try_recv(), Ok(message - left));
        }
        assert!(taken().1 - full.1 <= 1);
        assert!((0..left).all(|_| r.try_recv().is_ok()));
    }
    assert!(taken().1 - before.1 <= 2 * MESSAGES as usize / 500);
}

#[test]
fn no_call_takes_or_gives_back_much_memory_at_once() {
    const MESSAGES: u64 = 1_000_000;
    let (s, r) = unbounded();
    MOST.with(|most| most.set(0));
    (0..MESSAGES).for_each(|message| s.try_send(message).unwrap());
    assert!((0..MESSAGES).all(|message| r.try_recv() == Ok(message)));
    assert!(MOST.with(Cell::get) <= 8 * MESSAGES as usize / 100);
}

#[test]
fn a_short_queue_takes_little() {
    let (s, _r) = unbounded();
    let before = taken().0;
    for count in 1..=500 {
        s.try_send(count as u64).unwrap();
        assert!(taken().0 - before <= 16 * count.max(4));
    }
}

#[test]
fn a_drained_queue_keeps_room_for_four_large_messages_or_any_number_without_a_size() {
    const LARGE: usize = 8 << 10;
    let (s, r) = unbounded();
    let before = taken().0;
    let round = |count| {
        (0..count).for_each(|_| s.try_send([0_u8; LARGE]).unwrap());
        (0..count).for_each(|_| assert!(r.try_recv().is_ok()));
        taken().0 - before
    };
    assert!((1..=4).contains(&(round(3) / LARGE as isize)));
    let kept = taken();
    round(3);
    assert_eq!(taken(), kept);
    assert_eq!(round(5), 4 * LARGE as isize);
    let (s, r) = unbounded();
    (0..10_000).for_each(|_| s.try_send(()).unwrap());
    assert!((0..10_000).all(|_| r.try_recv() == Ok(())));
    assert!(r.try_recv().is_err());
}

#[test]
fn a_queue_that_fills_and_drains_a_little_asks_for_no_memory() {
    let (s, r) = unbounded();
    let round = || {
        (0..500).for_each(|message: u64| s.try_send(message).unwrap());
        assert!((0..500).all(|message| r.try_recv() == Ok(message)));
    };
    (0..100_000).for_each(|message| s.try_send(message).unwrap());
    (0..100_000).for_each(|_| assert!(r.try_recv().is_ok()));
    round();
    let before = taken();
    (0..100).for_each(|_| round());
    assert_eq!(taken(), before);
}

#[test]
fn a_queue_that_grows_asks_for_memory_seldom() {
    let (s, _r) = unbounded();
    let before = taken().1;
    (0..100_000).for_each(|message: u64| s.try_send(message).unwrap());
    assert!((10..=100_000 / 400).contains(&(taken().1 - before)));
}

/// Each of `waits` is polled once and waits, and then all are given up.
fn waited<W>(waits: impl Fn() -> W, poll: impl Fn(&mut W, &Waker)) {
    let waker = Waker::from(Count::new());
    for count in [20_000, 1_000] {
        let before = taken().0;
        let mut waiting: Vec<W> = (0..count).map(|_| waits()).collect();
        waiting.iter_mut().for_each(|wait| poll(wait, &waker));
        assert!(taken().0 - before >= 16 * count);
        drop(waiting);
        assert!(taken().0 - before <= FEW_KB / 2);
    }
}

#[test]
fn a_list_in_which_nobody_waits_any_more_keeps_a_few_kilobytes() {
    let (s, r) = bounded(1);
    waited(|| Box::pin(r.recv()), |wait, waker| assert!(poll_with(wait, waker).is_pending()));
    waited(|| Box::pin(s.closed()), |wait, waker| assert!(poll_with(wait, waker).is_pending()));
    let next = |wait: &mut vamorilesh::Receiver<u64>, waker: &Waker| {
        assert!(Pin::new(wait).poll_next(&mut Context::from_waker(waker)).is_pending());
    };
    waited(|| r.clone(), next);
    s.try_send(1).unwrap();
    waited(|| Box::pin(s.send(2)), |wait, waker| assert!(poll_with(wait, waker).is_pending()));
}

#[test]
fn a_list_grows_seldom_and_holds_little_if_one_of_many_still_waits() {
    const WAITS: usize = 200_000;
    let (_s, r) = unbounded::<u64>();
    let waker = Waker::from(Count::new());
    for stays in [0, WAITS / 2, WAITS - 1] {
        let before = taken().0;
        let mut waiting: Vec<_> = (0..WAITS).map(|_| Box::pin(r.recv())).collect();
        let asked = taken().1;
        for wait in &mut waiting {
            assert!(poll_with(wait, &waker).is_pending());
        }
        assert!((1..=WAITS / 400).contains(&(taken().1 - asked)));
        assert!(taken().0 - before >= 16 * WAITS as isize);
        let stays = waiting.swap_remove(stays);
        drop(waiting);
        assert!(taken().0 - before <= 2 * FEW_KB);
        drop(stays);
    }
}

#[test]
fn a_thread_that_blocks_again_and_again_asks_for_no_memory() {
    let ((s, r), (back_s, back_r)) = (bounded(1), bounded(1));
    let other = thread::spawn(move || {
        while let Ok(message) = r.recv_blocking() {
            // So that the first thread waits most likely.
            thread::sleep(Duration::from_millis(10));
            back_s.send_blocking(message).unwrap();
        }
    });
    let round = |message: u64| {
        s.send_blocking(message).unwrap();
        assert_eq!(back_r.recv_blocking(), Ok(message));
    };
    (0..5).for_each(round);
    let before = taken();
    (0..5).for_each(round);
    assert_eq!(taken(), before);
    drop(s);
    other.join().unwrap();
}

#[test]
fn one_who_waits_again_and_again_asks_for_no_memory() {
    let (s, r) = unbounded();
    let waker = Waker::from(Count::new());
    let wait = |message: u64| {
        let mut receive = pin!(r.recv());
        assert!(poll_pinned(&mut receive, &waker).is_pending());
        s.try_send(message).unwrap();
        assert!(poll_pinned(&mut receive, &waker).is_ready());
    };
    wait(0);
    let before = taken();
    (0..1_000).for_each(wait);
    assert_eq!(taken(), before);
}
