//! Wakers at their worst: copied with a call of the channel, panicking, or given up by a thread that
//! ends. The others who wait are none the worse for it.

mod support;

use std::cell::{Cell, RefCell};
use std::future::Future;
use std::panic::{self, catch_unwind, AssertUnwindSafe};
use std::pin::Pin;
use std::ptr;
use std::sync::atomic::{AtomicUsize, Ordering};
use std::sync::Arc;
use std::task::{Context, Poll, RawWaker, RawWakerVTable, Wake, Waker};
use std::thread;

use futures_core::Stream;
use futures_lite::StreamExt;
use support::ends;
use vamorilesh::{bounded, unbounded, Receiver, Sender};

thread_local! {
    /// The channel that a [`copied`] waker of this thread calls.
    static CALLED: RefCell<Option<(Sender<u64>, Receiver<u64>)>> = const { RefCell::new(None) };
    static COPIES: Cell<usize> = const { Cell::new(0) };
    /// Whether it sends a message by the next copy.
    static SENDS: Cell<bool> = const { Cell::new(false) };
}

/// A waker that calls the channel whenever it is copied.
fn copied(_: *const ()) -> RawWaker {
    COPIES.with(|copies| copies.set(copies.get() + 1));
    CALLED.with(|called| {
        if let Some((s, r)) = called.borrow().as_ref() {
            let _ = (s.len(), r.is_closed(), s.downgrade().upgrade());
            if SENDS.with(Cell::take) {
                assert_eq!(s.try_send(4), Ok(()));
            }
        }
    });
    RawWaker::new(ptr::null(), &TABLE)
}

/// Each copy calls the channel also when it is dropped.
fn dropped(_: *const ()) {
    CALLED.with(|called| {
        if let Some((s, _)) = called.borrow().as_ref() {
            drop(s.downgrade().upgrade());
        }
    });
}

static TABLE: RawWakerVTable = RawWakerVTable::new(copied, |_| {}, |_| {}, dropped);

/// Polls a future once, and answers whether it was ready and how often its waker was copied.
fn poll_copied<F: Future + Unpin>(future: &mut F) -> (bool, usize) {
    COPIES.with(|copies| copies.set(0));
    // SAFETY: the functions of the table never look at the data.
    let waker = unsafe { Waker::from_raw(RawWaker::new(ptr::null(), &TABLE)) };
    let is_ready = Pin::new(future).poll(&mut Context::from_waker(&waker)).is_ready();
    (is_ready, COPIES.with(Cell::get))
}

#[test]
fn a_waker_may_call_the_channel_when_it_is_copied_or_dropped() {
    ends(|| {
        let (s, r) = bounded(1);
        CALLED.with(|called| called.replace(Some((s.clone(), r.clone()))));
        let mut receive = r.recv();
        assert_eq!(poll_copied(&mut receive), (false, 1));
        assert_eq!(poll_copied(&mut s.send(1)), (true, 0));
        assert_eq!(poll_copied(&mut receive), (true, 0));
        assert_eq!(s.try_send(2), Ok(()));
        let mut send = s.send(3);
        assert_eq!((poll_copied(&mut send), poll_copied(&mut send)), ((false, 1), (false, 0)));
        assert_eq!((r.try_recv(), poll_copied(&mut send)), (Ok(2), (true, 0)));
        assert_eq!(poll_copied(&mut s.closed()), (false, 1));
        assert_eq!(r.try_recv(), Ok(3));
        // What comes while it is copied makes the copy needless.
        SENDS.with(|sends| sends.set(true));
        assert_eq!(poll_copied(&mut r.recv()), (true, 1));
        CALLED.with(RefCell::take);
    });
}

#[test]
fn a_poll_again_with_the_same_waker_copies_nothing() {
    let (s, mut r) = bounded(1);
    let other = r.clone();
    let (mut receive, mut closed) = (other.recv(), s.closed());
    for copies in [1, 0, 0] {
        assert_eq!(poll_copied(&mut receive), (false, copies));
        assert_eq!(poll_copied(&mut r.next()), (false, copies));
        assert_eq!(poll_copied(&mut closed), (false, copies));
    }
    // Who was told and comes too late waits anew.
    assert_eq!((s.try_send(1), other.try_recv()), (Ok(()), Ok(1)));
    for copies in [1, 0] {
        assert_eq!(poll_copied(&mut receive), (false, copies));
        assert_eq!(poll_copied(&mut r.next()), (false, copies));
    }
    assert_eq!(s.try_send(1), Ok(()));
    let mut send = s.send(2);
    for copies in [1, 0, 0] {
        assert_eq!(poll_copied(&mut send), (false, copies));
    }
    drop((r, receive));
    assert_eq!(poll_copied(&mut closed), (false, 0));
    drop(other);
    assert_eq!((poll_copied(&mut closed), poll_copied(&mut s.closed())), ((true, 0), (true, 0)));
}

#[test]
fn one_that_is_ready_copies_no_waker() {
    let (s, mut r) = bounded(3);
    assert_eq!(poll_copied(&mut s.send(1)), (true, 0));
    assert_eq!(poll_copied(&mut r.recv()), (true, 0));
    assert_eq!(poll_copied(&mut s.send_many([1, 2, 3])), (true, 0));
    assert_eq!(poll_copied(&mut r.recv_many(&mut Vec::new(), 1)), (true, 0));
    assert_eq!(poll_copied(&mut r.next()), (true, 0));
    assert!(s.try_send_many(&mut [4, 5].into()) == Ok(2) && s.close());
    assert_eq!(poll_copied(&mut s.send(6)), (true, 0));
    assert_eq!(poll_copied(&mut s.send_many([6])), (true, 0));
    for _ in ["what is left", "the end"] {
        assert_eq!(poll_copied(&mut r.recv()), (true, 0));
        assert_eq!(poll_copied(&mut r.recv_many(&mut Vec::new(), 1)), (true, 0));
        assert_eq!(poll_copied(&mut r.next()), (true, 0));
    }
}

thread_local! {
    /// What the wakers below were when they were woken.
    static WOKEN: RefCell<Vec<usize>> = const { RefCell::new(Vec::new()) };
}

/// Each copy of this waker is told from the others by its data: the number of the copy.
fn numbered(_: *const ()) -> RawWaker {
    let copy = COPIES.with(|copies| copies.replace(copies.get() + 1)) + 1;
    assert!(copy < 10, "it is copied again and again");
    RawWaker::new(ptr::null::<u8>().wrapping_add(copy).cast(), &NUMBERED)
}

fn note_data(data: *const ()) {
    WOKEN.with(|woken| woken.borrow_mut().push(data as usize));
}

static NUMBERED: RawWakerVTable = RawWakerVTable::new(numbered, note_data, note_data, |_| {});

/// These two wakers have one data, and are told apart by their tables.
static FIRST: RawWakerVTable = RawWakerVTable::new(
    |data| RawWaker::new(data, &FIRST),
    |_| WOKEN.with(|woken| woken.borrow_mut().push(1)),
    |_| WOKEN.with(|woken| woken.borrow_mut().push(1)),
    |_| {},
);
static SECOND: RawWakerVTable = RawWakerVTable::new(
    |data| RawWaker::new(data, &SECOND),
    |_| WOKEN.with(|woken| woken.borrow_mut().push(2)),
    |_| WOKEN.with(|woken| woken.borrow_mut().push(2)),
    |_| {},
);

/// Whom a message wakes after a receive was polled with a waker of each of these tables.
fn woken_of(tables: &[&'static RawWakerVTable]) -> Vec<usize> {
    let (s, r) = unbounded();
    let mut receive = r.recv();
    for table in tables {
        // SAFETY: the functions of the tables never look behind the data.
        let waker = unsafe { Waker::from_raw(RawWaker::new(ptr::null(), table)) };
        assert!(Pin::new(&mut receive).poll(&mut Context::from_waker(&waker)).is_pending());
    }
    assert_eq!(s.try_send(1), Ok(()));
    WOKEN.with(RefCell::take)
}

#[test]
fn the_waker_of_the_last_poll_is_woken_whatever_its_copies_look_like() {
    assert_eq!(woken_of(&[&NUMBERED; 3]), [3]);
    assert_eq!(woken_of(&[&FIRST, &SECOND]), [2]);
    assert_eq!(woken_of(&[&FIRST, &SECOND, &FIRST]), [1]);
}

#[test]
fn what_goes_by_a_panic_is_given_up_like_all_else() {
    let (s, r) = unbounded();
    let log = support::Log::default();
    let mut second = Box::pin(r.recv());
    let panics = || {
        let (s, r) = (s.clone(), r.clone());
        let mut first = Box::pin(r.recv());
        assert!(support::poll_with(&mut first, &log.waker(1)).is_pending());
        assert!(support::poll_with(&mut second, &log.waker(2)).is_pending());
        assert_eq!((s.try_send(7), log.take()), (Ok(()), vec![1]));
        let mut stream = r.clone();
        assert_eq!(r.try_recv(), Ok(7));
        let waker = log.waker(3);
        assert!(Pin::new(&mut stream).poll_next(&mut Context::from_waker(&waker)).is_pending());
        panic!("with a notice");
    };
    assert!(catch_unwind(AssertUnwindSafe(panics)).is_err());
    assert_eq!((s.sender_count(), s.receiver_count(), log.take()), (1, 1, vec![2]));
    assert_eq!((s.try_send(8), log.take()), (Ok(()), vec![]));
}

/// A waker that panics when it is woken, and when it is dropped if it says so.
struct Fails {
    dropped: bool,
}

impl Wake for Fails {
    fn wake(self: Arc<Self>) {
        panic!("woken");
    }
}

impl Drop for Fails {
    fn drop(&mut self) {
        assert!(!self.dropped, "dropped");
    }
}

#[test]
fn a_waker_that_panics_leaves_nobody_asleep() {
    let (s, r) = unbounded::<u64>();
    let (log, fails) = (support::Log::default(), Waker::from(Arc::new(Fails { dropped: false })));
    let mut receives: Vec<_> = (0..5).map(|_| Box::pin(r.recv())).collect();
    for (name, receive) in receives.iter_mut().enumerate() {
        let waker = if name % 3 == 0 { fails.clone() } else { log.waker(name) };
        assert!(support::poll_with(receive, &waker).is_pending());
    }
    assert!(catch_unwind(AssertUnwindSafe(|| s.close())).is_err());
    assert_eq!((log.take(), s.is_closed()), (vec![1, 2, 4], true));
}

/// A waker that says its name in its panic when it is woken.
struct Says(&'static str);

impl Wake for Says {
    fn wake(self: Arc<Self>) {
        panic::panic_any(self.0);
    }
}

#[test]
fn the_first_panic_goes_on_and_every_waker_is_dropped() {
    let (s, r) = unbounded::<u64>();
    let tasks = [Arc::new(Says("first")), Arc::new(Says("second"))];
    let mut receives = tasks.clone().map(|task| (Box::pin(r.recv()), Waker::from(task)));
    for (receive, waker) in &mut receives {
        assert!(support::poll_with(receive, waker).is_pending());
    }
    let panic = catch_unwind(AssertUnwindSafe(|| s.close())).unwrap_err();
    assert_eq!(panic.downcast_ref(), Some(&"first"));
    drop(receives);
    assert_eq!(tasks.map(|task| Arc::strong_count(&task)), [1, 1]);
}

#[test]
fn every_waker_is_dropped_once_it_was_woken() {
    let (s, r) = unbounded::<u64>();
    let tasks = [(); 3].map(|()| support::Count::new());
    let mut receives = tasks.clone().map(|task| (Box::pin(r.recv()), Waker::from(task)));
    for (receive, waker) in &mut receives {
        assert!(support::poll_with(receive, waker).is_pending());
    }
    assert_eq!(s.try_send(1), Ok(()));
    assert_eq!(tasks.clone().map(|task| Arc::strong_count(&task)), [3, 4, 4]);
    s.close();
    assert_eq!(tasks.map(|task| (task.woken(), Arc::strong_count(&task))), [(1, 2); 3]);
}

#[test]
fn a_receiver_is_given_up_also_where_its_streams_waker_panics() {
    for others in [0, 1] {
        let (s, mut r) = unbounded::<u64>();
        let others: Vec<_> = (0..others).map(|_| r.clone()).collect();
        let fails = Waker::from(Arc::new(Fails { dropped: true }));
        let mut context = Context::from_waker(&fails);
        assert_eq!(Pin::new(&mut r).poll_next(&mut context), Poll::Pending);
        drop(fails);
        assert!(catch_unwind(AssertUnwindSafe(|| drop(r))).is_err());
        assert_eq!((s.receiver_count(), s.is_closed()), (others.len(), others.is_empty()));
    }
}

/// A waker that calls the channel when it is dropped.
struct Caller(Sender<u64>, Arc<AtomicUsize>);

impl Wake for Caller {
    fn wake(self: Arc<Self>) {}
}

impl Drop for Caller {
    fn drop(&mut self) {
        self.1.fetch_add(1 + self.0.len(), Ordering::SeqCst);
    }
}

thread_local! {
    /// A wait that is given up when its thread ends.
    static LAST: RefCell<Option<Pin<Box<dyn Future<Output = ()>>>>> = const { RefCell::new(None) };
}

/// What receives a message when it is dropped, and sends it on.
struct Late(Receiver<u64>, Sender<u64>);

impl Drop for Late {
    fn drop(&mut self) {
        let message = self.0.recv_blocking().unwrap();
        assert_eq!(self.1.send_blocking(message), Ok(()));
    }
}

thread_local! {
    /// What a thread does at its very end.
    static LATE: RefCell<Option<Late>> = const { RefCell::new(None) };
}

#[cfg(target_os = "linux")]
#[test]
fn a_thread_that_ends_may_block() {
    let ((s, r), (back_s, back_r)) = (unbounded(), unbounded());
    let (tell, told) = std::sync::mpsc::channel();
    let ends = thread::spawn(move || {
        tell.send(support::own_folder()).unwrap();
        // What a thread asks for first it gives up last: after whatever blocking needs.
        LATE.with(|late| late.replace(None));
        assert_eq!(back_s.send_blocking(r.recv_blocking().unwrap()), Ok(()));
        LATE.with(|late| late.replace(Some(Late(r, back_s))));
    });
    let folder = told.recv().unwrap();
    for message in 0..2 {
        support::await_sleep(&folder, 1);
        assert_eq!(s.send_blocking(message), Ok(()));
        assert_eq!(back_r.recv_blocking(), Ok(message));
    }
    ends.join().unwrap();
}

#[test]
fn a_wait_may_be_given_up_by_a_thread_that_ends() {
    let (s, r) = unbounded::<u64>();
    let calls = Arc::new(AtomicUsize::new(0));
    let waker = Waker::from(Arc::new(Caller(s.clone(), calls.clone())));
    let ends = thread::spawn(move || {
        LAST.with(|last| last.replace(None));
        let mut wait: Pin<Box<dyn Future<Output = ()>>> =
            Box::pin(async move { assert!(r.recv().await.is_err()) });
        // The second poll leaves the first one's waker aside, which the thread needs a place for.
        for waker in [Waker::from(support::Count::new()), waker] {
            assert!(wait.as_mut().poll(&mut Context::from_waker(&waker)).is_pending());
        }
        LAST.with(|last| last.replace(Some(wait)));
    });
    ends.join().unwrap();
    assert_eq!((calls.load(Ordering::SeqCst), s.is_closed()), (1, true));
}
