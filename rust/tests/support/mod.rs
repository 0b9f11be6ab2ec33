//! What the tests share: wakers that write down whom they woke, polls by hand, threads that sleep, and
//! random numbers.
// Each test file uses a part.
#![allow(dead_code)]

pub mod judge;

use std::future::Future;
use std::pin::Pin;
use std::sync::atomic::{AtomicUsize, Ordering};
use std::sync::{Arc, Mutex};
use std::task::{Context, Poll, Wake, Waker};

/// A waker that counts how often it was woken.
#[derive(Default)]
pub struct Count(AtomicUsize);

impl Count {
    pub fn new() -> Arc<Count> {
        Arc::default()
    }

    pub fn woken(&self) -> usize {
        self.0.load(Ordering::SeqCst)
    }
}

impl Wake for Count {
    fn wake(self: Arc<Self>) {
        self.0.fetch_add(1, Ordering::SeqCst);
    }
}

/// The names of those who were woken, in order, since it was last taken.
#[derive(Clone, Default)]
pub struct Log(Arc<Mutex<Vec<usize>>>);

impl Log {
    /// A waker that writes `name` down when it is woken.
    pub fn waker(&self, name: usize) -> Waker {
        let log = self.clone();
        Waker::from(Arc::new(Named { log, name }))
    }

    pub fn take(&self) -> Vec<usize> {
        std::mem::take(&mut self.0.lock().unwrap())
    }

    /// Forgets the last name if it is this one, and says whether it was.
    pub fn forget_last(&self, name: usize) -> bool {
        let mut names = self.0.lock().unwrap();
        let is_last = names.last() == Some(&name);
        if is_last {
            names.pop();
        }
        is_last
    }
}

struct Named {
    log: Log,
    name: usize,
}

impl Wake for Named {
    fn wake(self: Arc<Self>) {
        self.log.0.lock().unwrap().push(self.name);
    }
}

/// An operation with its own counting waker, polled by hand.
pub struct Task<F> {
    future: Pin<Box<F>>,
    count: Arc<Count>,
}

impl<F: Future> Task<F> {
    pub fn new(future: F) -> Task<F> {
        let (future, count) = (Box::pin(future), Count::new());
        Task { future, count }
    }

    pub fn poll(&mut self) -> Poll<F::Output> {
        poll_with(&mut self.future, &Waker::from(self.count.clone()))
    }

    /// What counts how often its waker is woken.
    pub fn count(&self) -> Arc<Count> {
        self.count.clone()
    }

    /// How often its waker was woken since it was made.
    pub fn woken(&self) -> usize {
        self.count.woken()
    }
}

/// One poll of `future` with `waker`.
pub fn poll_with<F: Future + ?Sized>(future: &mut Pin<Box<F>>, waker: &Waker) -> Poll<F::Output> {
    future.as_mut().poll(&mut Context::from_waker(waker))
}

/// One poll of a pinned `future` with `waker`.
pub fn poll_pinned<F: Future>(future: &mut Pin<&mut F>, waker: &Waker) -> Poll<F::Output> {
    future.as_mut().poll(&mut Context::from_waker(waker))
}

/// The folder below /proc of the thread that calls.
#[cfg(target_os = "linux")]
pub fn own_folder() -> std::path::PathBuf {
    std::path::Path::new("/proc").join(std::fs::read_link("/proc/thread-self").unwrap())
}

/// Returns once a thread has slept for so many times 20 milliseconds, in a row. It fails if that takes
/// more than ten seconds.
#[cfg(target_os = "linux")]
pub fn await_sleep(folder: &std::path::Path, times: usize) {
    let look = || {
        let status = std::fs::read_to_string(folder.join("status")).unwrap();
        // Its state, and how often it gave its processor up.
        let is_wanted = |line: &&str| line.starts_with("State") || line.starts_with("voluntary");
        status.lines().filter(is_wanted).collect::<String>()
    };
    let mut asleep = 0;
    for _ in 0..500 {
        let before = look();
        std::thread::sleep(std::time::Duration::from_millis(20));
        let is_asleep = before.contains("sleeping") && before == look();
        asleep = if is_asleep { asleep + 1 } else { 0 };
        if asleep == times {
            return;
        }
    }
    panic!("it doesn't sleep");
}

/// Fails if these calls don't end: one that comes under a channel's lock waits for ever.
pub fn ends(calls: impl FnOnce() + Send + 'static) {
    let (tell, told) = std::sync::mpsc::channel();
    std::thread::spawn(move || {
        calls();
        tell.send(())
    });
    assert_eq!(told.recv_timeout(std::time::Duration::from_secs(10)), Ok(()));
}

/// Drawn numbers: the same for the same seed (SplitMix64).
pub struct Draw(u64);

impl Draw {
    pub fn from_seed(seed: u64) -> Draw {
        Draw(seed)
    }

    /// A number below `bound`.
    pub fn below(&mut self, bound: usize) -> usize {
        self.0 = self.0.wrapping_add(0x9e37_79b9_7f4a_7c15);
        let mut mixed = self.0;
        mixed = (mixed ^ (mixed >> 30)).wrapping_mul(0xbf58_476d_1ce4_e5b9);
        mixed = (mixed ^ (mixed >> 27)).wrapping_mul(0x94d0_49bb_1331_11eb);
        ((mixed ^ (mixed >> 31)) % bound as u64) as usize
    }
}
