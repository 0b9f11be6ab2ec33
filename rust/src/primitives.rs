//! What threads meet at: locks, atomic numbers, a thread's own, and the program's end.
//!
//! The package in `models` puts loom's in their place, and goes through the orders of those meetings.

use std::sync::atomic::Ordering::Relaxed;
use std::time::{Duration, Instant};

#[cfg(vamorilesh_loom)]
pub(crate) use loom::sync::{atomic::AtomicUsize, Condvar, Mutex, Mutex as StdMutex, MutexGuard};
#[cfg(vamorilesh_loom)]
pub(crate) use loom::thread_local;
#[cfg(not(vamorilesh_loom))]
pub(crate) use std::sync::{atomic::AtomicUsize, Condvar, Mutex as StdMutex};
#[cfg(not(vamorilesh_loom))]
pub(crate) use std::thread_local;

#[cfg(not(vamorilesh_loom))]
pub(crate) use std::sync::{Mutex, MutexGuard};

#[cfg(not(test))]
pub(crate) use std::process::abort;

/// Stands for the end of the program.
#[cfg(test)]
pub(crate) fn abort() -> ! {
    panic!("the program ends");
}

/// The pause before a thread's first look at what it waits for. Each of the next ones is twice as long
/// as the one before, and none longer than the other.
///
/// At a lock, long pauses leave its cache lines where they are, and short ones cost whoever is unlucky
/// less. Pauses of 4.5 microseconds made a message of four threads to four 122 ns over 128 places, and
/// these 195, but one `try_send` of a thousand beside another thread took 15 microseconds without a
/// bound, and now 2. Sixteen of 50 ns first made it 1.7, and the message 319.
const PAUSES: [Duration; 2] = [Duration::from_nanos(100), Duration::from_nanos(800)];

/// Pauses and looks, up to so many times, until `is_there` says that what the thread waits for is there.
/// The answer is whether it is.
///
/// The thread doesn't yield: if all processors are busy, it may get no turn for milliseconds then.
#[cold]
pub(crate) fn look(count: u32, is_there: &mut dyn FnMut() -> bool) -> bool {
    let [mut time, longest] = PAUSES;
    (0..looks(count)).any(|_| {
        pause(time);
        time = longest.min(2 * time);
        is_there()
    })
}

/// How often a thread looks, of so many times: on one processor never, since nobody goes on meanwhile.
/// Models look once, without a pause.
fn looks(count: u32) -> u32 {
    static PROCESSORS: std::sync::atomic::AtomicUsize = std::sync::atomic::AtomicUsize::new(0);
    if cfg!(vamorilesh_loom) {
        return 1;
    }
    if PROCESSORS.load(Relaxed) == 0 {
        PROCESSORS.store(std::thread::available_parallelism().map_or(2, usize::from), Relaxed);
    }
    if PROCESSORS.load(Relaxed) == 1 {
        0
    } else {
        count
    }
}

/// Lets so much time go by, if there is a clock. It isn't a number of the processor's pauses, since what
/// one takes differs between processors.
fn pause(time: Duration) {
    if cfg!(any(vamorilesh_loom, target_family = "wasm")) {
        return;
    }
    #[cfg(test)]
    PAUSED.with(|paused| paused.set(paused.get() + time));
    let start = Instant::now();
    while start.elapsed() < time {
        std::hint::spin_loop();
    }
}

#[cfg(test)]
std::thread_local! {
    /// For how long this thread has paused.
    pub(crate) static PAUSED: std::cell::Cell<Duration> = const { std::cell::Cell::new(Duration::ZERO) };
}
