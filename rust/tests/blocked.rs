//! What a thread keeps that blocked goes with the thread. Nothing else runs in this program, so that
//! all its memory can be counted.

use std::alloc::{GlobalAlloc, Layout, System};
use std::sync::atomic::{AtomicIsize, Ordering};
use std::thread;
use std::time::Duration;

use vamorilesh::bounded;

/// How many bytes were taken and not given back.
static TAKEN: AtomicIsize = AtomicIsize::new(0);

struct Counting;

// SAFETY: each call is the system's own.
unsafe impl GlobalAlloc for Counting {
    unsafe fn alloc(&self, layout: Layout) -> *mut u8 {
        TAKEN.fetch_add(layout.size() as isize, Ordering::SeqCst);
        System.alloc(layout)
    }
    unsafe fn dealloc(&self, place: *mut u8, layout: Layout) {
        TAKEN.fetch_sub(layout.size() as isize, Ordering::SeqCst);
        System.dealloc(place, layout)
    }
}

#[global_allocator]
static ALLOCATOR: Counting = Counting;

#[test]
fn a_thread_that_blocked_leaves_nothing_behind() {
    let round = || {
        let (s, r) = bounded(1);
        let blocked = thread::spawn(move || assert_eq!(r.recv_blocking(), Ok(1)));
        // So that it blocks most likely.
        thread::sleep(Duration::from_millis(20));
        s.send_blocking(1).unwrap();
        blocked.join().unwrap();
        TAKEN.load(Ordering::SeqCst)
    };
    // The most of some rounds: std may have given back some more than usual by then.
    let most = || (0..6).map(|_| round()).max();
    assert_eq!(most(), most());
}
