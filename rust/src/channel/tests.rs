//! Too many handles, whose number no test reaches by copies, and for how long a thread pauses.

use crate::primitives::PAUSED;
use crate::proved::channel_core::{Group, HANDLE_LIMIT};
use crate::{bounded, unbounded};
use std::cell::Cell;
use std::panic::{catch_unwind, AssertUnwindSafe};
use std::sync::atomic::Ordering;
use std::time::Duration;

#[test]
fn too_many_handles_end_the_program() {
    let (s, r) = unbounded::<u64>();
    let (weak_sender, weak_receiver) = (s.downgrade(), r.downgrade());
    let set_counts = |count| {
        s.channel.handles.iter().for_each(|handles| handles.store(count, Ordering::SeqCst));
    };
    let ends = |call: &dyn Fn()| catch_unwind(AssertUnwindSafe(call)).is_err();
    let calls: [&dyn Fn(); 4] = [
        &|| std::mem::forget(s.clone()),
        &|| std::mem::forget(r.clone()),
        &|| std::mem::forget(weak_sender.upgrade()),
        &|| std::mem::forget(weak_receiver.upgrade()),
    ];
    for call in calls {
        set_counts(HANDLE_LIMIT);
        assert!(!ends(call));
        assert!(ends(call));
    }
    set_counts(1);
}

/// For how long a thread pauses while it does something.
fn paused(work: impl FnOnce()) -> Duration {
    let before = PAUSED.with(Cell::get);
    work();
    PAUSED.with(Cell::get) - before
}

#[test]
fn who_looks_in_vain_again_and_again_hardly_pauses() {
    const WAITS: u32 = 320;
    let is_alone = std::thread::available_parallelism().map_or(false, |count| count.get() == 1);
    let most = if is_alone { Duration::ZERO } else { Duration::from_nanos(250) };
    let (s, r) = bounded::<u64>(1);
    let waits = paused(|| (0..WAITS).for_each(|_| r.channel.await_turn(Group::Receives)));
    assert!(waits <= WAITS * most, "{waits:?}");
    // Nobody pauses who can go on.
    assert!(paused(|| s.send_blocking(1).unwrap()).is_zero());
    assert!(paused(|| assert_eq!(r.recv_blocking(), Ok(1))).is_zero());
}
