//! The one lock of a channel.

use crate::primitives::{look, Mutex, MutexGuard};
use std::panic::{RefUnwindSafe, UnwindSafe};
use std::sync::{PoisonError, TryLockError};

/// How often a thread looks at a taken lock before it sleeps until it is free: for some six microseconds,
/// about as long as it takes to sleep and be woken. With half as many four threads to four took 237 ns a
/// message over 128 places in place of 174; without any, 340.
const LOOKS: u32 = 10;

/// A value that one thread at a time can reach.
///
/// No code of a caller runs under the lock, so none panics there. A lock that says otherwise is
/// taken none the less.
pub(crate) struct Lock<V>(Mutex<V>);

impl<V> Lock<V> {
    pub(crate) fn new(value: V) -> Self {
        Lock(Mutex::new(value))
    }

    #[inline]
    pub(crate) fn lock(&self) -> MutexGuard<'_, V> {
        self.try_lock().unwrap_or_else(|| self.wait())
    }

    #[inline]
    fn try_lock(&self) -> Option<MutexGuard<'_, V>> {
        match self.0.try_lock() {
            Ok(guard) => Some(guard),
            Err(TryLockError::Poisoned(poisoned)) => Some(poisoned.into_inner()),
            Err(TryLockError::WouldBlock) => None,
        }
    }

    #[cold]
    fn wait(&self) -> MutexGuard<'_, V> {
        let mut guard = None;
        look(LOOKS, &mut || {
            guard = self.try_lock();
            guard.is_some()
        });
        guard.unwrap_or_else(|| self.0.lock().unwrap_or_else(PoisonError::into_inner))
    }
}

impl<V> UnwindSafe for Lock<V> {}
impl<V> RefUnwindSafe for Lock<V> {}
