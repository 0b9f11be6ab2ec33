// Taken out of crates/channel_run/src/names.rt by tools/erase. Change that file, not this one.
//! Names of one space that are live, and what stands under them.

use crate::proved::channel_model::OutOfMemory;
use crate::shim::Global;
use crate::shim::BTreeMap;

/// Live names, each once, in ascending order. Each is found in the time of a map's look-up.
pub struct Names {
    // a name is a key, with nothing under it
    names: BTreeMap<u64, ()>,
}

impl Names {
    /// No name.
    #[inline]
    pub(super) fn new(alloc: Global) -> Names {
        Names {
            names: BTreeMap::new(alloc),
        }
    }

    /// Whether a name is live.
    #[inline]
    pub(super) fn has(&self, name: u64) -> bool {
        self.names.contains_key(&name)
    }

    /// Makes a name that isn't live.
    #[inline]
    pub(super) fn add(&mut self, name: u64) -> Result<(), OutOfMemory> {
        match put(&mut self.names, name, ()) {
            Ok(()) => Ok(()),
            Err(()) => Err(OutOfMemory),
        }
    }

    /// Gives a name up.
    #[inline]
    pub(super) fn remove(&mut self, name: u64) {
        self.names.remove(&name);
    }
}

/// Puts a value under a name that isn't live, or hands it back.
#[inline]
pub(super) fn put<V>(entries: &mut BTreeMap<u64, V>, name: u64, value: V) -> Result<(), V> {
    match entries.insert(name, value) {
        Ok(earlier) => match earlier {
            None => Ok(()),
            Some(_) => unreachable!(),
        },
        Err(refused) => Err(refused.value.1),
    }
}

/// Takes out what stands under a name.
#[inline]
pub(super) fn take<V>(entries: &mut BTreeMap<u64, V>, name: u64) -> Option<V> {
    // proof: the call promises that the names are different
    let _count = entries.len();
    entries.remove(&name)
}
