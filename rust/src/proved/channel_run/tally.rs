// Taken out of crates/channel_run/src/tally.rt by tools/erase. Change that file, not this one.
//! How many operations borrow each handle.

use crate::proved::channel_model::OutOfMemory;
use crate::shim::Global;
use crate::shim::BTreeMap;

/// Numbers by name. A name under which none stands has 0.
pub struct Tally {
    numbers: BTreeMap<u64, u64>,
}

impl Tally {
    /// Every name has 0.
    #[inline]
    pub(super) fn new(alloc: Global) -> Tally {
        Tally {
            numbers: BTreeMap::new(alloc),
        }
    }

    /// The number of a name.
    #[inline]
    pub(super) fn get(&self, name: u64) -> u64 {
        match self.numbers.get(&name) {
            Some(number) => *number,
            None => 0,
        }
    }

    /// Raises the number of a name by 1.
    #[inline]
    pub(super) fn raise(&mut self, name: u64) -> Result<(), OutOfMemory> {
        let number = self.get(name);
        match self.numbers.insert(name, number + 1) {
            Ok(_) => Ok(()),
            Err(_) => Err(OutOfMemory),
        }
    }

    /// Lowers the number of a name by 1, if it isn't 0. It takes no memory, and keeps none for a 0.
    #[inline]
    pub(super) fn lower(&mut self, name: u64) {
        let number = self.get(name);
        if number < 2 {
            self.numbers.remove(&name);
            return;
        }
        // the name has a place already, so none is wanted
        match self.numbers.insert(name, number - 1) {
            Ok(_) => {}
            Err(_) => unreachable!(),
        }
    }
}
