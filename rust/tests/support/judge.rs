//! Who waits and who was told, by the rules alone.

/// A waiting list: names in order of arrival, the first `told` of which were told.
#[derive(Default)]
pub struct Waiting {
    pub names: Vec<usize>,
    pub told: usize,
}

impl Waiting {
    /// Takes a name out, and says whether it was there and told.
    pub fn remove(&mut self, name: usize) -> bool {
        let Some(place) = self.names.iter().position(|&other| other == name) else {
            return false;
        };
        self.names.remove(place);
        let was_told = place < self.told;
        self.told -= usize::from(was_told);
        was_told
    }

    /// A poll of `name` that can't go on.
    pub fn wait(&mut self, name: usize) {
        let untold = self.names.iter().skip(self.told).any(|&other| other == name);
        if !untold {
            self.remove(name);
            self.names.push(name);
        }
    }

    pub fn tell_one(&mut self) -> Vec<usize> {
        let newly = self.names.get(self.told).copied();
        self.told += newly.iter().len();
        newly.into_iter().collect()
    }

    pub fn tell_all(&mut self) -> Vec<usize> {
        let newly = self.names[self.told..].to_vec();
        self.told = self.names.len();
        newly
    }
}

/// The four lists, and what each kind of step tells.
#[derive(Default)]
pub struct Judge {
    pub sends: Waiting,
    pub receives: Waiting,
    pub streams: Waiting,
    pub closeds: Waiting,
}

impl Judge {
    pub fn accepted(&mut self) -> Vec<usize> {
        [self.receives.tell_one(), self.streams.tell_all()].concat()
    }

    pub fn taken(&mut self) -> Vec<usize> {
        self.sends.tell_one()
    }

    /// So many messages were accepted, one after the other.
    pub fn accepted_many(&mut self, count: usize) -> Vec<usize> {
        (0..count).flat_map(|_| self.accepted()).collect()
    }

    /// So many messages were taken, one after the other.
    pub fn taken_many(&mut self, count: usize) -> Vec<usize> {
        (0..count).flat_map(|_| self.taken()).collect()
    }

    pub fn closed(&mut self) -> Vec<usize> {
        let (sends, receives) = (self.sends.tell_all(), self.receives.tell_all());
        [sends, receives, self.streams.tell_all()].concat()
    }
}
