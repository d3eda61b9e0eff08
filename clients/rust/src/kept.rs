//! States in memory, of which an epoch asks for few.

use std::collections::HashMap;
use std::hash::{BuildHasher, Hasher, RandomState};

use crate::{Change, State};

/// The states that a plan's folds keep, for `Plan::epoch_of`.
#[derive(Clone, Debug, Default)]
pub struct Kept {
    held: HashMap<(u64, u64), Held, Mixer>,
    /// How many epochs there were.
    epochs: u64,
}

/// What a fold keeps for a key, and the last epoch to which it was handed in.
#[derive(Clone, Copy, Debug)]
struct Held {
    a: i64,
    b: i64,
    epoch: u64,
}

impl Kept {
    /// What the fold `vertex` keeps for a key.
    pub fn get(&self, vertex: u64, key: u64) -> Option<(i64, i64)> {
        self.held.get(&(vertex, key)).map(|it| (it.a, it.b))
    }

    /// All states, sorted by vertex and key.
    pub fn states(&self) -> Vec<State> {
        let mut states: Vec<State> = self.held.iter().map(|(place, it)| it.at(*place)).collect();
        states.sort_unstable_by_key(|it| (it.vertex, it.key));
        states
    }

    /// Begins an epoch, to which no state was handed in.
    pub(crate) fn begin(&mut self) {
        self.epochs += 1;
    }

    /// Adds the state of a place to those that are handed in to this epoch, once.
    pub(crate) fn hand_in(&mut self, place: (u64, u64), given: &mut Vec<State>) {
        if let Some(held) = self.held.get_mut(&place).filter(|it| it.epoch != self.epochs) {
            held.epoch = self.epochs;
            given.push(held.at(place));
        }
    }

    pub(crate) fn apply(&mut self, changes: &[Change]) {
        for change in changes {
            let place = (change.vertex, change.key);
            match change.state() {
                Some((a, b)) => self.held.insert(place, Held { a, b, epoch: 0 }),
                None => self.held.remove(&place),
            };
        }
    }
}

impl Held {
    fn at(self, (vertex, key): (u64, u64)) -> State {
        State { vertex, key, a: self.a, b: self.b }
    }
}

impl FromIterator<State> for Kept {
    fn from_iter<I: IntoIterator<Item = State>>(states: I) -> Kept {
        let held = states.into_iter().map(|it| ((it.vertex, it.key), Held { a: it.a, b: it.b, epoch: 0 }));
        Kept { held: held.collect(), epochs: 0 }
    }
}

/// Hashes a vertex and a key by a product for each. It begins with a random number, so that nobody can choose keys that meet.
#[derive(Clone, Copy, Debug)]
struct Mixer(u64);

impl Default for Mixer {
    fn default() -> Mixer {
        Mixer(RandomState::new().hash_one(0))
    }
}

impl BuildHasher for Mixer {
    type Hasher = Mixer;

    fn build_hasher(&self) -> Mixer {
        *self
    }
}

impl Hasher for Mixer {
    fn write_u64(&mut self, number: u64) {
        let product = u128::from(self.0 ^ number) * 0x9e37_79b9_7f4a_7c15;
        self.0 = (product >> 64) as u64 ^ product as u64;
    }

    fn write(&mut self, bytes: &[u8]) {
        bytes.iter().for_each(|&it| self.write_u64(it.into()));
    }

    fn finish(&self) -> u64 {
        self.0
    }
}
