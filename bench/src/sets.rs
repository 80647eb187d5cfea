//! Lists and tables of sets, each built where it stays. M is n + 1.

use crate::zone::{Empty, Zone};
use std::slice;

/// Sets that differ from each other, in memory set aside for them. A set is
/// built in the next free place; if it is dropped, the place is free again.
pub struct Sets<const M: usize> {
    sets: Vec<Zone<M>>,
    /// How many comparisons of two sets were made.
    pub compared: u64,
}

impl<const M: usize> Sets<M> {
    /// None yet; places for so many.
    pub fn new(places: usize) -> Sets<M> {
        Sets {
            sets: Vec::with_capacity(places),
            compared: 0,
        }
    }

    /// The next free place, with a set copied to it: what is built from it there
    /// is the last set from now on.
    pub fn add(&mut self, from: &Zone<M>) -> &mut Zone<M> {
        let place = self.sets.len();
        self.sets.extend_from_slice(slice::from_ref(from));
        &mut self.sets[place]
    }

    /// Ends the building of the last set. It stays, and this is true, if it is
    /// not empty and differs from all before it.
    pub fn settle(&mut self, built: Result<(), Empty>) -> bool {
        let fresh = built.is_ok() && !self.last_met_before();
        if !fresh {
            self.drop_last();
        }
        fresh
    }

    /// Whether the last set is one of those before it. The last of them are looked
    /// at first, and of each the bound in which the one before differed, as in the
    /// library.
    fn last_met_before(&mut self) -> bool {
        let Some((set, others)) = self.sets.split_last() else {
            return false;
        };
        let mut place = 0;
        for other in others.iter().rev() {
            self.compared += 1;
            match set.differs(other, place) {
                Some(differs) => place = differs,
                None => return true,
            }
        }
        false
    }

    pub fn last(&self) -> &Zone<M> {
        &self.sets[self.sets.len() - 1]
    }

    pub fn drop_last(&mut self) {
        self.sets.truncate(self.sets.len().saturating_sub(1));
    }

    pub fn clear(&mut self) {
        self.sets.clear();
    }

    pub fn all(&self) -> &[Zone<M>] {
        &self.sets
    }

    pub fn all_mut(&mut self) -> &mut [Zone<M>] {
        &mut self.sets
    }
}
