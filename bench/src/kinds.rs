//! Kinds of random cases. Seeds are fixed, so each run draws the same.

use crate::families::Family;
use evidence::case::Case;
use evidence::random::Random;

/// A kind of cases.
pub struct Kind {
    pub name: String,
    pub seed: u64,
    /// Draws the case of a number.
    pub draw: Box<dyn Fn(&mut Random, usize) -> Case>,
    /// Whether a case says enough for a place in a family.
    pub of_use: fn(&mut Random, &Case) -> bool,
}

impl Kind {
    /// The cases as they are drawn.
    pub fn cases(&self) -> impl Iterator<Item = Case> + '_ {
        let mut random = Random::new(self.seed);
        (0..).map(move |number| (self.draw)(&mut random, number))
    }

    /// A family of so many cases; those that are not of use are drawn again.
    pub fn family(&self, count: usize, limit: u64) -> Family {
        let mut random = Random::new(self.seed);
        let mut cases = Vec::new();
        while cases.len() < count {
            let case = (self.draw)(&mut random, cases.len());
            if (self.of_use)(&mut random, &case) {
                cases.push(case);
            }
        }
        Family {
            name: self.name.clone(),
            cases,
            limit,
        }
    }
}
