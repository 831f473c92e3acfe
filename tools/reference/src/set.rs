//! Sets of small numbers, and relations made of them.

/// A set of numbers below 64, one bit each.
#[derive(Debug, Clone, Copy, Default, PartialEq, Eq)]
pub struct Set(u64);

impl Set {
    pub fn insert(&mut self, number: usize) {
        self.0 |= 1 << number;
    }

    pub fn add(&mut self, other: Set) {
        self.0 |= other.0;
    }

    pub fn contains(self, number: usize) -> bool {
        self.0 >> number & 1 == 1
    }

    pub fn meets(self, other: Set) -> bool {
        self.0 & other.0 != 0
    }

    pub fn len(self) -> usize {
        self.0.count_ones() as usize
    }
}

impl Iterator for Set {
    type Item = usize;

    /// Takes the least number out of the set.
    fn next(&mut self) -> Option<usize> {
        if self.0 == 0 {
            return None;
        }
        let least = self.0.trailing_zeros() as usize;
        self.0 &= self.0 - 1;
        Some(least)
    }
}

/// Makes a relation reflexive and transitive (Warshall's method).
pub fn close(relation: &mut [Set]) {
    for via in 0..relation.len() {
        relation[via].insert(via);
        let beyond = relation[via];
        for set in relation.iter_mut() {
            if set.contains(via) {
                set.add(beyond);
            }
        }
    }
}
