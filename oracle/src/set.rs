//! Sets of events, one bit for each event of the log.

#[derive(Clone, Debug, PartialEq, Eq)]
pub struct Set {
    words: Vec<u64>,
}

impl Set {
    /// The empty set, with room for the events up to `last`.
    pub fn up_to(last: usize) -> Set {
        Set {
            words: vec![0; last / 64 + 1],
        }
    }

    pub fn insert(&mut self, event: usize) {
        self.words[event / 64] |= 1 << (event % 64);
    }

    pub fn remove(&mut self, event: usize) {
        self.words[event / 64] &= !(1 << (event % 64));
    }

    #[cfg(test)]
    pub fn has(&self, event: usize) -> bool {
        let word = self.words.get(event / 64);
        word.is_some_and(|word| word >> (event % 64) & 1 == 1)
    }

    /// Adds the events of another set, which has no more room than this one.
    pub fn join(&mut self, other: &Set) {
        for (mine, theirs) in self.words.iter_mut().zip(&other.words) {
            *mine |= theirs;
        }
    }

    pub fn remove_all(&mut self, other: &Set) {
        for (mine, theirs) in self.words.iter_mut().zip(&other.words) {
            *mine &= !theirs;
        }
    }

    /// The events that are in both.
    pub fn common(&self, other: &Set) -> Set {
        let both = self.words.iter().zip(&other.words);
        Set {
            words: both.map(|(mine, theirs)| mine & theirs).collect(),
        }
    }

    /// How many events are in both.
    pub fn count_common(&self, other: &Set) -> usize {
        let both = self.words.iter().zip(&other.words);
        let ones = both.map(|(mine, theirs)| (mine & theirs).count_ones());
        ones.sum::<u32>() as usize
    }

    /// The event that stands last in the log.
    pub fn last(&self) -> Option<usize> {
        let index = self.words.iter().rposition(|&word| word != 0)?;
        Some(64 * index + 63 - self.words[index].leading_zeros() as usize)
    }
}
