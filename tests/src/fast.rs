//! The same questions for drafts of up to 2,048 picks, by textbook tables.
//!
//! Built once from the word of a whole draft and K, it answers for every prefix of it.
//! The table of mirrored stretches, the row words and the leading endings of a
//! prefix depend on that prefix alone.

mod centres;
mod gathered;
mod mirrored;
mod periods;
mod splits;

use mirrored::Mirrored;
use periods::least_periods_of_suffixes;
use splits::Named;

/// A leading ending: its length and its least period.
struct Leading {
    length: usize,
    period: usize,
}

/// A draft's word with its tables, one entry for each prefix, prefix 0 first.
pub struct Fast {
    most_sections: usize,
    word: Vec<u8>,
    mirrored: Mirrored,
    rows: Vec<u16>,
    leading: Vec<Vec<Leading>>,
    named: Vec<Named>,
}

impl Fast {
    /// The tables of a whole draft by its word, with K.
    pub fn new(word: &[u8], most_sections: usize) -> Fast {
        let mut fast = Fast {
            most_sections,
            word: Vec::new(),
            mirrored: Mirrored::of_empty_draft(),
            rows: vec![1],
            leading: vec![Vec::new()],
            named: vec![splits::of_empty_draft()],
        };
        fast.turn_to(word);
        fast
    }

    /// Makes them the tables of another word. The entries of the prefixes that both have stay.
    pub fn turn_to(&mut self, word: &[u8]) {
        let pairs = self.word.iter().zip(word);
        let common = pairs.take_while(|(own, other)| own == other).count();
        self.word.truncate(common);
        self.mirrored.truncate(common);
        self.rows.truncate(common + 1);
        self.leading.truncate(common + 1);
        self.named.truncate(common + 1);
        word[common..].iter().for_each(|&lift| self.add(lift));
    }

    /// Adds the entries of one more prefix; those of the others stay.
    fn add(&mut self, lift: u8) {
        self.word.push(lift);
        self.mirrored.add_prefix(&self.word);
        self.rows.push(self.row_by_every_ending());
        self.leading.push(self.leading_endings());
        self.named.push(self.named_splits());
    }

    /// K.
    pub fn most_sections(&self) -> usize {
        self.most_sections
    }

    /// The word of the whole draft.
    pub(crate) fn word(&self) -> &[u8] {
        &self.word
    }

    /// The row word of the whole draft: for each non-empty ending, the row word
    /// of what stands before it, moved up one bit, bits above K dropped.
    fn row_by_every_ending(&self) -> u16 {
        let n = self.word.len();
        let joined = (0..n)
            .filter(|&cut| self.mirrored.is_mirrored(cut, n))
            .fold(0, |word, cut| word | self.rows[cut] << 1);
        joined & ((1 << (self.most_sections + 1)) - 1)
    }

    /// The non-empty leading endings of the whole draft, longest first. An ending
    /// is leading when twice the smallest period of all longer endings is greater
    /// than its length.
    fn leading_endings(&self) -> Vec<Leading> {
        let n = self.word.len();
        let periods = least_periods_of_suffixes(&self.word);
        let mut smallest = usize::MAX / 2;
        let mut leading = Vec::new();
        for length in (1..=n).rev() {
            if self.mirrored.is_mirrored(n - length, n) {
                let period = periods[length - 1];
                if 2 * smallest > length {
                    leading.push(Leading { length, period });
                }
                smallest = smallest.min(period);
            }
        }
        leading
    }

    /// The row word of prefix i.
    pub fn row(&self, i: usize) -> u16 {
        self.rows[i]
    }

    /// The mask of prefix i: mask bit k-1 is row bit k.
    pub fn mask(&self, i: usize) -> u8 {
        (self.rows[i] >> 1) as u8
    }

    /// The lengths visited at prefix i, longest first.
    pub fn visits(&self, i: usize) -> Vec<usize> {
        self.leading[i].iter().map(|ending| ending.length).collect()
    }

    /// The length of the longest ending of prefix i.
    pub fn longest(&self, i: usize) -> usize {
        let before = (0..=i).find(|&cut| self.mirrored.is_mirrored(cut, i));
        i - before.expect("the empty ending is mirrored")
    }
}
