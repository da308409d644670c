//! The table of mirrored stretches.

/// For each prefix j and each i from 0 to j, whether picks i+1 to j are mirrored.
pub struct Mirrored {
    prefixes: Vec<Vec<bool>>,
}

impl Mirrored {
    /// The table of the empty draft: its one stretch, the empty one, is mirrored.
    pub fn of_empty_draft() -> Mirrored {
        Mirrored {
            prefixes: vec![vec![true]],
        }
    }

    /// Adds the stretches that close the whole word. A stretch of two or more picks
    /// is mirrored when its outer lifts are equal and the stretch between them is
    /// mirrored; a shorter one always is.
    pub fn add_prefix(&mut self, word: &[u8]) {
        let j = word.len();
        let inner = &self.prefixes[j - 1];
        let closing = (0..=j)
            .map(|i| j - i < 2 || (word[i] == word[j - 1] && inner[i + 1]))
            .collect();
        self.prefixes.push(closing);
    }

    /// Leaves the stretches of the first so many picks.
    pub fn truncate(&mut self, picks: usize) {
        self.prefixes.truncate(picks + 1);
    }

    /// Whether picks i+1 to j are mirrored.
    pub fn is_mirrored(&self, i: usize, j: usize) -> bool {
        self.prefixes[j][i]
    }
}
