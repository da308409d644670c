//! Gathered words that lie unread for hundreds of picks, by the tables.

use comparison::fast::Fast;

/// A visit of a place many picks after the one before: the picks after which the two are
/// made.
#[derive(Clone, Copy, Debug)]
pub struct Unread {
    pub place: usize,
    pub left: usize,
    pub read: usize,
}

/// Every visit in the whole draft of n picks that is more than so many after the one before.
pub fn unread_words(fast: &Fast, n: usize, many: usize) -> Vec<Unread> {
    let mut last: Vec<usize> = (0..=n).collect();
    let mut unread = Vec::new();
    for read in 1..=n {
        for length in fast.visits(read) {
            let place = read - length;
            let left = std::mem::replace(&mut last[place], read);
            if read > left + many {
                unread.push(Unread { place, left, read });
            }
        }
    }
    unread
}

impl Unread {
    /// The mask at the visit when the word of this place is another: the union of the
    /// visited places' words, each moved up one bit, bits above K dropped.
    fn mask_when(self, fast: &Fast, word: u16) -> u8 {
        let mut words = fast.gathered(self.read);
        words[self.place] = word;
        let union = fast.visits(self.read).into_iter();
        let union = union.fold(0, |union, length| union | words[self.read - length]);
        let kept = (2 << fast.most_sections()) - 1;
        ((union << 1 & kept) >> 1) as u8
    }

    /// Whether the mask at the visit would be another without the word.
    pub fn decides(self, fast: &Fast) -> bool {
        self.mask_when(fast, 0) != fast.mask(self.read)
    }

    /// The places whose row words the word joins at the visit.
    fn places(self, fast: &Fast) -> Vec<usize> {
        fast.gathered_places(self.read).swap_remove(self.place)
    }

    /// Whether the visit joins one row word to the old word, and the mask would be
    /// another by that row word alone.
    pub fn old_word_decides(self, fast: &Fast) -> bool {
        let places = self.places(fast);
        let joined = fast.row(places[places.len() - 1]);
        places.len() > 1 && self.mask_when(fast, joined) != fast.mask(self.read)
    }

    /// Of a visit that joins one row word to the old word, the mask when the old word is
    /// another; of other visits the mask itself.
    pub fn mask_by(self, fast: &Fast, old: u16) -> u8 {
        match *self.places(fast) {
            [_, .., joined] => self.mask_when(fast, old | fast.row(joined)),
            _ => fast.mask(self.read),
        }
    }

    /// Whether the visit puts the own row word in place of the old word, and the mask
    /// would be another if the old word were kept.
    pub fn old_word_must_go(self, fast: &Fast) -> bool {
        let old = fast.gathered(self.left)[self.place];
        let kept = old | fast.row(self.place);
        self.places(fast).len() == 1 && self.mask_when(fast, kept) != fast.mask(self.read)
    }
}
