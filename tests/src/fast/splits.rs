//! Named splits, by comparing whole splits.
//!
//! The table goes forward from prefix 0: of each prefix and each number of sections it
//! holds the split named, as its section lengths from the last back. For a longer prefix
//! every last section is put behind the split named of what stands before it, and of
//! these whole splits the greatest in document 01's order is kept. This is another way
//! than the board's search, which goes back from the last section, asks the row words
//! which starts to take, and stops at the first: here no row word is read, no start
//! comes before another, and whether there is a split at all follows from the table.

use super::Fast;
use crate::MOST_SECTIONS;

/// The lengths of a split's sections from the last back, then zeros. Two splits of one
/// prefix compare as document 01 says: by the last section, then the one before that.
type Lengths = [u16; MOST_SECTIONS];

/// The split named of one prefix for each number of sections from 0 to 8; none above K.
pub type Named = [Option<Lengths>; MOST_SECTIONS + 1];

/// Those of prefix 0: it is no sections, and no other number of them.
pub fn of_empty_draft() -> Named {
    let mut named = [None; MOST_SECTIONS + 1];
    named[0] = Some([0; MOST_SECTIONS]);
    named
}

/// The lengths with one section more, which is the last.
fn with_last(lengths: &Lengths, last: usize) -> Lengths {
    let mut longer = [0; MOST_SECTIONS];
    longer[0] = last as u16;
    longer[1..].copy_from_slice(&lengths[..MOST_SECTIONS - 1]);
    longer
}

/// The ends of the first k sections that have these lengths from the last back.
fn ends_of(lengths: &Lengths, k: usize) -> Vec<usize> {
    let from_first = lengths[..k].iter().rev();
    from_first
        .scan(0, |end, &length| {
            *end += usize::from(length);
            Some(*end)
        })
        .collect()
}

impl Fast {
    /// The splits named of the whole draft, from those of the shorter prefixes.
    pub(super) fn named_splits(&self) -> Named {
        let n = self.word.len();
        let mut named = [None; MOST_SECTIONS + 1];
        for cut in (0..n).filter(|&cut| self.mirrored.is_mirrored(cut, n)) {
            for k in 1..=self.most_sections {
                let before = self.named[cut][k - 1].as_ref();
                let split = before.map(|lengths| with_last(lengths, n - cut));
                named[k] = named[k].max(split);
            }
        }
        named
    }

    /// The split of prefix i into k sections whose last section is longest, then the
    /// one before that, and so on, by the last pick numbers of its sections.
    pub fn split(&self, i: usize, k: usize) -> Option<Vec<usize>> {
        let lengths = self.named[i].get(k)?.as_ref()?;
        Some(ends_of(lengths, k))
    }
}
