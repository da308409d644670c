//! Tables of lifts: the mill's own, good ones and others; and letters by their lifts.

use crate::plain::{fixed_lifts, lift, Lifts};
use crate::samples::Generator;
use crate::{FIRST_PICK, LAST_PICK, LETTERS};

/// The bytes that a load is given: the first of these 26, or all of them and so many more
/// behind.
#[derive(Clone, Copy, Debug, PartialEq, Eq)]
pub struct Table {
    pub lifts: Lifts,
    pub length: u16,
    pub behind: u8,
}

impl Table {
    /// Just these 26 bytes.
    pub fn of(lifts: Lifts) -> Table {
        Table {
            lifts,
            length: LETTERS as u16,
            behind: 0,
        }
    }

    /// The bytes themselves.
    pub fn bytes(self) -> Vec<u8> {
        let mut bytes = self.lifts.to_vec();
        bytes.resize(self.length.into(), self.behind);
        bytes
    }
}

/// The fixed lifts, but each of these letters lifts as the first of them does.
pub fn alike(letters: &[u8]) -> Lifts {
    let mut lifts = fixed_lifts();
    for letter in letters {
        lifts[usize::from(letter - FIRST_PICK)] = lifts[usize::from(letters[0] - FIRST_PICK)];
    }
    lifts
}

/// 26 lifts, no two of them equal and none 0.
pub fn distinct(generator: &mut Generator) -> Lifts {
    let mut bytes: Vec<u8> = (1..=u8::MAX).collect();
    std::array::from_fn(|_| bytes.swap_remove(generator.below(bytes.len())))
}

/// Lifts of which so many or fewer are different, the letters that lift alike being any.
pub fn of_few(generator: &mut Generator, different: usize) -> Lifts {
    let some = distinct(generator);
    std::array::from_fn(|_| some[generator.below(different)])
}

/// Lifts of one harness each, of eight, or of any number; with some letters alike or none.
pub fn some_lifts(generator: &mut Generator) -> Lifts {
    match generator.below(8) {
        0 => [u8::MAX; LETTERS],
        1 => std::array::from_fn(|_| 1 << generator.below(8)),
        2 => distinct(generator),
        3 => alike(b"AC"),
        at => of_few(generator, at - 2),
    }
}

/// A table that is good but for what stands stored, or one that no state takes: one of
/// another length, or with a 0 or two.
pub fn some_table(generator: &mut Generator) -> Table {
    let mut table = Table::of(some_lifts(generator));
    match generator.below(8) {
        0 => table.length = [0, 1, 25, 27, 28, 52, 255, 300][generator.below(8)],
        1 | 2 => (0..1 + generator.below(2)).for_each(|_| {
            table.lifts[generator.below(LETTERS)] = 0;
        }),
        3 => {
            table.length = 24 + generator.below(6) as u16;
            table.behind = generator.below(3) as u8;
            table.lifts[generator.below(LETTERS)] = generator.below(3) as u8;
        }
        _ => {}
    }
    table
}

/// The draft with each letter replaced by any that lifts as it does: the same draft by
/// lifts, and by letters mostly another.
pub fn dressed(generator: &mut Generator, lifts: &Lifts, draft: &[u8]) -> Vec<u8> {
    let same = |letter: u8| {
        let is_same = move |&one: &u8| lift(lifts, one) == lift(lifts, letter);
        (FIRST_PICK..=LAST_PICK)
            .filter(is_same)
            .collect::<Vec<u8>>()
    };
    let letters: Vec<Vec<u8>> = (FIRST_PICK..=LAST_PICK).map(same).collect();
    draft
        .iter()
        .map(|pick| &letters[usize::from(pick - FIRST_PICK)])
        .map(|same| same[generator.below(same.len())])
        .collect()
}

/// Lifts under which the first so many letters lift differently, and every other as one of
/// them.
pub fn of_classes(generator: &mut Generator, classes: usize) -> Lifts {
    let some = distinct(generator);
    std::array::from_fn(|at| match at < classes {
        true => some[at],
        false => some[generator.below(classes)],
    })
}

/// Whether the letters are mirrored by their lifts, pick by pick.
pub fn is_mirrored_by(lifts: &Lifts, letters: &[u8]) -> bool {
    let pairs = letters.iter().zip(letters.iter().rev());
    pairs
        .into_iter()
        .all(|(&one, &other)| lift(lifts, one) == lift(lifts, other))
}

/// Whether two drafts have the same lifts, pick by pick.
pub fn lift_alike(lifts: &Lifts, one: &[u8], other: &[u8]) -> bool {
    let mut pairs = one.iter().zip(other);
    one.len() == other.len() && pairs.all(|(&a, &b)| lift(lifts, a) == lift(lifts, b))
}

/// The draft with each letter replaced by the first one that lifts as it does: under the
/// fixed lifts it is mirrored where the draft is under these.
pub fn merged(lifts: &Lifts, draft: &[u8]) -> Vec<u8> {
    let first = |&letter: &u8| {
        (FIRST_PICK..=LAST_PICK).find(|&one| lift(lifts, one) == lift(lifts, letter))
    };
    draft.iter().filter_map(first).collect()
}
