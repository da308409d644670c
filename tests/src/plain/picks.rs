//! Picks and what each letter lifts.

use crate::{FIRST_PICK, LAST_PICK, LETTERS};

/// The lifts of A to Z: the fixed ones, or "the mill's own".
pub type Lifts = [u8; LETTERS];

/// "In letter order A to Z the pairs are": the two harnesses each letter lifts.
const HARNESS_PAIRS: &str =
    "12 13 14 15 16 17 18 23 24 25 26 27 28 34 35 36 37 38 45 46 47 48 56 57 58 67";

/// "A pick is one byte, A to Z (65 to 90)."
pub fn is_pick(byte: u8) -> bool {
    (FIRST_PICK..=LAST_PICK).contains(&byte)
}

/// "Each letter lifts two of eight harnesses; harness h is bit h-1 of a lift byte."
pub fn fixed_lifts() -> Lifts {
    let mut lifts = [0; LETTERS];
    for (lift, pair) in lifts.iter_mut().zip(HARNESS_PAIRS.split(' ')) {
        *lift = pair.bytes().fold(0, |bits, h| bits | 1 << (h - b'1'));
    }
    lifts
}

/// The lift of a letter. None for a byte that is no letter.
pub fn lift(lifts: &Lifts, letter: u8) -> Option<u8> {
    is_pick(letter).then(|| lifts[usize::from(letter - FIRST_PICK)])
}

/// The word of a draft: the lifts of its picks, all of them letters.
pub fn word(lifts: &Lifts, draft: &[u8]) -> Vec<u8> {
    let lift = |&pick: &u8| lift(lifts, pick).expect("a pick is A to Z");
    draft.iter().map(lift).collect()
}
