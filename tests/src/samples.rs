//! Drafts to run tests on.

use crate::FIRST_PICK;

/// Every draft of the given length over the first few letters.
pub fn every_draft(letters: u8, length: usize) -> Vec<Vec<u8>> {
    let mut drafts = vec![Vec::new()];
    for _ in 0..length {
        drafts = drafts
            .iter()
            .flat_map(|draft| (0..letters).map(|letter| with_letter(draft, letter)))
            .collect();
    }
    drafts
}

/// Every draft of 0 to the given number of picks over the first few letters.
pub fn every_draft_to(letters: u8, most: usize) -> impl Iterator<Item = Vec<u8>> {
    (0..=most).flat_map(move |length| every_draft(letters, length))
}

/// A draft with one more letter, counted from 0.
fn with_letter(draft: &[u8], letter: u8) -> Vec<u8> {
    let mut longer = draft.to_vec();
    longer.push(FIRST_PICK + letter);
    longer
}

/// A unit repeated to the given length.
pub fn repeated(unit: &[u8], length: usize) -> Vec<u8> {
    unit.iter().copied().cycle().take(length).collect()
}

/// The Fibonacci word over A and B, to the given length: each word is the last one
/// followed by the one before it.
pub fn fibonacci(length: usize) -> Vec<u8> {
    let mut before = b"A".to_vec();
    let mut word = b"AB".to_vec();
    while word.len() < length {
        let longer = [word.as_slice(), before.as_slice()].concat();
        before = std::mem::replace(&mut word, longer);
    }
    word.truncate(length);
    word
}

/// A generator of numbers from a fixed seed (splitmix64).
pub struct Generator(pub u64);

impl Generator {
    /// A number below the given one.
    pub fn below(&mut self, bound: usize) -> usize {
        self.0 = self.0.wrapping_add(0x9E37_79B9_7F4A_7C15);
        let mut mixed = self.0;
        mixed = (mixed ^ (mixed >> 30)).wrapping_mul(0xBF58_476D_1CE4_E5B9);
        mixed = (mixed ^ (mixed >> 27)).wrapping_mul(0x94D0_49BB_1331_11EB);
        mixed ^= mixed >> 31;
        (mixed % bound as u64) as usize
    }

    /// A draft of the given length over the first few letters.
    pub fn draft(&mut self, letters: u8, length: usize) -> Vec<u8> {
        (0..length)
            .map(|_| FIRST_PICK + self.below(usize::from(letters)) as u8)
            .collect()
    }
}
