//! Drafts under the mill's own lifts, worked out by hand, with K = 8.

use crate::plain::Lifts;
use crate::tables::alike;

/// Letters that lift alike, the others as in the fixed table; a draft; its mask; the visits of
/// its last pick; and its mask by letters, which is the one under the fixed lifts.
pub struct Example {
    pub alike: &'static str,
    pub draft: &'static str,
    pub mask: usize,
    pub visits: &'static [u16],
    pub mask_by_letters: usize,
}

/// All letters.
const ALL: &str = "ABCDEFGHIJKLMNOPQRSTUVWXYZ";

/// An example.
const fn example(
    alike: &'static str,
    draft: &'static str,
    mask: usize,
    visits: &'static [u16],
    mask_by_letters: usize,
) -> Example {
    Example {
        alike,
        draft,
        mask,
        visits,
        mask_by_letters,
    }
}

/// Two letters alike, three, and all. AB is then as AA is: one section or two.
pub const EXAMPLES: [Example; 15] = [
    example("AB", "A", 0b1, &[1], 0b1),
    example("AB", "AB", 0b11, &[2, 1], 0b10),
    example("AB", "BA", 0b11, &[2, 1], 0b10),
    example("AB", "ABA", 0b111, &[3, 1], 0b101),
    example("AB", "ABC", 0b110, &[1], 0b100),
    example("AB", "CAB", 0b110, &[2, 1], 0b100),
    example("AB", "ACB", 0b101, &[3, 1], 0b100),
    example("AB", "ACCB", 0b1101, &[4, 1], 0b1100),
    example("AB", "ABACDDC", 0b111_1110, &[4, 1], 0b111_1010),
    example("CD", "ACDB", 0b1100, &[1], 0b1000),
    example("AZ", "AZAZ", 0b1111, &[4, 1], 0b1010),
    example("ABC", "ABC", 0b111, &[3, 1], 0b100),
    example("ABC", "ABCD", 0b1110, &[1], 0b1000),
    example(ALL, "ABCDEFG", 0b111_1111, &[7, 1], 0b100_0000),
    example(ALL, ALL, 0b1111_1111, &[26, 1], 0),
];

impl Example {
    /// Its lifts.
    pub fn lifts(&self) -> Lifts {
        alike(self.alike.as_bytes())
    }
}

/// Splits of ABACDDC where A and B lift alike: k, the ends, the turn count. By letters it
/// has none in 3, and others in 5.
pub const SPLITS: [(usize, &[u16], usize); 6] = [
    (2, &[3, 7], 2),
    (3, &[1, 3, 7], 2),
    (4, &[1, 2, 3, 7], 1),
    (5, &[1, 3, 4, 6, 7], 2),
    (6, &[1, 2, 3, 4, 6, 7], 1),
    (7, &[1, 2, 3, 4, 5, 6, 7], 0),
];

/// The radius at each centre of ABACDDC where A and B lift alike, from centre 1 on. By
/// letters those at 3 and 5 are 0.
pub const RADII: [usize; 15] = [0, 0, 1, 1, 1, 0, 0, 0, 0, 0, 2, 0, 0, 0, 0];

/// Letters that lift alike, a draft, k, its record, and the draft that this unfolds to: the
/// same lifts, but not the same letters, save in the last.
pub const RECORDS: [(&str, &str, usize, &str, &str); 7] = [
    ("AB", "AB", 1, "2,1,2,A\n", "AA"),
    ("AB", "BA", 1, "2,1,2,B\n", "BB"),
    ("AB", "ACCB", 1, "4,1,4,AC\n", "ACCA"),
    ("AB", "AABB", 2, "4,2,1,A,3,AB\n", "AABA"),
    ("AB", "ABACDDC", 3, "7,3,1,A,2,B,4,CD\n", "ABBCDDC"),
    ("ABC", "CBA", 1, "3,1,3,CB\n", "CBC"),
    ("AB", "ABA", 1, "3,1,3,AB\n", "ABA"),
];
