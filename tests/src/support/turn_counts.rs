//! Turn counts worked out by hand, with K = 8.

/// A draft, k, the ends of the split named of the whole draft, and its turn count.
pub type Counted = (&'static str, u8, &'static [u16], usize);

/// "ABACDDC in 2 has two turns; AAA in 2 has one." Sections of one pick, of two, of three
/// and more, at each place; none of them, one and all eight turn.
pub const TURN_COUNTS: [Counted; 24] = [
    ("ABACDDC", 2, &[3, 7], 2),
    ("AAA", 2, &[1, 3], 1),
    ("A", 1, &[1], 0),
    ("AA", 1, &[2], 1),
    ("AAA", 1, &[3], 1),
    ("AB", 2, &[1, 2], 0),
    ("AA", 2, &[1, 2], 0),
    ("AAA", 3, &[1, 2, 3], 0),
    ("AAB", 2, &[2, 3], 1),
    ("ABB", 2, &[1, 3], 1),
    ("ABBB", 2, &[1, 4], 1),
    ("AABB", 2, &[2, 4], 2),
    ("AAABB", 2, &[3, 5], 2),
    ("ABBC", 3, &[1, 3, 4], 1),
    ("AABCC", 3, &[2, 3, 5], 2),
    ("ABACDDC", 4, &[1, 2, 3, 7], 1),
    ("ABACDDC", 5, &[3, 4, 5, 6, 7], 1),
    ("ABACDDC", 6, &[1, 2, 3, 4, 6, 7], 1),
    ("ABACDDC", 7, &[1, 2, 3, 4, 5, 6, 7], 0),
    ("AAAAAAAA", 8, &[1, 2, 3, 4, 5, 6, 7, 8], 0),
    ("AAAAAAAAAA", 8, &[1, 2, 3, 4, 5, 6, 7, 10], 1),
    ("ABCDEFGH", 8, &[1, 2, 3, 4, 5, 6, 7, 8], 0),
    ("AABCDEFGH", 8, &[2, 3, 4, 5, 6, 7, 8, 9], 1),
    ("AABBCCDDEEFFGGHH", 8, &[2, 4, 6, 8, 10, 12, 14, 16], 8),
];
