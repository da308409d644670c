//! The endings of small drafts, worked out by hand.

/// A draft, and every ending of it but the empty one, from the longest on: its centre, and
/// what is told of it: the next shorter ending's centre, the length, the least period.
pub type Endings = (&'static str, &'static [(usize, [usize; 3])]);

/// A run of one letter, two letters in turn, drafts that are their own longest ending and
/// such as are not.
pub const ENDINGS: [Endings; 11] = [
    ("", &[]),
    ("A", &[(2, [3, 1, 1])]),
    ("AB", &[(4, [5, 1, 1])]),
    ("AA", &[(3, [4, 2, 1]), (4, [5, 1, 1])]),
    ("AAA", &[(4, [5, 3, 1]), (5, [6, 2, 1]), (6, [7, 1, 1])]),
    ("ABA", &[(4, [6, 3, 2]), (6, [7, 1, 1])]),
    ("ABBA", &[(5, [8, 4, 3]), (8, [9, 1, 1])]),
    ("ABACDDC", &[(11, [14, 4, 3]), (14, [15, 1, 1])]),
    (
        "ABABAB",
        &[(8, [10, 5, 2]), (10, [12, 3, 2]), (12, [13, 1, 1])],
    ),
    (
        "ABABABA",
        &[
            (8, [10, 7, 2]),
            (10, [12, 5, 2]),
            (12, [14, 3, 2]),
            (14, [15, 1, 1]),
        ],
    ),
    (
        "AABACABAA",
        &[(10, [17, 9, 7]), (17, [18, 2, 1]), (18, [19, 1, 1])],
    ),
];
