//! Lists of ends that number 6 refuses.

/// Ends of four letters that do not rise strictly from above 0 to the number of letters.
pub const BAD_ENDS: [&[u16]; 9] = [
    &[0, 4],
    &[0],
    &[3],
    &[5],
    &[1, 3],
    &[1, 5],
    &[2, 2, 4],
    &[3, 2, 4],
    &[1, 4, 4],
];
