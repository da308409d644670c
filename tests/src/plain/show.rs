//! The part of the letters that a section takes up.

/// Section s, counted from 1, of letters whose sections end at the given pick
/// numbers: "that part of the lent letters itself".
pub fn section<'a>(letters: &'a [u8], ends: &[usize], s: usize) -> &'a [u8] {
    let before = if s == 1 { 0 } else { ends[s - 2] };
    &letters[before..ends[s - 1]]
}
