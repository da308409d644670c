//! The folded record.

use super::show::section;
use crate::LINE_END;

/// "Fields in a fixed order parted by commas, no quoting, closed by byte 10.
/// Picks, sections, then for each section its length and its first half of
/// letters, the middle pick included." "Numbers are decimal without leading
/// zeros."
pub fn folded_record(letters: &[u8], ends: &[usize]) -> Vec<u8> {
    let mut fields = vec![decimal(letters.len()), decimal(ends.len())];
    for s in 1..=ends.len() {
        let stretch = section(letters, ends, s);
        fields.push(decimal(stretch.len()));
        fields.push(stretch[..stretch.len().div_ceil(2)].to_vec());
    }
    let mut record = fields.join(&b',');
    record.push(LINE_END);
    record
}

/// A number in decimal digits.
fn decimal(number: usize) -> Vec<u8> {
    number.to_string().into_bytes()
}
