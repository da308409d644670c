//! The turn count of a split, by the parts of the draft that its sections are.

use crate::plain::section;

/// "One pick makes no turn": how many sections of the draft with these ends are longer.
pub fn turns_by_parts(draft: &[u8], ends: &[usize]) -> usize {
    let parts = (1..=ends.len()).map(|s| section(draft, ends, s));
    parts.filter(|part| part.len() > 1).count()
}
