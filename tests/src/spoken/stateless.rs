//! What answers the calls that are given no state.

use super::expected::{ok, refused};
use super::lent::Lent;
use super::text::text_of;
use crate::calls::{self, Section};
use crate::plain::Turn;

/// "Show answers `ok | PART`"; refused, it is lent no list and no output.
pub fn shown(letters: &[u8], ends: &[u16], s: usize) -> String {
    match calls::show_number(letters, ends, s) {
        0 => format!("ok | {}", text_of(calls::show(letters, ends, s))),
        number => refused(number),
    }
}

/// "`ok COUNT` and behind the bar the picks"; "behind 11 stands the place". With `--all`
/// the whole of what was lent.
pub fn unfolded(record: &[u8], bytes: usize, all: bool) -> String {
    let mut lent = Lent::output(bytes);
    let (said, given) = match calls::unfold(record, lent.bytes_mut()) {
        Ok(count) => (ok(&[count]), Some(count)),
        Err((number, Some(place))) => (format!("{} {place}", refused(number)), None),
        Err((number, None)) => (refused(number), None),
    };
    let shown = if all { Some(lent.size()) } else { given };
    said + &shown.map_or(String::new(), |count| lent.printed(count))
}

/// "`ok LENGTH on PLACE NEXT` or `ok LENGTH between PLACE NEXT`; `ok none` where there is
/// no section."
pub fn yielded(record: &[u8], at: usize) -> String {
    let Some((Section { length, turn }, next)) = calls::section_at(record, at) else {
        return "ok none".to_string();
    };
    match turn {
        Turn::OnPick(place) => format!("ok {length} on {place} {next}"),
        Turn::Between(place) => format!("ok {length} between {place} {next}"),
    }
}
