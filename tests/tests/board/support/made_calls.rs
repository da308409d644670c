//! Calls that many tests make.

use comparison::scripted::Call;
use comparison::VISIT_ROOM;

/// A feed that no line refuses but 8.
pub fn feed(pick: u8) -> Call {
    let entries = VISIT_ROOM as u16;
    Call::Feed { pick, entries }
}

/// A mark of this name.
pub fn mark(name: u8) -> Call {
    Call::Mark { name }
}

/// A going back to this name.
pub fn back(name: u8) -> Call {
    Call::Back { name }
}
