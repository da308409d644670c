//! Keys by their bytes; the terminal hands Enter on as byte 10.

pub const ENTER: &[u8] = b"\r";
pub const CTRL_C: &[u8] = b"\x03";
pub const CTRL_D: &[u8] = b"\x04";
pub const CTRL_Z: &[u8] = b"\x1a";
pub const ESCAPE: &[u8] = b"\x1b";
pub const CTRL_BACKSLASH: &[u8] = b"\x1c";
pub const BACKSPACE: &[u8] = b"\x7f";
