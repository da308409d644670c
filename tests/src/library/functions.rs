//! The board's C functions: those of the proved library, and those that rustc makes of the same
//! text, with every overflow and every index checked.

use ::board::functions as proved;
use std::env;
use std::sync::OnceLock;

type Drive = unsafe extern "C" fn(
    *mut u8,
    *mut u8,
    *mut u8,
    *mut u16,
    *mut u16,
    *mut u16,
    *mut usize,
    *const u8,
    usize,
    *const u8,
    usize,
    *mut u16,
    usize,
    *mut u8,
    usize,
    *mut usize,
    usize,
) -> usize;

type Show = unsafe extern "C" fn(
    *const u8,
    usize,
    *const u16,
    usize,
    usize,
    *mut u8,
    usize,
    *mut usize,
) -> usize;

type Unfold = unsafe extern "C" fn(*const u8, usize, *mut u8, usize, *mut usize) -> usize;

type Section = unsafe extern "C" fn(*const u8, usize, usize, *mut usize) -> usize;

/// The functions of one of the two libraries, as the package `board` declares them.
#[repr(C)]
pub struct Library {
    pub(super) drive: Drive,
    pub(super) show: Show,
    pub(super) unfold: Unfold,
    pub(super) section: Section,
}

/// The proved library.
pub static PROVED: Library = Library {
    drive: proved::drive,
    show: proved::drive_show,
    unfold: proved::drive_unfold,
    section: proved::drive_section,
};

extern "C" {
    /// The table at the end of `as_rust/rust/exports.rs`.
    static BOARD_TEXT: Library;
}

/// What rustc makes of the text. A panic in it ends the program.
pub fn text() -> &'static Library {
    // Safe: the table is of this type and is never written.
    unsafe { &BOARD_TEXT }
}

/// Whether the tests run on the text, which `BOARD_TEXT` says where it is set.
pub fn on_text() -> bool {
    static ON_TEXT: OnceLock<bool> = OnceLock::new();
    *ON_TEXT.get_or_init(|| env::var_os("BOARD_TEXT").is_some())
}

/// The library that the tests run on.
pub fn library() -> &'static Library {
    if on_text() {
        text()
    } else {
        &PROVED
    }
}
