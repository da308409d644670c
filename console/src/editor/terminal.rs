//! The terminal that standard input and standard error are: its settings, its width, and whether a
//! key is there, by the C library that std links (Linux on x86-64).

use super::signals::Signals;
use std::ffi::{c_int, c_ulong, c_void};
use std::io::{stderr, stdin, IsTerminal};
use std::ptr::null;
use std::sync::OnceLock;

/// The numbers of standard input and standard error.
const INPUT: c_int = 0;
const ERROR: c_int = 2;

/// Keys that send signals, line mode and echo, in the local settings.
const SIGNAL_KEYS: u32 = 0o1;
const LINES: u32 = 0o2;
const ECHO: u32 = 0o10;

/// The places of how long, and for how many bytes, a read by keys waits.
const TIME: usize = 5;
const LEAST: usize = 6;

/// Settings change when all output is shown, and input is kept.
const SHOWN: c_int = 1;

const READABLE: i16 = 1;
const SIZE: c_ulong = 0x5413;
const USUAL_WIDTH: usize = 80;

/// A terminal's settings, as `struct termios` lays them out.
#[repr(C)]
#[derive(Clone, Copy, Default)]
struct Settings {
    input: u32,
    output: u32,
    control: u32,
    local: u32,
    discipline: u8,
    characters: [u8; 32],
    input_speed: u32,
    output_speed: u32,
}

/// A terminal's size, as `struct winsize` lays it out.
#[repr(C)]
#[derive(Default)]
struct Size {
    rows: u16,
    columns: u16,
    pixels: [u16; 2],
}

/// A file that is waited for, as `struct pollfd` lays it out.
#[repr(C)]
struct Waiting {
    file: c_int,
    wanted: i16,
    there: i16,
}

extern "C" {
    fn tcdrain(file: c_int) -> c_int;
    fn tcgetattr(file: c_int, settings: *mut Settings) -> c_int;
    fn tcsetattr(file: c_int, moment: c_int, settings: *const Settings) -> c_int;
    fn tcgetpgrp(file: c_int) -> c_int;
    fn getpgrp() -> c_int;
    fn ioctl(file: c_int, request: c_ulong, ...) -> c_int;
    fn poll(files: *mut Waiting, count: c_ulong, milliseconds: c_int) -> c_int;
    fn ppoll(
        files: *mut Waiting,
        count: c_ulong,
        time: *const c_void,
        held_back: *const Signals,
    ) -> c_int;
}

/// The settings before key-by-key mode.
static BEFORE: OnceLock<Settings> = OnceLock::new();

impl Settings {
    /// The terminal's settings now; none where they cannot be read.
    fn now() -> Option<Settings> {
        let mut settings = Settings::default();
        // SAFETY: the settings are laid out as the call writes them.
        let read = unsafe { tcgetattr(INPUT, &mut settings) };
        (read == 0).then_some(settings)
    }

    /// The same settings, but that each key is handed on at once, not shown, and sends no signal.
    fn by_keys(mut self) -> Settings {
        self.local &= !(SIGNAL_KEYS | LINES | ECHO);
        self.characters[TIME] = 0;
        self.characters[LEAST] = 1;
        self
    }
}

impl Waiting {
    /// A wait for a key.
    fn for_key() -> Waiting {
        Waiting {
            file: INPUT,
            wanted: READABLE,
            there: 0,
        }
    }
}

/// Keeps the settings as they are now, to be put back. False where standard input or standard error
/// is no terminal.
pub fn keep_settings() -> bool {
    if !stdin().is_terminal() || !stderr().is_terminal() {
        return false;
    }
    await_turn();
    let Some(before) = Settings::now() else {
        return false;
    };
    BEFORE.get_or_init(|| before);
    true
}

/// Waits, stopped, while another job has the terminal.
pub fn await_turn() {
    // SAFETY: no memory is lent.
    unsafe { tcdrain(INPUT) };
}

/// The group of processes that has the terminal; none where it is not the one of this session.
fn group_at_terminal() -> Option<c_int> {
    // SAFETY: no memory is lent.
    let group = unsafe { tcgetpgrp(INPUT) };
    (group > 0).then_some(group)
}

/// Whether this process is of the job that has the terminal.
pub fn is_of_job() -> bool {
    // SAFETY: no memory is lent.
    group_at_terminal() == Some(unsafe { getpgrp() })
}

/// Takes key-by-key mode.
pub fn take_keys() {
    set(Settings::by_keys);
}

/// Puts the settings back as they were before.
pub fn put_back() {
    set(|before| before);
}

/// Changes the settings to these of those before, unless another job has the terminal.
fn set(chosen: impl Fn(Settings) -> Settings) {
    let Some(&before) = BEFORE.get() else {
        return;
    };
    if is_of_job() || group_at_terminal().is_none() {
        // SAFETY: the settings are laid out as the call reads them.
        unsafe { tcsetattr(INPUT, SHOWN, &chosen(before)) };
    }
}

/// Whether a key is there, or comes within this time.
pub fn key_comes(milliseconds: c_int) -> bool {
    // SAFETY: one entry is lent.
    unsafe { poll(&mut Waiting::for_key(), 1, milliseconds) > 0 }
}

/// Waits for a key, with no signal held back. False where a signal ended the wait.
pub fn await_key() -> bool {
    let none = Signals::default();
    // SAFETY: one entry is lent, no time, and a set as it is laid out.
    unsafe { ppoll(&mut Waiting::for_key(), 1, null(), &none) > 0 }
}

/// The number of the terminal's columns.
pub fn width() -> usize {
    let mut size = Size::default();
    // SAFETY: the size is laid out as the call writes it.
    unsafe { ioctl(ERROR, SIZE, &mut size) };
    match size.columns {
        0 => USUAL_WIDTH,
        columns => usize::from(columns),
    }
}
