//! Pseudo-terminals, by the C library that std links (Linux on x86-64).

use std::ffi::{c_char, c_int, c_ulong, CStr, OsStr};
use std::fs::{File, OpenOptions};
use std::io::{Error, Result};
use std::os::fd::{AsRawFd, FromRawFd};
use std::os::unix::ffi::OsStrExt;
use std::os::unix::fs::OpenOptionsExt;
use std::os::unix::process::CommandExt;
use std::process::Command;
use std::time::Duration;

const READ_WRITE: c_int = 0o2;
const NOT_CONTROLLING: c_int = 0o400;
const CLOSED_BY_EXEC: c_int = 0o2_000_000;
const MAKE_CONTROLLING: c_ulong = 0x540e;
const READABLE: i16 = 1;
const DEFAULT: usize = 0;

/// Signals by their numbers.
pub const HANG_UP: c_int = 1;
pub const INTERRUPT: c_int = 2;
pub const QUIT: c_int = 3;
pub const KILL: c_int = 9;
pub const TERMINATE: c_int = 15;
pub const CONTINUE: c_int = 18;
pub const STOP_KEY: c_int = 20;

/// Keys that send signals, line mode and echo, in the local settings.
const SIGNAL_KEYS: u32 = 0o1;
const LINES: u32 = 0o2;
const ECHO: u32 = 0o10;

/// A terminal's settings, as `struct termios` lays them out.
#[repr(C)]
#[derive(Clone, Copy, Debug, Default, PartialEq, Eq)]
pub struct Settings {
    input: u32,
    output: u32,
    control: u32,
    local: u32,
    discipline: u8,
    characters: [u8; 32],
    input_speed: u32,
    output_speed: u32,
}

#[repr(C)]
struct Waiting {
    file: c_int,
    wanted: i16,
    there: i16,
}

extern "C" {
    fn posix_openpt(flags: c_int) -> c_int;
    fn grantpt(file: c_int) -> c_int;
    fn unlockpt(file: c_int) -> c_int;
    fn ptsname_r(file: c_int, name: *mut c_char, room: usize) -> c_int;
    fn tcgetattr(file: c_int, settings: *mut Settings) -> c_int;
    fn poll(files: *mut Waiting, count: c_ulong, milliseconds: c_int) -> c_int;
    fn setsid() -> c_int;
    fn ioctl(file: c_int, request: c_ulong, ...) -> c_int;
    fn signal(number: c_int, handler: usize) -> usize;
    fn kill(process: c_int, number: c_int) -> c_int;
}

/// A call's result; the C library's error where it is negative.
fn checked(result: c_int) -> Result<c_int> {
    if result < 0 {
        return Err(Error::last_os_error());
    }
    Ok(result)
}

/// A new terminal: the side of who keys and looks, and the side of who is run there.
pub fn open() -> Result<(File, File)> {
    let flags = READ_WRITE | NOT_CONTROLLING | CLOSED_BY_EXEC;
    let mut name = [0; 64];
    // SAFETY: the number is that of a file opened here; the name has its room.
    let near = unsafe {
        let near = File::from_raw_fd(checked(posix_openpt(flags))?);
        checked(grantpt(near.as_raw_fd()))?;
        checked(unlockpt(near.as_raw_fd()))?;
        checked(-ptsname_r(near.as_raw_fd(), name.as_mut_ptr(), name.len()))?;
        near
    };
    // SAFETY: the call above has closed the name by a 0.
    let name = OsStr::from_bytes(unsafe { CStr::from_ptr(name.as_ptr()) }.to_bytes());
    let mut options = OpenOptions::new();
    options.read(true).write(true).custom_flags(NOT_CONTROLLING);
    Ok((near, options.open(name)?))
}

impl Settings {
    /// The settings of this terminal.
    pub fn of(terminal: &File) -> Settings {
        let mut settings = Settings::default();
        // SAFETY: the settings are laid out as the call writes them.
        let read = unsafe { tcgetattr(terminal.as_raw_fd(), &mut settings) };
        checked(read).expect("a terminal's settings");
        settings
    }

    /// The same settings, but that each key is handed on at once and not shown, and that
    /// keys still send signals, or do not.
    pub fn by_keys(mut self, signals: bool) -> Settings {
        self.local &= !(LINES | ECHO);
        if !signals {
            self.local &= !SIGNAL_KEYS;
        }
        self
    }
}

/// Whether there is something to read, or the end, before the time is over.
pub fn readable(file: &File, time: Duration) -> bool {
    let mut waiting = Waiting {
        file: file.as_raw_fd(),
        wanted: READABLE,
        there: 0,
    };
    // SAFETY: one entry is lent.
    let count = unsafe { poll(&mut waiting, 1, time.as_millis() as c_int) };
    count > 0
}

/// Lets the command begin a session, with its standard input as the controlling
/// terminal, and with no signal ignored that the test's own caller ignores.
pub fn begin_session(command: &mut Command) {
    let begin = || {
        // SAFETY: these calls may be made between fork and exec.
        unsafe {
            for number in [HANG_UP, INTERRUPT, QUIT, TERMINATE, STOP_KEY] {
                signal(number, DEFAULT);
            }
            checked(setsid())?;
            checked(ioctl(0, MAKE_CONTROLLING, 0))?;
        }
        Ok(())
    };
    // SAFETY: it takes no lock and no memory.
    unsafe { command.pre_exec(begin) };
}

/// Sends the signal to a process, or to the group whose number is given as negative.
pub fn send(number: c_int, process: i32) {
    // SAFETY: no memory is lent.
    unsafe { kill(process, number) };
}
