//! The signals that end or stop what is run at a terminal, whose settings are then put back, by the
//! C library that std links (Linux on x86-64).

use super::terminal::{is_of_job, put_back, take_keys};
use std::ffi::{c_int, c_ulong};
use std::ptr::null_mut;

/// Signals by their numbers.
const HANG_UP: c_int = 1;
pub const INTERRUPT: c_int = 2;
pub const QUIT: c_int = 3;
const TERMINATE: c_int = 15;
const CONTINUE: c_int = 18;
pub const STOP_KEY: c_int = 20;

/// How a signal is caught: as usual, or just once and not held back meanwhile.
const AS_USUAL: c_int = 0;
const ONCE: c_int = 0xc000_0000_u32 as c_int;

/// What stands for a handler where the signal is ignored.
const IGNORED: usize = 1;

/// Holds signals back, besides those held back before.
const HOLD_BACK: c_int = 0;

/// A set of signals, as `sigset_t` lays it out: a bit for each.
pub type Signals = [c_ulong; 16];

/// What is done on a signal, as `struct sigaction` lays it out.
#[repr(C)]
#[derive(Default)]
struct Action {
    handler: usize,
    held_back: Signals,
    flags: c_int,
    restorer: usize,
}

extern "C" {
    fn sigprocmask(how: c_int, signals: *const Signals, old: *mut Signals) -> c_int;
    fn sigaction(number: c_int, new: *const Action, old: *mut Action) -> c_int;
    fn raise(number: c_int) -> c_int;
    fn kill(process: c_int, number: c_int) -> c_int;
}

/// Lets every signal that ends or stops the process put the settings back first, and the one by
/// which it goes on end a wait for a key. That one is held back but then, so that none is missed.
pub fn catch_all() {
    for number in [HANG_UP, INTERRUPT, QUIT, TERMINATE, STOP_KEY] {
        catch(number, leave, ONCE);
    }
    catch(CONTINUE, wake, AS_USUAL);
    let mut held_back = Signals::default();
    held_back[0] = 1 << (CONTINUE - 1);
    // SAFETY: the set is laid out as the call reads it.
    unsafe { sigprocmask(HOLD_BACK, &held_back, null_mut()) };
}

/// Gives the signal this handler, unless it was ignored before.
fn catch(number: c_int, handler: extern "C" fn(c_int), flags: c_int) {
    let new = Action {
        handler: handler as usize,
        flags,
        ..Action::default()
    };
    let mut old = Action::default();
    // SAFETY: the actions are laid out as the calls read and write them.
    unsafe {
        sigaction(number, &new, &mut old);
        if old.handler == IGNORED {
            sigaction(number, &old, null_mut());
        }
    }
}

/// Lets the signal end or stop the process, with the settings put back. Where it goes on, it takes
/// key-by-key mode again. All calls here are such that a handler may make.
extern "C" fn leave(number: c_int) {
    put_back();
    // SAFETY: no memory is lent; the signal has its own action here.
    unsafe { raise(number) };
    catch(number, leave, ONCE);
    take_keys();
}

/// Ends the wait for a key.
extern "C" fn wake(_: c_int) {}

/// Does what the signal's key does in line mode: sends it to all of the job that has the terminal,
/// or to this process where that is of no job. The settings are put back before another process
/// of the job can end or stop, and the shell take the terminal.
pub fn send(number: c_int) {
    put_back();
    // SAFETY: no memory is lent.
    unsafe {
        if is_of_job() {
            kill(0, number);
        } else {
            raise(number);
        }
    }
    take_keys();
}
