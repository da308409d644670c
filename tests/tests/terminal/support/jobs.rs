//! What holds of both scripts as jobs at a terminal, wherever they are in their run.

use crate::support::pseudo_terminal::{send, CONTINUE, HANG_UP, INTERRUPT, QUIT, TERMINATE};
use crate::support::script_folder::Folder;
use crate::support::terminal::Terminal;

/// Runs a folder's script at a terminal up to some place.
pub type Begin = for<'a> fn(&'a Folder) -> Terminal<'a>;

/// Asserts that each signal to this process, at each of the places, ends the script with a
/// shell's status of it, and that nothing more is shown.
pub fn assert_signals_end(folder: &Folder, begins: [Begin; 2], process: impl Fn(&Terminal) -> i32) {
    for signal in [HANG_UP, INTERRUPT, QUIT, TERMINATE] {
        for begin in begins {
            let case = format!("signal {signal}");
            let terminal = begin(folder);
            send(signal, process(&terminal));
            assert_eq!(terminal.end(128 + signal, &case), "", "{case}");
        }
    }
}

/// Asserts that the script ends where its terminal is closed, at each of the places.
pub fn assert_hang_up_ends(folder: &Folder, begins: [Begin; 2]) {
    for begin in begins {
        begin(folder).hang_up("hang up");
    }
}

/// Stops the script, and ends it as a shell ends a stopped job, which does not have the
/// terminal then.
pub fn assert_stopped_ends(mut terminal: Terminal) {
    terminal.stop();
    let group = -terminal.command();
    send(TERMINATE, group);
    send(CONTINUE, group);
    terminal.assert_nothing_left("ended");
}

/// Runs the script of a folder that is not built, with these keys keyed ahead of its program,
/// which is built once they are shown so.
pub fn typed_ahead<'a>(folder: &'a Folder, keys: &str, shown: &str) -> Terminal<'a> {
    let command = format!("./{}", folder.script());
    let mut terminal = Terminal::running(folder, &[&command]);
    terminal.shows_at_last("the first time\n");
    terminal.key(keys.as_bytes());
    terminal.shows(shown, keys);
    folder.build();
    terminal
}
