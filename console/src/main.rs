//! The console: reads calls, one a line, from a terminal or a pipe, and answers each.

mod arrays;
mod editor;
mod lines;
mod printed;
mod session;
mod stateless;
mod words;

use lines::Lines;
use session::Session;
use std::env;
use std::io::{self, stdout, Write};
use std::process::ExitCode;

/// What `--help` prints.
const HELP: &str = include_str!("../help.txt");

/// Whether all that is lent is printed; none where the arguments are others than `--all`.
fn all_is_printed(arguments: &[String]) -> Option<bool> {
    match arguments {
        [] => Some(false),
        [all] if all == "--all" => Some(true),
        _ => None,
    }
}

/// Answers each line before it reads the next, until one says `quit` or the input ends.
fn run(all: bool) -> io::Result<()> {
    let mut lines = Lines::open()?;
    let mut session = Session::new(all);
    let mut answers = Vec::new();
    while let Some(line) = lines.next()? {
        answers.clear();
        let goes_on = session.answer(&line, &mut answers);
        stdout().write_all(&answers)?;
        stdout().flush()?;
        if !goes_on {
            break;
        }
    }
    Ok(())
}

fn main() -> ExitCode {
    let arguments: Vec<String> = env::args_os()
        .skip(1)
        .map(|argument| argument.to_string_lossy().into_owned())
        .collect();
    if arguments == ["--help"] {
        print!("{HELP}");
        return ExitCode::SUCCESS;
    }
    let Some(all) = all_is_printed(&arguments) else {
        eprint!("{HELP}");
        return ExitCode::from(2);
    };
    match run(all) {
        Ok(()) => ExitCode::SUCCESS,
        Err(error) => {
            eprintln!("board: {error}");
            ExitCode::FAILURE
        }
    }
}
