//! The console as a function from a line to the lines that answer it.
//!
//! Every call is made by the comparison program, with the numbers that the line has. On
//! a stored state that no run made only the refusals that hang on no letters are known,
//! and lifts, loads, marks and backs; behind an accepted back all is known again.

mod arrays;
mod asked;
mod expected;
mod lent;
mod lines;
mod stateless;
mod text;
mod words;

use crate::calls::{self, Answer, Placed, State};
use crate::listed::listed;
use crate::plain;
use crate::LINE_END;
use arrays::Known;
use asked::Asked;
use expected::{ok, refused};
use lines::Line;
use stateless::{shown, unfolded, yielded};

pub use arrays::{Array, ARRAYS};
pub use expected::Expected;
pub use lines::WORDS;
pub use text::text_of;

/// The console: the stored state; the stored centre, where it is known; whether a run or
/// a back made them; what is known of the arrays; whether `--all` is set; whether it has
/// ended.
pub struct Console {
    state: State,
    longest: Option<usize>,
    by_run: bool,
    known: Known,
    all: bool,
    ended: bool,
}

impl Console {
    /// "At first every stored number is 0."
    pub fn new(all: bool) -> Console {
        Console {
            state: State::zeros(),
            longest: Some(0),
            by_run: false,
            known: Known::at_first(),
            all,
            ended: false,
        }
    }

    /// The stored n.
    pub fn n(&self) -> usize {
        self.state.n
    }

    /// The lines that answer this one; none once the console has ended.
    pub fn answers(&mut self, line: &[u8]) -> Vec<Expected> {
        match lines::read(line) {
            _ if self.ended => Vec::new(),
            Some(lines) => lines.into_iter().map(|line| self.answer(line)).collect(),
            None => vec![Expected::Unknown],
        }
    }

    /// The line that answers what is asked for.
    fn answer(&mut self, line: Line) -> Expected {
        Expected::Line(match line {
            Line::Call(asked) => return self.call(asked),
            Line::Numbers => return self.numbers(),
            Line::Peek(entry) => return peeked(self.known.entry(entry, &mut self.state)),
            Line::Help => return Expected::Help,
            Line::Show { letters, s, ends } => shown(&letters, &ends, s),
            Line::Lift(letter) => told(calls::lift(&self.state, letter).map(usize::from)),
            Line::Load(table) => loaded(calls::load(&mut self.state, &table)),
            Line::Mark(name) => done(calls::mark(&mut self.state, name)),
            Line::Back(name) => done(self.back(name)),
            Line::Unfold { record, bytes } => unfolded(&record, bytes, self.all),
            Line::Section { record, at } => yielded(&record, at),
            Line::Lengths => lengths(),
            Line::Store([n, most_sections, longest]) => {
                (self.state.n, self.state.most_sections) = (n, most_sections);
                (self.longest, self.by_run) = (Some(longest), false);
                ok(&[])
            }
            Line::Poke { entry, value } => {
                self.known.poke(entry, value, &mut self.state);
                self.by_run &= entry.is_mark();
                ok(&[])
            }
            Line::Quit => {
                self.ended = true;
                ok(&[])
            }
        })
    }

    /// A call on the stored state.
    fn call(&mut self, asked: Asked) -> Expected {
        let is_start = matches!(asked, Asked::Start { .. });
        if self.by_run || is_start {
            return self.call_of_run(asked);
        }
        let State {
            n, most_sections, ..
        } = self.state;
        let all = self.all;
        match listed(asked.scripted(), n, most_sections) {
            Some((number, _)) => {
                let answer = Err(number);
                Expected::Line(expected::line(&answer, asked, &asked.lent(), all))
            }
            None => {
                if let Asked::Feed { pick, .. } = asked {
                    self.take(pick);
                }
                Expected::Possible { asked, n, all }
            }
        }
    }

    /// A feed is accepted on a state that no run made: the pick and its lift are stored.
    fn take(&mut self, pick: u8) {
        let State { n, lifts, .. } = self.state;
        self.state.letters[n] = pick;
        self.state.codes[n] = plain::lift(&lifts, pick).expect("a pick is A to Z");
        self.state.n += 1;
        self.longest = None;
        self.known.feed();
    }

    /// A call of a run: a start, or one on the state that a run made.
    fn call_of_run(&mut self, asked: Asked) -> Expected {
        let mut lent = asked.lent();
        let answer = asked.make(&mut self.state, &mut lent);
        if answer.is_ok() {
            match asked {
                Asked::Start { .. } => {
                    self.by_run = true;
                    self.known.start();
                }
                Asked::Feed { .. } => self.known.feed(),
                _ => {}
            }
            self.longest = calls::longest_centre(&self.state).ok();
        }
        Expected::Line(expected::line(&answer, asked, &lent, self.all))
    }

    /// A back. All but marks and lifts is then "exactly what feeding only those picks would
    /// have left", whatever was stored, so that every call is known as in a run.
    fn back(&mut self, name: u8) -> Answer<()> {
        calls::back(&mut self.state, name)?;
        self.by_run = true;
        self.known.back(self.state.n);
        self.longest = calls::longest_centre(&self.state).ok();
        Ok(())
    }

    /// "`numbers` alone `ok N K C`."
    fn numbers(&self) -> Expected {
        let State {
            n, most_sections, ..
        } = self.state;
        match self.longest {
            Some(longest) => Expected::Line(ok(&[n, most_sections, longest])),
            None => Expected::Values(3),
        }
    }
}

/// `ok` and the value, or `refused` and the number.
fn told(answer: Answer<usize>) -> String {
    answer.map_or_else(refused, |value| ok(&[value]))
}

/// "`mark NAME` and `back NAME`" answer `ok`, or `refused` and the number.
fn done(answer: Answer<()>) -> String {
    answer.map_or_else(refused, |()| ok(&[]))
}

/// "`load BYTE..`" answers `ok`, or `refused NUMBER [PLACE]`.
fn loaded(answer: Result<(), Placed>) -> String {
    match answer {
        Ok(()) => ok(&[]),
        Err((number, Some(place))) => format!("{} {place}", refused(number)),
        Err((number, None)) => refused(number),
    }
}

/// "`peek ARRAY INDEX` `ok VALUE`."
fn peeked(value: Option<u16>) -> Expected {
    match value {
        Some(value) => Expected::Line(ok(&[value.into()])),
        None => Expected::Values(1),
    }
}

/// "`peek` alone `ok` and each array's name and length."
fn lengths() -> String {
    let lengths = ARRAYS
        .iter()
        .map(|array| format!(" {} {}", array.name, array.length));
    format!("ok{}", lengths.collect::<String>())
}

/// The lines of an input: each ends with byte 10, and "a last line without byte 10 is a
/// line".
pub fn lines_of(input: &[u8]) -> impl Iterator<Item = &[u8]> {
    let lines = input.split_inclusive(|&byte| byte == LINE_END);
    lines.map(|line| line.strip_suffix(&[LINE_END]).unwrap_or(line))
}
