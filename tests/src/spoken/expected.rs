//! What a line must be answered with.

use super::asked::Asked;
use super::lent::Lent;
use super::lines::WORDS;
use super::text::bytes_of;
use super::words::fitting;
use crate::calls::{Answer, Refusal};
use crate::listed::found;

/// The answers that a line may have.
#[derive(Clone, Debug, PartialEq, Eq)]
pub enum Expected {
    /// This one alone.
    Line(String),
    /// "`unknown`, a blank and a text."
    Unknown,
    /// "`ok` and the words of all calls."
    Help,
    /// `ok` and so many numbers, which are not known.
    Values(usize),
    /// That of a call which meets no listed refusal, on a state with this n that no run
    /// made; with `--all` or not.
    Possible { asked: Asked, n: usize, all: bool },
}

impl Expected {
    /// Whether this is the answer.
    pub fn is(&self, answer: &str) -> bool {
        match self {
            Expected::Line(line) => answer == line,
            Expected::Unknown => answer.len() > 8 && answer.starts_with("unknown "),
            Expected::Help => answer.starts_with("ok ") && has_all_words(answer),
            Expected::Values(count) => values(answer).is_some_and(|values| values.len() == *count),
            Expected::Possible { asked, n, all } => is_possible(answer, *asked, *n, *all),
        }
    }
}

/// Whether each call's word is in the line.
fn has_all_words(line: &str) -> bool {
    let words: Vec<&str> = line
        .split(|letter: char| !letter.is_ascii_lowercase())
        .collect();
    WORDS.iter().all(|word| words.contains(word))
}

/// `ok` and the values, or `refused` and the number; then what was given into what was
/// lent, or with `--all` the whole of it.
pub fn line(answer: &Answer<Vec<usize>>, asked: Asked, lent: &Lent, all: bool) -> String {
    match answer {
        Ok(values) if all => ok(values) + &lent.printed(lent.size()),
        Ok(values) => ok(values) + &lent.printed(asked.given(values)),
        Err(number) if all => refused(*number) + &lent.printed(lent.size()),
        Err(number) => refused(*number),
    }
}

/// `ok` and the values.
pub fn ok(values: &[usize]) -> String {
    let values: String = values.iter().map(|value| format!(" {value}")).collect();
    format!("ok{values}")
}

/// `refused` and the number.
pub fn refused(number: Refusal) -> String {
    format!("refused {number}")
}

/// The values of an accepted answer; none where it is another.
fn values(answer: &str) -> Option<Vec<usize>> {
    let words = answer.strip_prefix("ok")?.split_whitespace();
    let values: Option<Vec<usize>> = words.map(|word| fitting(word.as_bytes())).collect();
    values.filter(|values| ok(values) == answer)
}

/// Whether the call can answer so on a state that no run made: refused "by what it
/// finds", with all as it was lent; or accepted, with values that it can give, and with
/// entries and bytes past those given as they were lent.
fn is_possible(answer: &str, asked: Asked, n: usize, all: bool) -> bool {
    let (head, tail) = match answer.split_once(" |") {
        Some((head, tail)) => (head, tail),
        None => (answer, ""),
    };
    let untouched = asked.lent();
    let Some(values) = values(head) else {
        let mut numbers = found(asked.scripted()).iter();
        return numbers.any(|&number| answer == line(&Err(number), asked, &untouched, all));
    };
    let fits = asked.can_give(&values, n) && asked.given(&values) <= untouched.size();
    let after = fits.then(|| after(tail, asked.given(&values), untouched));
    after.flatten().is_some_and(|after| {
        asked.can_leave(&values, &after) && answer == line(&Ok(values), asked, &after, all)
    })
}

/// What was lent with its first entries or bytes as the text gives them; none where it
/// gives too few.
fn after(text: &str, given: usize, mut lent: Lent) -> Option<Lent> {
    match &mut lent {
        Lent::Nothing => {}
        Lent::List(entries) => {
            let mut words = text.split_whitespace().map(|word| fitting(word.as_bytes()));
            for entry in &mut entries[..given] {
                *entry = words.next()??;
            }
        }
        Lent::Output(bytes) => {
            let text = bytes_of(text.trim_start().as_bytes())?;
            bytes[..given].copy_from_slice(text.get(..given)?);
        }
    }
    Some(lent)
}
