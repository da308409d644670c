//! The calls of the lines, made on one board.

use crate::arrays::{lengths, peek, poke, store};
use crate::printed::{answer, ok, text, Lent};
use crate::stateless::{section_at, show_section};
use crate::words::{bytes_of, exact, number, pick, words, Wrong};
use board::{unfold, Board, Centre, Place, Refusal, VISITS};

/// How each call is written.
const CALLS: [&str; 21] = [
    "start K",
    "load BYTE..",
    "feed PICK [ENTRIES]",
    "picks LETTERS",
    "mark NAME",
    "back NAME",
    "mask I",
    "radius C",
    "longest",
    "next C",
    "split I K [ENTRIES]",
    "record I K [BYTES]",
    "lift LETTER",
    "show LETTERS S END..",
    "unfold TEXT [BYTES]",
    "section TEXT AT",
    "numbers [N K C]",
    "poke ARRAY INDEX VALUE",
    "peek [ARRAY INDEX]",
    "help",
    "quit",
];

/// The most entries of a list, or bytes of an output, that are lent.
const MOST_LENT: usize = 65_535;

/// The bytes of an output, or of a list of picks, where the line does not say how many.
const OUTPUT: usize = 2_048;

/// What each byte of an output holds before a call.
const BYTE: u8 = 42;

/// A list as it is before a call.
fn list(entries: usize) -> Vec<u16> {
    let entry = |index| 60_000 + (index % 5_000) as u16;
    (0..entries.min(MOST_LENT)).map(entry).collect()
}

/// An output as it is before a call.
fn output(bytes: usize) -> Vec<u8> {
    vec![BYTE; bytes.min(MOST_LENT)]
}

/// The entries of a split's list where the line does not say how many: the k of the call, which is
/// a byte.
fn entries_for(k: usize) -> usize {
    k.min(usize::from(u8::MAX))
}

/// The bytes of a table, each by its number.
fn table(words: &[&[u8]]) -> Result<Vec<u8>, Wrong> {
    let byte = |word: &&[u8]| exact(word, u8::MAX.into()).map(|byte| byte as u8);
    words.iter().map(byte).collect()
}

/// A board, zeros at first, and whether all that is lent is printed.
pub struct Session {
    board: Board,
    all: bool,
}

impl Session {
    pub fn new(all: bool) -> Session {
        let board = Board::new();
        Session { board, all }
    }

    /// Makes the call of a line, and appends what answers it. Gives whether the session goes on.
    pub fn answer(&mut self, line: &[u8], answers: &mut Vec<u8>) -> bool {
        let words = words(line);
        let lines = match words[..] {
            [b"picks", word] => self.picks(word),
            _ => self.call(&words).map(|answer| vec![answer]),
        };
        for line in lines.unwrap_or_else(|wrong| vec![format!("unknown {wrong}")]) {
            answers.extend(line.into_bytes());
            answers.push(b'\n');
        }
        words[..] != [b"quit"]
    }

    /// The answer to a call that has one.
    fn call(&mut self, words: &[&[u8]]) -> Result<String, Wrong> {
        Ok(match *words {
            [b"start", k] => self.start(number(k)?),
            [b"load", ref bytes @ ..] => self.load(&table(bytes)?),
            [b"feed", word] => self.feed(pick(word)?, VISITS),
            [b"feed", word, entries] => self.feed(pick(word)?, number(entries)?),
            [b"mark", name] => self.mark(pick(name)?),
            [b"back", name] => self.back(pick(name)?),
            [b"mask", i] => self.mask(number(i)?),
            [b"radius", centre] => self.radius(number(centre)?),
            [b"longest"] => self.longest(),
            [b"next", centre] => self.next(number(centre)?),
            [b"split", i, k] => self.split(number(i)?, number(k)?, entries_for(number(k)?)),
            [b"split", i, k, entries] => self.split(number(i)?, number(k)?, number(entries)?),
            [b"record", i, k] => self.record(number(i)?, number(k)?, OUTPUT),
            [b"record", i, k, bytes] => self.record(number(i)?, number(k)?, number(bytes)?),
            [b"lift", letter] => self.lift(pick(letter)?),
            [b"show", word, s, ref ends @ ..] => show_section(&bytes_of(word)?, number(s)?, ends)?,
            [b"unfold", word] => self.unfold(&bytes_of(word)?, OUTPUT),
            [b"unfold", word, bytes] => self.unfold(&bytes_of(word)?, number(bytes)?),
            [b"section", word, at] => section_at(&bytes_of(word)?, number(at)?),
            [b"numbers"] => ok(&self.board.state.numbers),
            [b"numbers", n, k, centre] => store(&mut self.board.state, [n, k, centre])?,
            [b"poke", name, at, value] => poke(&mut self.board.state, name, at, value)?,
            [b"peek"] => lengths(&mut self.board.state)?,
            [b"peek", name, at] => peek(&mut self.board.state, name, at)?,
            [b"help"] => format!("ok {}", CALLS.join("; ")),
            [b"quit"] => ok(&[]),
            _ => return Err(no_call(words)),
        })
    }

    fn start(&mut self, k: usize) -> String {
        let reply = self.board.start(k).map(|()| vec![]);
        answer(reply, &Lent::Nothing, self.all)
    }

    fn load(&mut self, table: &[u8]) -> String {
        let reply = self.board.load(table).map(|()| vec![]);
        answer(reply, &Lent::Nothing, self.all)
    }

    fn feed(&mut self, pick: u8, entries: usize) -> String {
        let mut list = list(entries);
        let taken = self.board.feed(pick, &mut list);
        let given = taken.map_or(0, |taken| taken.visits);
        let reply = taken.map(|taken| vec![taken.mask.into(), taken.visits]);
        answer(reply, &Lent::List(&list, given), self.all)
    }

    /// A feed for each letter.
    fn picks(&mut self, word: &[u8]) -> Result<Vec<String>, Wrong> {
        let letters = bytes_of(word)?;
        let feeds = letters.into_iter().map(|pick| self.feed(pick, VISITS));
        Ok(feeds.collect())
    }

    fn mark(&mut self, name: u8) -> String {
        let reply = self.board.mark(name).map(|()| vec![]);
        answer(reply, &Lent::Nothing, self.all)
    }

    fn back(&mut self, name: u8) -> String {
        let reply = self.board.back(name).map(|()| vec![]);
        answer(reply, &Lent::Nothing, self.all)
    }

    fn mask(&mut self, i: usize) -> String {
        let reply = self.board.mask(Place(i)).map(|mask| vec![mask.into()]);
        answer(reply, &Lent::Nothing, self.all)
    }

    fn radius(&mut self, centre: usize) -> String {
        let radius = self.board.radius(Centre(centre));
        answer(radius.map(|radius| vec![radius]), &Lent::Nothing, self.all)
    }

    fn longest(&mut self) -> String {
        let reply = self.board.longest().map(|centre| vec![centre.0]);
        answer(reply, &Lent::Nothing, self.all)
    }

    fn next(&mut self, centre: usize) -> String {
        let next = self.board.next(Centre(centre));
        let reply = next.map(|next| vec![next.centre.0, next.length, next.period]);
        answer(reply, &Lent::Nothing, self.all)
    }

    fn split(&mut self, i: usize, k: usize, entries: usize) -> String {
        let mut list = list(entries);
        let turns = self.board.split(Place(i), k, &mut list);
        let given = turns.map_or(0, |_| k);
        answer(
            turns.map(|turns| vec![turns]),
            &Lent::List(&list, given),
            self.all,
        )
    }

    fn record(&mut self, i: usize, k: usize, bytes: usize) -> String {
        let mut output = output(bytes);
        let written = self.board.record(Place(i), k, &mut output);
        self.filled(written, &output)
    }

    fn lift(&mut self, letter: u8) -> String {
        let reply = self.board.lift(letter).map(|lift| vec![lift.into()]);
        answer(reply, &Lent::Nothing, self.all)
    }

    fn unfold(&self, record: &[u8], bytes: usize) -> String {
        let mut picks = output(bytes);
        let unfolded = unfold(record, &mut picks);
        self.filled(unfolded, &picks)
    }

    /// The answer of a call that fills as many bytes of what it is lent as it says.
    fn filled(&self, count: Result<usize, Refusal>, lent: &[u8]) -> String {
        let given = count.unwrap_or(0);
        let reply = count.map(|count| vec![count]);
        answer(reply, &Lent::Output(lent, given), self.all)
    }
}

/// Says what is wrong with words that are no call.
fn no_call(words: &[&[u8]]) -> Wrong {
    let Some(&word) = words.first() else {
        return String::from("the line has no word");
    };
    let named = |call: &&&str| call.split(' ').next().map(str::as_bytes) == Some(word);
    match CALLS.iter().find(named) {
        Some(call) => format!("another count of words is due: {call}"),
        None => format!("no call is named {}; help lists them", text(word)),
    }
}
