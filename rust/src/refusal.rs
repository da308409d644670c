//! Refusals, with what the README tells the fitter of each.

use core::error::Error;
use core::fmt::{self, Display, Formatter};

/// Why a call was refused: it has changed nothing.
///
/// ```
/// let mut board = board::Board::new();
/// board.start(8)?;
/// let refusal = board.lift(b'a').unwrap_err();
/// assert_eq!(refusal.number(), 2);
/// assert_eq!(refusal.place(), None);
/// assert_eq!(refusal.sentence().means, "the byte is not a letter A to Z");
/// assert_eq!(
///     refusal.to_string(),
///     "refused with 2: the byte is not a letter A to Z; \
///      key a capital letter; a small one, a digit or a blank is refused"
/// );
/// let refusal = board::unfold(b"7x", &mut []).unwrap_err();
/// assert_eq!(refusal.place(), Some(1));
/// assert!(refusal.to_string().starts_with("refused with 11 at place 1: "));
/// # Ok::<(), board::Refusal>(())
/// ```
#[derive(Clone, Copy, Debug, PartialEq, Eq)]
pub struct Refusal {
    number: u8,
    place: Option<usize>,
}

/// What the README's table says of a number.
#[derive(Clone, Copy, Debug, PartialEq, Eq)]
pub struct Sentence {
    /// What it means.
    pub means: &'static str,
    /// What to do about it.
    pub remedy: &'static str,
}

/// The sentences of the numbers, from 1 on.
pub const SENTENCES: [Sentence; 18] = [
    Sentence {
        means: "K is not 1 to 8, or k is not 1 to K",
        remedy: "start with a K of 1 to 8; ask for at most K sections",
    },
    Sentence {
        means: "the byte is not a letter A to Z",
        remedy: "key a capital letter; a small one, a digit or a blank is refused",
    },
    Sentence {
        means: "the visit list has under 19 entries",
        remedy: "lend feed a visit list of 19 entries or more",
    },
    Sentence {
        means: "the prefix is longer than the draft, the centre is not 1 to 2n+1, or there is no such section",
        remedy: "look at the count of picks first",
    },
    Sentence {
        means: "the record is longer than the output, or the list has fewer entries than the record has picks",
        remedy: "lend more bytes: for a record 7 for each section, half the picks and 8 more always do, for picks as many as the record says",
    },
    Sentence {
        means: "the ends do not rise from above 0 to the number of letters",
        remedy: "take the ends from a split of just these letters",
    },
    Sentence {
        means: "what is stored is no draft (n above 2,048 or K not 1 to 8)",
        remedy: "start anew",
    },
    Sentence {
        means: "the draft is full: 2,048 picks",
        remedy: "start a new draft",
    },
    Sentence {
        means: "the prefix is not k mirrored sections",
        remedy: "ask for a k whose bit the mask has",
    },
    Sentence {
        means: "no ending has this centre, or it is the empty one's",
        remedy: "begin with the longest ending's centre",
    },
    Sentence {
        means: "the bytes are not a folded record, from the place given on",
        remedy: "look at that byte of the record, counted from 0: a number may be out of its range, or the record ends too early",
    },
    Sentence {
        means: "the lengths of the record's sections do not add up to its picks",
        remedy: "compare the record with the one that it was copied from",
    },
    Sentence {
        means: "the ends list has under k entries",
        remedy: "lend split an ends list of k entries or more; 8 serve for every k",
    },
    Sentence {
        means: "the table is not 26 bytes",
        remedy: "load one byte for each letter, A to Z",
    },
    Sentence {
        means: "a lift of the table is 0, the first one at the place given",
        remedy: "look at that byte of the table, counted from 0, which is A's: each letter lifts one harness or more",
    },
    Sentence {
        means: "the draft is not empty",
        remedy: "start, load the table, then feed the picks",
    },
    Sentence {
        means: "no such mark",
        remedy: "set it first with mark, or use a name that is set",
    },
    Sentence {
        means: "a fifth name: up to four can be marks at a time",
        remedy: "set one of the four again, which moves it, or go back to a mark, which drops the longer ones",
    },
];

impl Refusal {
    /// The refusal under a number that the library gave without a place.
    pub(crate) fn under(number: usize) -> Refusal {
        assert!((1..=SENTENCES.len()).contains(&number), "number {number}");
        Refusal {
            number: number as u8,
            place: None,
        }
    }

    /// The refusal under a number that the library gave with a place.
    pub(crate) fn at(number: usize, place: usize) -> Refusal {
        Refusal {
            place: Some(place),
            ..Refusal::under(number)
        }
    }

    /// Its number.
    pub fn number(self) -> u8 {
        self.number
    }

    /// The place of the byte or entry that is refused, counted from 0, where the number names one.
    pub fn place(self) -> Option<usize> {
        self.place
    }

    /// What the README tells the fitter of it.
    pub fn sentence(self) -> Sentence {
        SENTENCES[usize::from(self.number) - 1]
    }
}

impl Display for Refusal {
    fn fmt(&self, to: &mut Formatter<'_>) -> fmt::Result {
        write!(to, "refused with {}", self.number)?;
        if let Some(place) = self.place {
            write!(to, " at place {place}")?;
        }
        let Sentence { means, remedy } = self.sentence();
        write!(to, ": {means}; {remedy}")
    }
}

impl Error for Refusal {}
