//! The library's refusal numbers on both sides of each bound, with the number that the
//! documents name; each call is compared with the book too, and keeps its bytes.

use comparison::beside::Beside;
use comparison::calls::NextEnding;
use comparison::library::Board;
use comparison::samples::Generator;
use comparison::scripted::{given, number_of, refused, Call};
use comparison::{MOST_PICKS, MOST_SECTIONS};

fn feed(pick: u8, entries: u16) -> Call {
    Call::Feed { pick, entries }
}

fn split(prefix: u16, k: u8, entries: u16) -> Call {
    Call::Split { prefix, k, entries }
}

fn record(prefix: u16, k: u8, bytes: u16) -> Call {
    Call::Record { prefix, k, bytes }
}

/// 1: K of 0 and 1, 8 and 9, and every other byte.
#[test]
fn number_1_in_start() {
    for most_sections in 0..=255 {
        let mut run = Beside::fed(b"ABA", 5);
        let reply = run.make(Call::Start { most_sections });
        let is_good = (1..=8).contains(&most_sections);
        assert_eq!(reply, if is_good { given([]) } else { refused(1) });
        let kept = if is_good { 0 } else { 3 };
        assert_eq!(run.board.n(), kept, "K {most_sections}");
    }
}

/// 1: k of 0 and 1, K and K+1, and every other byte, for every K.
#[test]
fn number_1_in_split_and_record() {
    for most_sections in 1..=MOST_SECTIONS {
        let mut run = Beside::fed(b"AAAAAAAAAA", most_sections);
        for k in 0..=255 {
            let is_good = (1..=most_sections).contains(&usize::from(k));
            let number = (!is_good).then_some(1);
            let case = format!("k {k}, K {most_sections}");
            assert_eq!(number_of(run.make(split(10, k, 300))), number, "{case}");
            assert_eq!(number_of(run.make(record(10, k, 99))), number, "{case}");
        }
    }
}

/// 2: every byte; 64 and 65, 90 and 91 among them.
#[test]
fn number_2() {
    for byte in 0..=255 {
        let mut run = Beside::fed(b"AB", MOST_SECTIONS);
        let number = (!(65..=90).contains(&byte)).then_some(2);
        assert_eq!(number_of(run.make(feed(byte, 19))), number, "byte {byte}");
    }
}

/// 3: lists of 0 to 40 entries in a feed; 18 and 19 among them.
#[test]
fn number_3() {
    for entries in 0..=40 {
        let mut run = Beside::fed(b"AB", MOST_SECTIONS);
        let number = (entries < 19).then_some(3);
        let given = number_of(run.make(feed(b'A', entries)));
        assert_eq!(given, number, "{entries} entries");
    }
}

/// 13: lists of 0 to 40 entries in a split into each k; k-1 and k among them.
#[test]
fn number_13() {
    let mut run = Beside::fed(b"AAAAAAAA", MOST_SECTIONS);
    for k in 1..=8 {
        for entries in 0..=40 {
            // the last section has 9 - k picks, each before it one
            let turns = if k < 8 { 1 } else { 0 };
            let is_short = entries < u16::from(k);
            let reply = if is_short {
                refused(13)
            } else {
                given([turns])
            };
            let case = format!("k {k}, {entries} entries");
            assert_eq!(run.make(split(8, k, entries)), reply, "{case}");
        }
    }
}

/// 4: prefixes n and n+1, and the greatest number.
#[test]
fn number_4_by_prefix() {
    for draft in ["", "A", "ABA"] {
        let n = draft.len() as u16;
        let mut run = Beside::fed(draft.as_bytes(), MOST_SECTIONS);
        for (prefix, number) in [(n, None), (n + 1, Some(4)), (u16::MAX, Some(4))] {
            let given = number_of(run.make(Call::Mask { prefix }));
            assert_eq!(given, number, "{draft}, mask of {prefix}");
            let one = number.or((n == 0).then_some(9));
            let given = number_of(run.make(split(prefix, 1, 1)));
            assert_eq!(given, one, "{draft}, split of {prefix}");
            let given = number_of(run.make(record(prefix, 1, 99)));
            assert_eq!(given, one, "{draft}, record of {prefix}");
        }
    }
}

/// 4: centres 0 and 1, 2n+1 and 2n+2, and the greatest number, also of a full draft.
#[test]
fn number_4_by_centre() {
    let full = Generator(4).draft(2, MOST_PICKS);
    for draft in [&b""[..], b"A", b"ABA", &full] {
        let last = 2 * draft.len() as u16 + 1;
        let mut run = Beside::fed(draft, MOST_SECTIONS);
        for centre in [0, last + 1, u16::MAX] {
            let case = format!("centre {centre} of {} picks", draft.len());
            assert_eq!(run.make(Call::Radius { centre }), refused(4), "{case}");
            assert_eq!(run.make(Call::NextEnding { centre }), refused(4), "{case}");
        }
        for centre in [1, last] {
            let case = format!("centre {centre} of {} picks", draft.len());
            assert_eq!(run.make(Call::Radius { centre }), given([0]), "{case}");
            assert_eq!(run.make(Call::NextEnding { centre }), refused(10), "{case}");
        }
    }
}

/// 5: outputs from none to one byte longer than the record.
#[test]
fn number_5() {
    for (draft, k, length) in [("A", 1, 8), ("ABACDDC", 2, 14), ("ABACDDC", 7, 32)] {
        let prefix = draft.len() as u16;
        let mut run = Beside::fed(draft.as_bytes(), MOST_SECTIONS);
        for bytes in 0..=length + 1 {
            let expected = match bytes < length {
                true => refused(5),
                false => given([length.into()]),
            };
            let reply = run.make(record(prefix, k, bytes));
            assert_eq!(reply, expected, "{draft} in {k}, {bytes} bytes");
        }
    }
}

/// 8: pick 2,048 and pick 2,049, after each of several drafts.
#[test]
fn number_8() {
    for letters in 1..=3 {
        let draft = Generator(8).draft(letters, MOST_PICKS - 1);
        let mut run = Beside::fed(&draft, MOST_SECTIONS);
        assert!(run.make(feed(b'A', 19)).is_ok(), "pick 2,048");
        for pick in [b'A', b'B', b'Z'] {
            assert_eq!(run.make(feed(pick, 24)), refused(8), "pick 2,049");
        }
    }
}

/// 9: exactly the k that the mask has no bit for.
#[test]
fn number_9() {
    let mut run = Beside::fed(b"ABACDDC", MOST_SECTIONS);
    for k in 1..=8 {
        let number = [1, 3, 8].contains(&k).then_some(9);
        assert_eq!(number_of(run.make(split(7, k, 8))), number, "k {k}");
        assert_eq!(number_of(run.make(record(7, k, 99))), number, "k {k}");
        assert_eq!(run.make(split(0, k, 8)), refused(9), "k {k}");
        assert_eq!(run.make(record(0, k, 99)), refused(9), "k {k}");
    }
}

/// 10: on the empty draft, whose one ending is empty; and after each pick at 2n, the
/// one-pick ending, which leads to the empty one at 2n+1 and has length 1 and period 1.
#[test]
fn number_10() {
    let mut board = Board::started(MOST_SECTIONS);
    assert_eq!(board.next_ending(1), Err(10));
    for (at, &pick) in Generator(10).draft(2, 300).iter().enumerate() {
        board.feed(pick, &mut [0; 19]).expect("a letter");
        let n = at + 1;
        let next = board.next_ending(2 * n).map(NextEnding::values);
        assert_eq!(next, Ok([2 * n + 1, 1, 1]), "{n} picks");
        assert_eq!(board.next_ending(2 * n + 1), Err(10), "{n} picks");
    }
}
