//! The library's marks: names, 18 and 2 on both sides, what a mark stores, and which marks
//! there are after marks, feeds, loads and starts. Each call is compared with the book too.

use crate::support::bounded::make_within_bounds;
use crate::support::made_calls::{back, feed, mark};
use comparison::beside::Beside;
use comparison::book::Book;
use comparison::library::Board;
use comparison::samples::Generator;
use comparison::scripted::{given, refused, Call, Reply};
use comparison::support::any_states::mixed_state;
use comparison::support::mark_examples::sessions;
use comparison::tables::some_table;
use comparison::{LETTERS, MOST_PICKS, MOST_SECTIONS};

/// Sets marks of these names, all accepted.
fn mark_all(run: &mut Beside, names: &[u8]) {
    for &name in names {
        assert_eq!(run.make(mark(name)), given([]), "mark {name} of {names:?}");
    }
}

/// The reply of a call that is refused with this number, or accepted without values.
fn refused_if(met: bool, number: u8) -> Reply {
    if met {
        refused(number)
    } else {
        given([])
    }
}

#[test]
fn worked_examples() {
    for session in sessions() {
        let (board, book) = (Board::filled(|| 0), Book::default());
        let mut run = Beside { board, book };
        for (at, (call, reply, filled)) in session.into_iter().enumerate() {
            let (given, list, _) = run.make_lent(call);
            assert_eq!(given, reply, "call {at}, {call:?}");
            assert_eq!(&list[..filled.len()], filled, "call {at}, {call:?}");
        }
    }
}

/// 2, 17 and 18: every byte as a name, where no mark is set, one, and four.
#[test]
fn every_byte_as_a_name() {
    for names in [&b""[..], b"A", b"Z", b"AMNZ"] {
        for name in 0..=255 {
            let mut run = Beside::fed(b"AB", MOST_SECTIONS);
            mark_all(&mut run, names);
            let is_letter = (65..=90).contains(&name);
            let is_mark = names.contains(&name);
            let number = if is_letter { 17 } else { 2 };
            let case = format!("name {name} of {names:?}");
            assert_eq!(run.make(back(name)), refused_if(!is_mark, number), "{case}");
            let is_fifth = names.len() == 4 && !is_mark;
            let number = if is_letter { 18 } else { 2 };
            let reply = refused_if(!is_letter || is_fifth, number);
            assert_eq!(run.make(mark(name)), reply, "{case}");
        }
    }
}

/// 18: of any four names each can be set again, at the same length and at another, and none
/// of the 22 others.
#[test]
fn number_18() {
    let generator = &mut Generator(18);
    for _ in 0..60 {
        let mut letters: Vec<u8> = (b'A'..=b'Z').collect();
        let names: [u8; 4] =
            std::array::from_fn(|_| letters.swap_remove(generator.below(letters.len())));
        let mut run = Beside::fed(b"", MOST_SECTIONS);
        for (at, &name) in names.iter().enumerate() {
            assert_eq!(run.make(mark(name)), given([]), "name {at} of {names:?}");
            assert!(run.make(feed(b'A')).is_ok());
        }
        for round in 0..2 {
            mark_all(&mut run, &names);
            for &name in &letters {
                assert_eq!(run.make(mark(name)), refused(18), "{name}, {names:?}");
            }
            assert!(run.make(feed(b'B')).is_ok(), "round {round}");
        }
    }
}

/// Where a going back has dropped the fourth mark, every letter is taken again, and then no
/// fifth.
#[test]
fn a_name_in_place_of_a_dropped_one() {
    for name in b'E'..=b'Y' {
        let mut run = Beside::fed(b"", MOST_SECTIONS);
        mark_all(&mut run, b"ABC");
        assert!(run.make(feed(b'A')).is_ok());
        mark_all(&mut run, b"D");
        assert_eq!(run.make(mark(name)), refused(18), "{name}");
        assert_eq!(run.make(back(b'B')), given([]), "{name}");
        mark_all(&mut run, &[name]);
        for fifth in [b'D', b'Z'] {
            assert_eq!(run.make(mark(fifth)), refused(18), "{fifth} after {name}");
        }
    }
}

/// A mark at each length from 0 to 2,048, by four names in turn: each stores that length and
/// changes nothing else.
#[test]
fn a_mark_at_every_length() {
    let mut board = Board::started(MOST_SECTIONS);
    let mut marks = [0; LETTERS];
    for n in 0..=MOST_PICKS {
        let at = [0, 9, 17, 25][n % 4];
        marks[at] = n as u16 + 1;
        let before = board.clone();
        assert_eq!(board.mark(b'A' + at as u8), Ok(()), "{n} picks");
        assert_eq!(board.marks(), marks, "{n} picks");
        assert!(board.keeps_all_but_marks(&before), "{n} picks");
        if n < MOST_PICKS {
            board.feed_all(&[b"AB"[n % 3 % 2]]);
            assert_eq!(board.marks(), marks, "{n} picks");
        }
    }
}

/// Feeds, questions and loads, accepted or refused, leave the marks; so does a start that is
/// refused, and one that is accepted drops them all, however many there are.
#[test]
fn marks_after_other_calls() {
    let generator = &mut Generator(19);
    for count in (0..=4).cycle().take(40) {
        let length = generator.below(3);
        let draft = generator.draft(3, length);
        let mut run = Beside::fed(&draft, MOST_SECTIONS);
        mark_all(&mut run, &b"ZQDA"[..count]);
        let marks = run.board.marks();
        assert_eq!(marks.iter().filter(|&&entry| entry > 0).count(), count);
        for _ in 0..6 {
            let table = some_table(generator);
            run.make(Call::Load { table }).ok();
            run.make(feed(b"AB@"[generator.below(3)])).ok();
            run.make(Call::Mask { prefix: 1 }).ok();
            assert_eq!(run.make(Call::Start { most_sections: 0 }), refused(1));
            assert_eq!(run.make(Call::Start { most_sections: 9 }), refused(1));
            assert_eq!(run.board.marks(), marks, "{count} marks");
        }
        assert_eq!(run.make(Call::Start { most_sections: 3 }), given([]));
        assert_eq!(run.board.marks(), [0; LETTERS], "{count} marks");
        for &name in b"ZQDA" {
            assert_eq!(run.make(back(name)), refused(17), "{count} marks");
        }
        mark_all(&mut run, b"BCEF");
        assert_eq!(run.make(mark(b'A')), refused(18), "{count} marks");
    }
}

/// Before a start 7 is given, whatever the name is and whatever the marks are.
#[test]
fn number_7_before_a_start() {
    for entry in [0, 1, 7, u16::MAX] {
        let mut board = Board::filled(|| entry);
        let before = board.clone();
        for name in [0, b'@', b'A', b'Z', b'[', 255] {
            assert_eq!(board.mark(name), Err(7), "name {name}, entries {entry}");
            assert_eq!(board.back(name), Err(7), "name {name}, entries {entry}");
        }
        assert!(board == before, "entries {entry}");
    }
}

/// Marks on stored states that no run made: refused as listed, and an accepted one changes its
/// entry alone. Many of each must be among them.
#[test]
fn on_any_stored_state() {
    let generator = &mut Generator(20);
    let mut numbers = [0; 19];
    for at in 0..1_500 {
        let state = mixed_state(at, generator);
        for _ in 0..4 {
            let names = [b"ABCDE"[generator.below(5)], generator.below(256) as u8];
            let name = names[generator.below(2)];
            let case = format!("state {at}");
            let number = make_within_bounds(&mut state.clone(), mark(name), &case);
            numbers[usize::from(number.unwrap_or(0))] += 1;
        }
    }
    for number in [0, 2, 7, 18] {
        assert!(numbers[number] > 300, "{numbers:?}");
    }
}
