//! The library's load: 14, 15 and 16 on both sides, what keeps its bytes, and which table is
//! in force after starts, feeds and loads. Each call is compared with the book too.

use crate::support::bounded::make_within_bounds;
use crate::support::made_calls::feed;
use comparison::beside::Beside;
use comparison::library::Board;
use comparison::plain::{fixed_lifts, Lifts};
use comparison::samples::Generator;
use comparison::scripted::{given, refused, Call, Reply};
use comparison::support::any_states::{any_state, spoiled_state, with_any_numbers};
use comparison::tables::{alike, distinct, some_lifts, some_table, Table};
use comparison::{FIRST_PICK, LETTERS, MOST_PICKS, MOST_SECTIONS};

/// A load of just these lifts.
fn load(lifts: Lifts) -> Call {
    let table = Table::of(lifts);
    Call::Load { table }
}

/// A start.
fn start(most_sections: u8) -> Call {
    Call::Start { most_sections }
}

/// Asserts that these lifts are in force: those of all letters, by the call.
fn assert_in_force(run: &mut Beside, lifts: Lifts, case: &str) {
    for (letter, lift) in (FIRST_PICK..).zip(lifts) {
        let reply = run.make(Call::Lift { letter });
        assert_eq!(reply, given([lift.into()]), "lift of {letter}, {case}");
    }
}

/// 14: tables of 0 to 60 bytes, of 26 and more by a byte's range, and far longer ones; their
/// bytes are good, or 0 from the first on.
#[test]
fn number_14() {
    let long = [255, 256, 256 + 26, 512 + 26, 2_048, 65_535];
    for length in (0..=60).chain(long) {
        for lift in [200, 0] {
            let mut run = Beside::fed(b"", MOST_SECTIONS);
            let table = Table {
                lifts: [lift; LETTERS],
                length,
                behind: lift,
            };
            let expected = match (length, lift) {
                (26, 0) => Err((15, Some(0))),
                (26, _) => given([]),
                _ => refused(14),
            };
            let reply = run.make(Call::Load { table });
            assert_eq!(reply, expected, "{length} bytes {lift}");
            let in_force = if reply.is_ok() {
                [lift; LETTERS]
            } else {
                fixed_lifts()
            };
            assert_in_force(&mut run, in_force, &format!("{length} bytes {lift}"));
        }
    }
}

/// The reply to a load that is refused for a 0 at this place.
fn refused_at(place: usize) -> Reply {
    Err((15, Some(place)))
}

/// 15: a 0 at each place; two, of which the first one's place is given; and all from a place
/// on.
#[test]
fn number_15() {
    let mut run = Beside::fed(b"", MOST_SECTIONS);
    let good = distinct(&mut Generator(15));
    for first in 0..LETTERS {
        for second in first..LETTERS {
            let mut lifts = good;
            (lifts[first], lifts[second]) = (0, 0);
            let reply = run.make(load(lifts));
            assert_eq!(reply, refused_at(first), "zeros at {first} and {second}");
            lifts[first..=second].fill(0);
            let reply = run.make(load(lifts));
            assert_eq!(reply, refused_at(first), "zeros from {first} to {second}");
        }
    }
    assert_in_force(&mut run, fixed_lifts(), "15");
    assert_eq!(run.make(load(good)), given([]));
    assert_in_force(&mut run, good, "good");
}

/// Every byte but 0 is a lift, at every place, and with any other letters alike.
#[test]
fn every_lift() {
    let mut run = Beside::fed(b"", MOST_SECTIONS);
    for lift in 1..=255 {
        assert_eq!(run.make(load([lift; LETTERS])), given([]), "{lift}");
        assert_in_force(&mut run, [lift; LETTERS], "all alike");
        for place in 0..LETTERS {
            let mut lifts = fixed_lifts();
            lifts[place] = lift;
            assert_eq!(run.make(load(lifts)), given([]), "{lift} at {place}");
            let letter = FIRST_PICK + place as u8;
            let reply = run.make(Call::Lift { letter });
            assert_eq!(reply, given([lift.into()]), "{lift} at {place}");
        }
    }
}

/// 16: after each pick of a draft, of 2,048 too. The draft goes on under the lifts it was
/// begun with.
#[test]
fn number_16() {
    let lifts = alike(b"AB");
    let mut run = Beside::fed_under(&lifts, b"", MOST_SECTIONS);
    assert_eq!(run.make(load(lifts)), given([]));
    for (at, &pick) in Generator(16).draft(3, 60).iter().enumerate() {
        assert!(run.make(feed(pick)).is_ok(), "pick {at}");
        assert_eq!(run.make(load([7; LETTERS])), refused(16), "after {at}");
        assert_eq!(run.make(load(lifts)), refused(16), "after {at}");
        assert_in_force(&mut run, lifts, "16");
    }
    for length in [MOST_PICKS - 1, MOST_PICKS] {
        let draft = Generator(17).draft(2, length);
        let mut run = Beside::fed(&draft, MOST_SECTIONS);
        assert_eq!(run.make(load(lifts)), refused(16), "{length} picks");
    }
}

/// A start that is refused leaves the loaded lifts in force, one that is accepted brings the
/// fixed ones back: before the first pick and after some.
#[test]
fn loads_and_starts() {
    let generator = &mut Generator(18);
    for at in 0..200 {
        let lifts = some_lifts(generator);
        let length = generator.below(4);
        let mut run = Beside::fed_under(&lifts, &generator.draft(3, length), 5);
        for most_sections in [0, 9, 255] {
            assert_eq!(run.make(start(most_sections)), refused(1), "{at}");
            assert_in_force(&mut run, lifts, "after a refused start");
        }
        assert!(run.make(feed(b'B')).is_ok(), "{at}");
        assert_eq!(run.make(start(8)), given([]), "{at}");
        assert_in_force(&mut run, fixed_lifts(), "after an accepted start");
        for pick in *b"ABACDDC" {
            assert!(run.make(feed(pick)).is_ok(), "{at}");
        }
        assert_eq!(run.make(Call::Mask { prefix: 7 }), given([122]), "{at}");
    }
}

/// Of loads one after the other the last good one is in force; those that are refused
/// between change nothing.
#[test]
fn loads_after_loads() {
    let generator = &mut Generator(19);
    for at in 0..60 {
        let mut run = Beside::fed(b"", 1 + at % MOST_SECTIONS);
        let mut lifts = fixed_lifts();
        for _ in 0..12 {
            let table = some_table(generator);
            if run.make(Call::Load { table }).is_ok() {
                lifts = table.lifts;
            }
            assert_in_force(&mut run, lifts, &format!("{table:?}"));
        }
        let draft = generator.draft(3, 5);
        for &pick in &draft {
            assert!(run.make(feed(pick)).is_ok(), "{lifts:?}");
        }
        assert_eq!(run.board.lifts(), lifts, "in force at {draft:?}");
    }
}

/// Before a start 7 is given, whatever the table is; the order of the others is
/// `order`'s.
#[test]
fn number_7_before_a_start() {
    let mut board = Board::filled(|| 0);
    let before = board.clone();
    for length in [0, 26, 27] {
        for lift in [0, 9] {
            let table = Table {
                lifts: [lift; LETTERS],
                length,
                behind: lift,
            };
            assert_eq!(board.load(table), Err((7, None)), "{table:?}");
        }
    }
    for letter in [b'A', b'Z', 64, 91] {
        assert_eq!(board.lift(letter), Err(7), "letter {letter}");
    }
    assert!(board == before);
}

/// Loads and lifts on stored states that no run made, n often 0: refused as listed, and an
/// accepted load changes the lifts alone. Many of both kinds must be among them.
#[test]
fn on_any_stored_state() {
    let generator = &mut Generator(20);
    let mut numbers = [0; 17];
    for at in 0..3_000 {
        let state = match at % 4 {
            0 => spoiled_state(generator),
            _ => any_state(generator),
        };
        let mut state = with_any_numbers(state, generator);
        if generator.below(2) == 0 {
            let most_sections = 1 + generator.below(MOST_SECTIONS);
            state.store(0, most_sections, generator.below(5_000));
        }
        for _ in 0..3 {
            let table = some_table(generator);
            let case = format!("state {at}");
            let number = make_within_bounds(&mut state, Call::Load { table }, &case);
            numbers[usize::from(number.unwrap_or(0))] += 1;
            let letter = generator.below(256) as u8;
            make_within_bounds(&mut state, Call::Lift { letter }, &case);
        }
    }
    for number in [0, 7, 14, 15, 16] {
        assert!(numbers[number] > 300, "{numbers:?}");
    }
}
