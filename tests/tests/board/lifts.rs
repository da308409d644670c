//! The library's board under the mill's own lifts, with numbers written out; the lift of
//! every byte; and by the board alone: distinct lifts are as the fixed ones, and letters that
//! lift alike are as one letter.

use comparison::beside::{Beside, ENTRY};
use comparison::full_drafts;
use comparison::library::{unfold, Board, GATHERED, HEADS, LENDS, NEXT, PREV, RADIUS, ROWS};
use comparison::plain::{fixed_lifts, Lifts};
use comparison::samples::{every_draft, every_draft_to, Generator};
use comparison::scripted::{given, refused, Call};
use comparison::support::any_states::mixed_state;
use comparison::support::lift_examples::{EXAMPLES, RADII, RECORDS, SPLITS};
use comparison::tables::{alike, distinct, dressed, lift_alike, merged, of_classes, some_lifts};
use comparison::{LETTERS, MOST_PICKS, MOST_SECTIONS, VISIT_ROOM};

#[test]
fn masks_and_visits() {
    for example in EXAMPLES {
        let (draft, lifts) = (example.draft, example.lifts());
        let case = format!("{draft}, {} alike", example.alike);
        let (&pick, before) = draft.as_bytes().split_last().expect("a pick");
        let mut run = Beside::fed_under(&lifts, before, MOST_SECTIONS);
        let entries = VISIT_ROOM as u16;
        let (reply, list, _) = run.make_lent(Call::Feed { pick, entries });
        let count = example.visits.len();
        assert_eq!(reply, given([example.mask, count]), "{case}");
        assert_eq!(&list[..count], example.visits, "{case}");
        assert!(list[count..].iter().all(|&entry| entry == ENTRY), "{case}");
        let prefix = draft.len() as u16;
        let mask = run.make(Call::Mask { prefix });
        assert_eq!(mask, given([example.mask]), "{case}");
        let mut fixed = Beside::fed(draft.as_bytes(), MOST_SECTIONS);
        let mask = fixed.make(Call::Mask { prefix });
        assert_eq!(mask, given([example.mask_by_letters]), "{case}");
    }
}

#[test]
fn splits_and_radii_of_abacddc() {
    let mut run = Beside::fed_under(&alike(b"AB"), b"ABACDDC", MOST_SECTIONS);
    let prefix = 7;
    for k in 1..=8 {
        let entries = k.into();
        let (reply, list, _) = run.make_lent(Call::Split { prefix, k, entries });
        match SPLITS.iter().find(|split| split.0 == k.into()) {
            Some((_, ends, turns)) => {
                assert_eq!(reply, given([*turns]), "in {k}");
                assert_eq!(list, *ends, "in {k}");
            }
            None => assert_eq!(reply, refused(9), "in {k}"),
        }
    }
    for (centre, radius) in (1..).zip(RADII) {
        let reply = run.make(Call::Radius { centre });
        assert_eq!(reply, given([radius]), "centre {centre}");
    }
}

/// ACB, as ABA: itself with period 2, and its last pick. By letters the last pick alone.
#[test]
fn endings_of_acb() {
    let mut run = Beside::fed_under(&alike(b"AB"), b"ACB", MOST_SECTIONS);
    assert_eq!(run.make(Call::LongestCentre), given([4]));
    for centre in 1..=7 {
        let expected = match centre {
            4 => given([6, 3, 2]),
            6 => given([7, 1, 1]),
            _ => refused(10),
        };
        let reply = run.make(Call::NextEnding { centre });
        assert_eq!(reply, expected, "centre {centre}");
    }
    let mut fixed = Beside::fed(b"ACB", MOST_SECTIONS);
    assert_eq!(fixed.make(Call::LongestCentre), given([6]));
}

/// Lifts that are other in one harness alone are not equal.
#[test]
fn lifts_of_one_harness_more() {
    let mask_of = |lifts: &Lifts, draft: &[u8]| {
        let mut run = Beside::fed_under(lifts, draft, MOST_SECTIONS);
        let prefix = draft.len() as u16;
        run.make(Call::Mask { prefix })
    };
    for bit in 0..8 {
        let one = [1 << bit; LETTERS];
        assert_eq!(mask_of(&one, b"AB"), given([0b11]), "bit {bit}");
        let mut lifts = [255; LETTERS];
        assert_eq!(mask_of(&lifts, b"AB"), given([0b11]), "bit {bit}");
        lifts[1] ^= 1 << bit;
        assert_eq!(mask_of(&lifts, b"AB"), given([0b10]), "bit {bit}");
        assert_eq!(mask_of(&lifts, b"ABZ"), given([0b101]), "bit {bit}");
    }
}

/// A record, and what it unfolds to: letters that may be others, and lift alike.
#[test]
fn records() {
    for (letters, draft, k, record, unfolded) in RECORDS {
        let lifts = alike(letters.as_bytes());
        let mut board = Board::fed_under(&lifts, draft.as_bytes(), MOST_SECTIONS);
        let case = format!("{draft} in {k}, {letters} alike");
        let mut output = vec![0; record.len()];
        let count = board.folded_record(draft.len(), k, &mut output);
        assert_eq!(count, Ok(record.len()), "{case}");
        assert_eq!(output, record.as_bytes(), "{case}");
        let mut picks = vec![0; draft.len()];
        assert_eq!(unfold(&output, &mut picks), Ok(draft.len()), "{case}");
        assert_eq!(picks, unfolded.as_bytes(), "{case}");
        assert!(lift_alike(&lifts, &picks, draft.as_bytes()), "{case}");
    }
}

/// Every byte, under loaded lifts and on a draft fed under them.
#[test]
fn lifts_of_all_bytes() {
    let generator = &mut Generator(30);
    for at in 0..40 {
        let lifts = some_lifts(generator);
        let mut run = Beside::fed_under(&lifts, &b"ABC"[..at % 4], MOST_SECTIONS);
        for letter in 0..=255 {
            let reply = run.make(Call::Lift { letter });
            let expected = match letter {
                65..=90 => given([lifts[usize::from(letter) - 65].into()]),
                _ => refused(2),
            };
            assert_eq!(reply, expected, "byte {letter}, {lifts:?}");
        }
    }
}

/// Every byte on stored states that no run made: 7, or what is stored for the letter, 0 too.
#[test]
fn lifts_of_all_bytes_on_any_stored_state() {
    let mut zeros = 0;
    for seed in 0..300 {
        let mut board = mixed_state(seed, &mut Generator(seed as u64));
        let (before, lifts) = (board.clone(), board.lifts());
        let is_draft = board.n() <= MOST_PICKS && (1..=8).contains(&board.most_sections());
        for letter in 0..=255 {
            let expected = match letter {
                _ if !is_draft => Err(7),
                65..=90 => Ok(lifts[usize::from(letter) - 65].into()),
                _ => Err(2),
            };
            assert_eq!(board.lift(letter), expected, "seed {seed}, byte {letter}");
            zeros += usize::from(expected == Ok(0));
        }
        assert!(board == before, "a byte of the state changed, seed {seed}");
    }
    assert!(zeros > 100, "{zeros}");
}

/// Whether two boards have the same numbers and the same lanes: all but letters, codes and
/// lifts.
fn same_lanes(one: &Board, other: &Board) -> bool {
    let numbers = |board: &Board| [board.n(), board.most_sections(), board.longest()];
    numbers(one) == numbers(other)
        && [RADIUS, LENDS, NEXT, PREV]
            .iter()
            .all(|&lane| one.centre_lane(lane) == other.centre_lane(lane))
        && [HEADS, ROWS, GATHERED]
            .iter()
            .all(|&lane| one.place_lane(lane) == other.place_lane(lane))
}

/// Feeds a draft under these lifts, and another under the fixed ones, and compares each
/// pick's answer and visits, and all lanes at the end.
fn assert_same(lifts: &Lifts, draft: &[u8], fixed: &[u8], most_sections: usize) {
    let mut under = Board::fed_under(lifts, b"", most_sections);
    let mut board = Board::started(most_sections);
    let case = || format!("{}, {lifts:?}", String::from_utf8_lossy(draft));
    for (&pick, &same) in draft.iter().zip(fixed) {
        let (mut list, mut expected) = ([ENTRY; VISIT_ROOM], [ENTRY; VISIT_ROOM]);
        let taken = under.feed(pick, &mut list);
        assert_eq!(taken, board.feed(same, &mut expected), "{}", case());
        assert_eq!(list, expected, "visits, {}", case());
    }
    assert_eq!(under.letters(), draft, "letters, {}", case());
    assert!(same_lanes(&under, &board), "lanes, {}", case());
}

/// Under lifts no two of which are equal every draft answers as under the fixed ones.
#[test]
fn distinct_lifts_are_as_the_fixed_ones() {
    let generator = &mut Generator(31);
    for draft in every_draft_to(2, 9).chain(every_draft_to(3, 6)) {
        assert_same(&distinct(generator), &draft, &draft, MOST_SECTIONS);
    }
    for (_, draft) in full_drafts::of_each_kind() {
        assert_same(&distinct(generator), &draft, &draft, MOST_SECTIONS);
    }
    assert_same(&fixed_lifts(), b"ABACDDC", b"ABACDDC", MOST_SECTIONS);
}

/// Under lifts that some letters share a draft answers as the one in which one letter stands
/// for all of them.
#[test]
fn letters_that_lift_alike_are_as_one() {
    let tables = [alike(b"AB"), alike(b"BC"), alike(b"AC"), [128; LETTERS]];
    for lifts in tables {
        for draft in every_draft(3, 8) {
            assert_same(&lifts, &draft, &merged(&lifts, &draft), MOST_SECTIONS);
        }
    }
}

/// The same of drafts of 2,048 picks, each pick any letter that lifts as it must: by letters
/// the draft is mostly another.
#[test]
fn full_drafts_in_other_letters() {
    let generator = &mut Generator(32);
    for (name, draft) in full_drafts::of_each_kind() {
        let most = draft.iter().max().expect("a pick") - b'A' + 1;
        let lifts = of_classes(generator, most.into());
        let letters = dressed(generator, &lifts, &draft);
        let others = (0..MOST_PICKS)
            .filter(|&at| letters[at] != draft[at])
            .count();
        assert!(most > 20 || others > 900, "{name}: {others} other letters");
        assert_same(&lifts, &letters, &draft, 1 + generator.below(MOST_SECTIONS));
    }
}
