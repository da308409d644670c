//! The library's board against the comparison program under lifts that letters share: every
//! small draft, drafts of 2,048 picks, and records, which unfold to the same lifts.

use crate::support::compared::{compare_all, feed_all_compared, feed_compared};
use crate::support::each_draft::each_draft;
use comparison::beside::{Beside, BYTE, ENTRY};
use comparison::fast::Fast;
use comparison::full_drafts::{self, Named};
use comparison::library::{unfold, Board};
use comparison::plain::{self, word, Lifts};
use comparison::samples::{every_draft, Generator};
use comparison::scripted::Call;
use comparison::tables::{
    alike, distinct, dressed, is_mirrored_by, lift_alike, of_classes, some_lifts,
};
use comparison::{FIRST_PICK, LETTERS, MOST_PICKS, MOST_SECTIONS};

/// A draft with its lifts, for a failure.
fn case_of(draft: &[u8], lifts: &Lifts) -> String {
    format!("{}, {lifts:?}", String::from_utf8_lossy(draft))
}

/// Feeds the last pick of a draft, and compares the answer and all that is kept with its
/// tables.
fn compare_last(board: &mut Board, draft: &[u8], fast: &mut Fast) {
    let lifts = board.lifts();
    let name = case_of(draft, &lifts);
    fast.turn_to(&word(&lifts, draft));
    feed_compared(board, fast, draft[draft.len() - 1], &name);
    compare_all(board, fast, draft, &name);
}

/// Of three letters two lift alike, or all three: every draft to length 8, for K = 8 and for
/// a smaller K.
#[test]
fn every_small_draft() {
    let tables = [
        alike(b"AB"),
        alike(b"BC"),
        alike(b"AC"),
        [255; LETTERS],
        [1; LETTERS],
    ];
    for lifts in tables {
        for (most_sections, most) in [(MOST_SECTIONS, 8), (2, 6)] {
            let board = Board::fed_under(&lifts, b"", most_sections);
            let mut fast = Fast::new(b"", most_sections);
            each_draft(&board, 3, most, |board, draft| {
                compare_last(board, draft, &mut fast);
            });
        }
    }
}

/// Splits and records of every prefix of a draft, each compared with the book.
fn compare_splits(lifts: &Lifts, draft: &[u8]) {
    let mut run = Beside::fed_under(lifts, draft, MOST_SECTIONS);
    for i in 0..=draft.len() {
        for k in 1..=MOST_SECTIONS as u8 {
            let (prefix, entries) = (i as u16, k.into());
            run.make(Call::Split { prefix, k, entries }).ok();
            let bytes = 60;
            run.make(Call::Record { prefix, k, bytes }).ok();
        }
    }
}

#[test]
fn splits_and_records_of_small_drafts() {
    for lifts in [alike(b"AB"), alike(b"BC"), [7; LETTERS]] {
        for draft in every_draft(3, 6) {
            compare_splits(&lifts, &draft);
        }
    }
}

/// Random lifts, and drafts over all letters.
#[test]
fn splits_and_records_under_random_lifts() {
    let generator = &mut Generator(33);
    for _ in 0..100 {
        let lifts = some_lifts(generator);
        let length = generator.below(60);
        compare_splits(&lifts, &generator.draft(26, length));
    }
}

/// Drafts of 2,048 picks of each kind, each pick any letter that lifts as it must.
fn full_drafts_under() -> Vec<(Named, Lifts)> {
    let generator = &mut Generator(34);
    let kinds = [
        full_drafts::repeated_units(),
        full_drafts::well_known_words(),
        full_drafts::palindromes(1),
        full_drafts::cubes(2),
        full_drafts::periods(2),
        full_drafts::long_periods(),
    ];
    let mut dress = |(name, draft): Named| {
        let classes = draft.iter().max().expect("a pick") - FIRST_PICK + 1;
        let lifts = of_classes(generator, classes.into());
        ((name, dressed(generator, &lifts, &draft)), lifts)
    };
    kinds.concat().into_iter().map(&mut dress).collect()
}

/// Feeds a draft and compares each pick; the words after every 101, and all that is kept
/// after every 509 and at the end.
fn compare_draft(name: &str, draft: &[u8], lifts: &Lifts, most_sections: usize) {
    let name = format!("{name}, K {most_sections}, {}", case_of(draft, lifts));
    let fast = Fast::new(&word(lifts, draft), most_sections);
    let mut board = Board::fed_under(lifts, b"", most_sections);
    feed_all_compared(&mut board, &fast, draft, [101, 509], &name);
    compare_long_splits(&mut board, &fast, lifts, &name);
}

/// Splits of some prefixes for every k: those by the tables, each section mirrored by the
/// lifts of its letters.
fn compare_long_splits(board: &mut Board, fast: &Fast, lifts: &Lifts, name: &str) {
    for i in (1..=MOST_PICKS).rev().step_by(61) {
        for k in 1..=fast.most_sections() {
            let case = format!("prefix {i} in {k}, {name}");
            let mut list = vec![ENTRY; k];
            let answer = board.split(i, k, &mut list);
            let Some(ends) = fast.split(i, k) else {
                assert_eq!(answer, Err(9), "{case}");
                continue;
            };
            assert_eq!(answer, Ok(plain::turn_count(&ends)), "{case}");
            assert!(list.into_iter().map(usize::from).eq(ends.clone()), "{case}");
            let letters = board.letters();
            let mut sections = (1..=k).map(|s| plain::section(letters, &ends, s));
            assert!(sections.all(|s| is_mirrored_by(lifts, s)), "{case}");
        }
    }
}

#[test]
fn full_drafts_of_each_kind() {
    for ((name, draft), lifts) in full_drafts_under() {
        compare_draft(&name, &draft, &lifts, MOST_SECTIONS);
    }
}

/// Random letters under lifts that two share, three, and all.
#[test]
fn full_random_drafts() {
    let draft = Generator(35).draft(4, MOST_PICKS);
    let tables = [alike(b"AB"), alike(b"ABC"), [129; LETTERS]];
    for lifts in tables {
        compare_draft("random over 4 letters", &draft, &lifts, 3);
    }
}

/// Folds prefix i in k and unfolds what is written: the same lifts pick by pick. Gives
/// whether a letter is another; none where there is no split.
fn fold_and_unfold(board: &mut Board, i: usize, k: usize) -> Option<bool> {
    let mut output = vec![BYTE; 8 + 7 * k + i];
    let count = board.folded_record(i, k, &mut output).ok()?;
    let (lifts, letters) = (board.lifts(), &board.letters()[..i]);
    let case = format!("{} in {k}", case_of(letters, &lifts));
    let mut picks = vec![BYTE; i];
    assert_eq!(unfold(&output[..count], &mut picks), Ok(i), "{case}");
    assert!(lift_alike(&lifts, &picks, letters), "{picks:?}, {case}");
    Some(picks != letters)
}

/// "A folded record unfolds to a draft with the same lifts, its letters possibly others":
/// many are others. Under distinct lifts none is.
#[test]
fn what_is_folded_unfolds_to_the_same_lifts() {
    let generator = &mut Generator(36);
    let mut others = [0, 0];
    for ((_, draft), lifts) in full_drafts_under() {
        for (at, lifts) in [lifts, distinct(generator)].iter().enumerate() {
            let mut board = Board::fed_under(lifts, &draft, MOST_SECTIONS);
            for i in (1..=MOST_PICKS).rev().step_by(167).chain(1..12) {
                for k in 1..=MOST_SECTIONS {
                    let is_other = fold_and_unfold(&mut board, i, k) == Some(true);
                    others[at] += usize::from(is_other);
                }
            }
        }
    }
    assert!(others[0] > 500 && others[1] == 0, "{others:?}");
}

/// The same of every draft over three letters to length 7, of which two lift alike.
#[test]
fn small_drafts_fold_and_unfold() {
    let mut others = 0;
    for lifts in [alike(b"AB"), alike(b"BC"), [64; LETTERS]] {
        for draft in every_draft(3, 7) {
            let mut board = Board::fed_under(&lifts, &draft, MOST_SECTIONS);
            for k in 1..=MOST_SECTIONS {
                others += usize::from(fold_and_unfold(&mut board, 7, k) == Some(true));
            }
        }
    }
    assert!(others > 1_000, "{others}");
}
