//! The comparison program under the mill's own lifts: worked examples, every small draft,
//! drafts of 2,048 picks by slices, and records.

use crate::support::longest_mirrored::assert_longest_mirrored;
use comparison::calls::{self, NextEnding, State};
use comparison::fast::Fast;
use comparison::full_drafts;
use comparison::plain::{self, fixed_lifts, word, Lifts};
use comparison::samples::{every_draft_to, Generator};
use comparison::support::lift_examples::{EXAMPLES, RADII, RECORDS, SPLITS};
use comparison::tables::{alike, distinct, is_mirrored_by, lift_alike, merged, of_few, some_lifts};
use comparison::{LETTERS, MOST_PICKS, MOST_SECTIONS, VISIT_ROOM};

/// The state of a draft under these lifts, made by calls.
fn fed(lifts: &Lifts, draft: &str) -> State {
    let mut state = State::zeros();
    assert_eq!(calls::start(&mut state, MOST_SECTIONS), Ok(()));
    assert_eq!(calls::load(&mut state, lifts), Ok(()));
    for &pick in draft.as_bytes() {
        let taken = calls::feed(&mut state, pick, &mut [0; VISIT_ROOM]);
        assert!(taken.is_ok(), "{draft}, {lifts:?}");
    }
    let made = State::of(draft.as_bytes(), MOST_SECTIONS, lifts);
    assert_eq!(state, made, "{draft}, {lifts:?}");
    state
}

#[test]
fn masks_and_visits() {
    for example in EXAMPLES {
        let (draft, lifts) = (example.draft, example.lifts());
        let (before, last) = draft.split_at(draft.len() - 1);
        let mut state = fed(&lifts, before);
        let mut list = [0; VISIT_ROOM];
        let taken = calls::feed(&mut state, last.as_bytes()[0], &mut list);
        let taken = taken.map(|taken| (taken.mask.into(), &list[..taken.visits]));
        let expected = (example.mask, example.visits);
        assert_eq!(taken, Ok(expected), "{draft}, {} alike", example.alike);
        let lifted = word(&lifts, draft.as_bytes());
        let visits = plain::visits(&lifted).into_iter();
        let expected = example.visits.iter().map(|&length| length.into());
        assert!(visits.eq::<Vec<usize>>(expected.collect()), "{draft}");
        if draft.len() < 9 {
            let mask = plain::mask(&lifted, MOST_SECTIONS);
            assert_eq!(usize::from(mask), example.mask, "{draft}");
        }
        let fixed = fed(&fixed_lifts(), draft);
        let mask = calls::mask_of_prefix(&fixed, draft.len());
        let by_letters = example.mask_by_letters as u8;
        assert_eq!(mask, Ok(by_letters), "{draft} by letters");
    }
}

#[test]
fn splits_of_abacddc() {
    let state = fed(&alike(b"AB"), "ABACDDC");
    for (k, ends, turns) in SPLITS {
        let mut list = vec![0; k];
        assert_eq!(calls::split(&state, 7, k, &mut list), Ok(turns), "in {k}");
        assert_eq!(list, ends, "in {k}");
    }
    for k in [1, 8] {
        let mut list = vec![0; k];
        assert_eq!(calls::split(&state, 7, k, &mut list), Err(9), "in {k}");
    }
}

#[test]
fn radii_of_abacddc() {
    let state = fed(&alike(b"AB"), "ABACDDC");
    let radii = (1..=15).map(|centre| calls::radius_at(&state, centre));
    assert!(radii.eq(RADII.map(Ok)));
}

/// ACB, as ABA: itself with period 2, and its last pick.
#[test]
fn endings_of_acb() {
    let state = fed(&alike(b"AB"), "ACB");
    assert_eq!(calls::longest_centre(&state), Ok(4));
    let next = |centre| calls::next_ending(&state, centre).map(NextEnding::values);
    assert_eq!(next(4), Ok([6, 3, 2]));
    assert_eq!(next(6), Ok([7, 1, 1]));
    assert_eq!(next(5), Err(10));
}

/// Lifts that are other in one harness alone are not equal: AB is then two sections only.
#[test]
fn lifts_of_one_harness_more() {
    for bit in 0..8 {
        let mut lifts = [u8::MAX; LETTERS];
        assert_eq!(calls::mask_of_prefix(&fed(&lifts, "AB"), 2), Ok(0b11));
        lifts[1] ^= 1 << bit;
        let mask = calls::mask_of_prefix(&fed(&lifts, "AB"), 2);
        assert_eq!(mask, Ok(0b10), "harness {}", bit + 1);
        lifts = [1 << bit; LETTERS];
        assert_eq!(calls::mask_of_prefix(&fed(&lifts, "AB"), 2), Ok(0b11));
    }
}

/// Tables over A, B and C in which two lift alike, three, and none.
fn tables_of_three() -> Vec<Lifts> {
    let few = (0..6).map(|seed| of_few(&mut Generator(seed), 2));
    let some = [alike(b"AB"), alike(b"BC"), alike(b"AC"), alike(b"ABC")];
    let others = [fixed_lifts(), [255; LETTERS], [1; LETTERS]];
    some.into_iter().chain(others).chain(few).collect()
}

/// Masks, visits, splits, radii and next endings of a draft by its tables.
fn all_of(fast: &Fast, n: usize) -> impl PartialEq + std::fmt::Debug {
    let splits: Vec<_> = (1..=MOST_SECTIONS).map(|k| fast.split(n, k)).collect();
    let centres = 1..=2 * n + 1;
    let radii: Vec<_> = centres.clone().map(|c| fast.radius(n, c)).collect();
    let next: Vec<_> = centres.map(|c| fast.next_ending(n, c)).collect();
    let words = (fast.row(n), fast.gathered(n));
    (fast.mask(n), fast.visits(n), splits, radii, next, words)
}

/// Every draft over three letters to length 7, under each table: as the draft in which one
/// letter stands for all that lift alike.
#[test]
fn one_letter_for_all_that_lift_alike() {
    for lifts in tables_of_three() {
        for draft in every_draft_to(3, 7) {
            let n = draft.len();
            let by_lifts = Fast::new(&word(&lifts, &draft), MOST_SECTIONS);
            let by_letters = Fast::new(&merged(&lifts, &draft), MOST_SECTIONS);
            let text = String::from_utf8_lossy(&draft);
            let case = format!("{text}, {lifts:?}");
            assert_eq!(all_of(&by_lifts, n), all_of(&by_letters, n), "{case}");
        }
    }
}

/// A stretch of the word is mirrored where the letters are by their lifts; some are so by
/// lifts and not by letters, and none the other way.
#[test]
fn mirrored_by_lifts_and_by_letters() {
    let mut by_lifts_alone = 0;
    for lifts in tables_of_three() {
        for draft in every_draft_to(3, 7) {
            let case = format!("{}, {lifts:?}", String::from_utf8_lossy(&draft));
            let by_lifts = is_mirrored_by(&lifts, &draft);
            let mirrored = plain::is_mirrored(&word(&lifts, &draft));
            assert_eq!(mirrored, by_lifts, "{case}");
            let by_letters = plain::is_mirrored(&draft);
            assert!(by_lifts || !by_letters, "{case}");
            by_lifts_alone += usize::from(by_lifts && !by_letters);
        }
    }
    assert!(by_lifts_alone > 5_000, "{by_lifts_alone}");
}

/// Drafts of 2,048 picks, each under some table.
fn full_drafts_under() -> Vec<(String, Vec<u8>, Lifts)> {
    let drafts = [
        full_drafts::well_known_words(),
        full_drafts::random(),
        full_drafts::palindromes(1),
    ];
    let tables = [alike(b"AB"), alike(b"AC"), alike(b"BCD")];
    let drafts = drafts.concat().into_iter().zip(tables.into_iter().cycle());
    drafts
        .map(|((name, draft), lifts)| (name, draft, lifts))
        .collect()
}

/// The stretch of a radius at a centre is mirrored by lifts, and the next longer one is not,
/// or does not fit.
#[test]
fn radii_of_full_drafts_by_slices() {
    for (name, draft, lifts) in full_drafts_under() {
        let fast = Fast::new(&word(&lifts, &draft), MOST_SECTIONS);
        let is_mirrored = |stretch: &[u8]| is_mirrored_by(&lifts, stretch);
        let name = format!("{name}, {lifts:?}");
        for centre in 1..=2 * MOST_PICKS + 1 {
            let radius = fast.radius(MOST_PICKS, centre);
            assert_longest_mirrored(&draft, centre, radius, is_mirrored, &name);
        }
    }
}

/// Each visit is an ending by lifts and the first is the longest; each split is one by
/// lifts, and there is one exactly for the bits of the mask. Some are none by letters.
#[test]
fn visits_and_splits_of_full_drafts_by_slices() {
    let mut by_lifts_alone = 0;
    for (name, draft, lifts) in full_drafts_under() {
        let fast = Fast::new(&word(&lifts, &draft), MOST_SECTIONS);
        for i in (1..=MOST_PICKS).filter(|i| i % 7 == 0) {
            let case = format!("{name}, prefix {i}, {lifts:?}");
            let is_ending = |&length: &usize| is_mirrored_by(&lifts, &draft[i - length..i]);
            let visits = fast.visits(i);
            assert!(visits.iter().all(is_ending), "{case}");
            let longest = (1..=i).rev().find(is_ending);
            assert_eq!(visits.first().copied(), longest, "{case}");
            for k in 1..=MOST_SECTIONS {
                let split = fast.split(i, k);
                assert_eq!(split.is_some(), fast.mask(i) >> (k - 1) & 1 == 1, "{case}");
                let ends = split.unwrap_or_default();
                let sections = (1..=ends.len()).map(|s| plain::section(&draft, &ends, s));
                let mut sections = sections.collect::<Vec<_>>().into_iter();
                assert!(sections.all(|s| is_mirrored_by(&lifts, s)), "{case} in {k}");
            }
            by_lifts_alone += usize::from(!plain::is_ending(&draft[..i], visits[0]));
        }
    }
    assert!(by_lifts_alone > 500, "{by_lifts_alone}");
}

/// No two lifts equal: all is as by letters.
#[test]
fn distinct_lifts() {
    let generator = &mut Generator(250);
    for _ in 0..300 {
        let lifts = distinct(generator);
        let length = generator.below(40);
        let draft = generator.draft(3, length);
        let by_lifts = Fast::new(&word(&lifts, &draft), MOST_SECTIONS);
        let by_letters = Fast::new(&draft, MOST_SECTIONS);
        let case = format!("{}, {lifts:?}", String::from_utf8_lossy(&draft));
        assert_eq!(
            all_of(&by_lifts, length),
            all_of(&by_letters, length),
            "{case}"
        );
    }
}

/// The record of a draft in k, and the draft that it unfolds to.
fn folded_and_unfolded(state: &State, k: usize) -> Option<(Vec<u8>, Vec<u8>)> {
    let mut output = [0; 400];
    let count = calls::folded_record(state, state.n, k, &mut output).ok()?;
    let mut draft = [0; 400];
    let picks = calls::unfold(&output[..count], &mut draft).expect("a record");
    Some((output[..count].to_vec(), draft[..picks].to_vec()))
}

#[test]
fn records() {
    for (letters, draft, k, record, unfolded) in RECORDS {
        let state = fed(&alike(letters.as_bytes()), draft);
        let expected = (record.as_bytes().to_vec(), unfolded.as_bytes().to_vec());
        let given = folded_and_unfolded(&state, k);
        assert_eq!(given, Some(expected), "{draft}, {letters} alike");
    }
}

/// "A folded record unfolds to a draft with the same lifts, its letters possibly others":
/// they are others now and then, and under distinct lifts never.
#[test]
fn unfolded_drafts_have_the_same_lifts() {
    let generator = &mut Generator(251);
    let mut others = 0;
    for at in 0..3_000 {
        let is_distinct = at % 3 == 0;
        let lifts = match is_distinct {
            true => distinct(generator),
            false => some_lifts(generator),
        };
        let length = 1 + generator.below(30);
        let draft = generator.draft(3, length);
        let state = State::of(&draft, MOST_SECTIONS, &lifts);
        let k = 1 + generator.below(MOST_SECTIONS);
        let Some((record, unfolded)) = folded_and_unfolded(&state, k) else {
            continue;
        };
        let text = String::from_utf8_lossy(&draft);
        let case = format!("{text}, {}, {lifts:?}", record.escape_ascii());
        assert!(lift_alike(&lifts, &unfolded, &draft), "{case}");
        assert!(!is_distinct || unfolded == draft, "{case}");
        others += usize::from(unfolded != draft);
    }
    assert!(others > 300, "{others}");
}
