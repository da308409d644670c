//! The library's reading of records of the layout: every split of every small draft,
//! what the board folds, records of 2,048 picks, sums that are not the picks.

use comparison::beside::BYTE;
use comparison::full_drafts::of_each_kind;
use comparison::library::{section_at, unfold, Board};
use comparison::plain::{all_splits, folded_record, section_lengths};
use comparison::readings::{compare, compare_section, compare_unfold};
use comparison::records::{fields_of, random_lengths, record_of};
use comparison::samples::{every_draft, every_draft_to, Generator};
use comparison::{MOST_PICKS, MOST_SECTIONS};

/// The lengths of the sections that a reader yields from place 0 on, until it yields
/// none; then it stands at the record's length.
fn lengths_read(record: &[u8]) -> Vec<usize> {
    let mut lengths = Vec::new();
    let mut at = 0;
    while let Some((section, next)) = section_at(record, at) {
        assert!(next > at, "{} at {at}", record.escape_ascii());
        lengths.push(section.length);
        at = next;
    }
    assert_eq!(at, record.len(), "{}", record.escape_ascii());
    lengths
}

/// Asserts that a record unfolds to this draft, in sections with these ends.
fn assert_reads(record: &[u8], draft: &[u8], ends: &[usize]) {
    let case = record.escape_ascii();
    let mut list = vec![BYTE; draft.len()];
    assert_eq!(unfold(record, &mut list), Ok(draft.len()), "{case}");
    assert!(list == draft, "{} of {case}", list.escape_ascii());
    assert_eq!(lengths_read(record), section_lengths(ends), "{case}");
}

/// Every record of a draft in 1 to 8 sections, by whatever split.
fn compare_every_split(draft: &[u8]) {
    for sections in 1..=MOST_SECTIONS {
        for ends in all_splits(draft, sections) {
            let record = folded_record(draft, &ends);
            assert_reads(&record, draft, &ends);
            compare(&record);
        }
    }
}

#[test]
fn every_split_over_two_letters_to_length_10() {
    every_draft_to(2, 10).for_each(|draft| compare_every_split(&draft));
}

#[test]
fn every_split_over_three_letters_to_length_7() {
    every_draft_to(3, 7).for_each(|draft| compare_every_split(&draft));
}

/// Folds prefix i in k on the board, and reads back what it wrote: the prefix, in the
/// sections of its split. "A record written from a draft's prefix unfolds to that
/// prefix."
fn assert_folds_and_unfolds(board: &mut Board, i: usize, k: usize) {
    let mut ends = vec![0; k];
    if board.split(i, k, &mut ends) == Err(9) {
        return;
    }
    let mut output = vec![BYTE; 8 + 7 * k + i];
    let count = board.folded_record(i, k, &mut output).unwrap();
    let ends: Vec<usize> = ends.into_iter().map(usize::from).collect();
    assert_reads(&output[..count], &board.letters()[..i], &ends);
}

#[test]
fn every_prefix_of_every_draft_that_the_board_folds() {
    for draft in [every_draft(2, 10), every_draft(3, 6)].concat() {
        let mut board = Board::fed(&draft, MOST_SECTIONS);
        for i in 1..=draft.len() {
            for k in 1..=MOST_SECTIONS {
                assert_folds_and_unfolds(&mut board, i, k);
            }
        }
    }
}

#[test]
fn prefixes_of_full_drafts_that_the_board_folds() {
    for (_, draft) in of_each_kind() {
        let mut board = Board::fed(&draft, MOST_SECTIONS);
        for i in (1..=MOST_PICKS).rev().step_by(73) {
            for k in 1..=MOST_SECTIONS {
                assert_folds_and_unfolds(&mut board, i, k);
            }
        }
    }
}

/// Records of 2,048 picks and near it in 1 to 8 sections.
fn long_records() -> Vec<Vec<u8>> {
    let generator = &mut Generator(210);
    let mut records = Vec::new();
    for sections in 1..=MOST_SECTIONS {
        for picks in [MOST_PICKS - 1, MOST_PICKS] {
            let lengths = random_lengths(generator, sections, picks);
            records.push(record_of(&fields_of(&lengths)));
            let mut lengths = vec![1; sections];
            lengths[generator.below(sections)] += picks - sections;
            records.push(record_of(&fields_of(&lengths)));
        }
    }
    records
}

#[test]
fn records_of_2048_picks() {
    for record in long_records() {
        compare(&record);
    }
}

/// Random records of any length between.
#[test]
fn random_records() {
    let generator = &mut Generator(211);
    for _ in 0..500 {
        let sections = 1 + generator.below(MOST_SECTIONS);
        let picks = sections + generator.below(300);
        let lengths = random_lengths(generator, sections, picks);
        compare(&record_of(&fields_of(&lengths)));
    }
}

/// 5: "a list too short", on both sides, and lists far longer than any record needs.
#[test]
fn number_5_on_both_sides() {
    for picks in [1, 2, 7, 8, 9, 255, 256, 257, MOST_PICKS] {
        let record = record_of(&fields_of(&[picks]));
        for entries in (0..=picks + 2).rev().step_by(1 + picks / 300) {
            compare_unfold(&record, entries);
        }
        for entries in [65_535, 65_536, 65_537, 70_000] {
            compare_unfold(&record, entries);
        }
    }
}

/// 12: lengths that add up to one less or one more than the picks, to more than any
/// draft has, or to the picks once the sum is cut to a byte; also with no entry.
#[test]
fn number_12_on_both_sides() {
    let most = [MOST_PICKS; MOST_SECTIONS];
    let lists: [&[usize]; 7] = [
        &[1],
        &[3, 4],
        &[1; 8],
        &[2_047],
        &[2_000, 48],
        &[2_048, 1],
        &most,
    ];
    for lengths in lists {
        let mut fields = fields_of(lengths);
        let sum: usize = lengths.iter().sum();
        for picks in [1, sum - 1, sum, sum + 1, sum % 256, MOST_PICKS] {
            fields[0] = picks.to_string();
            let record = record_of(&fields);
            compare_unfold(&record, 0);
            compare_unfold(&record, MOST_PICKS);
            compare_section(&record, 0);
        }
    }
}

/// Places far beyond the record, among them those that are 0 or a section's first byte
/// once they are cut to fewer bits; the last is 2^64 - 1.
#[test]
fn far_places() {
    for lengths in [[3, 4].as_slice(), &[1; 8], &[600]] {
        let record = record_of(&fields_of(lengths));
        for at in 0..record.len() {
            for bits in [8, 16, 31, 32, 63] {
                compare_section(&record, at + (1 << bits));
            }
            compare_section(&record, usize::MAX - at);
        }
    }
}
