//! The folded record read back by the comparison program: what it writes it reads, and
//! its two paths agree on which bytes are a record, and where others leave the layout.

use crate::support::fed::fed;
use comparison::calls::{self, section_at, unfold, State};
use comparison::fields::{fields, Fields};
use comparison::plain::{self, break_place, turn, unfolded, Turn};
use comparison::records::{fields_of, record_of};
use comparison::samples::{every_draft_to, repeated, Generator};
use comparison::{MOST_PICKS, MOST_SECTIONS};

/// The first and the last byte of each kind that a record has, and those beside them.
const BYTES: &[u8] = b"\x09\n\x0B+,-/019:@AZ[";

/// The record of a whole draft in k.
fn record(state: &State, k: usize) -> calls::Answer<Vec<u8>> {
    let mut output = vec![0; 2 * MOST_PICKS];
    let count = calls::folded_record(state, state.n, k, &mut output)?;
    output.truncate(count);
    Ok(output)
}

/// The picks that a record unfolds to, and the lengths of the sections that it yields
/// from place 0 on.
fn read_back(record: &[u8]) -> (Vec<u8>, Vec<usize>) {
    let mut picks = vec![0; MOST_PICKS];
    let count = unfold(record, &mut picks).unwrap();
    picks.truncate(count);
    let first = section_at(record, 0);
    let sections = std::iter::successors(first, |&(_, next)| section_at(record, next));
    (picks, sections.map(|(section, _)| section.length).collect())
}

#[test]
fn records_of_small_drafts_unfold_to_the_named_split() {
    for draft in every_draft_to(2, 8) {
        let state = fed(&draft, MOST_SECTIONS);
        for k in 1..=MOST_SECTIONS {
            let text = String::from_utf8_lossy(&draft);
            let record = record(&state, k);
            let Some(ends) = plain::named_split(&draft, k) else {
                assert_eq!(record, Err(9), "{text} in {k}");
                continue;
            };
            let lengths = plain::section_lengths(&ends);
            assert_eq!(read_back(&record.unwrap()), (draft.clone(), lengths));
        }
    }
}

#[test]
fn record_of_the_longest_draft_in_one_section() {
    let draft = repeated(b"A", MOST_PICKS);
    let record = record(&fed(&draft, MOST_SECTIONS), 1).unwrap();
    let mut expected = b"2048,1,2048,".to_vec();
    expected.extend(repeated(b"A", 1_024));
    expected.push(10);
    assert_eq!(record, expected);
    assert_eq!(record.len(), 1_037);
    assert_eq!(read_back(&record), (draft, vec![MOST_PICKS]));
}

/// A section is mirrored, and its first half is the one given; its turn has as many of
/// its picks before it as behind it.
#[test]
fn sections_and_turns_by_their_definitions() {
    let generator = &mut Generator(215);
    for length in 1..40_usize {
        let half = generator.draft(26, length.div_ceil(2));
        let section = unfolded(length, &half);
        assert_eq!(section.len(), length);
        assert!(plain::is_section(&section) && section.starts_with(&half));
        for first in 1..20 {
            let last = first + length - 1;
            let (before, behind) = match turn(first, last) {
                Turn::OnPick(pick) => (pick - first, last - pick),
                Turn::Between(pick) => (pick + 1 - first, last - pick),
            };
            assert_eq!(before, behind, "picks {first} to {last}");
        }
    }
}

/// The record that has these fields, each section at the place that it says.
fn written_back(fields: &Fields) -> Vec<u8> {
    let mut record = format!("{},{}", fields.picks, fields.sections.len());
    for section in &fields.sections {
        assert_eq!(section.at, record.len() + 1, "{record}");
        let half = String::from_utf8_lossy(section.half);
        record += &format!(",{},{half}", section.length);
    }
    (record + "\n").into_bytes()
}

/// Both paths on the same bytes: the same place, or fields that give the bytes back.
fn compare_paths(bytes: &[u8]) {
    let place = break_place(bytes);
    let case = bytes.escape_ascii();
    match fields(bytes) {
        Ok(fields) => {
            assert_eq!(place, None, "{case}");
            assert_eq!(written_back(&fields), bytes, "{case}");
        }
        Err(at) => assert_eq!(place, Some(at), "{case}"),
    }
}

/// The bytes with others in place of those from one place to another.
fn replaced(bytes: &[u8], from: usize, to: usize, others: &[u8]) -> Vec<u8> {
    [&bytes[..from], others, &bytes[to..]].concat()
}

#[test]
fn two_paths_on_records_with_one_byte_edited_and_cut_off() {
    for lengths in [[3, 4].as_slice(), &[1], &[10, 1], &[1; 3]] {
        let record = record_of(&fields_of(lengths));
        for at in 0..record.len() {
            compare_paths(&record[..at]);
            compare_paths(&replaced(&record, at, at + 1, b""));
            for &byte in BYTES {
                compare_paths(&replaced(&record, at, at, &[byte]));
                compare_paths(&replaced(&record, at, at + 1, &[byte]));
            }
        }
    }
}

/// Numbers of one to five digits, far beyond, and with leading zeros, in each field; the
/// record ends there, or goes on.
#[test]
fn two_paths_on_numbers_in_each_field() {
    let numbers = "0 1 2 7 8 9 10 11 20 80 99 204 205 999 1000 2047 2048 2049 2050 9999 20480 \
                   00 01 002 02048 18446744073709551617 99999999999999999999999999999999999999999";
    for before in ["", "7,", "7,2,", "7,2,3,AB,"] {
        for number in numbers.split(' ') {
            for behind in ["", ",", "x", "\n", ",8,A"] {
                compare_paths(format!("{before}{number}{behind}").as_bytes());
            }
        }
    }
}
