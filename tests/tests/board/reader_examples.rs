//! The library's reading of records: worked examples with their numbers.

use comparison::beside::BYTE;
use comparison::calls::Section;
use comparison::library::{section_at, unfold, Board};
use comparison::plain::Turn;

/// ABACDDC in 2.
const RECORD: &[u8] = b"7,2,3,AB,4,CD\n";

/// What is not of the layout, and the first place at which it is not: number 11.
const PLACES: [(&[u8], usize); 40] = [
    // an early end, at the record's length
    (b"", 0),
    (b"204", 3),
    (b"7,2,3,AB,4,C", 12),
    (b"7,2,3,AB,4,CD", 13),
    // a number outside its range, at its first byte, whatever follows
    (b"0,1", 0),
    (b"2049", 0),
    (b"2049x", 0),
    (b"20480,1,", 0),
    (b"7,9,3,AB", 2),
    (b"7,11,", 2),
    (b"7,12,", 2),
    (b"7,2,0,", 4),
    (b"7,2,2050,", 4),
    (b"7,2,99999999999999999999999999,", 4),
    (b"7,2,18446744073709551619,AB,4,CD\n", 4),
    (b"7,2,3,AB,2049,CD\n", 9),
    // a leading zero, the same
    (b"07,2,3,AB,4,CD\n", 0),
    (b"7,02", 2),
    (b"7,2,03,AB,4,CD\n", 4),
    // no number where one is due
    (b",2,3,AB,4,CD\n", 0),
    (b"7,,3", 2),
    (b"7,2,,AB,4,CD\n", 4),
    (b"\n", 0),
    // another byte behind a number
    (b"7x", 1),
    (b"7\n", 1),
    (b"7,2\n", 3),
    (b"7,2,3\n", 5),
    // another byte where a letter is due
    (b"7,2,3,A,4,CD\n", 7),
    (b"7,2,3,A1", 7),
    (b"7,2,3,a", 6),
    (b"7,2,3,12", 6),
    // another byte behind a half
    (b"7,2,3,ABC,4,CD\n", 8),
    (b"7,2,3,AB4", 8),
    (b"7,2,3,AB\n", 8),
    (b"7,2,3,AB,4,CD,1,A\n", 13),
    (b"7,2,3,AB,4,CD\r\n", 13),
    // something behind the end of the line
    (b"7,2,3,AB,4,CD\n\n", 14),
    (b"7,2,3,AB,4,CD\n7,1,7,ABAC\n", 14),
    // the same where lengths are beyond the picks: 11 comes before 12
    (b"3,2,4,AB,", 9),
    (b"3,2,4,AB,x", 9),
];

/// Of the layout, but the lengths do not add up to the picks: number 12.
const SUMS: [&[u8]; 4] = [
    b"6,2,3,AB,4,CD\n",
    b"8,2,3,AB,4,CD\n",
    b"7,1,3,AB\n",
    b"1,8,1,A,1,B,1,C,1,D,1,E,1,F,1,G,1,H\n",
];

/// A section of this length that turns here.
fn section(length: usize, turn: Turn) -> Section {
    Section { length, turn }
}

#[test]
fn the_picks_of_a_record() {
    let mut list = [BYTE; 9];
    assert_eq!(unfold(RECORD, &mut list), Ok(7));
    assert_eq!(&list[..7], b"ABACDDC");
    assert_eq!(list[7..], [BYTE; 2]);
    assert_eq!(unfold(RECORD, &mut list[..7]), Ok(7));
}

/// The split named has the longest last section; a record by the other unfolds as well.
#[test]
fn a_split_that_is_not_the_longest_last_one() {
    for record in [b"3,2,1,A,2,A\n", b"3,2,2,A,1,A\n"] {
        let mut list = [BYTE; 3];
        assert_eq!(unfold(record, &mut list), Ok(3));
        assert_eq!(&list, b"AAA");
    }
}

#[test]
fn number_11_and_its_place() {
    for (record, place) in PLACES {
        let case = record.escape_ascii();
        let mut list = [BYTE; 16];
        let answer = unfold(record, &mut list);
        assert_eq!(answer, Err((11, Some(place))), "{case}");
        assert_eq!(list, [BYTE; 16], "{case}");
        assert_eq!(unfold(record, &mut []), answer, "{case}, no entry");
    }
}

#[test]
fn number_12_has_no_place() {
    for record in SUMS {
        let case = record.escape_ascii();
        let mut list = [BYTE; 16];
        assert_eq!(unfold(record, &mut list), Err((12, None)), "{case}");
        assert_eq!(list, [BYTE; 16], "{case}");
        assert_eq!(unfold(record, &mut []), Err((12, None)), "{case}");
    }
}

#[test]
fn number_5_for_a_list_too_short() {
    for entries in 0..7 {
        let mut list = vec![BYTE; entries];
        let answer = unfold(RECORD, &mut list);
        assert_eq!(answer, Err((5, None)), "{entries} entries");
        assert_eq!(list, vec![BYTE; entries]);
    }
}

/// The first section turns on pick 2, the second between picks 5 and 6.
#[test]
fn the_sections_of_a_record() {
    let first = section(3, Turn::OnPick(2));
    let second = section(4, Turn::Between(5));
    for at in 0..20 {
        let expected = match at {
            0 | 4 => Some((first, 9)),
            9 => Some((second, 14)),
            _ => None,
        };
        assert_eq!(section_at(RECORD, at), expected, "at {at}");
    }
}

/// "A section read from a record still names its middle": AAA in 2 has one turn, and its
/// first section, of one pick, is yielded as turning on that pick.
#[test]
fn a_section_of_one_pick_names_its_middle() {
    let mut board = Board::fed(b"AAA", 8);
    assert_eq!(board.split(3, 2, &mut [0; 2]), Ok(1));
    let mut record = [BYTE; 12];
    assert_eq!(board.folded_record(3, 2, &mut record), Ok(12));
    assert_eq!(&record, b"3,2,1,A,2,A\n");
    let first = section(1, Turn::OnPick(1));
    let second = section(2, Turn::Between(2));
    assert_eq!(section_at(&record, 0), Some((first, 8)));
    assert_eq!(section_at(&record, 8), Some((second, 12)));
    assert_eq!(section_at(&record, 12), None);
}

#[test]
fn no_section_of_a_record_that_11_or_12_refuses() {
    let refused = PLACES.map(|(record, _)| record);
    for record in refused.into_iter().chain(SUMS) {
        for at in 0..record.len() + 3 {
            let case = format!("{} at {at}", record.escape_ascii());
            assert_eq!(section_at(record, at), None, "{case}");
        }
    }
}
