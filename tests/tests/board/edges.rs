//! The library's board on document 01's "Drafts at the edges", all with K = 8, on the
//! turn counts of document 02, and the lifts. The numbers are the documents'; each call
//! is compared with the book too.

use comparison::beside::{Beside, BYTE, ENTRY};
use comparison::library::Board;
use comparison::scripted::{given, refused, Call};
use comparison::support::ending_examples::ENDINGS;
use comparison::support::turn_counts::TURN_COUNTS;
use comparison::{MOST_PICKS, MOST_SECTIONS, VISIT_ROOM};

/// The mask and the visits that the last feed of a draft gives, and its mask.
fn assert_mask_and_visits(draft: &str, mask: usize, visits: &[u16]) {
    let (&pick, before) = draft.as_bytes().split_last().unwrap();
    let mut run = Beside::fed(before, MOST_SECTIONS);
    let entries = VISIT_ROOM as u16;
    let (reply, list, _) = run.make_lent(Call::Feed { pick, entries });
    assert_eq!(reply, given([mask, visits.len()]), "{draft}");
    let mut expected = visits.to_vec();
    expected.resize(VISIT_ROOM, ENTRY);
    assert_eq!(list, expected, "{draft}");
    assert_mask(draft, mask);
}

/// The mask of the whole draft, from the call that gives the mask of a prefix.
fn assert_mask(draft: &str, mask: usize) {
    let mut run = Beside::fed(draft.as_bytes(), MOST_SECTIONS);
    let prefix = draft.len() as u16;
    let reply = run.make(Call::Mask { prefix });
    assert_eq!(reply, given([mask]), "{draft}");
}

/// The ends of the whole draft in k, and the turn count.
fn assert_split(draft: &str, k: u8, ends: &[u16], turns: usize) {
    let mut run = Beside::fed(draft.as_bytes(), MOST_SECTIONS);
    let (prefix, entries) = (draft.len() as u16, u16::from(k));
    let (reply, list, _) = run.make_lent(Call::Split { prefix, k, entries });
    assert_eq!(reply, given([turns]), "{draft} in {k}");
    assert_eq!(list, ends, "{draft} in {k}");
}

/// "Prefix 0 has mask 0 and no split; every k from 1 to 8 gives 9 on a list of k
/// entries."
#[test]
fn prefix_0() {
    for draft in ["", "A", "ABACDDC"] {
        let mut run = Beside::fed(draft.as_bytes(), MOST_SECTIONS);
        assert_eq!(run.make(Call::Mask { prefix: 0 }), given([0]), "{draft}");
        for k in 1..=8 {
            let entries = u16::from(k);
            let split = Call::Split {
                prefix: 0,
                k,
                entries,
            };
            let (reply, list, _) = run.make_lent(split);
            assert_eq!(reply, refused(9), "{draft}, k {k}");
            assert_eq!(list, vec![ENTRY; usize::from(k)], "{draft}, k {k}");
        }
    }
}

#[test]
fn runs_of_one_letter() {
    assert_mask_and_visits("A", 1, &[1]);
    assert_mask("AA", 3);
    assert_mask_and_visits("AAA", 7, &[3, 1]);
    assert_split("AAA", 2, &[1, 3], 1);
}

#[test]
fn alternating_letters() {
    assert_mask("AB", 2);
    assert_mask_and_visits("ABABAB", 42, &[5, 3, 1]);
    assert_mask_and_visits("ABABABA", 85, &[7, 3, 1]);
}

/// "ABACDDC has mask 122; in 2 its ends are 3, 7; it moved 10 half picks": the number
/// given, minus the 1 given on the empty draft.
#[test]
fn abacddc() {
    assert_mask("ABACDDC", 122);
    assert_split("ABACDDC", 2, &[3, 7], 2);
    assert_eq!(Board::started(8).longest_centre(), Ok(1));
    let mut run = Beside::fed(b"ABACDDC", MOST_SECTIONS);
    assert_eq!(run.make(Call::LongestCentre), given([1 + 10]));
}

/// "ABA splits in 1 and in 3, never in 2."
#[test]
fn aba() {
    assert_mask("ABA", 0b101);
    assert_split("ABA", 1, &[3], 1);
    assert_split("ABA", 3, &[1, 2, 3], 0);
    let mut board = Board::fed(b"ABA", MOST_SECTIONS);
    assert_eq!(board.split(3, 2, &mut [0; 2]), Err(9));
}

#[test]
fn turn_counts() {
    for (draft, k, ends, turns) in TURN_COUNTS {
        assert_split(draft, k, ends, turns);
    }
}

/// "AABACABAA has centre 10 with radius 4, centre 11 with radius 0 and centre 3 with
/// radius 1 (document 004, Example 3)": its endings have centres 10, 17, 18 and 19.
#[test]
fn aabacabaa_by_centre() {
    let mut run = Beside::fed(b"AABACABAA", MOST_SECTIONS);
    for (centre, radius) in [(10, 4), (11, 0), (3, 1), (1, 0), (19, 0)] {
        let reply = run.make(Call::Radius { centre });
        assert_eq!(reply, given([radius]), "centre {centre}");
    }
    assert_eq!(run.make(Call::LongestCentre), given([10]));
    for centre in 1..=19 {
        let expected = match centre {
            10 => given([17, 9, 7]),
            17 => given([18, 2, 1]),
            18 => given([19, 1, 1]),
            _ => refused(10),
        };
        let reply = run.make(Call::NextEnding { centre });
        assert_eq!(reply, expected, "centre {centre}");
    }
}

/// Every ending of the whole draft, from the longest on: its centre, and what the call
/// gives. Every other centre belongs to none, and gives 10.
fn assert_endings(draft: &str, endings: &[(usize, [usize; 3])]) {
    let mut run = Beside::fed(draft.as_bytes(), MOST_SECTIONS);
    for centre in 1..=2 * draft.len() as u16 + 1 {
        let told = endings.iter().find(|(at, _)| *at == centre.into());
        let expected = told.map_or(refused(10), |(_, values)| given(*values));
        let reply = run.make(Call::NextEnding { centre });
        assert_eq!(reply, expected, "{draft}, centre {centre}");
    }
}

/// Written out by hand: the next shorter ending's centre, the length, the least period.
#[test]
fn endings_with_length_and_period() {
    for (draft, endings) in ENDINGS {
        assert_endings(draft, endings);
    }
}

/// "The record of ABACDDC in 2 is `7,2,3,AB,4,CD` and byte 10, 14 bytes; 13 bytes of
/// output give 5."
#[test]
fn record_of_abacddc_in_2() {
    let mut board = Board::fed(b"ABACDDC", MOST_SECTIONS);
    let mut output = [BYTE; 20];
    assert_eq!(board.folded_record(7, 2, &mut output[..13]), Err(5));
    assert_eq!(output, [BYTE; 20]);
    assert_eq!(board.folded_record(7, 2, &mut output[..14]), Ok(14));
    assert_eq!(&output[..14], b"7,2,3,AB,4,CD\n");
    assert_eq!(board.folded_record(7, 2, &mut output), Ok(14));
    assert_eq!(output[14..], [BYTE; 6]);
}

/// "Pick 2,048 is taken, pick 2,049 gives 8. A list of 19 serves, 18 gives 3. Byte 64
/// and byte 91 give 2." Each refusal is tried before the pick that is taken.
#[test]
fn the_last_pick_the_visit_list_and_the_bytes_beside_the_letters() {
    let draft = [b'A'; MOST_PICKS - 1];
    let mut run = Beside::fed(&draft, MOST_SECTIONS);
    let feed = |pick, entries| Call::Feed { pick, entries };
    assert_eq!(run.make(feed(b'B', 18)), refused(3));
    assert_eq!(run.make(feed(64, 19)), refused(2));
    assert_eq!(run.make(feed(91, 19)), refused(2));
    assert_eq!(run.make(feed(b'B', 19)), given([254, 1]));
    assert_eq!(run.board.n(), 2_048);
    assert_eq!(run.make(feed(b'B', 19)), refused(8));
    assert_eq!(run.board.n(), 2_048);
}

/// "So A lifts 3 and Z lifts 96", and every one of the 256 bytes, on an empty draft and on
/// another.
#[test]
fn lifts_of_all_bytes() {
    for draft in ["", "ABACDDC"] {
        let mut run = Beside::fed(draft.as_bytes(), MOST_SECTIONS);
        assert_eq!(run.make(Call::Lift { letter: b'A' }), given([3]));
        assert_eq!(run.make(Call::Lift { letter: b'Z' }), given([96]));
        for letter in 0..=255 {
            let reply = run.make(Call::Lift { letter });
            let is_letter = (65..=90).contains(&letter);
            assert_eq!(reply == refused(2), !is_letter, "byte {letter}");
        }
    }
}
