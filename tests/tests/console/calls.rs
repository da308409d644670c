//! Each call through the console, on both sides of each bound, against the console as a
//! function; the sessions that are written out say both.

use crate::support::refusals::refusals;
use comparison::samples::repeated;
use comparison::spoken::text_of;
use comparison::support::answered::{accepted, assert_all_accepted};
use comparison::support::console::{compare, compare_session};
use comparison::support::far_places::assert_far_are_not_cut;
use comparison::support::lines::load;
use comparison::support::mark_lines::{
    assert_every_count, assert_every_length, assert_every_name, assert_full_drafts,
};
use comparison::support::next_lines::assert_every_centre;
use comparison::support::turn_lines::assert_turn_counts;
use comparison::MOST_PICKS;

/// "Drafts at the edges", K = 8, with document 01's numbers.
#[test]
fn the_worked_examples() {
    compare_session(false, include_str!("sessions/worked_examples.txt"));
    compare_session(false, include_str!("sessions/folded_record.txt"));
}

/// Loads and lifts, and drafts that are mirrored by lifts alone, their numbers written out.
#[test]
fn the_mills_own_lifts() {
    for all in [false, true] {
        compare_session(all, include_str!("sessions/loads.txt"));
    }
    compare_session(false, include_str!("sessions/alike.txt"));
}

/// Marks and backs: what they store, which marks a back drops, the picks behind it, the
/// lifts that stay, a load behind a back to no pick; 17 and 18.
#[test]
fn marks() {
    compare_session(false, include_str!("sessions/marks.txt"));
}

/// Every byte as a name, and every number of marks.
#[test]
fn names_of_marks() {
    for all in [false, true] {
        assert_every_name(|input| compare(all, input));
        assert_every_count(|input| compare(all, input));
    }
}

/// From every length of a draft to every mark, and in full drafts.
#[test]
fn backs_to_every_length() {
    assert_every_length(|input| compare(false, input));
    assert_full_drafts(|input| compare(false, input));
}

/// "With `--all` the whole list or output is printed as it stands after every call."
#[test]
fn the_whole_of_what_is_lent() {
    compare_session(true, include_str!("sessions/whole_lists.txt"));
}

/// The numbers of each call in their order: feed 7, 2, 3, 8; split 7, 1, 13, 4, 9; record
/// 7, 1, 4, 9, 5; next shorter ending 7, 4, 10; mark 7, 2, 18; back 7, 2, 17; show 4, 6; the
/// others.
#[test]
fn the_order_of_numbers() {
    compare_session(false, include_str!("sessions/order_of_feed.txt"));
    compare_session(
        false,
        include_str!("sessions/order_of_split_and_record.txt"),
    );
    compare_session(false, include_str!("sessions/order_of_others.txt"));
    for all in [false, true] {
        compare_session(all, include_str!("sessions/order_of_marks.txt"));
    }
}

/// The next shorter ending's centre, and the length and the least period of the ending
/// given: a single pick, a run of one letter, endings of more than two periods, of exactly
/// two and of fewer; 7, 4 and 10 beside them.
#[test]
fn next_endings() {
    compare_session(false, include_str!("sessions/next_endings.txt"));
}

/// Tables of every length up to 60, and such as are 26 bytes where their count is cut to a
/// byte or two: 14, in its order. Every byte as a lift; a 0 at each place.
#[test]
fn tables_of_every_length() {
    let far = [26 + (1 << 8), (1 << 16) - 1, 1 << 16, 26 + (1 << 16)];
    let counts = (0..=60).chain(far).filter(|&count| count != 26);
    let loads: String = counts
        .map(|count| load(&vec![1; count]) + &load(&vec![0; count]))
        .collect();
    let answers = compare(false, format!("{loads}start 8\n{loads}feed A\n{loads}"));
    let given = [7, 14].map(|number| {
        let answer = format!("refused {number}");
        answers.iter().filter(|given| **given == answer).count()
    });
    assert_eq!(given, [128, 2 * 128], "7 before a start, then 14");
    let mut input = String::from("start 8\n");
    for byte in 0..=255 {
        input += &format!("{}lift A\nlift Z\n", load(&[byte; 26]));
    }
    for place in 0..26 {
        let mut table = [9; 26];
        table[place] = 0;
        input += &format!("{}lift A\n", load(&table));
    }
    let answers = compare(true, input);
    let zeros: Vec<&String> = answers
        .iter()
        .filter(|a| a.starts_with("refused"))
        .collect();
    let places = (0..1)
        .chain(0..26)
        .map(|place| format!("refused 15 {place}"));
    assert!(zeros.into_iter().eq(&Vec::from_iter(places)));
}

/// The line that feeds a draft.
fn feeds(draft: &[u8]) -> String {
    format!("picks {}\n", text_of(draft))
}

/// The same at every centre of many drafts.
#[test]
fn next_endings_at_every_centre() {
    assert_every_centre(feeds, |input| compare(false, input));
}

/// Sections of one pick, of two and of more; a list of k entries is printed alike with
/// `--all`.
#[test]
fn turn_counts() {
    for all in [false, true] {
        assert_turn_counts(feeds, |input| compare(all, input));
    }
}

/// Pick 2,048 is taken. Behind it each number of a feed in its order.
#[test]
fn a_full_draft() {
    let picks = "A".repeat(MOST_PICKS);
    let feeds = "feed a 18\nfeed A 18\nfeed A\nfeed A 19\n";
    let answers = compare(false, format!("start 1\npicks {picks}\n{feeds}"));
    assert_eq!(answers[MOST_PICKS], "ok 1 2 | 2048 1", "pick 2,048");
    let last = ["refused 2", "refused 3", "refused 8", "refused 8"];
    assert_eq!(answers[MOST_PICKS + 1..], last);
}

/// Each argument on both sides of its bounds, with `--all` and without.
#[test]
fn both_sides_of_each_bound() {
    let mut input = String::from("start 8\npicks ABACDDC\n");
    for at in 0..=17 {
        input += &format!("feed A {at}\n");
        input += &format!("mask {at}\nradius {at}\nnext {at}\nsplit {at} 2\nsplit 7 {at}\n");
        input += &format!("split 7 5 {at}\nrecord {at} 2\nrecord 7 {at}\nrecord 7 2 {at}\n");
        input += &format!("show ABACDDC {at} 3 7\nshow ABACDDC 2 {at} 7\nshow ABACDDC 1 3 {at}\n");
    }
    for k in 0..=256 {
        input += &format!("start {k}\nfeed 65\nmask 1\nsplit 1 2\nrecord 1 3\n");
    }
    for all in [false, true] {
        let times = refusals(&compare(all, &input));
        let given = [1, 3, 4, 5, 6, 9, 10, 13].map(|number| times[number] > 0);
        assert_eq!(given, [true; 8], "numbers among the answers: {times:?}");
    }
}

/// Numbers, every byte and beyond it, bytes, and characters of several bytes.
fn characters() -> impl Iterator<Item = Vec<u8>> {
    let numbers = (0..=300).map(|number: usize| number.to_string().into_bytes());
    let bytes = (0..=255).filter(|byte| !b" \t\r\n".contains(byte));
    let characters = ["\u{e9}", "\u{3bb}", "\u{1f9f5}", "\u{c1}", "\u{141}"];
    numbers
        .chain(bytes.map(|byte| vec![byte]))
        .chain(characters.map(|character| character.as_bytes().to_vec()))
}

/// Names as numbers, as bytes and as characters: those of letters are set and gone back to,
/// each by itself.
#[test]
fn names_as_numbers_and_as_characters() {
    let mut input = Vec::new();
    for word in characters() {
        input.extend([b"start 3\nmark ", &word[..], b"\nback ", &word, b"\n"].concat());
    }
    let answers = compare(false, input);
    let count = characters().count();
    let taken = answers.iter().filter(|answer| *answer == "ok");
    assert_eq!(taken.count(), count + 4 * 26, "letters among them");
    let refused = answers.iter().filter(|answer| *answer == "refused 2");
    assert_eq!(refused.count(), 2 * (count - 2 * 26), "the others");
    compare_session(false, include_str!("sessions/names.txt"));
}

/// Picks and letters in the same ways.
#[test]
fn picks_as_numbers_and_as_characters() {
    let mut input = b"start 3\n".to_vec();
    for word in characters() {
        input.extend([b"feed ", &word[..], b"\nlift ", &word, b"\n"].concat());
    }
    let answers = compare(false, input);
    assert_eq!(accepted(&answers), 1 + 4 * 26, "letters among them");
    compare_session(false, include_str!("sessions/picks.txt"));
}

/// Numbers beyond a byte, two bytes, four and eight, which are this number where they are
/// cut, and numbers of 21 and of 40 digits.
fn far(number: u128) -> Vec<String> {
    let beyond = [8, 16, 17, 32, 64, 65].map(|bits| (1 << bits) + number);
    let decimal = [10_u128.pow(20), 10_u128.pow(38)].map(|bound| bound + number);
    let numbers = beyond.into_iter().chain(decimal);
    let of_40_digits = format!("1{number:039}");
    numbers
        .map(|number| number.to_string())
        .chain([of_40_digits])
        .collect()
}

/// "An argument that the script's field can't hold goes in as the field's largest number,
/// never cut, so that the call itself refuses, in its order."
#[test]
fn arguments_beyond_their_fields() {
    for all in [false, true] {
        assert_far_are_not_cut("start 8\npicks ABACDDC\n", far, |input| compare(all, input));
    }
}

/// How much is lent: none, too little, enough, and far more than there are entries.
#[test]
fn sizes_of_what_is_lent() {
    let mut input = String::from("start 8\npicks ABACDD\n");
    for size in "0 1 4 5 18 19 23 24 65535 65536 100000000000000000000".split(' ') {
        input += &format!("feed C {size}\nsplit 6 5 {size}\nrecord 6 5 {size}\n");
    }
    for all in [false, true] {
        let answers = &compare(all, &input)[7..];
        let [feeds, splits, records] = [0, 1, 2].map(|call| {
            let answers = answers.iter().skip(call).step_by(3);
            answers.filter(|answer| answer.starts_with("ok")).count()
        });
        assert_eq!(feeds, 6, "feeds with a list of 19 and more");
        assert_eq!(splits, 8, "splits with one of 5 and more");
        assert_eq!(records, 4, "records with an output of 24 and more");
    }
}

/// Sizes beyond 65,535, which would be 0 where they are cut.
#[test]
fn sizes_beyond_their_fields() {
    let mut input = String::from("start 8\npicks ABACDDC\n");
    for far in far(0) {
        input += &format!("split 7 2 {far}\nrecord 7 2 {far}\nfeed A {far}\n");
        input += &format!("unfold 7,2,3,AB,4,CD\\n {far}\n");
    }
    assert_all_accepted(&compare(false, input), "sizes beyond 65,535");
}

/// Outputs of a byte too few, exactly enough, and more, for each k of a draft.
#[test]
fn sizes_of_outputs() {
    let draft = String::from_utf8(repeated(b"AAB", 40)).expect("letters");
    let mut input = format!("start 8\npicks {draft}\n");
    for k in 1..=8 {
        for bytes in 20..80 {
            input += &format!("record 39 {k} {bytes}\n");
        }
        input += &format!("record 39 {k}\n");
    }
    for all in [false, true] {
        let times = refusals(&compare(all, &input));
        assert!(times[5] > 60, "outputs that are too short: {}", times[5]);
    }
}
