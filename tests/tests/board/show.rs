//! The library's show and its companion, which are given no state.

use comparison::beside::BYTE;
use comparison::calls;
use comparison::library::show;
use comparison::samples::Generator;
use comparison::support::bad_ends::BAD_ENDS;

/// Shows a section and compares the number, the length and the bytes with the
/// comparison program's: the part, and a byte past it that is kept.
fn compare_show(letters: &[u8], ends: &[u16], s: usize) {
    let case = format!("letters {letters:?}, ends {ends:?}, s {s}");
    let number = calls::show_number(letters, ends, s);
    let expected = calls::show(letters, ends, s);
    let mut part = vec![BYTE; letters.len() + 1];
    let given = show(letters, ends, s, &mut part);
    assert_eq!(given, (number, expected.len()), "{case}");
    let (front, rest) = part.split_at(expected.len());
    assert_eq!(front, expected, "{case}");
    assert!(rest.iter().all(|&byte| byte == BYTE), "{part:?}, {case}");
}

/// Every list of ends to length 4 with entries up to one above the letters, for 0 to
/// 4 letters, and every s from 0 to one above the number of ends.
#[test]
fn every_short_list_of_ends() {
    let letters = b"WXYZ";
    for length in 0..=letters.len() {
        for count in 0..=4 {
            for ends in every_list(count, length as u16 + 1) {
                for s in 0..=count + 1 {
                    compare_show(&letters[..length], &ends, s);
                }
            }
        }
    }
}

/// Every list of so many entries from 0 to the given one.
fn every_list(count: usize, most: u16) -> Vec<Vec<u16>> {
    (0..count).fold(vec![Vec::new()], |lists, _| {
        let longer = |list: &Vec<u16>, end| [list.as_slice(), &[end]].concat();
        let with_each = |list| (0..=most).map(move |end| longer(list, end));
        lists.iter().flat_map(with_each).collect()
    })
}

/// The package hands back that part of the letters itself: where all letters are alike only
/// the address tells which section it is.
#[test]
fn the_part_stands_where_its_section_does() {
    let letters = [b'A'; 6];
    let second = board::show(&letters[..4], &[2, 4], 2).expect("section 2");
    assert_eq!(second.as_ptr_range(), letters[2..4].as_ptr_range());
    let mut shown = 0;
    for count in 1..=4 {
        for ends in every_list(count, 6) {
            for s in 1..=count {
                let expected = calls::show(&letters, &ends, s);
                if let Ok(part) = board::show(&letters, &ends, s) {
                    let (part, expected) = (part.as_ptr_range(), expected.as_ptr_range());
                    assert_eq!(part, expected, "ends {ends:?}, s {s}");
                    shown += 1;
                }
            }
        }
    }
    assert_eq!(shown, 1 + 2 * 5 + 3 * 10 + 4 * 10, "sections of 6 letters");
}

/// 4: s of 0 and 1, the count and one above it, and the greatest number.
#[test]
fn number_4() {
    for (s, number, part) in [(0, 4, ""), (1, 0, "AB"), (2, 0, "A"), (3, 4, "")] {
        let mut shown = vec![BYTE; part.len()];
        let given = show(b"ABA", &[2, 3], s, &mut shown);
        assert_eq!(given, (number, part.len()), "s {s}");
        assert_eq!(shown, part.as_bytes(), "s {s}");
    }
    for s in [usize::MAX, 1 << 16, (1 << 32) + 1] {
        assert_eq!(show(b"ABA", &[2, 3], s, &mut []), (4, 0), "s {s}");
    }
    for s in [0, 1, usize::MAX] {
        assert_eq!(show(b"", &[], s, &mut []), (4, 0), "no ends, s {s}");
    }
}

/// 6: ends that do not rise strictly from above 0 to the number of letters.
#[test]
fn number_6() {
    for ends in BAD_ENDS {
        for s in 1..=ends.len() {
            let given = show(b"ABCD", ends, s, &mut []);
            assert_eq!(given, (6, 0), "ends {ends:?}, s {s}");
        }
    }
    assert_eq!(show(b"", &[0], 1, &mut []), (6, 0), "no letters");
}

/// Letters of any bytes, more sections than eight, and lists that rise or nearly.
#[test]
fn random_letters_and_ends() {
    let generator = &mut Generator(77);
    for _ in 0..20_000 {
        let length = generator.below(60);
        let letters: Vec<u8> = (0..length).map(|_| generator.below(256) as u8).collect();
        let mut ends: Vec<u16> = (0..=length as u16)
            .filter(|_| generator.below(3) == 0)
            .collect();
        ends.push(length as u16);
        if generator.below(4) > 0 {
            ends.retain(|&end| end > 0);
            ends.dedup();
        }
        let s = generator.below(ends.len() + 2);
        compare_show(&letters, &ends, s);
    }
}

/// As many letters as an end can name, and more: a section of them is shown whole.
#[test]
fn as_many_letters_as_an_end_can_name() {
    let letters = Generator(78).draft(26, 65_540);
    compare_show(&letters[..65_535], &[65_535], 1);
    compare_show(&letters[..65_535], &[1, 65_535], 2);
    compare_show(&letters[..65_536], &[65_535], 1);
    compare_show(&letters, &[4], 1);
    compare_show(&letters[..65_536], &[0], 1);
}

/// A part that is longer than the room for it is copied as far as it fits; its length
/// is that of the part.
#[test]
fn less_room_than_the_part() {
    for room in 0..=5 {
        let mut part = vec![BYTE; room];
        let given = show(b"ABCDEF", &[1, 6], 2, &mut part);
        assert_eq!(given, (0, 5), "room {room}");
        assert_eq!(part, b"BCDEF"[..room], "room {room}");
    }
}
