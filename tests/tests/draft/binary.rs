//! The draft program's executable against the draft program as a function: what it
//! prints.

use comparison::draft::run;
use comparison::samples::{fibonacci, repeated, Generator};
use comparison::support::draft_process::printed_on;
use comparison::MOST_PICKS;

/// Runs the program on the input; it prints what the function prints.
fn compare(input: &[u8]) -> String {
    let text = String::from_utf8_lossy(input);
    let expected = String::from_utf8(run(input).output).expect("plain text");
    let case = format!("input {text:?}");
    let printed = printed_on(input, &case);
    assert_eq!(printed, expected, "{case}");
    printed
}

/// The lines are document 01's.
#[test]
fn the_worked_example() {
    let expected = "picks,mask,visits,longest\n\
                    1,1,1,1\n2,2,1,1\n3,5,2,3\n4,10,2,3\n5,21,3,5\n6,42,3,5\n7,85,3,7\n";
    assert_eq!(compare(b"8\nABABABA\n"), expected);
    assert_eq!(compare(b"8\nABABABA"), expected);
    assert_eq!(compare(b"8\nABABABA\nABA\n"), expected);
}

/// No pick, closed by byte 10 or by the end.
#[test]
fn no_picks() {
    for input in [&b"8\n"[..], b"8\n\n", b"1\n\nABC?"] {
        assert_eq!(compare(input), "picks,mask,visits,longest\n");
    }
}

/// "A first line that is not one digit 1 to 8 followed by byte 10 is number 1 at place
/// 0": every first byte, and every second byte.
#[test]
fn first_lines() {
    let refused = "picks,mask,visits,longest\nrefused,1,0\n";
    for byte in 0..=255 {
        let is_digit = (b'1'..=b'8').contains(&byte);
        let printed = compare(&[byte, 10, b'A', 10]);
        assert_eq!(printed == refused, !is_digit, "first byte {byte}");
        let printed = compare(&[b'8', byte, b'A', 10]);
        assert_eq!(printed == refused, byte != 10, "second byte {byte}");
    }
    for input in [
        "", "8", "0", "9", "88\nA\n", "8 \n", "+8\n", "08\n", "8\r\nA\n",
    ] {
        assert_eq!(compare(input.as_bytes()), refused, "{input:?}");
    }
}

/// Number 2 and the byte's place from 0; nothing is printed after it.
#[test]
fn refused_picks() {
    for (input, last_line) in [
        ("8\na\n", "refused,2,2\n"),
        ("8\nA@A\n", "1,1,1,1\nrefused,2,3\n"),
        ("8\nAB[BA\n", "2,2,1,1\nrefused,2,4\n"),
        ("8\nA\r\n", "1,1,1,1\nrefused,2,3\n"),
        ("8\nA A\n", "1,1,1,1\nrefused,2,3\n"),
        ("3\nABA8\n", "3,5,2,3\nrefused,2,5\n"),
    ] {
        assert!(compare(input.as_bytes()).ends_with(last_line), "{input:?}");
    }
    for byte in (0..=255).filter(|&byte| byte != 10) {
        compare(&[b'2', 10, b'A', byte, b'A', 10]);
    }
}

/// Pick 2,048 is taken; another letter after it is number 8, a byte that is no letter
/// number 2, and byte 10 the end.
#[test]
fn full_drafts() {
    let drafts = [
        repeated(b"A", MOST_PICKS),
        repeated(b"ABC", MOST_PICKS),
        fibonacci(MOST_PICKS),
        Generator(2).draft(2, MOST_PICKS),
    ];
    for draft in drafts {
        let full = [b"8\n", draft.as_slice()].concat();
        let lines = compare(&full);
        assert_eq!(lines.lines().count(), 1 + MOST_PICKS);
        for (more, last) in [
            ("\n", ""),
            ("A", "refused,8,2050\n"),
            ("a", "refused,2,2050\n"),
        ] {
            let printed = compare(&[full.as_slice(), more.as_bytes()].concat());
            assert_eq!(printed, format!("{lines}{last}"), "{more:?} after 2,048");
        }
    }
}

/// Random drafts for each K, some with a byte that is no letter, some not closed.
#[test]
fn random_inputs() {
    let generator = &mut Generator(15);
    for _ in 0..200 {
        let length = generator.below(120);
        let letters = [1, 2, 3, 26][generator.below(4)];
        let mut input = vec![b'1' + generator.below(8) as u8, 10];
        input.extend(generator.draft(letters, length));
        if generator.below(3) == 0 {
            let at = generator.below(input.len());
            input[at] = generator.below(256) as u8;
        }
        if generator.below(2) == 0 {
            input.extend(b"\nAB");
        }
        compare(&input);
    }
}
