//! The lines of the console: those that are no call, blanks, texts and the end.

use comparison::spoken::WORDS;
use comparison::support::answered::assert_all_accepted;
use comparison::support::console::{compare, compare_session};

/// Asserts that each line is no call, and that the console goes on behind it.
fn assert_no_calls<'a>(lines: impl IntoIterator<Item = &'a str>) {
    let lines: Vec<&str> = lines.into_iter().collect();
    let input = lines.iter().map(|line| format!("{line}\nnumbers\n"));
    let input = format!("start 4\nfeed A\n{}", input.collect::<String>());
    let answers = compare(false, input);
    for (line, pair) in lines.iter().zip(answers[2..].chunks(2)) {
        assert!(pair[0].starts_with("unknown "), "{line:?}: {}", pair[0]);
        assert_eq!(pair[1], "ok 1 4 2", "behind {line:?}");
    }
}

/// Each kind of line that is no call, and lines with no word or with bytes that are no
/// blanks.
#[test]
fn lines_that_are_no_call() {
    assert_no_calls(include_str!("sessions/no_calls.txt").lines());
    assert_no_calls(["", " ", "\t", "\r", " \t\r ", "\0", "longest\0", "\u{7f}"]);
    assert_no_calls(["\u{e9}", "longest\u{a0}", "\u{a0}longest", "longest\u{b}"]);
}

/// The lines with each of these words in the place of N.
fn assert_no_calls_with(places: &[&str], words: &[&str]) {
    for place in places {
        let lines: Vec<String> = words.iter().map(|word| place.replace('N', word)).collect();
        assert_no_calls(lines.iter().map(String::as_str));
    }
}

/// Every place of a number.
const NUMBERS: [&str; 26] = [
    "start N",
    "load N",
    "load 1 N 3",
    "feed A N",
    "mask N",
    "radius N",
    "next N",
    "split N 1",
    "split 1 N",
    "split 1 1 N",
    "record N 1",
    "record 1 N",
    "record 1 1 N",
    "show A N 1",
    "show A 1 N",
    "show AB 1 1 N",
    r"unfold 1,1,1,A\n N",
    r"section 1,1,1,A\n N",
    "numbers N 1 1",
    "numbers 1 N 1",
    "numbers 1 1 N",
    "poke rows N 1",
    "poke rows 1 N",
    "poke marks 1 N",
    "peek marks N",
    "peek rows N",
];

/// A word that is no number, in each place where one is due.
#[test]
fn words_that_are_no_numbers() {
    let words = "-1 +1 1x x1 A 0x1 1.0 1,000 1_000 - '1' \u{663} 1\u{e9}";
    let words: Vec<&str> = words.split(' ').collect();
    assert_no_calls_with(&NUMBERS, &words);
}

/// Ends and values beyond 16 bits, lifts beyond a byte, indexes beyond a machine word, numbers
/// beyond it.
#[test]
fn numbers_beyond_their_types() {
    let lifts = [
        "load N",
        "load N 1",
        "load 1 1 1 1 1 1 1 1 1 1 1 1 1 1 1 1 1 1 1 1 1 1 1 1 1 N",
        "poke lifts 0 N",
        "poke codes 0 N",
    ];
    assert_no_calls_with(&lifts, &["256", "257", "511", "65537"]);
    let ends = ["show A 1 N", "show A 1 N 1", "show AB 1 1 N"];
    let values = [
        "poke letters 0 N",
        "poke rows 0 N",
        "poke marks 0 N",
        "peek rows N",
        "poke rows N 0",
    ];
    let beyond_16_bits = ["65536", "65537", "131072", "4294967297"];
    let beyond_a_word = [
        "18446744073709551616",
        "1000000000000000000000000000000000000001",
    ];
    for far in [&beyond_16_bits[..], &beyond_a_word] {
        assert_no_calls_with(&ends, far);
        assert_no_calls_with(&values, far);
        assert_no_calls_with(&lifts, far);
    }
    assert_no_calls_with(
        &["numbers N 1 1", "numbers 1 N 1", "numbers 1 1 N"],
        &beyond_a_word,
    );
}

/// Spaces, tabs and carriage returns before, between and behind the words.
#[test]
fn blanks() {
    let lines = [
        "  start 8",
        "\tstart\t8\t",
        "start 8\r",
        " \t\r start \r\t 8 \r\t ",
        "\rfeed\rA\r19\r",
        "longest   ",
        "picks\t\tAB\r",
        "show  AB\t1 \r 1  2",
    ];
    let answers = compare(true, lines.join("\n"));
    assert_all_accepted(&answers, "blanks");
    assert_eq!(answers.last().map(String::as_str), Some("ok | A"));
}

/// Each byte as an escape, with digits of either case: it is printed as itself, or as an
/// escape where it is a blank, a backslash or can't be printed.
#[test]
fn every_byte_of_a_text() {
    let mut session = String::new();
    for byte in 0..=255 {
        let printed = match byte {
            10 => r"\n".to_string(),
            33..=91 | 93..=126 => char::from(byte).to_string(),
            _ => format!(r"\x{byte:02X}"),
        };
        let alone = if byte == 45 { r"\x2D" } else { &printed };
        session += &format!("> show \\x{byte:02X} 1 1\nok | {alone}\n");
        session += &format!("> show \\x{byte:02x} 1 1\nok | {alone}\n");
        session += &format!("> show A\\x{byte:02X}B 1 3\nok | A{printed}B\n");
        session += &format!("> show \\x{byte:02x}- 1 2\nok | {printed}-\n");
    }
    compare_session(false, &session);
    compare_session(false, include_str!("sessions/texts.txt"));
}

/// "In LETTERS every byte but a backslash stands for itself, raw bytes above 126 too."
#[test]
fn raw_bytes_of_a_text() {
    let raw: Vec<u8> = (0..=255)
        .filter(|byte| !b" \t\r\n\\".contains(byte))
        .collect();
    let mut input = Vec::new();
    for &byte in &raw {
        input.extend([b"show A", &[byte][..], b" 1 2\n"].concat());
        input.extend([b"show ", &[byte, byte][..], b" 2 1 2\n"].concat());
    }
    let answers = compare(false, input);
    assert_eq!(answers.len(), 2 * raw.len());
    let good = answers.iter().all(|answer| answer.starts_with("ok | "));
    assert!(good, "{answers:?}");
    let answers = compare(false, [b"start 2\npicks A", &raw[..]].concat());
    let refused = answers.iter().filter(|answer| *answer == "refused 2");
    assert_eq!(refused.count(), raw.len() - 26, "bytes that are no letter");
}

/// No letters, and the letter `-`.
#[test]
fn no_letters() {
    compare_session(true, include_str!("sessions/no_letters.txt"));
    let answers = compare(
        false,
        "start 1\npicks \\x2D\npicks --\npicks A-A\nnumbers\n",
    );
    let [taken, second] = ["ok 1 1 | 1", "ok 1 2 | 2 1"];
    let no = "refused 2";
    assert_eq!(answers, ["ok", no, no, no, taken, no, second, "ok 2 1 3"]);
}

/// The end of the input, with and without byte 10 before it, and `quit`.
#[test]
fn ends() {
    assert_eq!(compare(false, ""), [""; 0]);
    assert_eq!(compare(false, "start 8"), ["ok"]);
    assert_eq!(compare(false, "start 8\nfeed A"), ["ok", "ok 1 1 | 1"]);
    assert_eq!(compare(false, "start 8\nfeed A\r"), ["ok", "ok 1 1 | 1"]);
    assert_eq!(compare(false, "start 8\nquit\nfeed A\n"), ["ok", "ok"]);
    assert_eq!(compare(true, " quit \r\nquit\n"), ["ok"]);
    assert_eq!(compare(true, "start 8\nquit"), ["ok", "ok"]);
    assert_eq!(compare(false, "\n\n").len(), 2);
    assert_eq!(compare(false, "\n \nlongest\n \n").len(), 4);
}

/// `help` is one line that names each call.
#[test]
fn help() {
    let answers = compare(false, "help\nstart 8\nhelp\n");
    assert_eq!(answers.len(), 3);
    assert_eq!(answers[0], answers[2]);
    for word in WORDS {
        assert!(answers[0].contains(word), "{word} in {}", answers[0]);
    }
}
