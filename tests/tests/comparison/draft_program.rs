//! The draft program as a function from input bytes to output bytes.

use comparison::draft::{run, Run};
use comparison::fast::Fast;
use comparison::samples::{repeated, Generator};
use comparison::{plain, MOST_PICKS};

/// The output after the header, and the number of input bytes read.
fn after_header(input: &[u8]) -> (String, usize) {
    let Run { output, read } = run(input);
    let text = String::from_utf8(output).unwrap();
    let lines = text.strip_prefix("picks,mask,visits,longest\n").unwrap();
    (lines.to_string(), read)
}

fn assert_run(input: &[u8], lines: &str, read: usize) {
    let given = after_header(input);
    let input = String::from_utf8_lossy(input);
    assert_eq!(given, (lines.to_string(), read), "{input:?}");
}

#[test]
fn the_worked_example() {
    let expected = "picks,mask,visits,longest\n\
                    1,1,1,1\n2,2,1,1\n3,5,2,3\n4,10,2,3\n5,21,3,5\n6,42,3,5\n7,85,3,7\n";
    let given = run(b"8\nABABABA\n");
    assert_eq!(String::from_utf8(given.output).unwrap(), expected);
    assert_eq!(given.read, 10);
    let without_line_end = run(b"8\nABABABA");
    assert_eq!(
        String::from_utf8(without_line_end.output).unwrap(),
        expected
    );
    assert_eq!(without_line_end.read, 9);
}

#[test]
fn it_stops_at_the_line_end_or_the_end() {
    assert_run(b"8\n", "", 2);
    assert_run(b"8\n\n", "", 3);
    assert_run(b"8\n\nABC?", "", 3);
    assert_run(b"1\nAA\nAA\n?", "1,1,1,1\n2,1,2,2\n", 5);
}

#[test]
fn first_lines_that_are_not_a_digit_and_a_line_end() {
    let inputs: [(&[u8], usize); 12] = [
        (b"", 0),
        (b"0\nA\n", 1),
        (b"9\nA\n", 1),
        (b"\nA\n", 1),
        (b"A\n", 1),
        (b" 8\n", 1),
        (b"-1\n", 1),
        (b"8", 1),
        (b"88\nA\n", 2),
        (b"8A\n", 2),
        (b"8\r\nA\n", 2),
        (b"1 \n", 2),
    ];
    for (input, read) in inputs {
        assert_run(input, "refused,1,0\n", read);
    }
    for digit in b'1'..=b'8' {
        assert_run(&[digit, 10, b'A'], "1,1,1,1\n", 3);
    }
}

#[test]
fn refused_picks_with_their_places() {
    assert_run(b"8\na\n", "refused,2,2\n", 3);
    assert_run(b"8\nA@A\n", "1,1,1,1\nrefused,2,3\n", 4);
    assert_run(b"8\nAB[\n", "1,1,1,1\n2,2,1,1\nrefused,2,4\n", 5);
    assert_run(b"8\nA\r\n", "1,1,1,1\nrefused,2,3\n", 4);
    assert_run(b"8\nA\0", "1,1,1,1\nrefused,2,3\n", 4);
}

/// 2,048 picks are taken. The byte after them is at place 2,050.
#[test]
fn a_full_draft() {
    let mut input = b"8\n".to_vec();
    input.extend(repeated(b"ABC", MOST_PICKS));
    let (lines, read) = after_header(&input);
    assert_eq!((lines.lines().count(), read), (2_048, 2_050));
    for (more, last_line) in [
        (b'A', Some("refused,8,2050\n")),
        (b'a', Some("refused,2,2050\n")),
        (10, None),
    ] {
        let longer = [input.as_slice(), &[more, b'A']].concat();
        let (given, read) = after_header(&longer);
        assert_eq!(read, 2_051, "byte {more}");
        let rest = given.strip_prefix(&lines).unwrap();
        assert_eq!(rest, last_line.unwrap_or(""), "byte {more}");
    }
}

/// Each line by both paths.
#[test]
fn lines_of_random_drafts() {
    let mut generator = Generator(7);
    for _ in 0..200 {
        let most_sections = 1 + generator.below(8);
        let length = generator.below(14);
        let draft = generator.draft(3, length);
        let fast = Fast::new(&draft, most_sections);
        let mut by_plain = String::new();
        let mut by_fast = String::new();
        for m in 1..=length {
            let prefix = &draft[..m];
            let mask = plain::mask(prefix, most_sections);
            let visits = plain::visits(prefix).len();
            let longest = plain::longest_ending(prefix);
            by_plain += &format!("{m},{mask},{visits},{longest}\n");
            let (mask, visits) = (fast.mask(m), fast.visits(m).len());
            by_fast += &format!("{m},{mask},{visits},{}\n", fast.longest(m));
        }
        let mut input = format!("{most_sections}\n").into_bytes();
        input.extend(&draft);
        assert_run(&input, &by_plain, length + 2);
        assert_run(&input, &by_fast, length + 2);
    }
}
