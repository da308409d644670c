//! Scripts: a run as one script gives the same as call by call, and a script ends
//! early where what it needs is not there.

use comparison::beside::{BYTE, ENTRY};
use comparison::library::{Board, Lent, ANSWER_NUMBERS, UNSET};
use comparison::samples::Generator;
use comparison::scripted::{given, refused, script, Call, Reply, CALL_BYTES};
use comparison::support::some_calls::some_call;
use comparison::tables::Table;

/// Makes the calls one by one. Gives their replies and what they left of all that
/// they were lent.
fn one_by_one(board: &mut Board, calls: &[Call]) -> (Vec<Reply>, Vec<u16>, Vec<u8>) {
    let (mut replies, mut lists, mut bytes) = (Vec::new(), Vec::new(), Vec::new());
    for &call in calls {
        let mut list = vec![ENTRY; call.entries()];
        let mut output = vec![BYTE; call.output_bytes()];
        replies.push(board.make(call, &mut list, &mut output));
        lists.extend(list);
        bytes.extend(output);
    }
    (replies, lists, bytes)
}

/// Runs the script on what it is lent: it makes the first so many of the calls, each
/// as by itself, and leaves the entries, bytes and answers past theirs alone.
fn assert_made(bytes: &[u8], lent: &mut Lent, calls: &[Call], made: usize, case: &str) {
    let mut board = Board::filled(|| 7);
    let mut expected = board.clone();
    assert_eq!(board.run_script(bytes, lent), made, "{case}");
    let (replies, lists, outputs) = one_by_one(&mut expected, &calls[..made]);
    assert!(board == expected, "state, {case}");
    assert_eq!(lent.replies(made), replies, "{case}");
    let (front, rest) = lent.lists.split_at(lists.len());
    assert_eq!(front, lists, "lists, {case}");
    assert!(rest.iter().all(|&entry| entry == ENTRY), "lists, {case}");
    let (front, rest) = lent.bytes.split_at(outputs.len());
    assert_eq!(front, outputs, "bytes, {case}");
    assert!(rest.iter().all(|&byte| byte == BYTE), "bytes, {case}");
    let mut unset = lent.answers[ANSWER_NUMBERS * made..].iter();
    assert!(unset.all(|&number| number == UNSET), "answers, {case}");
}

/// Calls that open with a start and have some of each kind.
fn some_calls_of_each_kind(generator: &mut Generator, count: usize) -> Vec<Call> {
    let start = Call::Start { most_sections: 8 };
    let mut calls = vec![start];
    while calls.len() < count {
        calls.push(some_call(generator, calls.len() / 2));
    }
    calls
}

#[test]
fn a_script_gives_the_same_as_call_by_call() {
    for seed in 0..2_000 {
        let generator = &mut Generator(seed);
        let count = 1 + generator.below(60);
        let calls = some_calls_of_each_kind(generator, count);
        let mut lent = Lent::to(&calls, ENTRY, BYTE);
        let case = format!("seed {seed}, {calls:?}");
        assert_made(&script(&calls), &mut lent, &calls, calls.len(), &case);
    }
}

/// A script cut off anywhere: a call of fewer than six bytes is not made.
#[test]
fn a_script_of_fewer_bytes() {
    let calls = some_calls_of_each_kind(&mut Generator(70), 30);
    let whole = script(&calls);
    for length in 0..=whole.len() {
        let mut lent = Lent::to(&calls, ENTRY, BYTE);
        let made = length / CALL_BYTES;
        let case = format!("{length} bytes");
        assert_made(&whole[..length], &mut lent, &calls, made, &case);
    }
}

/// Any room for answers: a call with fewer than four numbers left is not made.
#[test]
fn fewer_answers() {
    let calls = some_calls_of_each_kind(&mut Generator(71), 30);
    for numbers in 0..=ANSWER_NUMBERS * calls.len() {
        let mut lent = Lent::to(&calls, ENTRY, BYTE);
        lent.answers.truncate(numbers);
        let made = numbers / ANSWER_NUMBERS;
        let case = format!("{numbers} numbers");
        assert_made(&script(&calls), &mut lent, &calls, made, &case);
    }
}

/// The calls that are lent all they need, one after the other, when this many
/// entries or bytes are there.
fn made_with(calls: &[Call], there: usize, need: impl Fn(Call) -> usize) -> usize {
    let mut left = there;
    let made = calls.iter().take_while(|&&call| {
        let fits = need(call) <= left;
        left = left.saturating_sub(need(call));
        fits
    });
    made.count()
}

/// Runs the calls with none to all that they need of one kind, to which `cut` cuts what is
/// lent: a call that needs more than is left is not made, nor is any after it.
fn assert_made_with(
    calls: &[Call],
    need: impl Fn(Call) -> usize,
    cut: impl Fn(&mut Lent, usize),
    kind: &str,
) {
    let all = calls.iter().map(|&call| need(call)).sum();
    for there in 0..=all {
        let mut lent = Lent::to(calls, ENTRY, BYTE);
        cut(&mut lent, there);
        let made = made_with(calls, there, &need);
        let case = format!("{there} {kind}");
        assert_made(&script(calls), &mut lent, calls, made, &case);
    }
}

/// Any number of list entries.
#[test]
fn fewer_list_entries() {
    let calls = some_calls_of_each_kind(&mut Generator(72), 30);
    let cut = |lent: &mut Lent, entries| lent.lists.truncate(entries);
    assert_made_with(&calls, Call::entries, cut, "entries");
}

/// Any number of bytes for outputs.
#[test]
fn fewer_output_bytes() {
    let calls = some_calls_of_each_kind(&mut Generator(73), 60);
    let all = Lent::to(&calls, ENTRY, BYTE).bytes.len();
    assert!(all > 0, "a record is among {calls:?}");
    let cut = |lent: &mut Lent, bytes| lent.bytes.truncate(bytes);
    assert_made_with(&calls, Call::output_bytes, cut, "bytes");
}

/// Any number of input bytes.
#[test]
fn fewer_input_bytes() {
    let calls = some_calls_of_each_kind(&mut Generator(77), 60);
    let need = |call: Call| call.input().len();
    let all: usize = calls.iter().map(|&call| need(call)).sum();
    assert!(all > 26, "loads are among {calls:?}");
    let cut = |lent: &mut Lent, bytes| lent.input.truncate(bytes);
    assert_made_with(&calls, need, cut, "input bytes");
}

/// Any input, an empty one among them: no call but a load reads it, so a script without
/// one gives the same and goes on to its end.
#[test]
fn any_input() {
    let mut calls = some_calls_of_each_kind(&mut Generator(75), 40);
    calls.retain(|call| call.input().is_empty());
    let generator = &mut Generator(76);
    for length in 0..=300 {
        let mut lent = Lent::to(&calls, ENTRY, BYTE);
        lent.input = (0..length).map(|_| generator.below(256) as u8).collect();
        let case = format!("input {:?}", lent.input);
        assert_made(&script(&calls), &mut lent, &calls, calls.len(), &case);
    }
}

/// "Each call's part of `input` comes behind that of the calls before it": loads of tables
/// that are other in every place, refused ones among them, with starts between.
#[test]
fn each_load_reads_behind_the_one_before() {
    let start = Call::Start { most_sections: 8 };
    let tables = [26, 0, 25, 26, 27, 52, 26].into_iter().zip(1u8..);
    let loads = tables.map(|(length, first)| {
        let lifts = std::array::from_fn(|at| first + 8 * at as u8);
        let behind = first;
        let table = Table {
            lifts,
            length,
            behind,
        };
        Call::Load { table }
    });
    let letters = [b'A', b'B', b'Z'].map(|letter| Call::Lift { letter });
    let calls: Vec<Call> = loads
        .flat_map(|load| [vec![start, load], letters.to_vec()].concat())
        .collect();
    let mut board = Board::filled(|| 0);
    let replies = board.ask(&calls);
    for (at, replies) in replies.chunks(5).enumerate() {
        let first = at + 1;
        let loaded = [first, first + 8, first + 200].map(|lift| given([lift]));
        let fixed = [3, 5, 96].map(|lift| given([lift]));
        let (load, lifts) = match at {
            0 | 3 | 6 => (given([]), loaded),
            _ => (refused(14), fixed),
        };
        assert_eq!(replies[1], load, "load {first}");
        assert_eq!(replies[2..], lifts, "load {first}");
    }
}

/// A mark and a going back are lent nothing, whatever stands in their last four bytes; the
/// call behind them is lent the front of the lists.
#[test]
fn marks_are_lent_nothing() {
    let (name, entries) = (b'Q', 19);
    let calls = [
        Call::Start { most_sections: 8 },
        Call::Mark { name },
        Call::Back { name },
        Call::Feed { pick: 65, entries },
        Call::Back { name },
        Call::Mark { name: b'@' },
        Call::Back { name: b'R' },
        Call::Feed { pick: 66, entries },
    ];
    for last in [[1, 0, 1, 0], [0, 1, 0, 1], [255; 4], [0, 0, 255, 255]] {
        let mut bytes = script(&calls);
        for at in [1, 2, 4, 5, 6] {
            bytes[CALL_BYTES * at + 2..][..4].copy_from_slice(&last);
        }
        let mut lent = Lent::to(&calls, ENTRY, BYTE);
        lent.input.clear();
        let case = format!("last bytes {last:?}");
        assert_made(&bytes, &mut lent, &calls, calls.len(), &case);
        assert_eq!(lent.replies(8)[4..7], [given([]), refused(2), refused(17)]);
    }
}

/// A number that no call has ends the script, wherever it stands: those behind the calls
/// that write, below 16, and those behind the queries.
#[test]
fn a_call_number_that_there_is_not() {
    let calls = some_calls_of_each_kind(&mut Generator(74), 12);
    for number in (5..16).chain(23..=255) {
        let at = usize::from(number) % calls.len();
        let mut bytes = script(&calls);
        bytes[CALL_BYTES * at] = number;
        let mut lent = Lent::to(&calls, ENTRY, BYTE);
        let case = format!("number {number} at {at}");
        assert_made(&bytes, &mut lent, &calls, at, &case);
    }
}

/// Entries and bytes beyond what the calls are lent keep theirs.
#[test]
fn more_than_is_needed() {
    for seed in 80..100 {
        let calls = some_calls_of_each_kind(&mut Generator(seed), 30);
        let mut lent = Lent::to(&calls, ENTRY, BYTE);
        lent.lists.extend([ENTRY; 30]);
        lent.bytes.extend([BYTE; 30]);
        lent.answers.extend([UNSET; 10]);
        let case = format!("seed {seed}");
        assert_made(&script(&calls), &mut lent, &calls, calls.len(), &case);
    }
}
