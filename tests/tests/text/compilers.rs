//! The proved library beside what rustc makes of the same text, with every overflow and every
//! index checked: both answer alike, and leave alike all that they are lent. A panic in the text
//! ends the program, and says where.
//!
//! A million calls are made, or so many millions as `MILLIONS` says.

use comparison::beside::{BYTE, ENTRY};
use comparison::library::{text, Board, Lent, PROVED, UNSET};
use comparison::records::{edit, fields_of, random_bytes, random_lengths, record_of};
use comparison::samples::Generator;
use comparison::scripted::{script, CALL_BYTES};
use comparison::structured::broken_periods;
use comparison::support::any_states::{any_number, any_state, mixed_state};
use comparison::support::some_calls::some_call;
use comparison::{MOST_PICKS, MOST_SECTIONS};
use std::env;

/// So many calls for each million that is asked for.
fn calls(count: usize) -> usize {
    let millions = env::var("MILLIONS").map_or(Ok(1), |millions| millions.parse::<usize>());
    count * millions.expect("MILLIONS is a number")
}

/// Runs a script on the state and on a copy, each by one of the libraries. Gives the number of
/// calls made.
fn run_both(board: &mut Board, script: &[u8], lent: Lent, case: &str) -> usize {
    let (mut other, mut proved, mut by_text) = (board.clone(), lent.clone(), lent);
    let made = board.run_script_by(&PROVED, script, &mut proved);
    let others = other.run_script_by(text(), script, &mut by_text);
    assert_eq!(made, others, "calls made, {case}, script {script:?}");
    assert_eq!(proved, by_text, "what is lent, {case}, script {script:?}");
    assert!(*board == other, "the state, {case}, script {script:?}");
    made
}

/// Makes so many calls of every kind, one after the other, as one script.
fn make_some(board: &mut Board, generator: &mut Generator, count: usize, case: &str) -> usize {
    let n = board.n().min(MOST_PICKS);
    let calls: Vec<_> = (0..count).map(|_| some_call(generator, n)).collect();
    let lent = Lent::to(&calls, ENTRY, BYTE);
    run_both(board, &script(&calls), lent, case)
}

#[test]
fn runs() {
    let (mut made, mut seed) = (0, 1);
    while made < calls(500_000) {
        let generator = &mut Generator(seed);
        let case = format!("run {seed}");
        let mut board = Board::started(1 + generator.below(MOST_SECTIONS));
        if generator.below(4) == 0 {
            let length = generator.below(MOST_PICKS + 1);
            board.feed_all(&broken_periods(generator, 3, length));
        }
        for _ in 0..20 {
            made += make_some(&mut board, generator, 25, &case);
        }
        seed += 1;
    }
}

#[test]
fn stored_states() {
    let (mut made, mut seed) = (0, 1);
    while made < calls(250_000) {
        let generator = &mut Generator(seed);
        let case = format!("stored state {seed}");
        let mut board = mixed_state(seed as usize, generator);
        made += make_some(&mut board, generator, 25, &case);
        seed += 1;
    }
}

/// What a script of any bytes is lent: of everything more or less than it needs.
fn some_lent(generator: &mut Generator) -> Lent {
    Lent {
        input: random_bytes(generator, b"\x00\x01\x03\x20\x80", 200),
        lists: vec![ENTRY; generator.below(200)],
        bytes: vec![BYTE; generator.below(200)],
        answers: vec![UNSET; generator.below(100)],
    }
}

/// A script of any bytes, in which most calls are known and lent little.
fn some_script(generator: &mut Generator) -> Vec<u8> {
    let mut bytes = Vec::new();
    for _ in 0..generator.below(20) {
        let number = match generator.below(40) {
            0 => generator.below(256),
            at => [generator.below(5), 16 + generator.below(7)][at % 2],
        };
        let letter = [
            generator.below(256),
            generator.below(10),
            65 + generator.below(3),
        ];
        let (at, lent) = (any_number(generator) as u16, generator.below(40) as u16);
        let ([low, high], [few, many]) = (at.to_le_bytes(), lent.to_le_bytes());
        bytes.extend([
            number as u8,
            letter[generator.below(3)] as u8,
            low,
            high,
            few,
            many,
        ]);
    }
    let rest = generator.below(CALL_BYTES);
    bytes.extend(random_bytes(generator, b"\x00\x01\x10", rest));
    bytes
}

#[test]
fn scripts() {
    let (mut made, mut seed) = (0, 1);
    while made < calls(100_000) {
        let generator = &mut Generator(seed);
        let mut board = any_state(generator);
        for _ in 0..20 {
            let (lent, bytes) = (some_lent(generator), some_script(generator));
            made += run_both(&mut board, &bytes, lent, &format!("script {seed}"));
        }
        seed += 1;
    }
}

/// A record, edited or not.
fn some_record(generator: &mut Generator) -> Vec<u8> {
    let sections = 1 + generator.below(MOST_SECTIONS);
    let picks = sections + [generator.below(24), generator.below(MOST_PICKS)][generator.below(2)];
    let mut record = record_of(&fields_of(&random_lengths(generator, sections, picks)));
    for _ in 0..generator.below(3) {
        edit(generator, &mut record);
    }
    record
}

#[test]
fn records() {
    let generator = &mut Generator(5);
    for _ in 0..calls(30_000) {
        let record = some_record(generator);
        let mut picks = vec![BYTE; generator.below(60)];
        if generator.below(2) == 0 {
            picks.resize(MOST_PICKS, BYTE);
        }
        let mut others = picks.clone();
        let proved = PROVED.unfold(&record, &mut picks);
        let by_text = text().unfold(&record, &mut others);
        let case = record.escape_ascii();
        assert_eq!((proved, picks), (by_text, others), "unfold of {case}");
        for at in [0, generator.below(record.len() + 2), any_number(generator)] {
            let by_text = text().section_at(&record, at);
            assert_eq!(PROVED.section_at(&record, at), by_text, "{case} at {at}");
        }
    }
}

#[test]
fn shown_sections() {
    let generator = &mut Generator(6);
    let letters: Vec<u8> = (0..300).map(|_| generator.below(256) as u8).collect();
    for _ in 0..calls(30_000) {
        let letters = &letters[..generator.below(300)];
        let mut ends: Vec<u16> = (0..generator.below(9))
            .map(|_| generator.below(letters.len() + 2) as u16)
            .collect();
        if generator.below(4) > 0 {
            ends.push(letters.len() as u16);
            ends.sort_unstable();
        }
        let s = [generator.below(10), any_number(generator)][generator.below(2)];
        let mut part = vec![BYTE; generator.below(300)];
        let mut others = part.clone();
        let proved = PROVED.show(letters, &ends, s, &mut part);
        let by_text = text().show(letters, &ends, s, &mut others);
        assert_eq!((proved, part), (by_text, others), "show {s} of {ends:?}");
    }
}
