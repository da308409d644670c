//! The library's reading of bytes that are no record, or hardly one: edits, early ends,
//! numbers of every size in every field, random bytes. Number 11 and its place.

use comparison::readings::{compare, compare_section, compare_unfold};
use comparison::records::{
    edit, fields_of, half, one_byte_edits, random_bytes, random_lengths, record_of, BYTES,
};
use comparison::samples::Generator;
use comparison::{MOST_PICKS, MOST_SECTIONS};

/// The lengths of the sections of short records.
const LENGTHS: [&[usize]; 6] = [&[1], &[2], &[3, 4], &[1, 10, 1], &[8, 1, 2], &[1; 8]];

/// The short records, and one whose lengths do not add up to its picks.
fn records() -> Vec<Vec<u8>> {
    let mut records = vec![b"3,2,4,AB,5,CDE\n".to_vec()];
    records.extend(LENGTHS.map(|lengths| record_of(&fields_of(lengths))));
    records
}

#[test]
fn every_edit_of_one_byte() {
    for record in records() {
        one_byte_edits(&record).for_each(|bytes| compare(&bytes));
    }
}

/// "An early end at the record's length", after every byte.
#[test]
fn every_early_end() {
    for record in records() {
        for length in 0..record.len() {
            compare(&record[..length]);
        }
    }
}

#[test]
fn every_early_end_of_long_records() {
    let long: [&[usize]; 3] = [&[MOST_PICKS], &[999, 1_000, 49], &[256; 8]];
    for lengths in long {
        let record = record_of(&fields_of(lengths));
        for length in 0..record.len() {
            compare_unfold(&record[..length], MOST_PICKS);
            compare_section(&record[..length], 0);
        }
    }
}

/// Texts to put in place of a number: both sides of every range, leading zeros, signs, no
/// digit, more digits than a machine word holds, and numbers that are the right one once
/// they are cut to fewer bits.
fn numbers(right: u128) -> Vec<String> {
    let sides = [0, 1, 2, 7, 8, 9, 10, 80, 2_047, 2_048, 2_049, 2_050, 20_480];
    let cut = [8, 16, 32, 64, 127].map(|bits| right + (1 << bits));
    let cut_to_128 = format!("340282366920938463463374607431768{}", 211_456 + right);
    let led = ["0", "00", "+", "-", " "].map(|before| format!("{before}{right}"));
    let mut numbers: Vec<String> = sides
        .into_iter()
        .chain(cut)
        .map(|n| n.to_string())
        .collect();
    numbers.extend(led);
    numbers.extend([String::new(), "9".repeat(40), "0".repeat(40), cut_to_128]);
    numbers
}

/// Puts a text in place of the number in a field and compares the record, also cut off or
/// gone on with behind the text, and with as many letters as a length asks for.
fn compare_with_number(mut fields: Vec<String>, at: usize, number: String) {
    fields[at] = number;
    let record = record_of(&fields);
    compare(&record);
    let end = fields[..=at].join(",").len();
    compare(&record[..end]);
    for behind in [b"x", b"\n", b"0", b","] {
        compare(&[&record[..end], behind].concat());
    }
    let length = fields[at]
        .parse()
        .ok()
        .filter(|&n: &usize| n <= MOST_PICKS + 2);
    if let (2.., Some(length)) = (at, length) {
        fields[at + 1] = half(at, length.div_ceil(2));
        compare(&record_of(&fields));
    }
}

#[test]
fn numbers_of_every_size_in_every_field() {
    for lengths in LENGTHS {
        let fields = fields_of(lengths);
        for at in (0..fields.len()).filter(|&at| at == 1 || at % 2 == 0) {
            for number in numbers(fields[at].parse().unwrap()) {
                compare_with_number(fields.clone(), at, number);
            }
        }
    }
}

#[test]
fn random_bytes_of_every_value() {
    let generator = &mut Generator(212);
    let every_byte: Vec<u8> = (0..=255).collect();
    for _ in 0..5_000 {
        let count = generator.below(40);
        compare(&random_bytes(generator, &every_byte, count));
    }
}

#[test]
fn random_bytes_of_the_layout() {
    let generator = &mut Generator(213);
    for _ in 0..20_000 {
        let count = generator.below(24);
        compare(&random_bytes(generator, BYTES, count));
    }
}

#[test]
fn random_records_edited_at_random() {
    let generator = &mut Generator(214);
    for _ in 0..20_000 {
        let sections = 1 + generator.below(MOST_SECTIONS);
        let picks = sections + generator.below(24);
        let lengths = random_lengths(generator, sections, picks);
        let mut record = record_of(&fields_of(&lengths));
        for _ in 0..=generator.below(2) {
            edit(generator, &mut record);
        }
        compare(&record);
    }
}
