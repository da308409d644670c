//! Records, and bytes that are nearly one.

use crate::plain::section_lengths;
use crate::samples::Generator;
use crate::{FIRST_PICK, LAST_PICK, LINE_END};
use std::collections::BTreeSet;

/// Bytes that a record may have, commas most often, bytes beside them, and some others.
pub const BYTES: &[u8] = b"0123456789,,,,,,,,ABCMYZ\n\n/:@[+-. \t\r\0az\xFF";

/// So many letters in their order, A again after Z; the first is the one after so many.
pub fn half(after: usize, count: usize) -> String {
    let letters = (FIRST_PICK..=LAST_PICK).map(char::from).cycle();
    letters.skip(after).take(count).collect()
}

/// The fields of a record of sections with these lengths.
pub fn fields_of(lengths: &[usize]) -> Vec<String> {
    let picks: usize = lengths.iter().sum();
    let mut fields = vec![picks.to_string(), lengths.len().to_string()];
    let mut before = 0;
    for &length in lengths {
        fields.extend([length.to_string(), half(before, length.div_ceil(2))]);
        before += length;
    }
    fields
}

/// These fields as a record has them: parted by commas, closed by byte 10.
pub fn record_of(fields: &[String]) -> Vec<u8> {
    let mut record = fields.join(",").into_bytes();
    record.push(LINE_END);
    record
}

/// The lengths of so many sections of a draft with this number of picks.
pub fn random_lengths(generator: &mut Generator, sections: usize, picks: usize) -> Vec<usize> {
    let mut ends = BTreeSet::from([picks]);
    while ends.len() < sections {
        ends.insert(1 + generator.below(picks));
    }
    section_lengths(&Vec::from_iter(ends))
}

/// Everything that one byte put in, changed or taken out makes of these bytes.
pub fn one_byte_edits(bytes: &[u8]) -> impl Iterator<Item = Vec<u8>> + '_ {
    let every_byte = || (0..=255).map(|byte| vec![byte]);
    (0..=bytes.len()).flat_map(move |at| {
        let (front, back) = bytes.split_at(at);
        let put_in = every_byte().map(move |byte| [front, &byte, back].concat());
        let behind = back.get(1..).unwrap_or_default();
        let changed = every_byte().map(move |byte| [front, &byte, behind].concat());
        put_in.chain(changed).chain([[front, behind].concat()])
    })
}

/// So many bytes, each one of these.
pub fn random_bytes(generator: &mut Generator, bytes: &[u8], count: usize) -> Vec<u8> {
    (0..count)
        .map(|_| bytes[generator.below(bytes.len())])
        .collect()
}

/// Puts a few bytes in the place of a few others, somewhere.
pub fn edit(generator: &mut Generator, record: &mut Vec<u8>) {
    let at = generator.below(record.len() + 1);
    let behind = record.len().min(at + generator.below(4));
    let count = generator.below(4);
    record.splice(at..behind, random_bytes(generator, BYTES, count));
}
