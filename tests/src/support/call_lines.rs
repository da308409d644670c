//! Lines of the calls, good and bad arguments mixed, all in decimal numbers and texts.

use crate::records::{fields_of, random_lengths, record_of};
use crate::samples::Generator;
use crate::spoken::{text_of, Console};
use crate::support::lines::load;
use crate::tables::some_table;

/// Numbers beyond a byte, beyond two bytes, and the largest of a machine word.
const FAR: [&str; 8] = [
    "255",
    "256",
    "264",
    "65535",
    "65536",
    "65543",
    "4294967297",
    "18446744073709551615",
];

/// A session: an opening, and so many lines, each made for the draft of n picks as it
/// then is, by the console as a function.
pub fn session(opening: &str, count: usize, mut line: impl FnMut(usize) -> String) -> String {
    let mut console = Console::new(false);
    for line in opening.lines() {
        console.answers(line.as_bytes());
    }
    let mut input = format!("{}\n", opening.trim_end());
    for _ in 0..count {
        let line = line(console.n());
        console.answers(line.as_bytes());
        input += &format!("{line}\n");
    }
    input
}

/// A line of some call on a draft of n picks. Starts are few, so that the draft grows; loads
/// are many while it is empty.
pub fn some_call(generator: &mut Generator, n: usize) -> String {
    if n == 0 && generator.below(4) == 0 {
        return some_load(generator);
    }
    match generator.below(47) {
        0 => format!("start {}", some_number(generator, 10)),
        1..=10 => some_feed(generator),
        11..=12 => format!("mask {}", some_prefix(generator, n)),
        13..=14 => format!("radius {}", some_centre(generator, n)),
        15..=16 => "longest".to_string(),
        17..=19 => format!("next {}", some_centre(generator, n)),
        20..=24 => lent(generator, "split", n, 12),
        25..=28 => lent(generator, "record", n, 30),
        29..=30 => some_show(generator),
        31..=33 => some_unfold(generator),
        34 => some_section(generator),
        35 => some_load(generator),
        36..=40 => format!("mark {}", some_name(generator)),
        41..=43 => format!("back {}", some_name(generator)),
        _ => format!("lift {}", some_number(generator, 100)),
    }
}

/// A load of some table.
fn some_load(generator: &mut Generator) -> String {
    let line = load(&some_table(generator).bytes());
    line.trim_end().to_string()
}

/// A number below the bound, or now and then a far one.
fn some_number(generator: &mut Generator, below: usize) -> String {
    match generator.below(12) {
        0 => FAR[generator.below(FAR.len())].to_string(),
        1 => format!("00{}", generator.below(below)),
        _ => generator.below(below).to_string(),
    }
}

/// A pick, A, B or C mostly, and sometimes the entries of its list, 19 or more mostly.
fn some_feed(generator: &mut Generator) -> String {
    let pick = match generator.below(12) {
        0 => some_number(generator, 256),
        1 => [64, 90, 91, 97][generator.below(4)].to_string(),
        at => b"AAAABBBBBC"[at - 2].to_string(),
    };
    match generator.below(8) {
        0 => format!("feed {pick} {}", some_number(generator, 24)),
        1 => format!("feed {pick} {}", 17 + generator.below(8)),
        _ => format!("feed {pick}"),
    }
}

/// A name: one of the first six letters mostly, so that four of them are soon marks.
fn some_name(generator: &mut Generator) -> String {
    match generator.below(12) {
        0 => some_number(generator, 256),
        1 => [64, 90, 91, 97][generator.below(4)].to_string(),
        _ => (65 + generator.below(6)).to_string(),
    }
}

/// A prefix: mostly up to n + 1, often n itself.
fn some_prefix(generator: &mut Generator, n: usize) -> String {
    match generator.below(3) {
        0 => n.to_string(),
        _ => some_number(generator, n + 2),
    }
}

/// A centre: mostly up to 2n + 2, often among the last of them.
fn some_centre(generator: &mut Generator, n: usize) -> String {
    match generator.below(2) {
        0 => (2 * n + 2).saturating_sub(generator.below(8)).to_string(),
        _ => some_number(generator, 2 * n + 3),
    }
}

/// A split or a record, sometimes with what it is lent, mostly below the bound.
fn lent(generator: &mut Generator, word: &str, n: usize, below: usize) -> String {
    let prefix = some_prefix(generator, n);
    let k = some_number(generator, 10);
    match generator.below(2) {
        0 => format!("{word} {prefix} {k} {}", some_number(generator, below)),
        _ => format!("{word} {prefix} {k}"),
    }
}

/// A show of up to 12 letters: the ends are right mostly, and one of them is changed now
/// and then.
fn some_show(generator: &mut Generator) -> String {
    let count = generator.below(13);
    let letters = match count {
        0 => "-".to_string(),
        _ => String::from_utf8(generator.draft(26, count)).expect("letters"),
    };
    let mut ends: Vec<usize> = (1..count).filter(|_| generator.below(3) == 0).collect();
    ends.extend((count > 0).then_some(count));
    let s = some_number(generator, ends.len() + 2);
    if generator.below(3) == 0 && !ends.is_empty() {
        let at = generator.below(ends.len());
        ends[at] = [generator.below(count + 2), 65_535][generator.below(2)];
    }
    let ends: String = ends.iter().map(|end| format!(" {end}")).collect();
    format!("show {letters} {s}{ends}")
}

/// Bytes as a text, which is a word also where there are none.
fn word_of(bytes: &[u8]) -> String {
    match bytes {
        [] => "-".to_string(),
        _ => text_of(bytes),
    }
}

/// A record of up to 12 picks: a field is changed now and then, the first often, and so
/// is a byte.
fn some_record(generator: &mut Generator) -> Vec<u8> {
    let count = 1 + generator.below(4);
    let sum = count + generator.below(9);
    let mut fields = fields_of(&random_lengths(generator, count, sum));
    if generator.below(4) == 0 {
        let at = generator.below(2) * generator.below(fields.len());
        fields[at] = some_number(generator, 14);
    }
    let mut record = record_of(&fields);
    let at = generator.below(record.len());
    match generator.below(9) {
        0 => record[at] = generator.below(256) as u8,
        1 => record.insert(at, b"09AZ,\n"[generator.below(6)]),
        2 => record.truncate(at),
        _ => {}
    }
    record
}

/// An unfold, sometimes with what it is lent.
fn some_unfold(generator: &mut Generator) -> String {
    let record = word_of(&some_record(generator));
    match generator.below(2) {
        0 => format!("unfold {record} {}", some_number(generator, 16)),
        _ => format!("unfold {record}"),
    }
}

/// A section, behind some comma of the record mostly.
fn some_section(generator: &mut Generator) -> String {
    let record = some_record(generator);
    let commas = (0..record.len()).filter(|&at| record[at] == b',');
    let behind: Vec<usize> = commas.map(|at| at + 1).chain([0, record.len()]).collect();
    let at = match generator.below(4) {
        0 => some_number(generator, 24),
        _ => behind[generator.below(behind.len())].to_string(),
    };
    format!("section {} {at}", word_of(&record))
}
