//! Calls with arguments inside and outside their bounds.

use crate::samples::Generator;
use crate::scripted::Call;
use crate::tables::some_table;

/// A call on a draft of about n picks. Starts are few, so that the draft grows; loads are
/// many while it is empty.
pub fn some_call(generator: &mut Generator, n: usize) -> Call {
    if n == 0 && generator.below(3) == 0 {
        return some_load(generator);
    }
    match generator.below(31) {
        0 => some_start(generator),
        27..=29 => some_mark(generator),
        30 => Call::Back {
            name: some_name(generator),
        },
        24 => some_load(generator),
        25..=26 => Call::Lift {
            letter: some_pick(generator),
        },
        1..=9 => some_feed(generator),
        10..=13 => Call::Split {
            prefix: some_prefix(generator, n),
            k: some_sections(generator),
            entries: generator.below(12) as u16,
        },
        14..=15 => Call::LongestCentre,
        16..=17 => Call::Mask {
            prefix: some_prefix(generator, n),
        },
        18..=19 => Call::Radius {
            centre: some_centre(generator, n),
        },
        20..=21 => Call::NextEnding {
            centre: some_centre(generator, n),
        },
        _ => Call::Record {
            prefix: some_prefix(generator, n),
            k: some_sections(generator),
            bytes: generator.below(60) as u16,
        },
    }
}

/// Good tables and bad ones.
fn some_load(generator: &mut Generator) -> Call {
    let table = some_table(generator);
    Call::Load { table }
}

fn some_start(generator: &mut Generator) -> Call {
    let most_sections = [generator.below(11), generator.below(256)][generator.below(2)] as u8;
    Call::Start { most_sections }
}

/// A list of 0 to 24 entries, mostly of 19 or more.
fn some_feed(generator: &mut Generator) -> Call {
    let entries = match generator.below(8) {
        0 => generator.below(25),
        _ => 19 + generator.below(6),
    } as u16;
    let pick = some_pick(generator);
    Call::Feed { pick, entries }
}

/// A, B or C mostly.
fn some_pick(generator: &mut Generator) -> u8 {
    match generator.below(12) {
        0 => [0, 10, 64, 91, 97, 255][generator.below(6)],
        1 => generator.below(256) as u8,
        at => b"AAAABBBBCZ"[at - 2],
    }
}

/// Any letter, or a name as it is gone back to.
fn some_mark(generator: &mut Generator) -> Call {
    let any_letter = b'A' + generator.below(26) as u8;
    let name = [any_letter, some_name(generator)][generator.below(2)];
    Call::Mark { name }
}

/// One of four letters mostly.
fn some_name(generator: &mut Generator) -> u8 {
    match generator.below(9) {
        0 => some_pick(generator),
        at => b"ABCZ"[at % 4],
    }
}

/// A count of sections: 0 to 9, or now and then any byte.
fn some_sections(generator: &mut Generator) -> u8 {
    match generator.below(10) {
        0 => generator.below(256) as u8,
        _ => generator.below(10) as u8,
    }
}

/// A prefix: mostly up to n + 1, often n itself.
fn some_prefix(generator: &mut Generator, n: usize) -> u16 {
    match generator.below(8) {
        0 => generator.below(1 << 16) as u16,
        1..=3 => n.min(2_048) as u16,
        _ => generator.below(n.min(2_048) + 2) as u16,
    }
}

/// A centre: mostly up to 2n + 2, often among the last of them.
fn some_centre(generator: &mut Generator, n: usize) -> u16 {
    let n = n.min(2_048);
    match generator.below(8) {
        0 => generator.below(1 << 16) as u16,
        1..=3 => (2 * n + 2 - generator.below(2 * n + 3).min(6)) as u16,
        _ => generator.below(2 * n + 3) as u16,
    }
}
