//! Stored states that no run made.

use crate::library::Board;
use crate::samples::Generator;
use crate::structured::broken_periods;
use crate::tables::some_lifts;
use crate::{LETTERS, MOST_PICKS, MOST_SECTIONS};

/// Any number: small, near the arrays' lengths, or of any size.
pub fn any_number(generator: &mut Generator) -> usize {
    let bounds = [4, 2 * MOST_PICKS + 4, 1 << 16, 1 << 32, usize::MAX];
    let bound = bounds[generator.below(bounds.len())];
    let number = generator.below(bound);
    if generator.below(8) == 0 {
        usize::MAX - number
    } else {
        number
    }
}

/// Arrays of any bytes, or of numbers below a bound, so that more of them are places
/// and centres.
fn any_arrays(generator: &mut Generator) -> Board {
    let bounds = [65_536, 65_536, 4_098, 2_049, 40, 2];
    let bound = bounds[generator.below(bounds.len())];
    Board::filled(|| generator.below(bound) as u16)
}

/// A state of any bytes, with n up to 2,048, any stored centre and K from 1 to 8. The marks
/// are any bytes too, or often few.
pub fn any_state(generator: &mut Generator) -> Board {
    let mut board = any_arrays(generator);
    let n = generator.below(MOST_PICKS + 1);
    let most_sections = 1 + generator.below(MOST_SECTIONS);
    board.store(n, most_sections, any_number(generator));
    if generator.below(4) > 0 {
        store_some_marks(&mut board, generator);
    }
    board
}

/// Stores marks of up to six letters, mostly among the first five, and no others: of lengths
/// up to n, of n itself, and of any size.
fn store_some_marks(board: &mut Board, generator: &mut Generator) {
    let n = board.n();
    let marks = board.marks_mut();
    marks.fill(0);
    for _ in 0..generator.below(7) {
        let letter = [generator.below(LETTERS), generator.below(5)][generator.below(2)];
        let length = match generator.below(4) {
            0 => any_number(generator),
            1 => n,
            _ => generator.below(n + 1),
        };
        marks[letter] = length.saturating_add(1) as u16;
    }
}

/// The state of a true draft, under the fixed lifts or others, with some marks, some entries
/// changed, and now and then a number.
pub fn spoiled_state(generator: &mut Generator) -> Board {
    let length = generator.below(MOST_PICKS + 1);
    let draft = broken_periods(generator, 3, length);
    let most_sections = 1 + generator.below(MOST_SECTIONS);
    let mut board = match generator.below(2) {
        0 => Board::fed(&draft, most_sections),
        _ => Board::fed_under(&some_lifts(generator), &draft, most_sections),
    };
    store_some_marks(&mut board, generator);
    for lane in board.lanes_mut() {
        for _ in 0..generator.below(20) {
            lane[generator.below(lane.len())] = any_number(generator) as u16;
        }
    }
    for bytes in board.bytes_mut() {
        bytes[generator.below(bytes.len())] = generator.below(256) as u8;
    }
    if generator.below(4) == 0 {
        let (n, longest) = (generator.below(MOST_PICKS + 1), any_number(generator));
        board.store(n, board.most_sections(), longest);
    }
    board
}

/// A state of each of these kinds in turn: a spoiled one, one of any bytes with any n and K,
/// and of any bytes twice.
pub fn mixed_state(at: usize, generator: &mut Generator) -> Board {
    match at % 4 {
        0 => spoiled_state(generator),
        1 => with_any_numbers(any_state(generator), generator),
        _ => any_state(generator),
    }
}

/// Stores an n and a K, each within its limits or not, n often just beside its limit,
/// K often a good one modulo 256.
pub fn with_any_numbers(mut board: Board, generator: &mut Generator) -> Board {
    let beside = MOST_PICKS - 1 + generator.below(3);
    let n = [board.n(), any_number(generator), beside][generator.below(3)];
    let modulo = (any_number(generator) / 256 * 256).saturating_add(generator.below(12));
    let numbers = [generator.below(12), any_number(generator), modulo];
    let most_sections = numbers[generator.below(numbers.len())];
    board.store(n, most_sections, board.longest());
    board
}
