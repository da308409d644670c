//! The text's functions in the form that C gives those of the library, as one table: the two are
//! linked into one program, so their names must not meet. A slice is its pointer and its length.
//! Each pointer is to an array of its declared length, or to as many entries as the number behind
//! it says, and none overlaps another.

use cells::{Centres, Letters, Lifts, Marks, Places};
use std::slice::{from_raw_parts, from_raw_parts_mut};

unsafe extern "C" fn drive(
    letters: &mut Letters,
    codes: &mut Letters,
    lifts: &mut Lifts,
    marks: &mut Marks,
    centres: &mut Centres,
    places: &mut Places,
    numbers: &mut [usize; 3],
    script: *const u8,
    script_len: usize,
    input: *const u8,
    input_len: usize,
    lists: *mut u16,
    lists_len: usize,
    bytes: *mut u8,
    bytes_len: usize,
    answers: *mut usize,
    answers_len: usize,
) -> usize {
    ::drive::drive(
        letters,
        codes,
        lifts,
        marks,
        centres,
        places,
        numbers,
        from_raw_parts(script, script_len),
        from_raw_parts(input, input_len),
        from_raw_parts_mut(lists, lists_len),
        from_raw_parts_mut(bytes, bytes_len),
        from_raw_parts_mut(answers, answers_len),
    )
}

unsafe extern "C" fn show(
    letters: *const u8,
    letters_len: usize,
    ends: *const u16,
    ends_len: usize,
    s: usize,
    part: *mut u8,
    part_len: usize,
    answer: &mut [usize; 2],
) -> usize {
    let letters = from_raw_parts(letters, letters_len);
    let ends = from_raw_parts(ends, ends_len);
    ::drive::drive_show(letters, ends, s, from_raw_parts_mut(part, part_len), answer)
}

unsafe extern "C" fn unfold(
    record: *const u8,
    record_len: usize,
    picks: *mut u8,
    picks_len: usize,
    answer: &mut [usize; 3],
) -> usize {
    let record = from_raw_parts(record, record_len);
    ::drive::drive_unfold(record, from_raw_parts_mut(picks, picks_len), answer)
}

unsafe extern "C" fn section(
    record: *const u8,
    record_len: usize,
    at: usize,
    answer: &mut [usize; 4],
) -> usize {
    ::drive::drive_section(from_raw_parts(record, record_len), at, answer)
}

/// The functions in the order of `Library` in the tests' `library`.
#[repr(transparent)]
pub struct Table([*const (); 4]);

// Safe: functions are only read.
unsafe impl Sync for Table {}

#[no_mangle]
pub static BOARD_TEXT: Table = Table([
    drive as *const (),
    show as *const (),
    unfold as *const (),
    section as *const (),
]);
