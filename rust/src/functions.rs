//! The static library's C functions, as they are. A slice is its pointer, which is not null,
//! and its length; none may overlap another.

extern "C" {
    /// Makes the calls of a script one after the other on the state, which is the
    /// letters, the codes of the picks, the table of lifts, the marks, the lanes by
    /// centre, the lanes by place and the three numbers n, K and the centre of the longest
    /// ending. Gives the number of calls made.
    pub fn drive(
        letters: *mut u8,
        codes: *mut u8,
        lifts: *mut u8,
        marks: *mut u16,
        centres: *mut u16,
        places: *mut u16,
        numbers: *mut usize,
        script: *const u8,
        script_len: usize,
        input: *const u8,
        input_len: usize,
        lists: *mut u16,
        lists_len: usize,
        bytes: *mut u8,
        bytes_len: usize,
        answers: *mut usize,
        answers_len: usize,
    ) -> usize;

    /// Show. The answer is the companion's number and the length of the part, whose
    /// bytes are copied to the front of `part` as far as they fit.
    pub fn drive_show(
        letters: *const u8,
        letters_len: usize,
        ends: *const u16,
        ends_len: usize,
        s: usize,
        part: *mut u8,
        part_len: usize,
        answer: *mut usize,
    ) -> usize;

    /// Unfolds a record: its picks fill the front of the list. The answer is 0 and
    /// the count of picks, 1 and the refusal number, or 2, the refusal number and its
    /// place.
    pub fn drive_unfold(
        record: *const u8,
        record_len: usize,
        picks: *mut u8,
        picks_len: usize,
        answer: *mut usize,
    ) -> usize;

    /// The section that a reader yields at a place of a record. The answer is 0 for
    /// none, 1 for a turn on a pick or 2 for one between two picks, the length, the
    /// turn's place and the place of the next section; for none two zeros and the place
    /// that was given.
    pub fn drive_section(
        record: *const u8,
        record_len: usize,
        at: usize,
        answer: *mut usize,
    ) -> usize;
}
