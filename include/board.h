// The board's calls for C11 and C++: a function for each, and `drive` for many at once.
//
// Nothing is allocated, and nothing is kept but in the state that a call is given. A state may hold any bytes: a call
// ends, within what it is lent, and tells by its number what is wrong. What is refused changes nothing. docs/HOSTS.md
// says how to link this, and what may be called from where.
#ifndef BOARD_H
#define BOARD_H

#include <stddef.h>
#include <stdint.h>

#ifdef __cplusplus
#define BOARD_ASSERT(fact) static_assert(fact, #fact)
extern "C" {
#else
#define BOARD_ASSERT(fact) _Static_assert(fact, #fact)
#endif

enum {
    BOARD_PICKS = 2048,    // the most picks of a draft
    BOARD_ALPHABET = 26,   // the letters A to Z: entries of a table of lifts, and names of marks
    BOARD_MARKS = 4,       // the most names that are marks at a time
    BOARD_SECTIONS = 8,    // the most sections that are asked for
    BOARD_VISITS = 19,     // the fewest entries of a visit list
    BOARD_RECORD = 1088,   // bytes that hold any folded record
    BOARD_CENTRES = 4098,  // entries of a lane by centre: 1 to 2 x 2,048 + 1, and entry 0, which is not used
    BOARD_PLACES = 2049,   // entries of a lane by place: 0 to 2,048
    BOARD_CALL_SIZE = 6,   // bytes of a call in a script
    BOARD_ANSWER_SIZE = 4, // numbers of an answer to it
    BOARD_NOT_MADE = 255,  // in place of a refusal's number: the library that is linked has no such call
};

// The lanes by centre: radii, lend lists, the list of the endings' centres forward and back.
enum { BOARD_RADIUS_LANE, BOARD_LENDS_LANE, BOARD_NEXT_LANE, BOARD_PREV_LANE, BOARD_CENTRE_LANES };

// The lanes by place: heads of the lend lists, row words, gathered words.
enum { BOARD_HEADS_LANE, BOARD_ROWS_LANE, BOARD_GATHERED_LANE, BOARD_PLACE_LANES };

// The numbers of the state: the count of picks, K, the centre of the longest ending.
enum { BOARD_N, BOARD_K, BOARD_LONGEST, BOARD_NUMBERS };

// The calls by their numbers in a script: those that write the state, and from 16 on those that only read it. Numbers
// from BOARD_CALLS on are no calls, nor are those between.
enum {
    BOARD_START_CALL,
    BOARD_FEED_CALL,
    BOARD_LOAD_CALL,
    BOARD_MARK_CALL,
    BOARD_BACK_CALL,
    BOARD_SPLIT_CALL = 16,
    BOARD_LONGEST_CALL,
    BOARD_MASK_CALL,
    BOARD_RADIUS_CALL,
    BOARD_NEXT_CALL,
    BOARD_RECORD_CALL,
    BOARD_LIFT_CALL,
    BOARD_CALLS
};

// The stored state. One of zeros is no draft yet: each call but a start is refused with 7.
struct board {
    uint8_t letters[BOARD_PICKS];
    uint8_t codes[BOARD_PICKS];     // of each pick the lift, by the table in force when it was fed: what is compared
    uint8_t lifts[BOARD_ALPHABET];  // the table in force, A to Z
    uint16_t marks[BOARD_ALPHABET]; // of each name, A to Z: one more than the length it marks, 0 where it is no mark
    uint16_t centres[BOARD_CENTRE_LANES][BOARD_CENTRES];
    uint16_t places[BOARD_PLACE_LANES][BOARD_PLACES];
    size_t numbers[BOARD_NUMBERS];
};

BOARD_ASSERT(sizeof(size_t) == 8);
BOARD_ASSERT(offsetof(struct board, letters) == 0);
BOARD_ASSERT(offsetof(struct board, codes) == 2048);
BOARD_ASSERT(offsetof(struct board, lifts) == 4096);
BOARD_ASSERT(offsetof(struct board, marks) == 4122);
BOARD_ASSERT(offsetof(struct board, centres) == 4174);
BOARD_ASSERT(offsetof(struct board, places) == 36958);
BOARD_ASSERT(offsetof(struct board, numbers) == 49256);
BOARD_ASSERT(sizeof(struct board) == 49280);

// The library's functions. A slice is its pointer, which is not null, and its length; none may overlap another.

// Makes the calls of the script, one after the other, and gives their number.
size_t drive(uint8_t letters[BOARD_PICKS], uint8_t codes[BOARD_PICKS], uint8_t lifts[BOARD_ALPHABET],
             uint16_t marks[BOARD_ALPHABET], uint16_t centres[BOARD_CENTRE_LANES][BOARD_CENTRES],
             uint16_t places[BOARD_PLACE_LANES][BOARD_PLACES], size_t numbers[BOARD_NUMBERS], const uint8_t *script,
             size_t script_len, const uint8_t *input, size_t input_len, uint16_t *lists, size_t lists_len,
             uint8_t *bytes, size_t bytes_len, size_t *answers, size_t answers_len);

// Section s of the letters, as far as it fits the part. The answer: the refusal or 0, and the section's length.
size_t drive_show(const uint8_t *letters, size_t letters_len, const uint16_t *ends, size_t ends_len, size_t s,
                  uint8_t *part, size_t part_len, size_t answer[2]);

// Unfolds a record: its picks fill the front of the list. The answer: 0 and the count of picks; 1 and the refusal; or
// 2, the refusal and its place.
size_t drive_unfold(const uint8_t *record, size_t record_len, uint8_t *picks, size_t picks_len, size_t answer[3]);

// The section that a reader yields at a place of a record. The answer: 0 for none, 1 for a turn on a pick, 2 for one
// between two picks; its length; the turn's place; and the place of the next section. For none: 0, 0, 0 and the place
// that was given.
size_t drive_section(const uint8_t *record, size_t record_len, size_t at, size_t answer[4]);

// A place in whole picks, and a centre in half picks: one never stands for the other.
struct board_place {
    size_t picks;
};
struct board_centre {
    size_t half_picks;
};

// The place behind the first i picks.
static inline struct board_place board_prefix(size_t i) {
    struct board_place place = {i};
    return place;
}

static inline struct board_centre board_centre_at(size_t half_picks) {
    struct board_centre centre = {half_picks};
    return centre;
}

// The answers. In each the number is 0, or that of the refusal or BOARD_NOT_MADE, and then all values are 0 but the
// place that the refusal names.
struct board_start_answer {
    size_t number;
};
struct board_load_answer {
    size_t number;
    size_t place; // of the lift that is refused, counted from 0; 0 where the number names none
};
struct board_mark_answer {
    size_t number;
};
struct board_back_answer {
    size_t number;
};
struct board_feed_answer {
    size_t number;
    uint8_t mask;
    size_t visits;
};
struct board_mask_answer {
    size_t number;
    uint8_t mask;
};
struct board_radius_answer {
    size_t number;
    size_t radius;
};
struct board_centre_answer {
    size_t number;
    struct board_centre centre;
};
struct board_next_answer {
    size_t number;
    struct board_centre centre; // of the next shorter ending
    size_t length;              // of the ending that was given
    size_t period;              // its least period; length less period is the length of the next shorter one
};
struct board_split_answer {
    size_t number;
    size_t turns; // how many of the sections have two or more picks
};
struct board_record_answer {
    size_t number;
    size_t bytes;
};
struct board_lift_answer {
    size_t number;
    uint8_t lift;
};
struct board_show_answer {
    size_t number;
    const uint8_t *part; // of the letters that were lent
    size_t len;
};
struct board_unfold_answer {
    size_t number;
    size_t place; // of the byte that is refused, counted from 0; 0 where the number names none
    size_t picks;
};

// The turn of a section: on a pick, or between two.
enum board_turn { BOARD_NO_SECTION, BOARD_ON_PICK, BOARD_BETWEEN };

// A section of a record. BOARD_NO_SECTION where there is none, and then length and place are 0.
struct board_section {
    enum board_turn turn;
    size_t length;
    struct board_place place; // the number of the turn's pick in the draft, or of the earlier of the two
    size_t next;              // the next section's first byte; behind the last section the record's length
};

// A reader: a record, and the reader's place in it.
struct board_reader {
    const uint8_t *record;
    size_t len;
    size_t at;
};

// Scripts

// The number, or the largest that the field can hold: it is never cut, so what is out of range stays so.
static inline size_t board_field(size_t number, size_t largest) { return number < largest ? number : largest; }

// Writes a call into a script: its number, then b of one byte, and x and m of two, the low one first.
static inline void board_write_call(uint8_t call[BOARD_CALL_SIZE], size_t number, size_t b, size_t x, size_t m) {
    x = board_field(x, UINT16_MAX);
    m = board_field(m, UINT16_MAX);
    call[0] = (uint8_t)board_field(number, UINT8_MAX);
    call[1] = (uint8_t)board_field(b, UINT8_MAX);
    call[2] = (uint8_t)(x & 255);
    call[3] = (uint8_t)(x >> 8);
    call[4] = (uint8_t)(m & 255);
    call[5] = (uint8_t)(m >> 8);
}

// What is lent to a call beside the state: a list or an output to fill, an input to read, or nothing. A null pointer
// lends nothing, whatever is said of its size. m is the call's last number: how much of that is lent, or another.
struct board_lent {
    uint16_t *list;
    size_t entries;
    uint8_t *output;
    size_t bytes;
    const uint8_t *input;
    size_t input_bytes;
    size_t m;
};

// What one call answered: 0 and the values, or the number and the place that it names.
struct board_reply {
    size_t number;
    size_t place;
    size_t first;
    size_t second;
    size_t third;
};

// A script of one call, with all that it is lent; the call is told of as much of it as its field can hold.
static inline struct board_reply board_make(struct board *board, size_t call_number, size_t b, size_t x,
                                            struct board_lent lent) {
    uint8_t call[BOARD_CALL_SIZE], no_byte = 0, no_input = 0;
    uint16_t no_entry = 0;
    size_t answer[BOARD_ANSWER_SIZE] = {1, BOARD_NOT_MADE, 0, 0};
    struct board_reply reply = {0, 0, 0, 0, 0};
    size_t entries = lent.list ? lent.entries : 0, bytes = lent.output ? lent.bytes : 0;
    size_t input_bytes = lent.input ? lent.input_bytes : 0;
    board_write_call(call, call_number, b, x, lent.m);
    drive(board->letters, board->codes, board->lifts, board->marks, board->centres, board->places, board->numbers, call,
          sizeof call, lent.input ? lent.input : &no_input, input_bytes, lent.list ? lent.list : &no_entry, entries,
          lent.output ? lent.output : &no_byte, bytes, answer, BOARD_ANSWER_SIZE);
    if (answer[0]) {
        reply.number = answer[1];
        reply.place = answer[2];
    } else {
        reply.first = answer[1];
        reply.second = answer[2];
        reply.third = answer[3];
    }
    return reply;
}

static inline struct board_lent board_nothing(void) {
    struct board_lent lent = {NULL, 0, NULL, 0, NULL, 0, 0};
    return lent;
}

static inline struct board_lent board_list(uint16_t *list, size_t entries) {
    struct board_lent lent = {list, entries, NULL, 0, NULL, 0, list ? entries : 0};
    return lent;
}

static inline struct board_lent board_output(uint8_t *output, size_t bytes) {
    struct board_lent lent = {NULL, 0, output, bytes, NULL, 0, output ? bytes : 0};
    return lent;
}

static inline struct board_lent board_input(const uint8_t *input, size_t bytes) {
    struct board_lent lent = {NULL, 0, NULL, 0, input, bytes, input ? bytes : 0};
    return lent;
}

// The calls that write the state

// Start: an empty draft with K, the fixed table of lifts and no mark, whatever was stored.
static inline struct board_start_answer board_start(struct board *board, size_t k) {
    struct board_reply reply = board_make(board, BOARD_START_CALL, k, 0, board_nothing());
    struct board_start_answer answer = {reply.number};
    return answer;
}

// Load: a table of lifts, A to Z, is in force until the next start: 26 bytes, none of them 0; harness h is bit h - 1.
// Letters that lift alike are the same pick. It is loaded before the first pick.
static inline struct board_load_answer board_load(struct board *board, const uint8_t *table, size_t count) {
    struct board_reply reply = board_make(board, BOARD_LOAD_CALL, 0, 0, board_input(table, count));
    struct board_load_answer answer = {reply.number, reply.place};
    return answer;
}

// Feed: one pick more. The lengths of the endings visited fill the front of the list.
static inline struct board_feed_answer board_feed(struct board *board, size_t pick, uint16_t *visits, size_t entries) {
    struct board_reply reply = board_make(board, BOARD_FEED_CALL, pick, 0, board_list(visits, entries));
    struct board_feed_answer answer = {reply.number, (uint8_t)reply.first, reply.second};
    return answer;
}

// Mark: the name, a letter A to Z, marks the draft's length. Up to four names are marks at a time; one that is a mark
// is moved.
static inline struct board_mark_answer board_mark(struct board *board, size_t name) {
    struct board_reply reply = board_make(board, BOARD_MARK_CALL, name, 0, board_nothing());
    struct board_mark_answer answer = {reply.number};
    return answer;
}

// Back: the draft is as if only the picks up to the mark had been fed. Marks of greater length are dropped; the others
// stay, and so do the lifts.
static inline struct board_back_answer board_back(struct board *board, size_t name) {
    struct board_reply reply = board_make(board, BOARD_BACK_CALL, name, 0, board_nothing());
    struct board_back_answer answer = {reply.number};
    return answer;
}

// The calls that only read it

// The mask of a prefix: bit k - 1 is set where it is k mirrored sections.
static inline struct board_mask_answer board_mask(struct board *board, struct board_place prefix) {
    struct board_reply reply = board_make(board, BOARD_MASK_CALL, 0, prefix.picks, board_nothing());
    struct board_mask_answer answer = {reply.number, (uint8_t)reply.first};
    return answer;
}

// The radius of the longest mirrored stretch at a centre.
static inline struct board_radius_answer board_radius(struct board *board, struct board_centre centre) {
    struct board_reply reply = board_make(board, BOARD_RADIUS_CALL, 0, centre.half_picks, board_nothing());
    struct board_radius_answer answer = {reply.number, reply.first};
    return answer;
}

// The centre of the longest mirrored ending.
static inline struct board_centre_answer board_longest(struct board *board) {
    struct board_reply reply = board_make(board, BOARD_LONGEST_CALL, 0, 0, board_nothing());
    struct board_centre_answer answer = {reply.number, {reply.first}};
    return answer;
}

// The centre of the next shorter ending after the one at a centre, and of that one, which was given, the length and the
// least period.
static inline struct board_next_answer board_next(struct board *board, struct board_centre centre) {
    struct board_reply reply = board_make(board, BOARD_NEXT_CALL, 0, centre.half_picks, board_nothing());
    struct board_next_answer answer = {reply.number, {reply.first}, reply.second, reply.third};
    return answer;
}

// Split a prefix into k sections: the last pick numbers of the sections fill the first k entries of the list. A section
// of one pick makes no turn.
static inline struct board_split_answer board_split(struct board *board, struct board_place prefix, size_t k,
                                                    uint16_t *ends, size_t entries) {
    struct board_reply reply = board_make(board, BOARD_SPLIT_CALL, k, prefix.picks, board_list(ends, entries));
    struct board_split_answer answer = {reply.number, reply.first};
    return answer;
}

// The folded record of a prefix in k sections, into the front of the output.
static inline struct board_record_answer board_record(struct board *board, struct board_place prefix, size_t k,
                                                      uint8_t *output, size_t bytes) {
    struct board_reply reply = board_make(board, BOARD_RECORD_CALL, k, prefix.picks, board_output(output, bytes));
    struct board_record_answer answer = {reply.number, reply.first};
    return answer;
}

// The lift of a letter by the table in force: harness h is bit h - 1.
static inline struct board_lift_answer board_lift(struct board *board, size_t letter) {
    struct board_reply reply = board_make(board, BOARD_LIFT_CALL, letter, 0, board_nothing());
    struct board_lift_answer answer = {reply.number, (uint8_t)reply.first};
    return answer;
}

// The calls that are given no state

// Show section s, counted from 1, of letters that the ends divide: that part of the letters themselves, an empty one
// where it is refused.
static inline struct board_show_answer board_show(const uint8_t *letters, size_t len, const uint16_t *ends,
                                                  size_t count, size_t s) {
    uint8_t no_byte = 0;
    uint16_t no_end = 0;
    size_t answer[2] = {0};
    struct board_show_answer shown = {0, letters, 0};
    drive_show(letters ? letters : &no_byte, letters ? len : 0, ends ? ends : &no_end, ends ? count : 0, s, &no_byte, 0,
               answer);
    shown.number = answer[0];
    if (!answer[0]) {
        shown.part = letters + (ends[s - 1] - answer[1]);
        shown.len = answer[1];
    }
    return shown;
}

// Unfold a record: its picks fill the front of the list.
static inline struct board_unfold_answer board_unfold(const uint8_t *record, size_t len, uint8_t *picks,
                                                      size_t entries) {
    uint8_t no_byte = 0, no_pick = 0;
    size_t answer[3] = {1, BOARD_NOT_MADE, 0};
    struct board_unfold_answer unfolded = {0, 0, 0};
    drive_unfold(record ? record : &no_byte, record ? len : 0, picks ? picks : &no_pick, picks ? entries : 0, answer);
    if (answer[0]) {
        unfolded.number = answer[1];
        unfolded.place = answer[2];
    } else {
        unfolded.picks = answer[1];
    }
    return unfolded;
}

// The section of a record at a place, which is 0 or the section's first byte. None at any other place, and none of a
// record that board_unfold refuses with 11 or 12; next is then the place that was given.
static inline struct board_section board_section_at(const uint8_t *record, size_t len, size_t at) {
    uint8_t no_byte = 0;
    size_t answer[4] = {BOARD_NO_SECTION, 0, 0, at};
    drive_section(record ? record : &no_byte, record ? len : 0, at, answer);
    struct board_section section = {(enum board_turn)answer[0], answer[1], {answer[2]}, answer[3]};
    return section;
}

// A reader of the record, before its first section.
static inline struct board_reader board_read(const uint8_t *record, size_t len) {
    struct board_reader reader = {record, len, 0};
    return reader;
}

// The next section; BOARD_NO_SECTION behind the last one.
static inline struct board_section board_next_section(struct board_reader *reader) {
    struct board_section section = board_section_at(reader->record, reader->len, reader->at);
    reader->at = section.next;
    return section;
}

#ifdef __cplusplus
}
#endif
#endif
