// The calls, and what is measured of each.
#ifndef MEASURED_H
#define MEASURED_H

#include "board.h"

// The calls that are given no state, numbered after those of a script.
enum { SHOW_CALL = BOARD_CALLS, UNFOLD_CALL, SECTION_CALL, CALLS };

// What a call is asked: the letter, K, k, the section or the place in the record; the prefix, the centre, or the count
// of letters or of the record's bytes; the entries or bytes that it is lent.
struct asked {
    int call;
    size_t b, x, m;
};

// The states on which calls are made: those of drafts, and any bytes.
enum { OF_DRAFTS, OF_BYTES, ORIGINS };

// The most cases of a call that are kept for the median.
enum { MOST_CASES = 150000 };

// What was measured of a call: the most stack through the header and of the library's function alone; the longest time
// in seconds by the state's origin; the time of each case on a draft.
struct tally {
    size_t stack, library_stack;
    double longest[ORIGINS];
    size_t cases;
    double seconds[MOST_CASES];
};

// The most bytes of a table that is loaded: one too many.
enum { MOST_TABLE = BOARD_ALPHABET + 1 };

// The state, the list that calls are lent, which show takes as ends, the table that load is lent, and the record that
// unfold and section are lent.
extern struct board board;
extern uint16_t list[BOARD_PICKS];
extern uint8_t table[MOST_TABLE];
extern uint8_t record[BOARD_RECORD];

extern struct tally tallies[CALLS];

// Makes a call on the state a few times, from the same state each time; adds its stack and its quickest time to the
// tally. The state is then that after the call. Gives the call's number: 0 or the refusal.
size_t measure(int origin, struct asked asked);

// The median of the times on drafts, in seconds.
double median(struct tally *tally);

#endif
