// The drafts that are fed, and numbers from a fixed seed.
#ifndef DRAFTS_H
#define DRAFTS_H

#include "board.h"

// A draft of 2,048 picks, and the script that feeds it, each pick with a visit list of its own.
struct draft {
    const char *name;
    uint8_t picks[BOARD_PICKS];
    uint8_t calls[BOARD_PICKS][BOARD_CALL_SIZE];
};

// The first are timed beside plain C.
enum { TIMED_DRAFTS = 4, DRAFTS = 6 };

// Makes the drafts and their scripts.
void make_drafts(struct draft drafts[DRAFTS]);

// The next number from the seed.
uint64_t random_number(uint64_t *seed);

#endif
