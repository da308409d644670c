// The drafts that are fed.
#include "drafts.h"

#include <string.h>

// splitmix64
uint64_t random_number(uint64_t *seed) {
    uint64_t mixed = *seed += 0x9E3779B97F4A7C15;
    mixed = (mixed ^ mixed >> 30) * 0xBF58476D1CE4E5B9;
    mixed = (mixed ^ mixed >> 27) * 0x94D049BB133111EB;
    return mixed ^ mixed >> 31;
}

// Picks from a seed, over the first letters.
static void random_picks(uint8_t *picks, uint64_t seed, size_t letters) {
    for (size_t i = 0; i < BOARD_PICKS; i++)
        picks[i] = 'A' + random_number(&seed) % letters;
}

// The Fibonacci word: what follows a word of the row A, AB, ABA.. is the one before it.
static void fibonacci(uint8_t *picks) {
    size_t before = 1, length = 2;
    memcpy(picks, "AB", length);
    while (length < BOARD_PICKS) {
        size_t added = before < BOARD_PICKS - length ? before : BOARD_PICKS - length;
        memcpy(picks + length, picks, added);
        before = length;
        length += added;
    }
}

// All A but for seven last picks. At B the longest ending falls from the whole draft to one pick; and the split of the
// whole into 8 tries nearly every start, for each section but the first.
static void hard_end(uint8_t *picks) {
    static const uint8_t end[] = {'B', 'C', 'D', 'E', 'F', 'G', 'H'};
    memset(picks, 'A', BOARD_PICKS);
    memcpy(picks + BOARD_PICKS - sizeof end, end, sizeof end);
}

// The calls that feed the draft.
static void write_calls(struct draft *draft) {
    for (size_t n = 0; n < BOARD_PICKS; n++)
        board_write_call(draft->calls[n], BOARD_FEED_CALL, draft->picks[n], 0, BOARD_VISITS);
}

void make_drafts(struct draft drafts[DRAFTS]) {
    static const char *const names[DRAFTS] = {"all A",          "alternating AB",    "random, 26 letters",
                                              "Fibonacci word", "random, 2 letters", "A, then B to H"};
    for (size_t i = 0; i < BOARD_PICKS; i++) {
        drafts[0].picks[i] = 'A';
        drafts[1].picks[i] = "AB"[i % 2];
    }
    random_picks(drafts[2].picks, 26, 26);
    fibonacci(drafts[3].picks);
    random_picks(drafts[4].picks, 2, 2);
    hard_end(drafts[5].picks);
    for (int i = 0; i < DRAFTS; i++) {
        drafts[i].name = names[i];
        write_calls(&drafts[i]);
    }
}
