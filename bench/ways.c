// The ways to feed a draft.
#include "ways.h"
#include "plain.h"

#include <string.h>

// The loop of feeds in crate speed. A slice is its pointer and its length.
size_t feed_all(uint8_t letters[BOARD_PICKS], uint8_t codes[BOARD_PICKS], const uint8_t lifts[BOARD_ALPHABET],
                uint16_t centres[BOARD_CENTRE_LANES][BOARD_CENTRES], uint16_t places[BOARD_PLACE_LANES][BOARD_PLACES],
                uint16_t *visits, size_t visits_len, const uint8_t *picks, size_t picks_len, uint8_t *masks,
                size_t masks_len);

// The fixed table of lifts.
static const uint8_t fixed[BOARD_ALPHABET] = {3,  5,  9,  17, 33,  65, 129, 6,  10,  18, 34, 66,  130,
                                              12, 20, 36, 68, 132, 24, 40,  72, 136, 48, 80, 144, 96};

void clear(struct state *s) {
    struct board *board = &s->board;
    memset(s, 0, sizeof *s);
    memcpy(board->lifts, fixed, sizeof fixed);
    board->places[BOARD_ROWS_LANE][0] = board->places[BOARD_GATHERED_LANE][0] = 1;
    board->numbers[BOARD_K] = BOARD_SECTIONS;
    board->numbers[BOARD_LONGEST] = 1;
}

// The library's feed on lent arrays, in a loop of its own, which stores no numbers.
static void feed_lent(struct state *s, const struct draft *draft) {
    struct board *board = &s->board;
    board->numbers[BOARD_LONGEST] =
        feed_all(board->letters, board->codes, board->lifts, board->centres, board->places, s->lists[0], BOARD_VISITS,
                 draft->picks, BOARD_PICKS, s->masks, BOARD_PICKS);
    board->numbers[BOARD_N] = BOARD_PICKS;
}

// The library's feeds by script. No input and no output are lent.
static void feed_script(struct state *s, const struct draft *draft) {
    struct board *board = &s->board;
    drive(board->letters, board->codes, board->lifts, board->marks, board->centres, board->places, board->numbers,
          draft->calls[0], sizeof draft->calls, draft->picks, 0, s->lists[0], BOARD_PICKS * BOARD_VISITS, s->masks, 0,
          s->answers[0], BOARD_PICKS * BOARD_ANSWER_SIZE);
}

// One pick by an append in C.
static inline void append_pick(append *append, struct board *board, size_t n, uint8_t pick, uint16_t *visits,
                               size_t *answer) {
    append(board->letters, board->codes, board->lifts, board->centres[BOARD_RADIUS_LANE],
           board->places[BOARD_HEADS_LANE], board->centres[BOARD_LENDS_LANE], board->centres[BOARD_NEXT_LANE],
           board->centres[BOARD_PREV_LANE], board->places[BOARD_ROWS_LANE], board->places[BOARD_GATHERED_LANE], visits,
           n, BOARD_SECTIONS, board->numbers[BOARD_LONGEST], pick, answer);
    board->numbers[BOARD_N] = n + 1;
    board->numbers[BOARD_LONGEST] = answer[2];
}

static inline void append_one_list(append *append, struct state *s, const struct draft *draft) {
    for (size_t n = 0; n < BOARD_PICKS; n++) {
        size_t answer[3];
        append_pick(append, &s->board, n, draft->picks[n], s->lists[0], answer);
        s->masks[n] = answer[0] / 2;
    }
}

static inline void append_lists(append *append, struct state *s, const struct draft *draft) {
    for (size_t n = 0; n < BOARD_PICKS; n++) {
        size_t answer[3];
        append_pick(append, &s->board, n, draft->picks[n], s->lists[n], answer);
        s->answers[n][1] = answer[0] / 2;
        s->answers[n][2] = answer[1];
    }
}

static void plain_one_list(struct state *s, const struct draft *draft) { append_one_list(plain_append, s, draft); }
static void plain_lists(struct state *s, const struct draft *draft) { append_lists(plain_append, s, draft); }
static void undivided_one_list(struct state *s, const struct draft *draft) {
    append_one_list(undivided_append, s, draft);
}
static void undivided_lists(struct state *s, const struct draft *draft) { append_lists(undivided_append, s, draft); }

size_t mark_end(struct state *s) { return board_mark(&s->board, END_NAME).number; }
size_t back_to_end(struct state *s) { return board_back(&s->board, END_NAME).number; }

const struct way ways[FORMS][MAKES] = {
    [ONE_LIST] = {{"lent", feed_lent}, {"C", plain_one_list}, {"C'", undivided_one_list}},
    [LISTS] = {{"script", feed_script}, {"C", plain_lists}, {"C'", undivided_lists}},
};
