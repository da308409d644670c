// The state that feeding a draft leaves, and the ways to feed it.
#ifndef WAYS_H
#define WAYS_H

#include "drafts.h"

// A stored state, and what the picks give: visits, in the first list or in a list for each pick, and masks, alone or in
// answers.
struct state {
    struct board board;
    uint16_t lists[BOARD_PICKS][BOARD_VISITS];
    uint8_t masks[BOARD_PICKS];
    size_t answers[BOARD_PICKS][BOARD_ANSWER_SIZE];
};

// A way to feed a whole draft into a cleared state.
struct way {
    const char *name;
    void (*feed)(struct state *, const struct draft *);
};

// What is stored for the picks: one visit list for all and a mask for each, or a visit list and an answer for each.
enum { ONE_LIST, LISTS, FORMS };

// The library, plain C, and plain C that divides only where three periods fit; each in both forms.
enum { LIBRARY, PLAIN, UNDIVIDED, MAKES };

extern const struct way ways[FORMS][MAKES];

// Makes the state that of an empty draft.
void clear(struct state *);

// The name of the mark at a draft's end.
enum { END_NAME = 'A' };

// Marks the end of the draft that is stored; goes back to that mark, which keeps all picks. Each gives 0 or the
// refusal's number.
size_t mark_end(struct state *);
size_t back_to_end(struct state *);

// 1, and a message that says what and where, where two ways differ in the state that they leave, or in a mask or a
// visit, and where going back to the draft's end leaves another state; else 0.
int draft_differs(const struct draft *);

#endif
