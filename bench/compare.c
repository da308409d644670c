// What the ways leave of a draft, compared with what plain C leaves.
#include "ways.h"

#include <stdio.h>

// 1 and a message where a byte of a part is not that of plain C.
static int part_differs(const char *case_name, const char *part, const void *given, const void *plain, size_t size) {
    const uint8_t *a = given, *b = plain;
    for (size_t i = 0; i < size; i++)
        if (a[i] != b[i]) {
            printf("%s: byte %zu of the %s is %d, C has %d\n", case_name, i, part, a[i], b[i]);
            return 1;
        }
    return 0;
}

// The same for the stored state and the masks.
static int state_differs(const char *case_name, const struct state *given, const struct state *plain) {
    const struct board *a = &given->board, *b = &plain->board;
    return part_differs(case_name, "letters", a->letters, b->letters, sizeof b->letters) ||
           part_differs(case_name, "codes", a->codes, b->codes, sizeof b->codes) ||
           part_differs(case_name, "lifts", a->lifts, b->lifts, sizeof b->lifts) ||
           part_differs(case_name, "marks", a->marks, b->marks, sizeof b->marks) ||
           part_differs(case_name, "lanes by centre", a->centres, b->centres, sizeof b->centres) ||
           part_differs(case_name, "lanes by place", a->places, b->places, sizeof b->places) ||
           part_differs(case_name, "numbers", a->numbers, b->numbers, sizeof b->numbers) ||
           part_differs(case_name, "masks", given->masks, plain->masks, sizeof plain->masks);
}

// The same for the visits and the answers of each pick; with one visit list, for the visits of the last.
static int picks_differ(int form, const char *case_name, const struct state *given, const struct state *plain) {
    size_t last = BOARD_PICKS - 1, count = plain->answers[last][2];
    if (form == ONE_LIST)
        return part_differs(case_name, "last visits", given->lists[0], plain->lists[last],
                            count * sizeof plain->lists[last][0]);
    return part_differs(case_name, "visits", given->lists, plain->lists, sizeof plain->lists) ||
           part_differs(case_name, "answers", given->answers, plain->answers, sizeof plain->answers);
}

// Feeds a draft. The masks of answers go to the masks.
static void feed_once(int form, int make, const struct draft *draft, struct state *s) {
    clear(s);
    ways[form][make].feed(s, draft);
    for (size_t n = 0; form == LISTS && n < BOARD_PICKS; n++)
        s->masks[n] = s->answers[n][1];
}

// 1 and a message where the library's state, once it has gone back to the draft's end, is not that of plain C with the
// mark.
static int back_differs(const struct draft *draft, struct state *given, const struct state *plain) {
    static struct state marked;
    char case_name[80];
    snprintf(case_name, sizeof case_name, "%s, back", draft->name);
    marked = *plain;
    marked.board.marks[END_NAME - 'A'] = BOARD_PICKS + 1;
    feed_once(LISTS, LIBRARY, draft, given);
    if (mark_end(given) || back_to_end(given)) {
        printf("%s: it is refused\n", case_name);
        return 1;
    }
    return state_differs(case_name, given, &marked);
}

int draft_differs(const struct draft *draft) {
    static struct state given, plain;
    feed_once(LISTS, PLAIN, draft, &plain);
    for (int way = 0; way < FORMS * MAKES; way++) {
        int form = way / MAKES, make = way % MAKES;
        char case_name[80];
        snprintf(case_name, sizeof case_name, "%s, %s", draft->name, ways[form][make].name);
        feed_once(form, make, draft, &given);
        if (state_differs(case_name, &given, &plain) || picks_differ(form, case_name, &given, &plain))
            return 1;
    }
    return back_differs(draft, &given, &plain);
}
