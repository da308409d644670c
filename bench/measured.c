// The calls through the inline functions of the header, and what is measured of each.
#include "clock.h"

#include "measured.h"
#include "stack.h"

#include <stdio.h>
#include <stdlib.h>

enum { REPETITIONS = 5 };

struct board board;
uint16_t list[BOARD_PICKS];
uint8_t table[MOST_TABLE];
uint8_t record[BOARD_RECORD];
struct tally tallies[CALLS];

static struct board before;
static uint8_t output[BOARD_RECORD], picks[BOARD_PICKS];
static struct asked current;
static size_t given;

// The calls through the header, each with what is asked at present. Each gives its number: 0 or the refusal; section,
// which has none, its turn.
static void make_start(void) { given = board_start(&board, current.b).number; }
static void make_load(void) { given = board_load(&board, table, current.m).number; }
static void make_feed(void) { given = board_feed(&board, current.b, list, current.m).number; }
static void make_mark(void) { given = board_mark(&board, current.b).number; }
static void make_back(void) { given = board_back(&board, current.b).number; }
static void make_mask(void) { given = board_mask(&board, board_prefix(current.x)).number; }
static void make_radius(void) { given = board_radius(&board, board_centre_at(current.x)).number; }
static void make_longest(void) { given = board_longest(&board).number; }
static void make_next(void) { given = board_next(&board, board_centre_at(current.x)).number; }
static void make_split(void) {
    given = board_split(&board, board_prefix(current.x), current.b, list, current.m).number;
}
static void make_record(void) {
    given = board_record(&board, board_prefix(current.x), current.b, output, current.m).number;
}
static void make_lift(void) { given = board_lift(&board, current.b).number; }
static void make_show(void) { given = board_show(board.letters, current.x, list, current.m, current.b).number; }
static void make_unfold(void) { given = board_unfold(record, current.x, picks, current.m).number; }
static void make_section(void) { given = board_section_at(record, current.x, current.b).turn; }
static void make_nothing(void) { given = 0; }

// The library's functions alone: all that they are lent is off the stack.
static uint8_t script[BOARD_CALL_SIZE];
static size_t answers[BOARD_ANSWER_SIZE];

static void drive_alone(void) {
    given =
        drive(board.letters, board.codes, board.lifts, board.marks, board.centres, board.places, board.numbers, script,
              sizeof script, table, sizeof table, list, BOARD_PICKS, output, sizeof output, answers, BOARD_ANSWER_SIZE);
}
static void show_alone(void) {
    given = drive_show(board.letters, current.x, list, current.m, current.b, output, 0, answers);
}
static void unfold_alone(void) { given = drive_unfold(record, current.x, picks, current.m, answers); }
static void section_alone(void) { given = drive_section(record, current.x, current.b, answers); }

// Each call in both forms.
static const struct {
    void (*through_header)(void);
    void (*alone)(void);
} makes[CALLS] = {
    [BOARD_START_CALL] = {make_start, drive_alone}, [BOARD_FEED_CALL] = {make_feed, drive_alone},
    [BOARD_SPLIT_CALL] = {make_split, drive_alone}, [BOARD_LONGEST_CALL] = {make_longest, drive_alone},
    [BOARD_MASK_CALL] = {make_mask, drive_alone},   [BOARD_RADIUS_CALL] = {make_radius, drive_alone},
    [BOARD_NEXT_CALL] = {make_next, drive_alone},   [BOARD_RECORD_CALL] = {make_record, drive_alone},
    [BOARD_LIFT_CALL] = {make_lift, drive_alone},   [BOARD_LOAD_CALL] = {make_load, drive_alone},
    [BOARD_MARK_CALL] = {make_mark, drive_alone},   [BOARD_BACK_CALL] = {make_back, drive_alone},
    [SHOW_CALL] = {make_show, show_alone},          [UNFOLD_CALL] = {make_unfold, unfold_alone},
    [SECTION_CALL] = {make_section, section_alone},
};

// The seconds of the quickest of a few calls, each from the state before: an interruption by the system is not counted.
static double quickest(void (*make)(void)) {
    double least = 0;
    for (int repetition = 0; repetition < REPETITIONS; repetition++) {
        board = before;
        double begun = now();
        make();
        double seconds = now() - begun;
        if (repetition == 0 || seconds < least)
            least = seconds;
    }
    return least;
}

// The seconds of no call: what the clock itself takes.
static double clock_seconds(void) {
    static double seconds;
    if (seconds == 0)
        seconds = quickest(make_nothing);
    return seconds;
}

// Keeps the larger.
static void keep_most(size_t *most, size_t bytes) {
    if (*most < bytes)
        *most = bytes;
}

// Adds a time: to the longest, and on a draft to those of the median.
static void keep_time(struct tally *tally, int origin, double seconds) {
    if (tally->longest[origin] < seconds)
        tally->longest[origin] = seconds;
    if (origin != OF_DRAFTS)
        return;
    if (tally->cases == MOST_CASES) {
        printf("a call has more than %d cases\n", MOST_CASES);
        exit(1);
    }
    tally->seconds[tally->cases++] = seconds;
}

size_t measure(int origin, struct asked asked) {
    struct tally *tally = &tallies[asked.call];
    void (*make)(void) = makes[asked.call].through_header;
    before = board;
    current = asked;
    board_write_call(script, (size_t)asked.call, asked.b, asked.x, asked.m);
    keep_most(&tally->library_stack, stack_of(makes[asked.call].alone));
    double seconds = quickest(make) - clock_seconds();
    keep_time(tally, origin, seconds > 0 ? seconds : 0);
    board = before;
    keep_most(&tally->stack, stack_of(make));
    return given;
}

// The order of two times, for qsort.
static int compare_seconds(const void *a, const void *b) {
    double x = *(const double *)a, y = *(const double *)b;
    return (x > y) - (x < y);
}

double median(struct tally *tally) {
    qsort(tally->seconds, tally->cases, sizeof tally->seconds[0], compare_seconds);
    return tally->seconds[tally->cases / 2];
}
