// What each call takes of a host: stack and time. Made through the inline functions of the header, on drafts of 2,048
// picks and on states of random bytes. Prints the size of the state and a table in Markdown.
#include "drafts.h"
#include "measured.h"

#include <stdio.h>
#include <string.h>

enum { PREFIX_STEP = 8, BACK_STEP = 64, STATES = 500 };

// Measures a call on the state of a draft.
static size_t on_draft(int call, size_t b, size_t x, size_t m) {
    struct asked asked = {call, b, x, m};
    return measure(OF_DRAFTS, asked);
}

// Starts with each K and those beside, then with K = 8, on whatever is stored.
static void starts(void) {
    for (size_t k = 0; k <= BOARD_SECTIONS + 1; k++)
        on_draft(BOARD_START_CALL, k, 0, 0);
    on_draft(BOARD_START_CALL, BOARD_SECTIONS, 0, 0);
}

// A table with a 0 at each place, of one byte too few and one too many, of none, and one that is taken: on an empty
// draft, which has the fixed table again afterwards.
static void loads(void) {
    memset(table, UINT8_MAX, sizeof table);
    for (size_t place = 0; place < BOARD_ALPHABET; place++) {
        table[place] = 0;
        on_draft(BOARD_LOAD_CALL, 0, 0, BOARD_ALPHABET);
        table[place] = UINT8_MAX;
    }
    on_draft(BOARD_LOAD_CALL, 0, 0, 0);
    on_draft(BOARD_LOAD_CALL, 0, 0, BOARD_ALPHABET - 1);
    on_draft(BOARD_LOAD_CALL, 0, 0, BOARD_ALPHABET + 1);
    on_draft(BOARD_LOAD_CALL, 0, 0, BOARD_ALPHABET);
    on_draft(BOARD_START_CALL, BOARD_SECTIONS, 0, 0);
}

// Each pick of the draft, and the longest ending after it. Of each refusal one: no letter, a short list, a full draft.
static void feeds(const struct draft *draft) {
    on_draft(BOARD_FEED_CALL, 'a', 0, BOARD_VISITS);
    on_draft(BOARD_FEED_CALL, 'A', 0, BOARD_VISITS - 1);
    for (size_t n = 0; n < BOARD_PICKS; n++) {
        on_draft(BOARD_FEED_CALL, draft->picks[n], 0, BOARD_VISITS);
        on_draft(BOARD_LONGEST_CALL, 0, 0, 0);
    }
    on_draft(BOARD_FEED_CALL, 'A', 0, BOARD_VISITS);
}

// Every prefix and every centre, and those beside; every byte as a letter; and a load, which comes too late.
static void questions(void) {
    for (size_t i = 0; i <= BOARD_PICKS + 1; i++)
        on_draft(BOARD_MASK_CALL, 0, i, 0);
    for (size_t centre = 0; centre <= BOARD_CENTRES; centre++) {
        on_draft(BOARD_RADIUS_CALL, 0, centre, 0);
        on_draft(BOARD_NEXT_CALL, 0, centre, 0);
    }
    for (size_t letter = 0; letter <= UINT8_MAX; letter++)
        on_draft(BOARD_LIFT_CALL, letter, 0, 0);
    on_draft(BOARD_LOAD_CALL, 0, 0, BOARD_ALPHABET);
}

// Every letter as the name of a mark, and the bytes beside, so that a fifth name is refused; those that are marks are
// moved. Then backs from the full draft: to a name that is no mark, to no letter, and to every 64th length, from all
// picks down to none.
static void marks(void) {
    for (size_t name = 'A' - 1; name <= 'Z' + 1; name++)
        on_draft(BOARD_MARK_CALL, name, 0, 0);
    for (size_t name = 'A'; name <= 'D'; name++)
        on_draft(BOARD_MARK_CALL, name, 0, 0);
    on_draft(BOARD_BACK_CALL, 'Z', 0, 0);
    on_draft(BOARD_BACK_CALL, 'a', 0, 0);
    for (size_t dropped = 0; dropped <= BOARD_PICKS; dropped += BACK_STEP) {
        board.marks[0] = (uint16_t)(BOARD_PICKS - dropped + 1);
        on_draft(BOARD_BACK_CALL, 'A', 0, 0);
    }
}

// Unfolds the record of prefix i in k sections, with too little lent and without its end too, and reads each section.
static void read_back(size_t i, size_t k) {
    size_t bytes = board_record(&board, board_prefix(i), k, record, BOARD_RECORD).bytes;
    struct board_reader reader = board_read(record, bytes);
    on_draft(UNFOLD_CALL, 0, bytes, BOARD_PICKS);
    on_draft(UNFOLD_CALL, 0, bytes, i - 1);
    on_draft(UNFOLD_CALL, 0, bytes - 1, BOARD_PICKS);
    do
        on_draft(SECTION_CALL, reader.at, bytes, 0);
    while (board_next_section(&reader).turn != BOARD_NO_SECTION);
}

// Record and split of prefix i into k. Where there is one: with too little lent too, each section shown, and the record
// read back.
static void sections(size_t i, size_t k) {
    on_draft(BOARD_RECORD_CALL, k, i, BOARD_RECORD);
    if (on_draft(BOARD_SPLIT_CALL, k, i, BOARD_SECTIONS))
        return;
    for (size_t s = 0; s <= k + 1; s++)
        on_draft(SHOW_CALL, s, i, k);
    on_draft(BOARD_RECORD_CALL, k, i, 0);
    on_draft(BOARD_SPLIT_CALL, k, i, k - 1);
    read_back(i, k);
}

// Every eighth prefix and the one past the draft, each with every k and those beside.
static void splits(void) {
    for (size_t k = 0; k <= BOARD_SECTIONS + 1; k++) {
        for (size_t i = 0; i <= BOARD_PICKS; i += PREFIX_STEP)
            sections(i, k);
        sections(BOARD_PICKS + 1, k);
    }
}

// Sections of one pick each.
static void no_state(void) {
    for (size_t i = 0; i < BOARD_PICKS; i++)
        list[i] = (uint16_t)(i + 1);
    for (size_t s = 0; s <= BOARD_PICKS + 1; s++)
        on_draft(SHOW_CALL, s, BOARD_PICKS, BOARD_PICKS);
}

static void fill(uint8_t *bytes, size_t count, uint64_t *seed) {
    for (size_t i = 0; i < count; i++)
        bytes[i] = (uint8_t)random_number(seed);
}

// A record, a table and a state of random bytes, with n up to 2,048 and K of 1 to 9: 9 is no draft's. In every other
// one a feed looks at each centre.
static void any_state(size_t number, uint64_t *seed) {
    fill(record, sizeof record, seed);
    fill(table, sizeof table, seed);
    fill((uint8_t *)&board, sizeof board, seed);
    board.numbers[BOARD_N] = number % 2 ? BOARD_PICKS - 1 : random_number(seed) % (BOARD_PICKS + 1);
    board.numbers[BOARD_K] = 1 + random_number(seed) % (BOARD_SECTIONS + 1);
    board.numbers[BOARD_LONGEST] = number % 2 ? 1 : random_number(seed) % (BOARD_CENTRES + 1);
}

// Each call on the state; those that change it come last.
static void any_calls(uint64_t *seed) {
    size_t n = board.numbers[BOARD_N], k = 1 + random_number(seed) % board.numbers[BOARD_K];
    size_t i = random_number(seed) % (n + 1), centre = 1 + random_number(seed) % (2 * n + 1);
    size_t letter = 'A' + random_number(seed) % BOARD_ALPHABET;
    const struct asked all[] = {
        {BOARD_SPLIT_CALL, k, i, BOARD_SECTIONS},
        {SHOW_CALL, k, i, k},
        {BOARD_RECORD_CALL, k, i, BOARD_RECORD},
        {BOARD_MASK_CALL, 0, i, 0},
        {BOARD_RADIUS_CALL, 0, centre, 0},
        {BOARD_LONGEST_CALL, 0, 0, 0},
        {BOARD_NEXT_CALL, 0, centre, 0},
        {BOARD_LIFT_CALL, letter, 0, 0},
        {UNFOLD_CALL, 0, BOARD_RECORD, BOARD_PICKS},
        {SECTION_CALL, 0, BOARD_RECORD, 0},
        {BOARD_FEED_CALL, letter, 0, BOARD_VISITS},
        {BOARD_MARK_CALL, letter, 0, 0},
        {BOARD_BACK_CALL, letter, 0, 0},
        {BOARD_START_CALL, k, 0, 0},
        {BOARD_LOAD_CALL, 0, 0, BOARD_ALPHABET},
    };
    for (size_t call = 0; call < sizeof all / sizeof all[0]; call++)
        measure(OF_BYTES, all[call]);
}

// Every draft, then the states of random bytes.
static void measure_all(void) {
    static struct draft drafts[DRAFTS];
    uint64_t seed = 2048;
    make_drafts(drafts);
    for (int i = 0; i < DRAFTS; i++) {
        starts();
        loads();
        feeds(&drafts[i]);
        questions();
        splits();
        marks();
    }
    no_state();
    for (size_t number = 0; number < STATES; number++) {
        any_state(number, &seed);
        any_calls(&seed);
    }
}

// A line of the table.
static void print_row(int call, const char *name) {
    struct tally *tally = &tallies[call];
    printf("| %s | %zu | %zu | %.2f | %.2f | %.2f |\n", name, tally->stack, tally->library_stack, median(tally) * 1e6,
           tally->longest[OF_DRAFTS] * 1e6, tally->longest[OF_BYTES] * 1e6);
}

int main(void) {
    measure_all();
    printf("The state: %zu bytes. Stack is counted down to the lowest byte that is written.\n\n", sizeof(struct board));
    printf("| Call | Stack, bytes | of it the library | Median, µs | Longest, µs | Longest on random bytes, µs |\n");
    printf("|---|---|---|---|---|---|\n");
    print_row(BOARD_START_CALL, "start");
    print_row(BOARD_LOAD_CALL, "load");
    print_row(BOARD_FEED_CALL, "feed");
    print_row(BOARD_MARK_CALL, "mark");
    print_row(BOARD_BACK_CALL, "back");
    print_row(BOARD_MASK_CALL, "mask");
    print_row(BOARD_RADIUS_CALL, "radius");
    print_row(BOARD_LONGEST_CALL, "longest ending");
    print_row(BOARD_NEXT_CALL, "next shorter ending");
    print_row(BOARD_SPLIT_CALL, "split");
    print_row(BOARD_RECORD_CALL, "folded record");
    print_row(BOARD_LIFT_CALL, "lift");
    print_row(SHOW_CALL, "show");
    print_row(UNFOLD_CALL, "unfold");
    print_row(SECTION_CALL, "section of a record");
    return 0;
}
