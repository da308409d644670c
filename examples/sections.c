// Feeds a draft and prints the mask after each pick, shows a split section by section, writes the folded record and
// reads it back.
//   sections [DRAFT SECTIONS]    ABACDDC in 2 where left out
#include "board.h"

#include <stdio.h>
#include <stdlib.h>
#include <string.h>

// The state, and what the calls are lent: on a board these are fixed too.
static struct board board;
static uint16_t visits[BOARD_VISITS];
static uint16_t ends[BOARD_SECTIONS];
static uint8_t record[BOARD_RECORD];
static uint8_t picks[BOARD_PICKS];

// Ends the program where a call was refused.
static void check(const char *call, size_t number) {
    if (number == 0)
        return;
    printf("%s refused with %zu\n", call, number);
    exit(1);
}

// Feeds each pick, and prints for which numbers of sections the draft so far can be divided.
static void feed(const char *draft) {
    for (size_t n = 0; draft[n]; n++) {
        struct board_feed_answer fed = board_feed(&board, (uint8_t)draft[n], visits, BOARD_VISITS);
        check("feed", fed.number);
        printf("%zu %c: mask %d, sections", n + 1, draft[n], fed.mask);
        for (int k = 1; k <= BOARD_SECTIONS; k++)
            if (fed.mask >> (k - 1) & 1)
                printf(" %d", k);
        printf("\n");
    }
}

// Splits the whole draft, and prints each section as the part of the draft that it is.
static void show(const char *draft, size_t n, size_t k) {
    struct board_split_answer split = board_split(&board, board_prefix(n), k, ends, BOARD_SECTIONS);
    check("split", split.number);
    printf("%zu sections, %zu turns\n", k, split.turns);
    for (size_t s = 1; s <= k; s++) {
        struct board_show_answer shown = board_show((const uint8_t *)draft, n, ends, k, s);
        check("show", shown.number);
        printf("section %zu: ", s);
        fwrite(shown.part, 1, shown.len, stdout);
        printf("\n");
    }
}

// Writes the folded record of the whole draft. Gives its count of bytes.
static size_t write_record(size_t n, size_t k) {
    struct board_record_answer written = board_record(&board, board_prefix(n), k, record, BOARD_RECORD);
    check("record", written.number);
    fwrite(record, 1, written.bytes, stdout);
    return written.bytes;
}

// Unfolds the record, and prints where the chain turns.
static void read_record(size_t bytes) {
    struct board_unfold_answer unfolded = board_unfold(record, bytes, picks, BOARD_PICKS);
    check("unfold", unfolded.number);
    printf("unfolded: ");
    fwrite(picks, 1, unfolded.picks, stdout);
    printf("\n");
    struct board_reader reader = board_read(record, bytes);
    struct board_section section = board_next_section(&reader);
    while (section.turn != BOARD_NO_SECTION) {
        const char *turn = section.turn == BOARD_ON_PICK ? "on" : "behind";
        printf("%zu picks, turning %s pick %zu\n", section.length, turn, section.place.picks);
        section = board_next_section(&reader);
    }
}

int main(int count, char **arguments) {
    const char *draft = count == 3 ? arguments[1] : "ABACDDC";
    size_t k = count == 3 ? strtoull(arguments[2], NULL, 10) : 2;
    check("start", board_start(&board, BOARD_SECTIONS).number);
    feed(draft);
    show(draft, strlen(draft), k);
    read_record(write_record(strlen(draft), k));
    return 0;
}
