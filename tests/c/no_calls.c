// A library whose functions know no call, as one that is older than the header knows no later one: each function of the
// header says so, and gives no value.
#include "board.h"

#include <stdio.h>

size_t drive(uint8_t letters[BOARD_PICKS], uint8_t codes[BOARD_PICKS], uint8_t lifts[BOARD_ALPHABET],
             uint16_t marks[BOARD_ALPHABET], uint16_t centres[BOARD_CENTRE_LANES][BOARD_CENTRES],
             uint16_t places[BOARD_PLACE_LANES][BOARD_PLACES], size_t numbers[BOARD_NUMBERS], const uint8_t *script,
             size_t script_len, const uint8_t *input, size_t input_len, uint16_t *lists, size_t lists_len,
             uint8_t *bytes, size_t bytes_len, size_t *answers, size_t answers_len) {
    (void)letters, (void)codes, (void)lifts, (void)marks;
    (void)centres, (void)places, (void)numbers, (void)script, (void)script_len, (void)input;
    (void)input_len, (void)lists, (void)lists_len, (void)bytes, (void)bytes_len, (void)answers, (void)answers_len;
    return 0;
}

size_t drive_unfold(const uint8_t *record, size_t record_len, uint8_t *picks, size_t picks_len, size_t answer[3]) {
    (void)record, (void)record_len, (void)picks, (void)picks_len, (void)answer;
    return 0;
}

size_t drive_section(const uint8_t *record, size_t record_len, size_t at, size_t answer[4]) {
    (void)record, (void)record_len, (void)at, (void)answer;
    return 0;
}

static struct board board;
static uint16_t list[BOARD_VISITS];
static uint8_t output[BOARD_RECORD];
static const uint8_t table[BOARD_ALPHABET] = {3};

int main(void) {
    struct board_load_answer loaded = board_load(&board, table, BOARD_ALPHABET);
    struct board_feed_answer fed = board_feed(&board, 'A', list, BOARD_VISITS);
    struct board_mask_answer mask = board_mask(&board, board_prefix(0));
    struct board_radius_answer radius = board_radius(&board, board_centre_at(1));
    struct board_centre_answer longest = board_longest(&board);
    struct board_next_answer next = board_next(&board, board_centre_at(1));
    struct board_split_answer split = board_split(&board, board_prefix(1), 1, list, BOARD_VISITS);
    struct board_record_answer record = board_record(&board, board_prefix(1), 1, output, BOARD_RECORD);
    struct board_lift_answer lift = board_lift(&board, 'A');
    const uint8_t folded[] = {'1', ',', '1', ',', '1', ',', 'A', '\n'};
    struct board_unfold_answer unfolded = board_unfold(folded, sizeof folded, output, BOARD_RECORD);
    struct board_section section = board_section_at(folded, sizeof folded, 4);
    printf("start %zu\n", board_start(&board, 8).number);
    printf("load %zu %zu\n", loaded.number, loaded.place);
    printf("feed %zu %d %zu\n", fed.number, fed.mask, fed.visits);
    printf("mark %zu\n", board_mark(&board, 'A').number);
    printf("back %zu\n", board_back(&board, 'A').number);
    printf("mask %zu %d\n", mask.number, mask.mask);
    printf("radius %zu %zu\n", radius.number, radius.radius);
    printf("longest %zu %zu\n", longest.number, longest.centre.half_picks);
    printf("next %zu %zu %zu %zu\n", next.number, next.centre.half_picks, next.length, next.period);
    printf("split %zu %zu\n", split.number, split.turns);
    printf("record %zu %zu\n", record.number, record.bytes);
    printf("lift %zu %d\n", lift.number, lift.lift);
    printf("unfold %zu %zu %zu\n", unfolded.number, unfolded.place, unfolded.picks);
    printf("section %d %zu %zu %zu\n", section.turn, section.length, section.place.picks, section.next);
    return 0;
}
