// Stands between include/board.h and the library, by the linker's option `--wrap`: ends the program where a function of
// the library is given a null pointer, or a slice that reaches beyond its memory.
#include "board.h"

#include <sanitizer/asan_interface.h>
#include <stdlib.h>

size_t __real_drive(uint8_t *letters, uint8_t *codes, uint8_t *lifts, uint16_t *marks,
                    uint16_t (*centres)[BOARD_CENTRES], uint16_t (*places)[BOARD_PLACES], size_t *numbers,
                    const uint8_t *script, size_t script_len, const uint8_t *input, size_t input_len, uint16_t *lists,
                    size_t lists_len, uint8_t *bytes, size_t bytes_len, size_t *answers, size_t answers_len);
size_t __real_drive_show(const uint8_t *letters, size_t letters_len, const uint16_t *ends, size_t ends_len, size_t s,
                         uint8_t *part, size_t part_len, size_t *answer);
size_t __real_drive_unfold(const uint8_t *record, size_t record_len, uint8_t *picks, size_t picks_len, size_t *answer);
size_t __real_drive_section(const uint8_t *record, size_t record_len, size_t at, size_t *answer);

// Ends the program where this is a null pointer, or not all of the bytes are there.
static void check(const void *memory, size_t bytes) {
    if (!memory || __asan_region_is_poisoned((void *)(uintptr_t)memory, bytes))
        abort();
}

size_t __wrap_drive(uint8_t *letters, uint8_t *codes, uint8_t *lifts, uint16_t *marks,
                    uint16_t (*centres)[BOARD_CENTRES], uint16_t (*places)[BOARD_PLACES], size_t *numbers,
                    const uint8_t *script, size_t script_len, const uint8_t *input, size_t input_len, uint16_t *lists,
                    size_t lists_len, uint8_t *bytes, size_t bytes_len, size_t *answers, size_t answers_len) {
    check(letters, BOARD_PICKS);
    check(codes, BOARD_PICKS);
    check(lifts, BOARD_ALPHABET);
    check(marks, BOARD_ALPHABET * sizeof *marks);
    check(centres, BOARD_CENTRE_LANES * sizeof *centres);
    check(places, BOARD_PLACE_LANES * sizeof *places);
    check(numbers, BOARD_NUMBERS * sizeof *numbers);
    check(script, script_len);
    check(input, input_len);
    check(lists, lists_len * sizeof *lists);
    check(bytes, bytes_len);
    check(answers, answers_len * sizeof *answers);
    return __real_drive(letters, codes, lifts, marks, centres, places, numbers, script, script_len, input, input_len,
                        lists, lists_len, bytes, bytes_len, answers, answers_len);
}

size_t __wrap_drive_show(const uint8_t *letters, size_t letters_len, const uint16_t *ends, size_t ends_len, size_t s,
                         uint8_t *part, size_t part_len, size_t *answer) {
    check(letters, letters_len);
    check(ends, ends_len * sizeof *ends);
    check(part, part_len);
    check(answer, 2 * sizeof *answer);
    return __real_drive_show(letters, letters_len, ends, ends_len, s, part, part_len, answer);
}

size_t __wrap_drive_unfold(const uint8_t *record, size_t record_len, uint8_t *picks, size_t picks_len, size_t *answer) {
    check(record, record_len);
    check(picks, picks_len);
    check(answer, 3 * sizeof *answer);
    return __real_drive_unfold(record, record_len, picks, picks_len, answer);
}

size_t __wrap_drive_section(const uint8_t *record, size_t record_len, size_t at, size_t *answer) {
    check(record, record_len);
    check(answer, 4 * sizeof *answer);
    return __real_drive_section(record, record_len, at, answer);
}
