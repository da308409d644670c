// The calls of include/board.h in the console's language: reads lines with decimal numbers, and answers each as the
// console does with `--all`. Every list, output and text has just the size that is asked for; where that is 0 it is a
// null pointer, and another size is said of it. It is C11 and C++11.
#include "board.h"

#include <stdio.h>
#include <stdlib.h>
#include <string.h>

// The most that is printed of what is lent, as much as the script's field can hold, and the most that is lent; the size
// that is said of a null pointer; the most ends of a show; the longest line.
enum { MOST_PRINTED = 65535, MOST_LENT = 70000, SAID_OF_NULL = 2048, MOST_ENDS = 4096, MOST_LINE = 1 << 18 };

// The numbers of the refusals that name a place.
enum { NOT_A_RECORD = 11, NO_LIFT = 15 };

static struct board board;

// The next word of the line; a null pointer where there is none.
static const char *word(void) { return strtok(NULL, " \n"); }

// The next number; the largest where it is beyond a machine word, and the other where there is none.
static size_t number_or(size_t other) {
    const char *digits = word();
    return digits ? (size_t)strtoull(digits, NULL, 10) : other;
}

static size_t number(void) { return number_or(0); }

static size_t least(size_t a, size_t b) { return a < b ? a : b; }

// The size that is said of what is lent: "A null pointer lends nothing, whatever is said of its size."
static size_t said(size_t size) { return size ? size : (size_t)SAID_OF_NULL; }

// Memory of just so many bytes; a null pointer where there are none.
static void *lend(size_t bytes) {
    void *memory = bytes ? malloc(bytes) : NULL;
    if (bytes && !memory)
        abort();
    return memory;
}

static uint16_t *lend_list(size_t entries) {
    uint16_t *list = (uint16_t *)lend(entries * sizeof *list);
    for (size_t i = 0; i < entries; i++)
        list[i] = (uint16_t)(60000 + i % 5000);
    return list;
}

// A text of the line, as it is lent.
struct text {
    uint8_t *bytes;
    size_t length;
};

// The byte that a text begins with: `\n` is byte 10, `\xHH` any byte. Moves the text behind it.
static uint8_t next_byte(const char **text) {
    const char *first = *text;
    int is_line_end = !strncmp(first, "\\n", 2), is_hex = !strncmp(first, "\\x", 2);
    char digits[3] = "";
    *text += is_line_end ? 2 : is_hex ? 4 : 1;
    if (!is_hex)
        return is_line_end ? 10 : (uint8_t)*first;
    memcpy(digits, first + 2, 2);
    return (uint8_t)strtoul(digits, NULL, 16);
}

// The bytes of the next word; `-` alone is none.
static struct text lend_text(void) {
    static uint8_t read[MOST_LINE];
    struct text text = {NULL, 0};
    const char *rest = word();
    if (strcmp(rest, "-"))
        while (*rest)
            read[text.length++] = next_byte(&rest);
    text.bytes = (uint8_t *)lend(text.length);
    if (text.length)
        memcpy(text.bytes, read, text.length);
    return text;
}

static uint8_t *lend_output(size_t bytes) {
    uint8_t *output = (uint8_t *)lend(bytes);
    if (bytes)
        memset(output, 42, bytes);
    return output;
}

// Prints `ok`, or `refused` and its number. A refused call has no other value than 0.
static void print_number(size_t number, int has_value) {
    if (number)
        printf("refused %zu%s", number, has_value ? " and a value" : "");
    else
        printf("ok");
}

static void print_value(size_t number, size_t value) {
    print_number(number, value != 0);
    if (!number)
        printf(" %zu", value);
}

// The place that a refusal names, and a place where it names none.
static void print_place(size_t number, size_t place) {
    if (number == NOT_A_RECORD || number == NO_LIFT || place)
        printf(" %zu", place);
}

static void print_list(const uint16_t *list, size_t entries) {
    printf(" |");
    for (size_t i = 0; i < least(entries, MOST_PRINTED); i++)
        printf(" %u", (unsigned)list[i]);
}

static void print_text(const uint8_t *text, size_t length) {
    printf(length ? " | " : " |");
    for (size_t i = 0; i < least(length, MOST_PRINTED); i++) {
        if (text[i] == '\n')
            printf("\\n");
        else
            putchar(text[i]);
    }
}

static void start(void) { print_number(board_start(&board, number()).number, 0); }

// A table of all bytes that the line has.
static void load(void) {
    static uint8_t read[MOST_LINE];
    size_t count = 0;
    for (const char *byte = word(); byte; byte = word())
        read[count++] = (uint8_t)strtoul(byte, NULL, 10);
    uint8_t *table = (uint8_t *)lend(count);
    if (count)
        memcpy(table, read, count);
    struct board_load_answer answer = board_load(&board, table, said(count));
    print_number(answer.number, 0);
    print_place(answer.number, answer.place);
    if (count && memcmp(table, read, count))
        printf(" and a changed table");
    free(table);
}

static void feed(void) {
    size_t pick = number(), entries = least(number_or(BOARD_VISITS), MOST_LENT);
    uint16_t *visits = lend_list(entries);
    struct board_feed_answer answer = board_feed(&board, pick, visits, said(entries));
    print_number(answer.number, answer.mask || answer.visits);
    if (!answer.number)
        printf(" %u %zu", (unsigned)answer.mask, answer.visits);
    print_list(visits, entries);
    free(visits);
}

static void mark(void) { print_number(board_mark(&board, number()).number, 0); }

static void back(void) { print_number(board_back(&board, number()).number, 0); }

static void mask(void) {
    struct board_mask_answer answer = board_mask(&board, board_prefix(number()));
    print_value(answer.number, answer.mask);
}

static void radius(void) {
    struct board_radius_answer answer = board_radius(&board, board_centre_at(number()));
    print_value(answer.number, answer.radius);
}

static void longest(void) {
    struct board_centre_answer answer = board_longest(&board);
    print_value(answer.number, answer.centre.half_picks);
}

static void next(void) {
    struct board_next_answer answer = board_next(&board, board_centre_at(number()));
    print_number(answer.number, answer.centre.half_picks || answer.length || answer.period);
    if (!answer.number)
        printf(" %zu %zu %zu", answer.centre.half_picks, answer.length, answer.period);
}

static void split(void) {
    size_t prefix = number(), k = number(), entries = least(number_or(least(k, UINT8_MAX)), MOST_LENT);
    uint16_t *ends = lend_list(entries);
    struct board_split_answer answer = board_split(&board, board_prefix(prefix), k, ends, said(entries));
    print_value(answer.number, answer.turns);
    print_list(ends, entries);
    free(ends);
}

static void record(void) {
    size_t prefix = number(), k = number(), bytes = least(number_or(2048), MOST_LENT);
    uint8_t *output = lend_output(bytes);
    struct board_record_answer answer = board_record(&board, board_prefix(prefix), k, output, said(bytes));
    print_value(answer.number, answer.bytes);
    print_text(output, bytes);
    free(output);
}

static void show(void) {
    struct text letters = lend_text();
    size_t s = number(), count = 0;
    uint16_t read[MOST_ENDS];
    for (const char *end = word(); end && count < MOST_ENDS; end = word())
        read[count++] = (uint16_t)strtoul(end, NULL, 10);
    uint16_t *ends = lend_list(count);
    if (count)
        memcpy(ends, read, count * sizeof *ends);
    struct board_show_answer answer = board_show(letters.bytes, said(letters.length), ends, said(count), s);
    print_number(answer.number, answer.len != 0);
    // Letters may be alike, so the place is looked at too: behind the section before it.
    if (answer.part != letters.bytes + (answer.number || s < 2 ? 0 : ends[s - 2]))
        abort();
    if (!answer.number)
        print_text(answer.part, answer.len);
    free(letters.bytes);
    free(ends);
}

static void lift(void) {
    struct board_lift_answer answer = board_lift(&board, number());
    print_value(answer.number, answer.lift);
}

static void unfold(void) {
    struct text record = lend_text();
    size_t entries = least(number_or(2048), MOST_LENT);
    uint8_t *picks = lend_output(entries);
    struct board_unfold_answer answer = board_unfold(record.bytes, said(record.length), picks, said(entries));
    print_value(answer.number, answer.picks);
    print_place(answer.number, answer.place);
    print_text(picks, entries);
    free(record.bytes);
    free(picks);
}

static int is_same(struct board_section a, struct board_section b) {
    return a.turn == b.turn && a.length == b.length && a.place.picks == b.place.picks && a.next == b.next;
}

// Whether the reader yields this section; where it is none, whether the reader yields all sections and then none.
static int yields(struct board_reader reader, struct board_section section) {
    for (size_t read = 0; read < BOARD_SECTIONS; read++)
        if (is_same(board_next_section(&reader), section))
            return 1;
    return section.turn == BOARD_NO_SECTION && board_next_section(&reader).turn == BOARD_NO_SECTION;
}

static void section(void) {
    struct text record = lend_text();
    size_t at = number(), said_length = said(record.length);
    struct board_section section = board_section_at(record.bytes, said_length, at);
    if (section.turn == BOARD_NO_SECTION)
        printf(section.length || section.place.picks || section.next != at ? "none and a value" : "ok none");
    else
        printf("ok %zu %s %zu %zu", section.length, section.turn == BOARD_ON_PICK ? "on" : "between",
               section.place.picks, section.next);
    if (!yields(board_read(record.bytes, said_length), section))
        printf(" and another by the reader");
    free(record.bytes);
}

// An entry of the marks, or of one of the stored arrays of bytes.
static void peek(void) {
    const char *name = word();
    const uint8_t *bytes = !strcmp(name, "letters") ? board.letters
                           : !strcmp(name, "codes") ? board.codes
                                                    : board.lifts;
    size_t index = number();
    printf("ok %u", !strcmp(name, "marks") ? (unsigned)board.marks[index] : (unsigned)bytes[index]);
}

static const struct {
    const char *word;
    void (*answer)(void);
} calls[] = {{"start", start}, {"load", load},     {"feed", feed},       {"mark", mark},
             {"back", back},   {"mask", mask},     {"radius", radius},   {"longest", longest},
             {"next", next},   {"split", split},   {"record", record},   {"lift", lift},
             {"show", show},   {"unfold", unfold}, {"section", section}, {"peek", peek}};

int main(void) {
    static char line[MOST_LINE];
    while (fgets(line, sizeof line, stdin)) {
        const char *first = strtok(line, " \n");
        for (size_t i = 0; first && i < sizeof calls / sizeof *calls; i++)
            if (!strcmp(first, calls[i].word))
                calls[i].answer();
        putchar('\n');
    }
    return 0;
}
