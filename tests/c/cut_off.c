// A script of feeds, looked at in its middle, at the ticks of a timer: what a reset leaves there. n is always the count of
// the codes that are stored, or one less, while a pick is fed.
#define _GNU_SOURCE
#include "board.h"
#include <signal.h>
#include <stdio.h>
#include <string.h>
#include <sys/time.h>

enum { LOOKS = 200 };

static struct board board;
static uint8_t script[BOARD_PICKS * BOARD_CALL_SIZE];
static uint16_t lists[BOARD_PICKS * BOARD_VISITS];
static size_t answers[BOARD_PICKS * BOARD_ANSWER_SIZE];
static volatile sig_atomic_t feeding, looks, behind;

static void look(int tick) {
    (void)tick;
    const volatile uint8_t *codes = board.codes;
    const volatile size_t *numbers = board.numbers;
    size_t fed = 0;
    while (fed < BOARD_PICKS && codes[fed] != 0)
        fed++;
    if (!feeding || fed == 0 || fed == BOARD_PICKS)
        return;
    looks++;
    if (numbers[BOARD_N] != fed && numbers[BOARD_N] + 1 != fed)
        behind++;
}

int main(void) {
    for (size_t i = 0; i < BOARD_PICKS; i++)
        board_write_call(script + i * BOARD_CALL_SIZE, BOARD_FEED_CALL, 'A', 0, BOARD_VISITS);
    struct sigaction looking = {.sa_handler = look, .sa_flags = SA_RESTART};
    struct itimerval ticks = {{0, 50}, {0, 50}};
    sigaction(SIGALRM, &looking, NULL);
    setitimer(ITIMER_REAL, &ticks, NULL);
    const uint8_t no_input = 0;
    uint8_t no_byte = 0;
    for (int run = 0; looks < LOOKS && run < 1000000; run++) {
        board_start(&board, 8);
        feeding = 1;
        size_t made = drive(board.letters, board.codes, board.lifts, board.marks, board.centres, board.places,
                            board.numbers, script, sizeof script, &no_input, 0, lists, sizeof lists / sizeof *lists,
                            &no_byte, 0, answers, sizeof answers / sizeof *answers);
        feeding = 0;
        if (made != BOARD_PICKS)
            return printf("%zu calls made\n", made), 1;
    }
    printf("%d looks, n behind in %d\n", (int)looks, (int)behind);
    return looks < LOOKS || behind != 0;
}
