// Times going back to a mark at a draft's end beside feeding the draft by script: a back feeds the picks that it keeps
// again.
#include "clock.h"

#include "backs.h"
#include "ways.h"

#include <stdio.h>

enum { ROUNDS = 20000 };

// What is timed.
enum { FEEDS, BACK, TIMES };

// The seconds of both for one draft. Clearing and marking are not timed.
static void one_draft(const struct draft *draft, double seconds[TIMES]) {
    static struct state s;
    clear(&s);
    double begun = now();
    ways[LISTS][LIBRARY].feed(&s, draft);
    seconds[FEEDS] = now() - begun;
    mark_end(&s);
    begun = now();
    back_to_end(&s);
    seconds[BACK] = now() - begun;
}

// The best of the rounds.
static void measure(const struct draft *draft, double best[TIMES]) {
    for (int round = 0; round < ROUNDS; round++) {
        double seconds[TIMES];
        one_draft(draft, seconds);
        for (int time = 0; time < TIMES; time++)
            if (round == 0 || seconds[time] < best[time])
                best[time] = seconds[time];
    }
}

void time_backs(const struct draft drafts[DRAFTS]) {
    double largest = 0;
    printf("\nback: to a mark at %d of %d picks   script: the same picks fed by script\n", BOARD_PICKS, BOARD_PICKS);
    printf("%-18s %7s %7s %11s\n", "us a draft, ratio", "back", "script", "back/script");
    for (int i = 0; i < TIMED_DRAFTS; i++) {
        double best[TIMES] = {0};
        measure(&drafts[i], best);
        double ratio = best[BACK] / best[FEEDS];
        printf("%-18s %7.2f %7.2f %11.2f\n", drafts[i].name, best[BACK] * 1e6, best[FEEDS] * 1e6, ratio);
        fflush(stdout);
        if (largest < ratio)
            largest = ratio;
    }
    printf("%-18s %15s %11.2f\n", "largest", "", largest);
}
