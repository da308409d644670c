// Times ways to feed a draft of 2,048 picks with K = 8: the library's feed on lent arrays and its feeds by script, each
// beside two in C, which store the same. A line for each draft: the nanoseconds for a pick, and the ratios of the
// library to each in C. The last line has the largest ratios. Then the time of going back to a mark beside that of the
// feeds by script. Exit status 1, with what and where, where two differ.
#include "clock.h"

#include "backs.h"
#include "ways.h"

#include <stdio.h>

enum { ROUNDS = 20000 };

// Seconds for one draft. Clearing is not timed.
static double one_draft(const struct way *way, const struct draft *draft) {
    static struct state s;
    clear(&s);
    double begun = now();
    way->feed(&s, draft);
    return now() - begun;
}

// The seconds of each way's best draft. The ways take turns, draft by draft: other work on the machine slows some of
// them and no best one.
static void measure(const struct draft *draft, double best[FORMS][MAKES]) {
    for (int round = 0; round < ROUNDS; round++)
        for (int form = 0; form < FORMS; form++)
            for (int make = 0; make < MAKES; make++) {
                double seconds = one_draft(&ways[form][make], draft);
                if (round == 0 || seconds < best[form][make])
                    best[form][make] = seconds;
            }
}

static void print_header(void) {
    printf("lent: feed on lent arrays   script: feeds by script\n");
    printf("C: plain C   C': plain C that divides only where three periods fit\n");
    printf("%-18s", "ns a pick, ratios");
    for (int form = 0; form < FORMS; form++) {
        for (int make = 0; make < MAKES; make++)
            printf(" %7s", ways[form][make].name);
        for (int make = PLAIN; make < MAKES; make++)
            printf(" %7s/%-2s", ways[form][LIBRARY].name, ways[form][make].name);
    }
    printf("\n");
}

// Times a draft, prints its line, and keeps the largest ratios.
static void time_draft(const struct draft *draft, double largest[FORMS][MAKES]) {
    double best[FORMS][MAKES];
    measure(draft, best);
    printf("%-18s", draft->name);
    for (int form = 0; form < FORMS; form++) {
        for (int make = 0; make < MAKES; make++)
            printf(" %7.2f", best[form][make] / BOARD_PICKS * 1e9);
        for (int make = PLAIN; make < MAKES; make++) {
            double ratio = best[form][LIBRARY] / best[form][make];
            printf(" %10.2f", ratio);
            if (largest[form][make] < ratio)
                largest[form][make] = ratio;
        }
    }
    printf("\n");
    fflush(stdout);
}

static void print_largest(double largest[FORMS][MAKES]) {
    printf("%-18s", "largest");
    for (int form = 0; form < FORMS; form++) {
        printf("%24s", "");
        for (int make = PLAIN; make < MAKES; make++)
            printf(" %10.2f", largest[form][make]);
    }
    printf("\n");
}

int main(void) {
    static struct draft drafts[DRAFTS];
    make_drafts(drafts);
    int wrong = 0;
    for (int i = 0; i < TIMED_DRAFTS; i++)
        wrong |= draft_differs(&drafts[i]);
    if (wrong)
        return 1;
    double largest[FORMS][MAKES] = {0};
    print_header();
    for (int i = 0; i < TIMED_DRAFTS; i++)
        time_draft(&drafts[i], largest);
    print_largest(largest);
    time_backs(drafts);
    return 0;
}
