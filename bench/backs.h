// The time of going back to a mark.
#ifndef BACKS_H
#define BACKS_H

#include "drafts.h"

// Prints a line for each timed draft: the microseconds of a back to a mark at 2,048 of 2,048 picks, those of feeding
// the same picks by script, and the ratio. The last line has the largest ratio.
void time_backs(const struct draft drafts[DRAFTS]);

#endif
