// The library's append in plain C, with no bounds checks.
#ifndef PLAIN_H
#define PLAIN_H

#include "board.h"

// One pick more, a letter A to Z: it is stored, and so is its code, which is its lift in the table. 1 where n is below
// 2,048 and k is 1 to 8; else 0 and nothing is changed. answer: the row word, the count of visits, the centre of the
// longest ending.
typedef size_t append(uint8_t *letters, uint8_t *codes, const uint8_t *lifts, uint16_t *radius, uint16_t *heads,
                      uint16_t *lends, uint16_t *next, uint16_t *prev, uint16_t *rows, uint16_t *gathered,
                      uint16_t *visits, size_t n, uint8_t k, size_t longest, uint8_t pick, size_t *answer);

// It divides at every visit.
append plain_append;

// It divides only where three periods fit.
append undivided_append;

#endif
