// The append that divides at every visit.
#include "plain.h"

static size_t next_leading(size_t len, size_t p) {
    size_t left = p + len % p;
    return left < len - p ? left : len - p;
}

#define APPEND plain_append
#include "append.h"
