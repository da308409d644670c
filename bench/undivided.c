// The append that divides only where three periods fit.
#include "plain.h"

static size_t next_leading(size_t len, size_t p) { return len < 3 * p ? len - p : p + len % p; }

#define APPEND undivided_append
#include "append.h"
