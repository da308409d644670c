// The iterator and the engine of document 004, Sections 3 and 4, with no bounds checks: what the library is measured
// against. As the library does, it takes a pick's code, which is its lift, from a table of 26, stores letter and code,
// and compares codes. Places are in whole picks, centres in half picks. The file that includes this has plain.h, the
// function's name as APPEND, and next_leading: the length of the leading ending after that of length len and least
// period p.

static size_t least(size_t a, size_t b) { return a < b ? a : b; }

// The centre of the longest ending of the n picks and one more. Fills the radii up to it, and lends each centre before
// it to the place where its stretch starts.
static size_t longest_ending(const uint8_t *codes, uint16_t *radius, uint16_t *heads, uint16_t *lends, size_t n,
                             size_t longest, uint8_t code) {
    size_t c = longest;
    for (; c < 2 * n + 2; c++) {
        size_t r = least(radius[2 * longest - c], n - c / 2);
        size_t start = (c + 1) / 2 - (r + 1); // picks before the stretch
        if (c / 2 + r == n && start > 0 && codes[start - 1] == code) {
            radius[c] = r + 1;
            return c;
        }
        radius[c] = r;
        lends[c] = heads[start];
        heads[start] = c;
    }
    radius[c] = 0;
    return c;
}

// Links the one-pick ending and the empty one, and unlinks what no longer ends the m picks.
static void relink(const uint16_t *heads, const uint16_t *lends, uint16_t *next, uint16_t *prev, size_t m,
                   size_t longest) {
    next[2 * m - 1] = 2 * m;
    prev[2 * m] = 2 * m - 1;
    next[2 * m] = 2 * m + 1;
    prev[2 * m + 1] = 2 * m;
    for (size_t x = heads[longest - m]; x > 0; x = lends[x]) {
        size_t gone = 2 * longest - x;
        next[prev[gone]] = next[gone];
        prev[next[gone]] = prev[gone];
    }
}

// Visits the leading endings of the m picks, longest first. Gives their count; *row is the row word.
static size_t visit(const uint16_t *next, uint16_t *rows, uint16_t *gathered, uint16_t *visits, size_t m, uint8_t k,
                    size_t longest, unsigned *row) {
    size_t count = 0;
    unsigned joined = 0;
    for (size_t len = 2 * m + 1 - longest; len > 0;) {
        size_t centre = 2 * m + 1 - len;
        size_t p = next[centre] - centre; // the least period
        size_t d = next_leading(len, p);
        size_t i = m - len;
        gathered[i] = len < 3 * p ? rows[i] : gathered[i] | rows[m - d - p];
        joined |= gathered[i];
        visits[count++] = len;
        len = d;
    }
    *row = joined << 1 & ((1u << (k + 1)) - 1);
    rows[m] = gathered[m] = *row;
    return count;
}

size_t APPEND(uint8_t *letters, uint8_t *codes, const uint8_t *lifts, uint16_t *radius, uint16_t *heads,
              uint16_t *lends, uint16_t *next, uint16_t *prev, uint16_t *rows, uint16_t *gathered, uint16_t *visits,
              size_t n, uint8_t k, size_t longest, uint8_t pick, size_t *answer) {
    if (n >= BOARD_PICKS || k < 1 || k > BOARD_SECTIONS)
        return 0;
    unsigned row;
    uint8_t code = lifts[pick - 'A'];
    size_t c = longest_ending(codes, radius, heads, lends, n, longest, code);
    letters[n] = pick;
    codes[n] = code;
    relink(heads, lends, next, prev, n + 1, c);
    answer[1] = visit(next, rows, gathered, visits, n + 1, k, c, &row);
    answer[0] = row;
    answer[2] = c;
    return 1;
}
