/* The decision of a question: that no matrix on the votes has the totals, the only seats, two matrices that are nearly tied, or seats
 * that the divisors of a sheet do not show. And the search with the decision after it.
 *
 * A seat's price is the logarithm of an odd number less that of twice its cell's votes. Potentials of rows and columns show that
 * no exchange of seats is cheaper, or a cycle of cells shows one that is. */
#include "search.c"

enum { ODDS = 402, LEVELS = LINES + 1, NONE = LINES, GIVEN = 4102, TAKEN = 6, MIDDLES = 16 };

static const uint64_t BASE = (uint64_t)1 << 60;

/* A question with logarithms to base 2, in units of 2^-30, of twice its votes and of the odd numbers; and seats for it. */
struct priced {
    const struct question *q;
    uint64_t of_votes[CELLS], of_odds[ODDS];
    const uint32_t *seats;
};

static uint64_t logarithm(uint64_t number) {
    uint64_t whole = 63 - (uint64_t)__builtin_clzll(number), part = number << (63 - whole), sum = whole;
    for (int bit = 0; bit < 30; bit++) {
        u128 square = (u128)part * part;
        int is_set = square >> 127 != 0;
        part = (uint64_t)(square >> (63 + is_set));
        sum = 2 * sum + (uint64_t)is_set;
    }
    return sum;
}

/* By how much each next seat has to be too dear, and each last one cheap enough; the most and the least of a potential. */
struct bounds {
    uint64_t given, taken, caps[2], floors[2];
};

/* Potentials; which line across made each line fall at each level, or NONE; and the cycle that goes from row `last` of these back
 * to row `first`: each row gives up a seat in its column to the next row. */
struct sweep {
    uint64_t potentials[2][LINES];
    int makers[LEVELS][2][LINES];
    int first, last, rows[LEVELS], columns[LEVELS + 1];
};

/* What a cell asks for as the potential of its row, that its next seat is too dear, or of its column, that its last one is not. */
static uint64_t asked(const struct priced *p, const struct bounds *b, const struct sweep *w, enum side side, int d, int g) {
    int k = d * p->q->lines[COLUMNS] + g;
    uint64_t base = BASE - p->of_votes[k];
    if (side == ROWS)
        return p->q->votes[k] ? w->potentials[COLUMNS][g] + base + p->of_odds[p->seats[k]] - b->given : UINT64_MAX;
    if (!p->seats[k])
        return UINT64_MAX;
    uint64_t less = base + p->of_odds[p->seats[k] - 1] + b->taken, row = w->potentials[ROWS][d];
    return row < less ? 0 : row - less;
}

/* Each line of a side falls to the least that its cells ask for; 0 where one falls below its floor. */
static int lower(const struct priced *p, const struct bounds *b, struct sweep *w, enum side side, int *makers) {
    for (int k = 0; k < p->q->lines[side]; k++) {
        uint64_t *potential = &w->potentials[side][k];
        makers[k] = NONE;
        for (int across = 0; across < p->q->lines[!side]; across++) {
            uint64_t least = side == ROWS ? asked(p, b, w, ROWS, k, across) : asked(p, b, w, COLUMNS, across, k);
            if (least < *potential) {
                *potential = least;
                makers[k] = across;
            }
        }
        if (*potential < b->floors[side])
            return 0;
    }
    return 1;
}

/* Backwards from a column that fell at the last level: its maker, that row's maker, and so on, until a column comes again. */
static void find_cycle(int levels, int column, struct sweep *w) {
    w->columns[0] = column;
    for (w->last = 0;; w->last++) {
        int(*makers)[LINES] = w->makers[levels - w->last];
        w->rows[w->last] = makers[COLUMNS][w->columns[w->last]];
        w->columns[w->last + 1] = makers[ROWS][w->rows[w->last]];
        for (w->first = 0; w->first <= w->last; w->first++)
            if (w->columns[w->first] == w->columns[w->last + 1])
                return;
    }
}

enum rest { STILL, OUT, CYCLE };

static enum rest sweep(const struct priced *p, struct bounds b, struct sweep *w) {
    int columns = p->q->lines[COLUMNS];
    for (int side = ROWS; side <= COLUMNS; side++)
        for (int k = 0; k < p->q->lines[side]; k++)
            w->potentials[side][k] = b.caps[side];
    for (int level = 0; level <= columns; level++) {
        int *makers = w->makers[level][COLUMNS], fallen = 0;
        if (!lower(p, &b, w, ROWS, w->makers[level][ROWS]) || !lower(p, &b, w, COLUMNS, makers))
            return OUT;
        while (fallen < columns && makers[fallen] == NONE)
            fallen++;
        if (fallen == columns)
            return STILL;
        if (level == columns)
            find_cycle(level, fallen, w);
    }
    return CYCLE;
}

static enum rest sweep_freely(const struct priced *p, uint64_t given, uint64_t taken, struct sweep *w) {
    return sweep(p, (struct bounds){given, taken, {(uint64_t)1 << 61, (uint64_t)1 << 44}, {0, 1}}, w);
}

/* Each row of a cycle passes on its seat. */
static void turn(const struct question *q, const struct sweep *w, uint32_t *seats) {
    for (int k = w->first; k <= w->last; k++) {
        int taker = k > w->first ? k - 1 : w->last;
        seats[w->rows[k] * q->lines[COLUMNS] + w->columns[k]]--;
        seats[w->rows[taker] * q->lines[COLUMNS] + w->columns[k]]++;
    }
}

/* Divisors in millionths: boxes from 2^20, 2^16, 2^12, 2^8 and 2^4 on. */

/* The greatest number up to `most` that has no more than this logarithm. */
static uint64_t number_of(uint64_t log, uint64_t most) {
    uint64_t number = 0;
    for (uint64_t bit = BASE; bit > 0; bit /= 2)
        if (number + bit <= most && logarithm(number + bit) <= log)
            number += bit;
    return number;
}

static int gives_within(const struct priced *p, struct outcome *o, struct sweep *w) {
    uint64_t scale = logarithm(MOST[COLUMNS]), top = BASE + scale;
    for (int bits = 20; bits >= 4; bits -= 4) {
        uint64_t least = (uint64_t)bits << 30;
        struct bounds box = {((uint64_t)1 << (32 - bits)) + 6, 6, {top - least, scale}, {top - logarithm(MOST[ROWS]), least}};
        if (sweep(p, box, w) != STILL)
            continue;
        for (int d = 0; d < p->q->lines[ROWS]; d++)
            o->divisors[ROWS][d] = number_of(top - w->potentials[ROWS][d], MOST[ROWS]);
        for (int g = 0; g < p->q->lines[COLUMNS]; g++)
            o->divisors[COLUMNS][g] = number_of(w->potentials[COLUMNS][g], MOST[COLUMNS]);
        return 1;
    }
    return 0;
}

/* A first matrix on the votes with the totals; 0 where there is none: the rows for which no seat can be placed have too few. */
static int place_first(const struct question *q, struct outcome *o) {
    static struct places p, trial;
    memcpy(p.lacks, q->totals, sizeof p.lacks);
    for (int k = 0; k < q->lines[ROWS] * q->lines[COLUMNS]; k++)
        p.most[k] = q->votes[k] ? UINT32_MAX : 0;
    int are_placed = place_all(q, &p);
    memcpy(o->seats, p.given, sizeof o->seats);
    for (int d = 0; d < q->lines[ROWS] && !are_placed; d++) {
        trial = p;
        o->too_few[d] = !place_one(q, &trial, d);
    }
    return are_placed;
}

/* The cycle of the least slack of next seats at which there is one. */
static void close_gap(const struct priced *p, struct sweep *cycle) {
    static struct sweep w;
    uint64_t still_at = 0, cycle_at = GIVEN + TAKEN;
    while (cycle_at - still_at > 1) {
        uint64_t middle = still_at + (cycle_at - still_at) / 2;
        if (sweep_freely(p, middle, 0, &w) == STILL) {
            still_at = middle;
        } else {
            cycle_at = middle;
            *cycle = w;
        }
    }
}

void decide(const struct question *q, struct outcome *o) {
    static struct priced p;
    static struct sweep w;
    o->answer = IMPOSSIBLE;
    if (!place_first(q, o))
        return;
    p.q = q;
    p.seats = o->seats;
    for (int k = 0; k < q->lines[ROWS] * q->lines[COLUMNS]; k++)
        p.of_votes[k] = q->votes[k] ? logarithm(2 * q->votes[k]) : 0;
    for (int k = 0; k < ODDS; k++)
        p.of_odds[k] = logarithm(2 * (uint64_t)k + 1);
    while (sweep_freely(&p, 0, 0, &w) == CYCLE)
        turn(q, &w, o->seats);
    if (sweep_freely(&p, GIVEN, TAKEN, &w) == STILL) {
        o->answer = gives_within(&p, o, &w) ? FOUND : BEYOND;
        return;
    }
    close_gap(&p, &w);
    o->answer = NEARLY_TIED;
    memcpy(o->others, o->seats, sizeof o->others);
    turn(q, &w, o->others);
}

/* Divisors for seats that are known, in the middle of those that give them. */

/* The least rows and the greatest columns that give the seats, columns from `top` on: the rows rise and then the columns fall, as far
 * as their cells require. 0 where one passes a limit. */
static int settle(const struct question *q, struct outcome *o, uint64_t top) {
    uint64_t *rows = o->divisors[ROWS], *columns = o->divisors[COLUMNS];
    int width = q->lines[COLUMNS], cells = q->lines[ROWS] * width, moved = 1;
    for (int k = 0; k < cells; k++) {
        rows[k / width] = 1;
        columns[k % width] = top;
    }
    for (int round = 0; moved && round < ROUNDS; round++) {
        for (int k = 0; k < cells; k++) {
            u128 least = least_divisor(q->votes[k], columns[k % width], o->seats[k]);
            if (least > MOST[ROWS])
                return 0;
            if (least > rows[k / width])
                rows[k / width] = (uint64_t)least;
        }
        moved = 0;
        for (int k = 0; k < cells; k++) {
            u128 greatest = o->seats[k] ? greatest_divisor(q->votes[k], rows[k / width], o->seats[k]) : top;
            if (greatest == 0)
                return 0;
            if (greatest < columns[k % width]) {
                columns[k % width] = (uint64_t)greatest;
                moved = 1;
            }
        }
    }
    return 1;
}

/* Whether the seats follow from the divisors, none of them from a half. */
static int is_strict(const struct question *q, const struct outcome *o) {
    static struct outcome x;
    x = *o;
    return round_ways(q, &x) == 0 && x.row < 0 && memcmp(x.seats, o->seats, sizeof x.seats) == 0;
}

/* Whether the middle gives the seats, from these columns at a smaller scale, or else from themselves. */
static int middle_gives(const struct question *q, struct outcome *o, uint64_t scale) {
    uint64_t columns[LINES];
    memcpy(columns, o->divisors[COLUMNS], sizeof columns);
    for (int g = 0; g < q->lines[COLUMNS]; g++)
        o->divisors[COLUMNS][g] = columns[g] < scale ? 1 : columns[g] / scale;
    for (int n = 0; n < MIDDLES; n++) {
        set_lines(q, o, ROWS, 1);
        set_lines(q, o, COLUMNS, 1);
    }
    if (is_strict(q, o))
        return 1;
    memcpy(o->divisors[COLUMNS], columns, sizeof columns);
    return scale > 1 && middle_gives(q, o, 1);
}

static int find_divisors(const struct question *q, struct outcome *o, const uint32_t *seats) {
    memcpy(o->seats, seats, sizeof o->seats);
    for (uint64_t top = MOST[COLUMNS] / 1000; top <= MOST[COLUMNS]; top *= 1000)
        if (settle(q, o, top) && is_strict(q, o) && middle_gives(q, o, top / ONE))
            return 1;
    return 0;
}

/* The search, or else seats by the decision: 1 where they are by that. */
int find(const struct question *q, struct outcome *o) {
    static struct outcome x;
    search(q, o);
    if (o->answer != EXHAUSTED)
        return 0;
    x = *o;
    decide(q, &x);
    if ((x.answer != IMPOSSIBLE && find_divisors(q, o, x.seats)) || (x.answer == NEARLY_TIED && find_divisors(q, o, x.others))) {
        o->answer = FOUND;
        return 1;
    }
    *o = x;
    /* The divisors of the decision are made easier to read where the seats still follow. */
    if (x.answer == FOUND && !middle_gives(q, o, ONE))
        *o = x;
    return x.answer == FOUND;
}
