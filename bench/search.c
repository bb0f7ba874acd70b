/* Lower apportionment in plain C, written from its rules alone: the search for divisors, and the ways to round the halves at a tie, of
 * which the lot draws one. It is measured against the proved search, and shows that both give the same answers. */
#include <stdint.h>
#include <string.h>

typedef unsigned __int128 u128;

enum { LINES = 32, CELLS = LINES * LINES, NODES = 2 * LINES, ROUNDS = 1000 };

/* A line is a row or a column. An array of two has the rows first, and then the columns. */
enum side { ROWS, COLUMNS };

/* Divisors are in millionths. */
static const uint64_t ONE = 1000000, MOST[2] = {1000000000000000000, 1000000000000};

/* How many lines there are; the votes, row by row; the seats that each line is to get. */
struct question {
    int lines[2];
    uint64_t votes[CELLS];
    uint32_t totals[2][LINES];
};

enum answer { FOUND, NO_VOTES, TIED, EXHAUSTED, IMPOSSIBLE, NEARLY_TIED, BEYOND };

/* `row` and `column`, from 0, are those of NO_VOTES and TIED. At a tie `seats` are the fewest and `others` the most of each cell, at
 * a near tie both are a matrix. Rows have too few seats where it is impossible. */
struct outcome {
    enum answer answer;
    int row, column, half_steps;
    uint64_t divisors[2][LINES];
    uint32_t seats[CELLS], others[CELLS];
    int too_few[LINES];
};

/* Twice a cell's votes, in the unit of a product of two divisors. */
static u128 twice(uint64_t votes) {
    return votes * ((u128)2 * ONE * ONE);
}

/* The least divisor at which a cell with these votes gets no more than these seats, and the greatest at which it gets no fewer. */
static u128 least_divisor(uint64_t votes, uint64_t other, uint32_t seats) {
    return twice(votes) / ((u128)other * (2 * seats + 1)) + 1;
}

static u128 greatest_divisor(uint64_t votes, uint64_t other, uint32_t seats) {
    return (twice(votes) - 1) / ((u128)other * (2 * seats - 1));
}

/* The quotient of a cell, rounded half up, and whether it lies on a half. */
static u128 rounded(uint64_t votes, uint64_t a, uint64_t b, int *half) {
    u128 product = (u128)a * b, quotient = (twice(votes) + product) / (2 * product);
    *half = quotient > 0 && twice(votes) == (2 * quotient - 1) * product;
    return quotient;
}

/* How many seats each line lacks, the most that each cell may get, and how many it has. */
struct places {
    uint32_t lacks[2][LINES], most[CELLS], given[CELLS];
    char seen[LINES];
};

/* Places a row's seat where a column lacks one, or in the place of another row's, which is placed elsewhere. */
static int place(const struct question *q, struct places *p, int d) {
    int columns = q->lines[COLUMNS];
    p->seen[d] = 1;
    for (int g = 0, k = d * columns; g < columns; g++, k++)
        if (p->given[k] < p->most[k] && p->lacks[COLUMNS][g] > 0) {
            p->lacks[COLUMNS][g]--;
            p->given[k]++;
            return 1;
        }
    for (int g = 0, k = d * columns; g < columns; g++, k++)
        for (int e = 0; e < q->lines[ROWS] && p->given[k] < p->most[k]; e++)
            if (p->given[e * columns + g] > 0 && !p->seen[e] && place(q, p, e)) {
                p->given[e * columns + g]--;
                p->given[k]++;
                return 1;
            }
    return 0;
}

/* A seat for a row, and all seats that the rows lack: 0 where they can't be placed. */
static int place_one(const struct question *q, struct places *p, int d) {
    memset(p->seen, 0, sizeof p->seen);
    return place(q, p, d);
}

static int place_all(const struct question *q, struct places *p) {
    int are_placed = 1;
    memset(p->given, 0, sizeof p->given);
    for (int d = 0; d < q->lines[ROWS]; d++)
        for (; p->lacks[ROWS][d] > 0; p->lacks[ROWS][d]--)
            are_placed &= place_one(q, p, d);
    return are_placed;
}

/* A cell on a half is an edge: from its row to its column where it is rounded down, from its column to its row where it is rounded
 * up. It can be rounded otherwise where its start is reached from its end. */
static int spread(const struct question *q, const struct places *p, struct outcome *o) {
    char reached[NODES][NODES] = {{0}};
    int rows = q->lines[ROWS], columns = q->lines[COLUMNS], nodes = rows + columns, differ = 0;
    for (int k = 0; k < rows * columns; k++) {
        int d = k / columns, g = rows + k % columns;
        reached[p->given[k] ? g : d][p->given[k] ? d : g] |= p->most[k] > 0;
    }
    for (int over = 0; over < nodes; over++)
        for (int from = 0; from < nodes; from++)
            for (int to = 0; to < nodes; to++)
                reached[from][to] |= reached[from][over] & reached[over][to];
    for (int k = 0; k < rows * columns; k++) {
        int d = k / columns, g = rows + k % columns;
        int turns = p->most[k] && (p->given[k] ? reached[d][g] : reached[g][d]);
        o->seats[k] += p->given[k] && !turns;
        o->others[k] = o->seats[k] + (uint32_t)turns;
        differ += turns;
    }
    return differ;
}

/* Rounds the cells, halves either way, and notes the first half, or row -1, and the fewest and the most seats of each cell. In how
 * many cells these differ, or -1 where no way meets the totals. */
static int round_ways(const struct question *q, struct outcome *o) {
    struct places p;
    u128 sums[2][LINES] = {{0}};
    o->row = -1;
    for (int d = 0; d < q->lines[ROWS]; d++)
        for (int g = 0; g < q->lines[COLUMNS]; g++) {
            int half, k = d * q->lines[COLUMNS] + g;
            u128 seats = rounded(q->votes[k], o->divisors[ROWS][d], o->divisors[COLUMNS][g], &half) - (u128)half;
            sums[ROWS][d] += seats;
            sums[COLUMNS][g] += seats;
            o->seats[k] = (uint32_t)seats;
            p.most[k] = (uint32_t)half;
            if (half && o->row < 0) {
                o->row = d;
                o->column = g;
            }
        }
    for (int side = ROWS; side <= COLUMNS; side++)
        for (int k = 0; k < q->lines[side]; k++) {
            if (sums[side][k] > q->totals[side][k])
                return -1;
            p.lacks[side][k] = q->totals[side][k] - (uint32_t)sums[side][k];
        }
    if (!place_all(q, &p))
        return -1;
    return o->row < 0 ? 0 : spread(q, &p, o);
}

/* A line of n cells whose votes lie `apart` from one another, the divisors of the lines across, and its total. */
struct line {
    int n, apart;
    const uint64_t *votes, *others;
    uint32_t total;
};

/* The cell to which a seat more is worth most: its votes over the other divisor and an odd number of half seats. */
static int next_cell(const struct line *l, const uint32_t *seats) {
    int next = 0;
    for (int k = 1; k < l->n; k++) {
        u128 of_next = (u128)l->votes[next * l->apart] * ((u128)l->others[k] * (2 * seats[k] + 1));
        u128 of_k = (u128)l->votes[k * l->apart] * ((u128)l->others[next] * (2 * seats[next] + 1));
        if (of_next < of_k)
            next = k;
    }
    return next;
}

/* Gives a line its seats one by one; the cell that got the last one. */
static int give(const struct line *l, uint32_t *seats) {
    int last = 0;
    for (uint32_t given = 0; given < l->total; given++) {
        last = next_cell(l, seats);
        seats[last]++;
    }
    return last;
}

/* The mean of the least and of the greatest divisor that give the line its total. */
static uint64_t middle(const struct line *l, uint64_t most) {
    uint32_t seats[LINES] = {0};
    int last = give(l, seats), next = next_cell(l, seats);
    u128 least = least_divisor(l->votes[next * l->apart], l->others[next], seats[next]);
    u128 greatest = greatest_divisor(l->votes[last * l->apart], l->others[last], seats[last]);
    u128 mean = (least + greatest) / 2;
    return mean < 1 ? 1 : mean > most ? most : (uint64_t)mean;
}

/* Whether the quotients, rounded half up, add up to the total, and none is on a half. */
static int is_settled(const struct line *l, uint64_t divisor) {
    u128 total = 0;
    int half, halves = 0;
    for (int k = 0; k < l->n; k++) {
        total += rounded(l->votes[k * l->apart], l->others[k], divisor, &half);
        halves |= half;
    }
    return total == l->total && !halves;
}

/* Sets the lines of a side to their middles, or only those that are unsettled. */
static void set_lines(const struct question *q, struct outcome *o, enum side side, int all) {
    int columns = q->lines[COLUMNS], is_row = side == ROWS;
    for (int k = 0; k < q->lines[side]; k++) {
        uint64_t *divisor = &o->divisors[side][k];
        struct line l = {q->lines[!side], is_row ? 1 : columns, q->votes + (is_row ? k * columns : k), o->divisors[!side],
                         q->totals[side][k]};
        if (all || !is_settled(&l, *divisor))
            *divisor = middle(&l, MOST[side]);
    }
}

void search(const struct question *q, struct outcome *o) {
    uint64_t votes[LINES] = {0};
    memset(o, 0, sizeof *o);
    for (int k = 0; k < q->lines[ROWS] * q->lines[COLUMNS]; k++)
        votes[k / q->lines[COLUMNS]] |= q->votes[k];
    o->answer = NO_VOTES;
    for (; o->row < q->lines[ROWS]; o->row++)
        if (!votes[o->row])
            return;
    for (int g = 0; g < q->lines[COLUMNS]; g++)
        o->divisors[COLUMNS][g] = ONE;
    set_lines(q, o, ROWS, 1);
    for (;; o->half_steps++) {
        int differ = round_ways(q, o);
        int is_over = o->row < 0 ? differ == 0 : differ > 0;
        o->answer = !is_over ? EXHAUSTED : o->row < 0 ? FOUND : TIED;
        if (is_over || o->half_steps == 2 * ROUNDS)
            return;
        set_lines(q, o, o->half_steps % 2 ? ROWS : COLUMNS, 0);
    }
}
