/* Makes the calls on records with seeded random devices, right and wrong, for tools/trial/hold.sh, which holds two archives together.
 *   hold DEVICES SEED
 * Prints a sum of everything answered and written for each 1,000 devices, then for each call how often it gave which number. Each
 * device has a seed of its own, so a difference in one block of 1,000 does not move the next. */
#include <math.h>
#include <mivtolgya.h>
#include <stdio.h>
#include <stdlib.h>

enum { ROWS = 40, SPACE = ROWS * ROWS + 4 * (ROWS + 1), NUMBERS = 102 };
enum { WORDS = sizeof(mivtolgya_device) / 8, TERMINALS = offsetof(mivtolgya_device, terminals) / 8 };
enum { CELL_WORDS = sizeof(mivtolgya_cells) / 8 };
enum { EVAL, RESOLVED, LOAD, COMMIT, RESOLVE, BRIDGE, CALLS };
enum { BANK = MIVTOLGYA_MOST_DEVICES + 1, RUNS = 4 };

typedef struct {
    uint32_t columns[SPACE];
    size_t offsets[ROWS], lengths[ROWS], column_count, offset_count, length_count;
} pattern;

typedef struct {
    char group; /* c a capacitance, r a resistance, o another */
    const char *name;
    int zero;                      /* whether 0 is in its range besides */
    double least, low, high, most; /* the range, and in it what is usual */
} range;

/* docs/USING.md has the ranges. vto and tnom, which may be negative, are drawn apart; kf and af are for noise alone. */
static const range card_ranges[] = {
    {'o', "kp", 1, 1e-9, 1e-5, 1e-3, 100}, {'o', "uo", 1, 1e-3, 100, 1000, 1e5}, {'o', "is", 1, 1e-30, 1e-16, 1e-12, 1},
    {'o', "js", 1, 1e-20, 1e-8, 1e-2, 1e6}, {'o', "lambda", 1, 1e-9, 1e-3, 0.2, 10}, {'o', "gamma", 1, 1e-9, 0.05, 2, 100},
    {'o', "phi", 0, 0.1, 0.4, 1, 10}, {'r', "rd", 1, 1e-6, 0.1, 1e4, 1e9}, {'r', "rs", 1, 1e-6, 0.1, 1e4, 1e9},
    {'r', "rsh", 1, 1e-6, 0.1, 100, 1e6}, {'c', "cgso", 1, 1e-20, 1e-12, 1e-9, 1}, {'c', "cgdo", 1, 1e-20, 1e-12, 1e-9, 1},
    {'c', "cgbo", 1, 1e-20, 1e-12, 1e-9, 1}, {'c', "tox", 0, 1e-10, 1e-9, 1e-7, 1e-4}, {'c', "cj", 1, 1e-20, 1e-5, 1e-3, 1},
    {'c', "cjsw", 1, 1e-20, 1e-12, 1e-9, 1}, {'o', "pb", 0, 0.1, 0.5, 1.2, 10}, {'o', "mj", 1, 1e-6, 0.2, 0.6, 0.9},
    {'o', "mjsw", 1, 1e-6, 0.2, 0.6, 0.9}, {'o', "fc", 1, 1e-6, 0.3, 0.7, 0.95}};
static const range size_ranges[] = {
    {'o', "w", 0, 1e-9, 1e-6, 1e-4, 1}, {'o', "l", 0, 1e-9, 1e-7, 1e-5, 1}, {'c', "as", 1, 1e-20, 1e-13, 1e-9, 1},
    {'c', "ad", 1, 1e-20, 1e-13, 1e-9, 1}, {'c', "ps", 1, 1e-12, 1e-6, 1e-4, 1e3}, {'c', "pd", 1, 1e-12, 1e-6, 1e-4, 1e3},
    {'r', "nrd", 1, 1e-6, 0.1, 10, 1e6}, {'r', "nrs", 1, 1e-6, 0.1, 10, 1e6}};

/* The numbers that each call can give besides 0; each must occur, or the run has not tried it. */
static const char *const call_names[CALLS] = {"evaluation", "load by cells", "load", "commit", "resolving", "bridge by cells"};
static const unsigned may_give[CALLS][8] = {{6, 8, 9, 10, 11, 100}, {8, 10, 11, 12, 13, 100}, {8, 10, 11, 12, 13, 100},
                                            {8, 9, 10, 100},        {8, 10, 12, 13, 100},     {8, 10, 11, 12, 13, 14, 100}};

static mivtolgya_device device;
static mivtolgya_cells cells, earlier; /* earlier: those of the device before */
static mivtolgya_device bank[BANK]; /* the device as it was at its loads, and the cells that they were lent */
static mivtolgya_cells lists[BANK];
static size_t banked;
static pattern matrix, spoiled;
static size_t rows;
static double kelvin, x[ROWS], rhs[ROWS + 1], values[SPACE + 2]; /* more than is ever lent: nothing may be written there */
static uint64_t state, sum, counts[CALLS][NUMBERS];

/* ---- random numbers */

static uint64_t bits(void) {
    uint64_t z = state += 0x9e3779b97f4a7c15ull;
    z = (z ^ z >> 30) * 0xbf58476d1ce4e5b9ull;
    z = (z ^ z >> 27) * 0x94d049bb133111ebull;
    return z ^ z >> 31;
}

static size_t below(size_t end) { return (size_t)((bits() >> 32) * end >> 32); }
static int one_in(size_t many) { return below(many) == 0; }
static double between(double low, double high) { return low + (high - low) * ((double)(bits() >> 11) * 0x1p-53); }
static double spread(double low, double high) { return fmin(high, fmax(low, exp(between(log(low), log(high))))); }
static double edge(double of) { return one_in(3) ? of : nextafter(of, one_in(2) ? INFINITY : -INFINITY); }

static double odd(void) {
    static const double list[] = {NAN, INFINITY, -INFINITY, 0.0, -0.0, 1e308, -1e308, 5e-324, -1.0};
    return list[below(sizeof list / sizeof *list)];
}

/* No flag and no tag of a method, or one whose lower half is. */
static uint64_t odd_tag(void) {
    static const uint64_t list[] = {2, 3, 4, 5, 6, 256, 1ull << 32, (1ull << 32) + 1, 1ull << 63, UINT64_MAX};
    return list[below(sizeof list / sizeof *list)];
}

static double step(void) { return one_in(12) ? edge(one_in(2) ? 1e-15 : 1) : one_in(50) ? odd() : spread(1e-15, 1); }

/* ---- what is kept of a call */

/* The shift carries high bits down: without it, two signs that differ would cancel. */
static void add_word(uint64_t word) {
    sum = (sum ^ word) * 1099511628211ull;
    sum ^= sum >> 29;
}

static void add_numbers(const void *at, size_t count) {
    for (size_t i = 0; i < count; i++) {
        uint64_t word;
        memcpy(&word, (const char *)at + 8 * i, 8);
        add_word((word & INT64_MAX) > 0x7ff0000000000000ull ? 0x7ff8000000000000ull : word); /* which NaN is nowhere promised */
    }
}

static void keep(int call, uint64_t number) {
    counts[call][number < NUMBERS ? number : NUMBERS - 1]++;
    add_word(number);
    add_numbers(&device, WORDS);
}

static void keep_slices(void) {
    add_numbers(rhs, rows + 1);
    add_numbers(values, matrix.column_count + 2);
}

static void keep_cells(const mivtolgya_cells *found) {
    for (size_t i = 0; i < CELL_WORDS; i++) add_word(((const size_t *)found)[i]); /* as they are: ground and absent would be NaN */
}

/* ---- a device */

static double drawn(const range *of) {
    if (of->zero && one_in(12)) return 0;
    if (one_in(40)) return one_in(2) ? of->least : of->most;
    return one_in(30) ? spread(of->least, of->most) : spread(of->low, of->high);
}

/* Chooses keys; `parts` has for capacitances (lower two bits) and resistances (upper) 0 for none, 1 for all, else some. */
static size_t choose(const range *from, size_t count, unsigned parts, mivtolgya_key *keys) {
    size_t chosen = 0;
    for (size_t i = 0; i < count; i++) {
        unsigned part = from[i].group == 'c' ? parts & 3 : from[i].group == 'r' ? parts >> 2 : 2;
        if (part == 0 || (part > 1 && one_in(3))) continue;
        keys[chosen].name = from[i].name;
        keys[chosen++].value = part == 1 ? spread(from[i].low, from[i].high) : drawn(&from[i]);
    }
    return chosen;
}

static void need(uint64_t number) {
    if (number == 0) return;
    printf("a device could not be made: %s\n", mivtolgya_refusal_text(number));
    exit(3);
}

static void scale(void) {
    kelvin = one_in(10) ? (one_in(2) ? 200 : 500) : between(200, 500);
    if (mivtolgya_scale(&device, kelvin) == MIVTOLGYA_ACCEPTED) return;
    kelvin = device.card.tnom; /* phi or pb fell too low; at tnom they are the card's */
    need(mivtolgya_scale(&device, kelvin));
}

/* Ground, another terminal's node, or a row of its own if there is one: with drain and source in one row nothing flows. */
static mivtolgya_node node(size_t end, mivtolgya_node other) {
    mivtolgya_node own = mivtolgya_row(below(end));
    if (own.index == other.index) own.index = (own.index + 1) % end;
    return one_in(6) ? mivtolgya_ground() : one_in(8) ? other : own;
}

static void bind(void) {
    size_t extra = mivtolgya_num_extra_nodes(device).count, outer = rows > extra ? rows - extra : rows;
    mivtolgya_nodes n;
    n.drain = node(outer, mivtolgya_ground());
    n.gate = node(outer, n.drain);
    n.source = node(outer, n.drain);
    n.bulk = one_in(3) ? n.source : node(outer, one_in(2) ? n.drain : n.gate);
    size_t first = one_in(8) ? below(outer) : outer; /* inner rows among the outer ones, or behind them, at times behind the matrix */
    need(mivtolgya_bind(&device, n, first + extra <= rows || one_in(8) ? first : 0));
}

static void make_device(void) {
    mivtolgya_key keys[32];
    uint64_t polarity = below(2);
    unsigned parts = (unsigned)(below(4) + 4 * (one_in(2) ? 0 : below(4)));
    need(mivtolgya_device_init(&device));
    size_t count = choose(card_ranges, sizeof card_ranges / sizeof *card_ranges, parts, keys);
    keys[count].name = "vto";
    keys[count++].value = one_in(20) ? between(-100, 100) : polarity == 0 ? between(-0.5, 2) : between(-2, 0.5);
    keys[count].name = "tnom";
    keys[count++].value = one_in(2) ? 27 : between(-70, 220);
    need(mivtolgya_read_card(&device, polarity, keys, count));
    need(mivtolgya_read_geometry(&device, keys, choose(size_ranges, sizeof size_ranges / sizeof *size_ranges, parts, keys)));
    rows = 1 + below(one_in(2) ? 8 : ROWS);
    kelvin = 300;
    if (one_in(60)) return; /* some devices stay unscaled, some unbound: their calls come too early */
    scale();
    if (!one_in(30)) bind();
}

/* Every pair of the device's rows, others by chance, in some devices one pair less; in some, gaps between the rows. */
static void make_pattern(void) {
    uint64_t own = 0, wanted[ROWS];
    mivtolgya_node nodes[6];
    size_t thin = below(7), gaps = one_in(4) ? 4 : 1, end = 0;
    memcpy(nodes, &device.terminals, sizeof nodes);
    for (int i = 0; i < 6; i++)
        if (nodes[i].tag == MIVTOLGYA_NODE_ROW && nodes[i].index < rows) own |= 1ull << nodes[i].index;
    for (size_t r = 0; r < rows; r++) {
        wanted[r] = UINT64_MAX;
        for (size_t i = 0; i < thin; i++) wanted[r] &= bits();
        if (own >> r & 1) wanted[r] |= own;
    }
    size_t row = nodes[below(6)].index, column = nodes[below(6)].index;
    if (one_in(8) && row < rows && column < rows) wanted[row] &= ~(1ull << column);
    for (size_t r = 0; r < rows; r++) {
        for (size_t gap = below(gaps); gap > 0; gap--) matrix.columns[end++] = (uint32_t)bits();
        matrix.offsets[r] = end;
        for (size_t c = 0; c < rows; c++)
            if (wanted[r] >> c & 1) matrix.columns[end++] = (uint32_t)c;
        matrix.lengths[r] = end - matrix.offsets[r];
    }
    for (size_t gap = below(gaps); gap > 0; gap--) matrix.columns[end++] = (uint32_t)bits();
    matrix.column_count = end;
    matrix.offset_count = matrix.length_count = rows;
}

/* The matrix, or a copy with one thing wrong, or perhaps wrong. */
static const pattern *lent_pattern(void) {
    if (!one_in(8)) return &matrix;
    spoiled = matrix;
    size_t row = below(rows), at = matrix.column_count > 0 ? below(matrix.column_count) : 0, by = one_in(2) ? 1 : SIZE_MAX;
    switch (below(7)) {
    case 0: spoiled.columns[at] = (uint32_t)below(rows + 1); break;
    case 1: spoiled.columns[at] = (uint32_t)bits(); break;
    case 2: spoiled.offsets[row] += by; break;
    case 3: spoiled.lengths[row] += by; break;
    case 4: spoiled.offsets[row] = bits(); break;
    case 5: spoiled.length_count--; break;
    default: spoiled.offset_count = --spoiled.length_count;
    }
    return &spoiled;
}

/* ---- what a call is handed */

static double voltage(void) {
    if (one_in(16)) return one_in(2) ? 0.0 : -0.0;
    if (one_in(40)) return edge(one_in(2) ? 1000 : -1000);
    return one_in(25) ? odd() : one_in(40) ? between(-1000, 1000) : between(-5, 5);
}

static double at_node(mivtolgya_node of) { return of.tag == 1 && of.index < rows ? x[of.index] : 0.0; }

static void copy_voltage(mivtolgya_node to, mivtolgya_node from) {
    if (to.tag == 1 && to.index < rows) x[to.index] = at_node(from);
}

/* Both bulk junctions at or below zero, as they are in use: a current far forward would hide the last bits of all others. */
static void reverse_junctions(void) {
    const mivtolgya_terminals *t = &device.terminals;
    double drain = at_node(t->drain), source = at_node(t->source), below_both = one_in(2) ? 0 : between(0, 2);
    if (t->bulk.tag != 1 || t->bulk.index >= rows) return;
    x[t->bulk.index] = device.card.polarity > 0 ? fmin(drain, source) - below_both : fmax(drain, source) + below_both;
}

/* The gate about or above the threshold: by chance alone most channels would be off. */
static void turn_on(void) {
    const mivtolgya_terminals *t = &device.terminals;
    double drain = at_node(t->drain), source = at_node(t->source), over = fabs(device.card.vto) + between(-0.5, 4);
    if (t->gate.tag != 1 || t->gate.index >= rows) return;
    x[t->gate.index] = device.card.polarity > 0 ? fmin(drain, source) + over : fmax(drain, source) - over;
}

/* New voltages, or the last ones as they are or moved a little, as an iteration does. */
static void set_voltages(int round) {
    size_t kind = round == 0 ? 0 : below(5);
    for (size_t r = 0; r < rows; r++) x[r] = kind < 3 ? voltage() : kind == 3 ? x[r] + between(-0.1, 0.1) : x[r];
    if (one_in(30)) copy_voltage(device.terminals.drain, device.terminals.source);
    if (one_in(2)) turn_on();
    if (one_in(2)) reverse_junctions();
    else if (one_in(2)) copy_voltage(device.terminals.bulk, device.terminals.source);
}

static mivtolgya_conditions conditions(void) {
    mivtolgya_conditions k = {kelvin, 1e-12, below(2), below(2), {below(4), step(), step()}};
    if (one_in(3)) k.temperature = between(200, 500);
    if (one_in(12)) k.temperature = edge(one_in(2) ? 200 : 500);
    if (one_in(3)) k.gmin = one_in(2) ? 0 : spread(1e-15, 1);
    if (one_in(12)) k.gmin = edge((double)below(2));
    if (one_in(60)) *(one_in(2) ? &k.temperature : &k.gmin) = odd();
    if (one_in(30)) *(one_in(3) ? &k.limiter : one_in(2) ? &k.transient : &k.method.tag) = odd_tag();
    return k;
}

/* Often zeros or small numbers: beside larger ones the last bits of what is added would be lost. */
static void fill(double *slice, size_t count) {
    int odd_ones = one_in(8);
    double size = one_in(2) ? 0 : spread(1e-20, 1);
    for (size_t i = 0; i < count; i++) slice[i] = one_in(16) ? -0.0 : odd_ones && one_in(4) ? odd() : between(-size, size);
}

static size_t lent_rows(void) { return one_in(8) ? rows - 1 : rows; }
static uint64_t lent_flag(void) { return one_in(40) ? odd_tag() : below(2); }

static double alpha(void) { return one_in(8) ? edge(one_in(2) ? 1 : 1e16) : one_in(16) ? odd() : spread(1, 1e16); }

/* The cells, those of the device before, or a copy with one number changed. */
static mivtolgya_cells lent_cells(void) {
    mivtolgya_cells lent = one_in(16) ? earlier : cells;
    size_t *at = (size_t *)&lent + below(CELL_WORDS), count = matrix.column_count;
    if (!one_in(3)) return lent;
    switch (below(7)) {
    case 0: *at = count; break;
    case 1: *at = count + below(3); break;
    case 2: *at = MIVTOLGYA_CELL_GROUND; break;
    case 3: *at = MIVTOLGYA_CELL_ABSENT; break;
    case 4: *at = (size_t)1 << 63; break;
    default: *at = below(count + 1); /* mostly a place of another cell, which no load can notice */
    }
    return lent;
}

/* Writes over one word of the record; half of the time the stage or a word of a node, ground's unread index too. */
static void damage(void) {
    static const uint64_t tags[] = {0, 1, 2, 3, 5, 6};
    static const double floats[] = {NAN, -0.0, 0.0, INFINITY, -1.0, 1e300, 1e-300};
    size_t at = one_in(2) ? below(WORDS) : one_in(4) ? WORDS - 1 : TERMINALS + below(12);
    uint64_t word = bits();
    double number = one_in(2) ? floats[below(7)] : between(-5, 5);
    switch (below(6)) {
    case 0: break;
    case 1: word = below(rows); break;
    case 2: word = one_in(2) ? UINT64_MAX : 1ull << (32 + below(32)); break;
    case 3: word = tags[below(6)]; break;
    case 4: word = rows + below(2); break;
    default: memcpy(&word, &number, 8);
    }
    memcpy((char *)&device + 8 * at, &word, 8);
}

/* ---- the calls */

static void evaluate(void) {
    mivtolgya_evaluation_reply reply = mivtolgya_eval_in_place(&device, x, lent_rows(), conditions());
    add_numbers(&reply.answer, sizeof reply.answer / 8);
    keep(EVAL, reply.refusal);
}

static void load_by_cells(void) {
    mivtolgya_cells lent = lent_cells();
    size_t count = matrix.column_count;
    if (one_in(16)) count += one_in(2) || count == 0 ? 1 : SIZE_MAX;
    fill(rhs, rows + 1);
    fill(values, matrix.column_count + 2);
    uint64_t flag = lent_flag();
    keep(RESOLVED, mivtolgya_load_resolved(&device, flag, alpha(), &lent, rhs, lent_rows(), values, count));
    keep_slices();
    keep_cells(&lent);
    bank[banked] = device;
    lists[banked++] = one_in(2) ? cells : lent;
}

/* ---- several devices by cells, held to single loads one after the other */

typedef struct {
    size_t starts[RUNS], counts[RUNS], start_count, count_count;
} runs;

/* Parts of the rows in a row, perhaps turned round, at times with a number changed. */
static runs lent_runs(void) {
    runs r;
    size_t at = 0;
    r.start_count = r.count_count = below(RUNS + 1);
    for (size_t i = 0; i < RUNS; i++) {
        r.starts[i] = at + below(2) * below(rows - at + 1);
        r.counts[i] = below(rows - r.starts[i] + 1);
        at = r.starts[i] + r.counts[i];
    }
    for (size_t i = 0; i + 1 < r.start_count && one_in(2); i++) {
        size_t start = r.starts[i], count = r.counts[i];
        r.starts[i] = r.starts[i + 1], r.counts[i] = r.counts[i + 1];
        r.starts[i + 1] = start, r.counts[i + 1] = count;
    }
    if (one_in(8)) *(one_in(2) ? r.starts : r.counts) = one_in(3) ? SIZE_MAX - below(rows + 1) : below(rows + 2);
    if (one_in(40)) r.count_count = below(RUNS + 1);
    return r;
}

/* Row 14 by the rows that each run has: none of them twice, and none behind the last. */
static int refused_runs(const runs *r, size_t end, size_t devices) {
    uint64_t taken = 0;
    if (devices > MIVTOLGYA_MOST_DEVICES || r->start_count != r->count_count) return 1;
    for (size_t i = 0; i < r->start_count; i++) {
        if (r->starts[i] > end || r->counts[i] > end - r->starts[i]) return 1;
        for (size_t row = r->starts[i]; row < r->starts[i] + r->counts[i]; row++) {
            if (taken >> row & 1) return 1;
            taken |= 1ull << row;
        }
    }
    return 0;
}

/* What single loads by cells give: their numbers first, on a copy of both slices, then the loads after zeroing. */
static uint64_t by_single_loads(const runs *r, size_t devices, size_t listed, uint64_t flag, double alpha_value, double *side, size_t side_count,
                                double *cell_values, size_t count) {
    static double other_side[ROWS + 1], other_values[SPACE + 2];
    uint64_t lowest = listed < devices ? 13 : 0;
    for (size_t i = 0; i < devices; i++) {
        memcpy(other_side, side, sizeof other_side);
        memcpy(other_values, cell_values, sizeof other_values);
        mivtolgya_device copy = bank[i];
        uint64_t number = mivtolgya_load_resolved(&copy, flag, alpha_value, &lists[i], other_side, side_count, other_values, count);
        if (number == 100) return 100;
        if (i < listed && number != 0 && (lowest == 0 || number < lowest)) lowest = number;
    }
    if (flag > 1) return 100;
    if (refused_runs(r, side_count, devices)) return 14;
    if (lowest != 0) return lowest;
    for (size_t i = 0; i < side_count; i++) side[i] = 0;
    for (size_t i = 0; i < count; i++) cell_values[i] = 0;
    for (size_t i = 0; i < devices; i++) mivtolgya_load_resolved(&bank[i], flag, alpha_value, &lists[i], side, side_count, cell_values, count);
    return 0;
}

static void load_bridge(void) {
    static double side[ROWS + 1], cell_values[SPACE + 2];
    size_t devices = one_in(20) ? MIVTOLGYA_MOST_DEVICES + below(2) : below(banked + 1), count = matrix.column_count, end = lent_rows();
    for (size_t i = banked; i < devices; i++) bank[i] = bank[i % banked], lists[i] = lists[i % banked];
    size_t listed = one_in(16) ? below(devices + 1) : devices;
    if (one_in(16)) count += one_in(2) || count == 0 ? 1 : SIZE_MAX;
    fill(rhs, rows + 1);
    fill(values, matrix.column_count + 2);
    memcpy(side, rhs, sizeof side);
    memcpy(cell_values, values, sizeof cell_values);
    runs r = lent_runs();
    uint64_t flag = lent_flag();
    double a = alpha();
    uint64_t number = mivtolgya_load_bridge_resolved(bank, devices, r.starts, r.start_count, r.counts, r.count_count, flag, a, lists, listed,
                                                     rhs, end, values, count);
    keep(BRIDGE, number);
    keep_slices();
    uint64_t before = sum;
    uint64_t single = by_single_loads(&r, devices, listed, flag, a, side, end, cell_values, count);
    sum = 0, add_word(number), keep_slices();
    uint64_t whole = sum;
    memcpy(rhs, side, sizeof side);
    memcpy(values, cell_values, sizeof cell_values);
    sum = 0, add_word(single), keep_slices();
    if (sum != whole) {
        printf("a bridge's load gave %llu, single loads %llu, or other slices\n", (unsigned long long)number, (unsigned long long)single);
        exit(4);
    }
    sum = before;
}

static void load(void) {
    const pattern *p = lent_pattern();
    size_t count = matrix.column_count;
    if (one_in(40) && count > 0) count--;
    if (one_in(2)) fill(values, matrix.column_count + 2);
    uint64_t flag = lent_flag();
    keep(LOAD, mivtolgya_load_in_place(&device, flag, alpha(), rhs, lent_rows(), values, count, p->columns, p->column_count, p->offsets,
                                       p->offset_count, p->lengths, p->length_count));
    keep_slices();
}

static void resolve(mivtolgya_cells *found, const pattern *p) {
    mivtolgya_resolve_outcome o =
        mivtolgya_resolve(device, p->columns, p->column_count, p->offsets, p->offset_count, p->lengths, p->length_count);
    keep(RESOLVE, o.refusal);
    keep_cells(&o.cells);
    *found = o.cells;
}

static void try_device(void) {
    mivtolgya_cells unused;
    make_device();
    make_pattern();
    earlier = cells;
    banked = 0;
    resolve(&cells, &matrix);
    int damaged = one_in(4), rounds = 3 + (int)below(5);
    for (int round = 0; round < rounds; round++) {
        mivtolgya_device whole = device;
        int now = damaged && one_in(2);
        set_voltages(round);
        if (now) damage();
        if (!one_in(12)) evaluate();
        load_by_cells();
        load();
        if (one_in(8)) resolve(&unused, lent_pattern());
        if (one_in(3)) keep(COMMIT, mivtolgya_commit_in_place(&device, x, lent_rows()));
        if (now) device = whole;
        if (one_in(40) && device.stage >= MIVTOLGYA_STAGE_BOUND) scale();
    }
    load_bridge();
}

/* Prints the counts; answers whether every number occurred that should, and no other. */
static int print_counts(void) {
    int good = 1;
    for (int call = 0; call < CALLS; call++) {
        uint64_t all = 0, listed = counts[call][0];
        for (int i = 0; i < NUMBERS; i++) all += counts[call][i];
        printf("%s: %llu calls, accepted %llu", call_names[call], (unsigned long long)all, (unsigned long long)counts[call][0]);
        for (const unsigned *number = may_give[call]; *number != 0; number++) {
            printf(", refused by %u %llu", *number, (unsigned long long)counts[call][*number]);
            listed += counts[call][*number];
            good &= counts[call][*number] > 0;
        }
        good &= listed == all;
        printf(listed == all ? "\n" : ", by others %llu\n", (unsigned long long)(all - listed));
    }
    return good;
}

int main(int count, char **words) {
    if (count < 3) return 2;
    uint64_t devices = strtoull(words[1], NULL, 10), seed = strtoull(words[2], NULL, 10);
    setvbuf(stdout, NULL, _IOLBF, 0); /* a crash keeps the sums before it */
    sum = 1469598103934665603ull;
    for (uint64_t i = 0; i < devices; i++) {
        state = (seed << 40) + i;
        state = bits();
        try_device();
        if ((i + 1) % 1000 != 0 && i + 1 != devices) continue;
        printf("to device %llu: %016llx\n", (unsigned long long)(i + 1), (unsigned long long)sum);
        sum = 1469598103934665603ull;
    }
    return print_counts() ? 0 : 1;
}
