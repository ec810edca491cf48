/* Lent memory at its ends. Every slice and record stands between two pages that may not be touched, once at its first byte and once
 * at its last. What a call only reads, and all that a refused call is lent, is read-only. Each call is made in a child process, so
 * that a touch outside, or a write where none may be, is reported by the call's name. Linux; prints one line for each failure, then
 * the count of calls, and ends with status 1 if one failed. */
#define _GNU_SOURCE
#include <mivtolgya.h>
#include <stdio.h>
#include <stdlib.h>
#include <sys/mman.h>
#include <sys/wait.h>
#include <unistd.h>

#define PAGE ((size_t)4096)

typedef enum { FIRST, LAST } end;
typedef enum { READ, WRITE } use;

static int calls, failures;

/* a copy of the bytes with its first or last one beside a page that may not be touched */
static void *between(const void *from, size_t count, end at, use how) {
    size_t room = (count / PAGE + 1) * PAGE;
    uint8_t *pages = mmap(NULL, room + 2 * PAGE, PROT_NONE, MAP_PRIVATE | MAP_ANONYMOUS, -1, 0);
    if (pages == MAP_FAILED || mprotect(pages + PAGE, room, PROT_READ | PROT_WRITE) != 0) {
        perror("guards");
        exit(2);
    }
    uint8_t *place = at == FIRST ? pages + PAGE : pages + PAGE + room - count;
    if (count > 0) {
        memcpy(place, from, count);
    }
    if (how == READ) {
        mprotect(pages + PAGE, room, PROT_READ);
    }
    return place;
}

#define COPY(array, count, how) between(array, (count) * sizeof *(array), at, how)

/* counts a call; in the child the caller makes it and hands its answer to `answered` */
static int child(const char *name, end at, uint64_t expected) {
    calls++;
    fflush(stdout);
    pid_t pid = fork();
    if (pid == 0) {
        return 1;
    }
    int status = 0;
    if (pid < 0 || waitpid(pid, &status, 0) != pid) {
        perror("guards");
        exit(2);
    }
    if (WIFSIGNALED(status)) {
        printf("%s, refusal %u, %s byte at a guard: touched memory that it may not (signal %d)\n", name, (unsigned)expected,
               at == FIRST ? "first" : "last", WTERMSIG(status));
        failures++;
    } else if (WEXITSTATUS(status) != 0) {
        printf("%s: not answered with %u\n", name, (unsigned)expected);
        failures++;
    }
    return 0;
}

static void answered(uint64_t answer, uint64_t expected) {
    _exit(answer == expected ? 0 : 1);
}

/* ---- what the calls are made with */

static const double volts[] = {1.0, 3.0};
static const double too_high[] = {1.0, 1001.0};

static mivtolgya_conditions conditions(double temperature, mivtolgya_method method) {
    mivtolgya_conditions c = {temperature, 1e-12, 1, 1, method};
    return c;
}

static void must(uint64_t refusal) {
    if (refusal != MIVTOLGYA_ACCEPTED) {
        printf("a device of the test was refused: %s\n", mivtolgya_refusal_text(refusal));
        exit(2);
    }
}

/* an NMOS with every capacitance and both series resistances, at one of its stages; drain row 0, gate row 1, inner ones 2 and 3 */
static mivtolgya_device device_at(uint64_t stage, mivtolgya_method method) {
    static const mivtolgya_key card[] = {{"vto", 0.7},    {"tox", 1e-7},   {"cgso", 1e-10}, {"cgdo", 1e-10}, {"cgbo", 1e-10},
                                         {"cj", 1e-4},    {"cjsw", 1e-10}, {"rd", 10.0},    {"rs", 10.0}};
    static const mivtolgya_key sizes[] = {{"w", 1e-5}, {"l", 1e-6}, {"as", 1e-10}, {"ad", 1e-10}, {"ps", 4e-5}, {"pd", 4e-5}};
    const double x[] = {1.0, 3.0, 1.0, 0.0};
    mivtolgya_device d;
    must(mivtolgya_device_init(&d));
    must(mivtolgya_read_card(&d, MIVTOLGYA_NMOS, card, 9));
    must(mivtolgya_read_geometry(&d, sizes, 6));
    must(mivtolgya_scale(&d, 300.15));
    mivtolgya_nodes nodes = {mivtolgya_row(0), mivtolgya_row(1), mivtolgya_ground(), mivtolgya_ground()};
    if (stage >= MIVTOLGYA_STAGE_BOUND) {
        must(mivtolgya_bind(&d, nodes, 2));
    }
    if (stage >= MIVTOLGYA_STAGE_EVALUATED) {
        must(mivtolgya_eval_in_place(&d, x, 4, conditions(300.15, method)).refusal);
    }
    return d;
}

/* ---- card and geometry */

typedef struct {
    uint64_t refusal;
    const char *bytes;
    size_t offsets[2], lengths[2];
    double values[2];
    size_t space;
} key_case;

static void try_keys(end at) {
    static const key_case cases[] = {
        {MIVTOLGYA_ACCEPTED, "zoozap", {0, 3}, {3, 3}, {1e-3, 1e-3}, 2},
        {MIVTOLGYA_ACCEPTED, "zoozap", {6, 6}, {0, 0}, {1e-3, 1e-3}, 2},
        {MIVTOLGYA_REFUSED_KEY_PAIRS, "zoozap", {0, 4}, {3, 3}, {1e-3, 1e-3}, 2},
        {MIVTOLGYA_REFUSED_KEY_PAIRS, "zoozap", {0, SIZE_MAX}, {3, 3}, {1e-3, 1e-3}, 2},
        {MIVTOLGYA_REFUSED_KEY_BYTE, "zooza\x80", {0, 3}, {3, 3}, {1e-3, 1e-3}, 2},
        {MIVTOLGYA_REFUSED_UNKNOWN_KEYS, "zoozap", {0, 3}, {3, 3}, {1e-3, 1e-3}, 1},
    };
    const size_t list[] = {7, 7};
    mivtolgya_device d = device_at(MIVTOLGYA_STAGE_SCALED, mivtolgya_no_step());
    for (size_t i = 0; i < sizeof cases / sizeof *cases; i++) {
        const key_case *k = &cases[i];
        const uint8_t *bytes = between(k->bytes, 6, at, READ);
        const size_t *offsets = COPY(k->offsets, 2, READ), *lengths = COPY(k->lengths, 2, READ);
        const double *values = COPY(k->values, 2, READ);
        size_t *unknown = COPY(list, k->space, k->refusal == MIVTOLGYA_ACCEPTED ? WRITE : READ);
        if (child("card", at, k->refusal)) {
            answered(mivtolgya_from_model_params(d, 0, bytes, 6, offsets, 2, lengths, 2, values, 2, unknown, k->space).refusal, k->refusal);
        }
        if (child("geometry", at, k->refusal)) {
            answered(mivtolgya_set_instance_params(d, bytes, 6, offsets, 2, lengths, 2, values, 2, unknown, k->space).refusal, k->refusal);
        }
    }
}

/* ---- the number of extra nodes, and the matrix layout */

static void try_extra_nodes(end at, uint64_t expected, mivtolgya_device d) {
    if (child("extra nodes", at, expected)) {
        mivtolgya_count_outcome o = mivtolgya_extra_nodes(d);
        answered(o.count == (expected == MIVTOLGYA_ACCEPTED ? 2 : 0) ? o.refusal : UINT64_MAX, expected);
    }
}

/* what the device of the test needs, whose source and bulk are ground */
enum { LAYOUT_COLUMNS = 12, LAYOUT_ROWS = 4 };
static const uint32_t layout_columns[] = {0, 2, 1, 2, 3, 0, 1, 2, 3, 1, 2, 3};
static const size_t layout_offsets[] = {0, 2, 5, 9}, layout_lengths[] = {2, 3, 4, 3};

/* slices of so many elements are lent; where one is too short, or the call is refused, all are read-only */
static void try_layout(end at, uint64_t expected, mivtolgya_device d, size_t column_space, size_t offset_space, size_t length_space) {
    uint32_t columns[16];
    size_t numbers[8];
    memset(columns, 7, sizeof columns);
    memset(numbers, 7, sizeof numbers);
    const int accepted = expected == MIVTOLGYA_ACCEPTED;
    const int written = accepted && column_space >= LAYOUT_COLUMNS && offset_space >= LAYOUT_ROWS && length_space >= LAYOUT_ROWS;
    const use how = written ? WRITE : READ;
    uint32_t *c = COPY(columns, column_space, how);
    size_t *o = COPY(numbers, offset_space, how), *l = COPY(numbers, length_space, how);
    if (child("layout", at, expected)) {
        const mivtolgya_layout_outcome found = mivtolgya_matrix_layout(d, c, column_space, o, offset_space, l, length_space);
        int good = found.columns == (accepted ? LAYOUT_COLUMNS : 0) && found.rows == (accepted ? LAYOUT_ROWS : 0);
        if (written) { /* the pattern, and behind it what was there */
            good = good && memcmp(c, layout_columns, sizeof layout_columns) == 0 && memcmp(o, layout_offsets, sizeof layout_offsets) == 0
                && memcmp(l, layout_lengths, sizeof layout_lengths) == 0
                && memcmp(c + LAYOUT_COLUMNS, columns, (column_space - LAYOUT_COLUMNS) * sizeof *c) == 0
                && memcmp(o + LAYOUT_ROWS, numbers, (offset_space - LAYOUT_ROWS) * sizeof *o) == 0
                && memcmp(l + LAYOUT_ROWS, numbers, (length_space - LAYOUT_ROWS) * sizeof *l) == 0;
        }
        answered(good ? found.refusal : UINT64_MAX, expected);
    }
}

static void try_layouts(end at) {
    const mivtolgya_device scaled = device_at(MIVTOLGYA_STAGE_SCALED, mivtolgya_no_step());
    const mivtolgya_device bound = device_at(MIVTOLGYA_STAGE_BOUND, mivtolgya_no_step());
    mivtolgya_device card_only = scaled, far = bound, wrong = bound;
    card_only.stage = MIVTOLGYA_STAGE_CARD;
    far.terminals.gate.index = (size_t)1 << 32;
    wrong.terminals.bulk.tag = 2;
    try_extra_nodes(at, MIVTOLGYA_ACCEPTED, scaled);
    try_extra_nodes(at, MIVTOLGYA_ACCEPTED, bound);
    try_extra_nodes(at, MIVTOLGYA_REFUSED_STAGE, card_only);
    try_extra_nodes(at, MIVTOLGYA_REFUSED_TAG, wrong);
    try_layout(at, MIVTOLGYA_ACCEPTED, bound, 12, 4, 4);
    try_layout(at, MIVTOLGYA_ACCEPTED, bound, 16, 7, 8);
    try_layout(at, MIVTOLGYA_ACCEPTED, bound, 11, 4, 4);
    try_layout(at, MIVTOLGYA_ACCEPTED, bound, 12, 3, 4);
    try_layout(at, MIVTOLGYA_ACCEPTED, bound, 12, 4, 3);
    try_layout(at, MIVTOLGYA_ACCEPTED, bound, 0, 0, 0);
    try_layout(at, MIVTOLGYA_ACCEPTED, device_at(MIVTOLGYA_STAGE_EVALUATED, mivtolgya_euler(1e-9)), 12, 4, 4);
    try_layout(at, MIVTOLGYA_REFUSED_STAGE, scaled, 12, 4, 4);
    try_layout(at, MIVTOLGYA_REFUSED_NODE, far, 12, 4, 4);
    try_layout(at, MIVTOLGYA_REFUSED_TAG, wrong, 12, 4, 4);
}

/* ---- evaluation and commit in place */

static void try_evaluation(end at, uint64_t expected, mivtolgya_device d, const double *v, size_t count, mivtolgya_conditions c) {
    mivtolgya_device *device = between(&d, sizeof d, at, expected == MIVTOLGYA_ACCEPTED ? WRITE : READ);
    const double *x = COPY(v, count, READ);
    if (child("evaluation in place", at, expected)) {
        answered(mivtolgya_eval_in_place(device, x, count, c).refusal, expected);
    }
}

static void try_evaluations(end at) {
    const double x[] = {1.0, 3.0, 1.0, 0.0}, high[] = {1.0, 3.0, 1001.0, 0.0};
    const mivtolgya_conditions euler = conditions(300.15, mivtolgya_euler(1e-9)), cold = conditions(199.0, mivtolgya_euler(1e-9)),
                               still = conditions(300.15, mivtolgya_gear(1e-9, 0.0));
    mivtolgya_device bound = device_at(MIVTOLGYA_STAGE_BOUND, mivtolgya_no_step()), wrong = bound;
    wrong.method.tag = 4;
    try_evaluation(at, MIVTOLGYA_ACCEPTED, bound, x, 4, euler);
    try_evaluation(at, MIVTOLGYA_REFUSED_TEMPERATURE, bound, x, 4, cold);
    try_evaluation(at, MIVTOLGYA_REFUSED_NODE, bound, volts, 2, euler);
    try_evaluation(at, MIVTOLGYA_REFUSED_NODE, bound, x, 0, euler);
    try_evaluation(at, MIVTOLGYA_REFUSED_VOLTAGE, bound, high, 4, euler);
    try_evaluation(at, MIVTOLGYA_REFUSED_STAGE, device_at(MIVTOLGYA_STAGE_SCALED, mivtolgya_no_step()), x, 4, euler);
    try_evaluation(at, MIVTOLGYA_REFUSED_STEP, bound, x, 4, still);
    try_evaluation(at, MIVTOLGYA_REFUSED_TAG, wrong, x, 4, euler);
}

static void try_commit(end at, uint64_t expected, mivtolgya_device d, const double *v, size_t count) {
    mivtolgya_device *device = between(&d, sizeof d, at, expected == MIVTOLGYA_ACCEPTED ? WRITE : READ);
    const double *x = COPY(v, count, READ);
    if (child("commit in place", at, expected)) {
        answered(mivtolgya_commit_in_place(device, x, count), expected);
    }
}

static void try_commits(end at) {
    const double x[] = {1.0, 3.0, 1.0, 0.0}, high[] = {1.0, 1001.0, 1.0, 0.0};
    mivtolgya_device d = device_at(MIVTOLGYA_STAGE_EVALUATED, mivtolgya_trapezoid(1e-9)), wrong = d;
    wrong.stage = 6;
    try_commit(at, MIVTOLGYA_ACCEPTED, d, x, 4);
    try_commit(at, MIVTOLGYA_REFUSED_NODE, d, volts, 2);
    try_commit(at, MIVTOLGYA_REFUSED_NODE, d, too_high, 0);
    try_commit(at, MIVTOLGYA_REFUSED_VOLTAGE, d, high, 4);
    try_commit(at, MIVTOLGYA_REFUSED_STAGE, device_at(MIVTOLGYA_STAGE_BOUND, mivtolgya_no_step()), x, 4);
    try_commit(at, MIVTOLGYA_REFUSED_TAG, wrong, x, 4);
}

/* ---- loads into a matrix of full rows */

typedef struct {
    uint64_t refusal;
    mivtolgya_device device;
    double alpha;
    size_t rows, width;      /* the matrix has rows * width values */
    uint32_t columns[16];
    size_t offsets[4];
} load_case;

typedef struct {
    const uint32_t *columns;
    const size_t *offsets, *lengths;
    size_t count;
} lent_pattern;

static lent_pattern lend(end at, const load_case *k) {
    const size_t widths[] = {k->width, k->width, k->width, k->width}, count = k->rows * k->width;
    lent_pattern p = {COPY(k->columns, count, READ), COPY(k->offsets, k->rows, READ), COPY(widths, k->rows, READ), count};
    return p;
}

/* four full rows; the device has every capacitance and both inner nodes */
static load_case full_case(void) {
    load_case k = {MIVTOLGYA_ACCEPTED, device_at(MIVTOLGYA_STAGE_EVALUATED, mivtolgya_gear(1e-9, 2e-9)), 0.0, 4, 4,
                   {0, 1, 2, 3, 0, 1, 2, 3, 0, 1, 2, 3, 0, 1, 2, 3}, {0, 4, 8, 12}};
    return k;
}

static void try_load(end at, const load_case *k) {
    const double zeros[16] = {0};
    use how = k->refusal == MIVTOLGYA_ACCEPTED ? WRITE : READ;
    const mivtolgya_device *device = between(&k->device, sizeof k->device, at, READ);
    const lent_pattern p = lend(at, k);
    double *rhs = COPY(zeros, k->rows, how), *values = COPY(zeros, p.count, how);
    if (child("load in place", at, k->refusal)) {
        answered(mivtolgya_load_in_place(device, 1, k->alpha, rhs, k->rows, values, p.count, p.columns, p.count, p.offsets, k->rows,
                                         p.lengths, k->rows),
                 k->refusal);
    }
}

static void try_loads(end at) {
    const load_case full = full_case();
    load_case k = full;
    try_load(at, &k);
    k.refusal = MIVTOLGYA_REFUSED_NODE;
    k.rows = 3;
    try_load(at, &k);
    k.rows = 0;
    try_load(at, &k);
    k = full;
    k.refusal = MIVTOLGYA_REFUSED_STAGE;
    k.device = device_at(MIVTOLGYA_STAGE_BOUND, mivtolgya_no_step());
    try_load(at, &k);
    k.refusal = MIVTOLGYA_REFUSED_STEP;
    k.device = device_at(MIVTOLGYA_STAGE_EVALUATED, mivtolgya_no_step());
    try_load(at, &k);
    k = full;
    k.refusal = MIVTOLGYA_REFUSED_PATTERN;
    k.offsets[3] = 13;
    try_load(at, &k);
    k.offsets[3] = SIZE_MAX;
    try_load(at, &k);
    k = full;
    k.refusal = MIVTOLGYA_REFUSED_MISSING_CELL;
    k.columns[15] = 4;
    try_load(at, &k);
    k = full;
    k.refusal = MIVTOLGYA_REFUSED_TAG;
    k.device.terminals.bulk.tag = 2;
    try_load(at, &k);
}

/* ---- cells resolved once, and loads by them */

static void try_resolve(end at, const load_case *k) {
    static const mivtolgya_cells zeros;
    const lent_pattern p = lend(at, k);
    if (child("resolve", at, k->refusal)) {
        mivtolgya_resolve_outcome o = mivtolgya_resolve(k->device, p.columns, p.count, p.offsets, k->rows, p.lengths, k->rows);
        int none = memcmp(&o.cells, &zeros, sizeof zeros) == 0;
        answered(none == (o.refusal != MIVTOLGYA_ACCEPTED) ? o.refusal : UINT64_MAX, k->refusal);
    }
}

static void try_resolves(end at) {
    const load_case full = full_case();
    load_case k = full;
    try_resolve(at, &k);
    k.device = device_at(MIVTOLGYA_STAGE_BOUND, mivtolgya_no_step());
    try_resolve(at, &k);
    k.refusal = MIVTOLGYA_REFUSED_STAGE;
    k.device = device_at(MIVTOLGYA_STAGE_SCALED, mivtolgya_no_step());
    try_resolve(at, &k);
    k = full;
    k.refusal = MIVTOLGYA_REFUSED_NODE;
    k.rows = 3;
    try_resolve(at, &k);
    k.rows = 0;
    try_resolve(at, &k);
    k = full;
    k.refusal = MIVTOLGYA_REFUSED_PATTERN;
    k.offsets[3] = 13;
    try_resolve(at, &k);
    k.offsets[3] = SIZE_MAX;
    try_resolve(at, &k);
    k = full;
    k.refusal = MIVTOLGYA_REFUSED_MISSING_CELL;
    k.columns[15] = 4; /* inner source with itself */
    try_resolve(at, &k);
    k = full;
    k.columns[7] = 4; /* gate with the inner source: a branch's cell may be absent */
    try_resolve(at, &k);
    k.refusal = MIVTOLGYA_REFUSED_TAG;
    k.device.terminals.bulk.tag = 2;
    try_resolve(at, &k);
}

typedef struct {
    uint64_t refusal;
    mivtolgya_device device;
    uint64_t transient;
    mivtolgya_cells cells;
    size_t rows, values;
} resolved_case;

static void try_resolved_load(end at, const resolved_case *k) {
    const double zeros[17] = {0};
    use how = k->refusal == MIVTOLGYA_ACCEPTED ? WRITE : READ;
    const mivtolgya_device *device = between(&k->device, sizeof k->device, at, READ);
    const mivtolgya_cells *cells = between(&k->cells, sizeof k->cells, at, READ);
    double *rhs = COPY(zeros, k->rows, how), *values = COPY(zeros, k->values, how);
    if (child("resolved load", at, k->refusal)) {
        answered(mivtolgya_load_resolved(device, k->transient, 0.0, cells, rhs, k->rows, values, k->values), k->refusal);
    }
}

static resolved_case full_resolved_case(void) {
    const size_t widths[] = {4, 4, 4, 4};
    const load_case full = full_case();
    mivtolgya_resolve_outcome o = mivtolgya_resolve(full.device, full.columns, 16, full.offsets, 4, widths, 4);
    must(o.refusal);
    resolved_case k = {MIVTOLGYA_ACCEPTED, full.device, 1, o.cells, 4, 16};
    return k;
}

/* every number of the cells replaced in turn by one that no pattern of 16 values has; ground's places are not looked at */
static void try_forged_cells(end at, const resolved_case *full) {
    static const size_t forged[] = {16, SIZE_MAX - 1, SIZE_MAX};
    for (size_t i = 0; i < 3 * 29; i++) {
        resolved_case k = *full;
        size_t *place = i % 29 < 24 ? &k.cells.places[i % 29] : &k.cells.gate_places[i % 29 - 24];
        k.refusal = *place == MIVTOLGYA_CELL_GROUND ? MIVTOLGYA_ACCEPTED : MIVTOLGYA_REFUSED_MISSING_CELL;
        *place = forged[i / 29];
        try_resolved_load(at, &k);
    }
    for (size_t i = 0; i < 6; i++) {
        resolved_case k = *full;
        k.refusal = MIVTOLGYA_REFUSED_MISSING_CELL;
        k.cells.nodes[i] ^= 1;
        try_resolved_load(at, &k);
    }
}

static void try_resolved_loads(end at) {
    const resolved_case full = full_resolved_case();
    resolved_case k = full;
    try_resolved_load(at, &k);
    k.transient = 0;
    try_resolved_load(at, &k);
    try_forged_cells(at, &full);
    k.refusal = MIVTOLGYA_REFUSED_NODE;
    for (k.rows = 0; k.rows < 4; k.rows++) {
        try_resolved_load(at, &k);
    }
    k.cells.rows = 3;
    try_resolved_load(at, &k);
    k = full;
    k.refusal = MIVTOLGYA_REFUSED_PATTERN;
    for (k.values = 15; k.values < 18; k.values += 2) {
        try_resolved_load(at, &k);
    }
    k = full;
    k.refusal = MIVTOLGYA_REFUSED_STAGE;
    k.device = device_at(MIVTOLGYA_STAGE_BOUND, mivtolgya_no_step());
    try_resolved_load(at, &k);
    k.refusal = MIVTOLGYA_REFUSED_STEP;
    k.device = device_at(MIVTOLGYA_STAGE_EVALUATED, mivtolgya_no_step());
    try_resolved_load(at, &k);
    k = full;
    k.refusal = MIVTOLGYA_REFUSED_TAG;
    k.transient = 2;
    try_resolved_load(at, &k);
    k.transient = 1;
    k.device.stage = 0;
    try_resolved_load(at, &k);
}

/* ---- a block and a whole bridge */

typedef struct {
    uint64_t refusal;
    mivtolgya_device bank[MIVTOLGYA_MOST_DEVICES + 1];
    size_t devices, block, starts[2], start_count, counts[2], count_count;
    uint64_t transient;
    size_t side;       /* how many rows the right-hand side has */
    load_case pattern; /* its rows, columns and offsets alone */
} bridge_case;

/* the records and the runs of a case as they are lent */
typedef struct {
    const mivtolgya_device *bank;
    const size_t *starts, *counts;
} lent_bank;

static lent_bank lend_bank(end at, const bridge_case *k) {
    lent_bank b = {COPY(k->bank, k->devices, READ), COPY(k->starts, k->start_count, READ), COPY(k->counts, k->count_count, READ)};
    return b;
}

/* two devices; the block that is tried owns rows 3 to 6 of eight, the other one rows 1 and 2 */
static bridge_case full_bridge_case(void) {
    const load_case full = full_case();
    bridge_case k = {MIVTOLGYA_ACCEPTED, {full.device, full.device}, 2, 0, {3, 1}, 2, {4, 2}, 2, 1, 8, full};
    return k;
}

/* what the slices hold before each load, and what the two devices, one after another, make of it from the row `first` on */
static const double held[16] = {0.5, 0.25, 0.5, 0.25, 0.5, 0.25, 0.5, 0.25, 0.5, 0.25, 0.5, 0.25, 0.5, 0.25, 0.5, 0.25};

static int loaded(const bridge_case *k, const lent_bank *b, const lent_pattern *p, size_t first, const double *from, const double *rhs,
                  const double *values) {
    double side[16], cells[16];
    memcpy(side, from, sizeof side);
    memcpy(cells, from, sizeof cells);
    for (size_t i = 0; i < k->devices; i++) {
        must(mivtolgya_load_in_place(&b->bank[i], k->transient, 0.0, side + first, 4, cells, p->count, p->columns, p->count, p->offsets,
                                     k->pattern.rows, p->lengths, k->pattern.rows));
    }
    return memcmp(side, rhs, k->side * sizeof *rhs) == 0 && memcmp(cells, values, p->count * sizeof *values) == 0;
}

static void try_block(end at, const bridge_case *k) {
    use how = k->refusal == MIVTOLGYA_ACCEPTED ? WRITE : READ;
    const lent_bank b = lend_bank(at, k);
    const lent_pattern p = lend(at, &k->pattern);
    double *rhs = COPY(held, k->side, how), *values = COPY(held, p.count, how);
    if (child("block load", at, k->refusal)) {
        const uint64_t refusal = mivtolgya_load_block(b.bank, k->devices, k->block, b.starts, k->start_count, b.counts, k->count_count,
                                                      k->transient, 0.0, rhs, k->side, values, p.count, p.columns, p.count, p.offsets,
                                                      k->pattern.rows, p.lengths, k->pattern.rows);
        answered(how == READ || loaded(k, &b, &p, k->starts[k->block], held, rhs, values) ? refusal : UINT64_MAX, k->refusal);
    }
}

static void try_bridge(end at, const bridge_case *k) {
    static const double zeros[16];
    use how = k->refusal == MIVTOLGYA_ACCEPTED ? WRITE : READ;
    const lent_bank b = lend_bank(at, k);
    const lent_pattern p = lend(at, &k->pattern);
    double *rhs = COPY(held, k->side, how), *values = COPY(held, p.count, how);
    if (child("bridge load", at, k->refusal)) {
        const uint64_t refusal =
            mivtolgya_load_bridge(b.bank, k->devices, b.starts, k->start_count, b.counts, k->count_count, k->transient, 0.0, rhs, k->side,
                                  values, p.count, p.columns, p.count, p.offsets, k->pattern.rows, p.lengths, k->pattern.rows);
        answered(how == READ || loaded(k, &b, &p, 0, zeros, rhs, values) ? refusal : UINT64_MAX, k->refusal);
    }
}

static void try_block_and_bridge(end at, const bridge_case *k) {
    try_block(at, k);
    try_bridge(at, k);
}

/* runs, blocks and counts of devices that each kind of load refuses */
static void try_runs(end at, void (*try_one)(end, const bridge_case *)) {
    static const size_t bad[][4] = {{3, 6, 4, 1}, {3, 1, 4, 3}, {5, 1, 4, 2}, {3, 9, 4, 0}, {3, SIZE_MAX, 4, 1}, {3, 1, SIZE_MAX, 2}};
    const bridge_case full = full_bridge_case();
    bridge_case k = full;
    k.refusal = MIVTOLGYA_REFUSED_RUN;
    for (size_t i = 0; i < sizeof bad / sizeof *bad; i++) {
        memcpy(k.starts, bad[i], sizeof k.starts);
        memcpy(k.counts, bad[i] + 2, sizeof k.counts);
        try_one(at, &k);
    }
    k = full;
    k.refusal = MIVTOLGYA_REFUSED_RUN;
    k.start_count = 1;
    try_one(at, &k);
    k = full;
    k.refusal = MIVTOLGYA_REFUSED_RUN;
    for (size_t i = 2; i <= MIVTOLGYA_MOST_DEVICES; i++) {
        k.bank[i] = k.bank[0];
    }
    k.devices = MIVTOLGYA_MOST_DEVICES + 1;
    try_one(at, &k);
    k.refusal = MIVTOLGYA_ACCEPTED;
    k.devices = MIVTOLGYA_MOST_DEVICES;
    try_one(at, &k);
    k.devices = 0;
    try_one(at, &k);
}

/* the second device is refused, after the first one could have been loaded; tags come before runs */
static void try_second_device(end at, void (*try_one)(end, const bridge_case *)) {
    const bridge_case full = full_bridge_case();
    bridge_case k = full;
    k.refusal = MIVTOLGYA_REFUSED_STAGE;
    k.bank[1] = device_at(MIVTOLGYA_STAGE_BOUND, mivtolgya_no_step());
    try_one(at, &k);
    k.refusal = MIVTOLGYA_REFUSED_STEP;
    k.bank[1] = device_at(MIVTOLGYA_STAGE_EVALUATED, mivtolgya_no_step());
    try_one(at, &k);
    k = full;
    k.refusal = MIVTOLGYA_REFUSED_NODE;
    k.bank[1].terminals.gate.index = 8;
    try_one(at, &k);
    k = full;
    k.refusal = MIVTOLGYA_REFUSED_TAG;
    k.starts[0] = 8;
    k.transient = 2;
    try_one(at, &k);
    k.transient = 1;
    mivtolgya_device *second = &k.bank[1];
    uint64_t *const tags[] = {&second->stage, &second->method.tag, &second->terminals.bulk.tag, &second->histories.bd_hist.q_prev2.tag};
    for (size_t i = 0; i < sizeof tags / sizeof *tags; i++) {
        const uint64_t good = *tags[i];
        *tags[i] = 7;
        try_one(at, &k);
        *tags[i] = good;
    }
}

static void try_bridges(end at) {
    const bridge_case full = full_bridge_case();
    bridge_case k = full;
    try_block_and_bridge(at, &k);
    k.transient = 0;
    try_block_and_bridge(at, &k);
    try_runs(at, try_block_and_bridge);
    try_second_device(at, try_block_and_bridge);
    k = full;
    k.refusal = MIVTOLGYA_REFUSED_RUN;
    k.block = 2;
    try_block(at, &k);
    k.block = SIZE_MAX;
    try_block(at, &k);
    k = full;
    k.start_count = k.count_count = 0;
    try_bridge(at, &k);
    /* the block's own run is too short, whatever lies behind it */
    k = full;
    k.refusal = MIVTOLGYA_REFUSED_NODE;
    k.counts[0] = 3;
    try_block(at, &k);
    k.side = 3;
    k.start_count = k.count_count = 0;
    try_bridge(at, &k);
    k = full;
    k.refusal = MIVTOLGYA_REFUSED_PATTERN;
    k.pattern.offsets[3] = SIZE_MAX;
    try_block_and_bridge(at, &k);
    k = full;
    k.refusal = MIVTOLGYA_REFUSED_MISSING_CELL;
    k.pattern.columns[15] = 4;
    try_block_and_bridge(at, &k);
}

/* ---- a whole bridge by the cells of its devices */

static mivtolgya_cells lists[MIVTOLGYA_MOST_DEVICES + 1];
static size_t list_count, value_count;

static void try_resolved_bridge(end at, const bridge_case *k) {
    static const double zeros[16];
    use how = k->refusal == MIVTOLGYA_ACCEPTED ? WRITE : READ;
    const lent_bank b = lend_bank(at, k);
    const lent_pattern p = lend(at, &k->pattern);
    const mivtolgya_cells *cells = COPY(lists, list_count, READ);
    double *rhs = COPY(held, k->side, how), *values = COPY(held, value_count, how);
    if (child("resolved bridge load", at, k->refusal)) {
        const uint64_t refusal = mivtolgya_load_bridge_resolved(b.bank, k->devices, b.starts, k->start_count, b.counts, k->count_count,
                                                                k->transient, 0.0, cells, list_count, rhs, k->side, values, value_count);
        answered(how == READ || loaded(k, &b, &p, 0, zeros, rhs, values) ? refusal : UINT64_MAX, k->refusal);
    }
}

static void try_resolved_bridges(end at) {
    const mivtolgya_cells cells = full_resolved_case().cells;
    bridge_case k = full_bridge_case();
    for (list_count = 0; list_count <= MIVTOLGYA_MOST_DEVICES; list_count++) {
        lists[list_count] = cells;
    }
    value_count = 16;
    try_resolved_bridge(at, &k);
    try_runs(at, try_resolved_bridge);
    try_second_device(at, try_resolved_bridge);
    /* a list behind the last device is not read; one that is missing is */
    memset(&lists[2], 0xff, sizeof cells);
    list_count = 3;
    try_resolved_bridge(at, &k);
    list_count = 2;
    try_resolved_bridge(at, &k);
    k.refusal = MIVTOLGYA_REFUSED_MISSING_CELL;
    list_count = 1;
    try_resolved_bridge(at, &k);
    list_count = 2;
    lists[1].places[23] = 16;
    try_resolved_bridge(at, &k);
    k.refusal = MIVTOLGYA_REFUSED_PATTERN;
    lists[1].values = 17;
    try_resolved_bridge(at, &k);
    k.refusal = MIVTOLGYA_REFUSED_NODE;
    lists[1].rows = 3;
    try_resolved_bridge(at, &k);
}

int main(void) {
    for (int i = 0; i < 2; i++) {
        end at = i == 0 ? FIRST : LAST;
        try_keys(at);
        try_layouts(at);
        try_evaluations(at);
        try_commits(at);
        try_loads(at);
        try_resolves(at);
        try_resolved_loads(at);
        try_bridges(at);
        try_resolved_bridges(at);
    }
    printf("%d calls between guard pages, %d failed\n", calls, failures);
    return failures == 0 ? 0 : 1;
}
