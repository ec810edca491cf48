/* A half bridge between the rails of a 48 V supply: a high side and a low side of two power MOSFETs in parallel each, and a clamp at the
 * output. Each block is tested alone first, on its own run of rows of the shared right-hand side and on a matrix of its own; then the
 * whole bridge is loaded, where the blocks share nodes. C99, and C++17. Links both archives. */
#include <mivtolgya.h>
#include <stdio.h>
#include <stdlib.h>

/* the blocks, how many transistors each has, and their runs: drain, gate, source, and an inner drain for each transistor */
enum { HIGH, LOW, CLAMP, BLOCKS };
static const char *const names[BLOCKS] = {"high side", "low side", "clamp"};
static const size_t transistors[BLOCKS] = {2, 2, 1};
static const size_t starts[BLOCKS] = {0, 5, 10}, counts[BLOCKS] = {5, 5, 4};
enum { SHARED_ROWS = 14 };

/* the bridge has numbers of its own: its nodes, then the five inner drains. Nothing is at ground, so every column sums to zero */
enum { PLUS, MINUS, OUTPUT, HIGH_GATE, LOW_GATE, CLAMP_GATE, INNER, ROWS = 11, DEVICES = 5 };

/* a matrix of full rows */
typedef struct {
    size_t rows, count;
    uint32_t columns[ROWS * ROWS];
    size_t offsets[ROWS], lengths[ROWS];
    double values[ROWS * ROWS];
} matrix;

static matrix full(size_t rows) {
    matrix m;
    memset(&m, 0, sizeof m);
    m.rows = rows;
    m.count = rows * rows;
    for (size_t i = 0; i < m.count; i++) {
        m.columns[i] = (uint32_t)(i % rows);
        m.offsets[i / rows] = i / rows * rows;
        m.lengths[i / rows] = rows;
    }
    return m;
}

/* the columns' sums; they are added up with rounding here, so what is below 1e-12 S counts as 0 */
static void print_sums(const matrix *m) {
    double largest = 0.0;
    for (size_t column = 0; column < m->rows; column++) {
        double sum = 0.0;
        for (size_t row = 0; row < m->rows; row++) {
            sum += m->values[row * m->rows + column];
        }
        sum = sum < 0.0 ? -sum : sum;
        largest = sum > largest ? sum : largest;
    }
    if (largest < 1e-12) {
        printf("every column sums to 0\n");
    } else {
        printf("a column sums to %g S\n", largest);
    }
}

static void must(uint64_t refusal) {
    if (refusal != MIVTOLGYA_ACCEPTED) {
        printf("refused: %s\n", mivtolgya_refusal_text(refusal));
        exit(1);
    }
}

/* a transistor of a block, its bulk at its source and its inner drain in the row `inner`; evaluated at the voltages, in a step of 10 ns.
 * Answers its current */
static double transistor(mivtolgya_device *device, int block, size_t drain, size_t gate, size_t source, size_t inner, const double *volts,
                         size_t rows) {
    const mivtolgya_key power[] = {{"vto", 3.5},     {"kp", 20.0},   {"lambda", 0.002}, {"rd", 0.02}, {"is", 1e-12},
                                   {"cgso", 1.5e-5}, {"cgdo", 1e-6}, {"cj", 1e-3},      {"mj", 0.4}};
    const mivtolgya_key small[] = {{"vto", 2.0}, {"kp", 0.5}, {"rd", 0.5}, {"cgso", 1e-6}, {"cgdo", 1e-7}, {"cj", 1e-3}};
    const mivtolgya_key sizes[] = {{"w", 1e-4}, {"l", 1e-4}, {"ad", 1e-6}};
    const mivtolgya_nodes nodes = {mivtolgya_row(drain), mivtolgya_row(gate), mivtolgya_row(source), mivtolgya_row(source)};
    const mivtolgya_conditions at = {330.0, 1e-12, 0, 1, mivtolgya_euler(1e-8)};
    must(mivtolgya_device_init(device));
    must(block == CLAMP ? mivtolgya_read_card(device, MIVTOLGYA_NMOS, small, 6) : mivtolgya_read_card(device, MIVTOLGYA_NMOS, power, 9));
    must(mivtolgya_read_geometry(device, sizes, 3));
    must(mivtolgya_scale(device, 330.0));
    must(mivtolgya_bind(device, nodes, inner));
    const mivtolgya_evaluation_reply reply = mivtolgya_eval_in_place(device, volts, rows, at);
    must(reply.refusal);
    return reply.answer.ids;
}

/* a block alone: nodes and columns count from the start of its run, and no row of another block changes */
static void test_block(int block, const double *volts) {
    mivtolgya_device bank[2];
    double rhs[SHARED_ROWS] = {0};
    matrix m = full(counts[block]);
    printf("%s alone:", names[block]);
    for (size_t i = 0; i < transistors[block]; i++) {
        printf(" %.4f A", transistor(&bank[i], block, 0, 1, 2, 3 + i, volts, counts[block]));
    }
    must(mivtolgya_load_block(bank, transistors[block], (size_t)block, starts, BLOCKS, counts, BLOCKS, 1, 0.0, rhs, SHARED_ROWS, m.values,
                              m.count, m.columns, m.count, m.offsets, m.rows, m.lengths, m.rows));
    printf("; right-hand side in rows");
    for (size_t row = 0; row < SHARED_ROWS; row++) {
        if (rhs[row] > 0.0 || rhs[row] < 0.0) {
            printf(" %zu", row);
        }
    }
    printf("; ");
    print_sums(&m);
}

/* the same by the cells of each device, which a loop looks up once: both slices are the same, bit for bit */
static void load_by_cells(const mivtolgya_device *bank, const matrix *m, const double *rhs) {
    mivtolgya_cells cells[DEVICES];
    double side[SHARED_ROWS], values[ROWS * ROWS];
    for (size_t i = 0; i < DEVICES; i++) {
        const mivtolgya_resolve_outcome found = mivtolgya_resolve(bank[i], m->columns, m->count, m->offsets, m->rows, m->lengths, m->rows);
        must(found.refusal);
        cells[i] = found.cells;
    }
    must(mivtolgya_load_bridge_resolved(bank, DEVICES, starts, BLOCKS, counts, BLOCKS, 1, 0.0, cells, DEVICES, side, SHARED_ROWS, values,
                                        m->count));
    if (memcmp(side, rhs, sizeof side) != 0 || memcmp(values, m->values, sizeof values) != 0) {
        printf("the load by cells differs\n");
    }
}

static void say(uint64_t refusal) {
    printf("%u: %s\n", (unsigned)refusal, mivtolgya_refusal_text(refusal));
}

/* the load of the whole bridge, with so many of the blocks' runs and rows of the right-hand side */
static uint64_t load(const mivtolgya_device *bank, const size_t *first_rows, size_t runs, double *rhs, size_t rows, matrix *m) {
    return mivtolgya_load_bridge(bank, DEVICES, first_rows, runs, counts, runs, 1, 0.0, rhs, rows, m->values, m->count, m->columns,
                                 m->count, m->offsets, m->rows, m->lengths, m->rows);
}

/* what is refused, by name; nothing is then written */
static void refusals(const mivtolgya_device *bank, double *rhs, matrix *m) {
    const size_t overlapping[BLOCKS] = {0, 4, 10}, leaving[BLOCKS] = {0, 5, 11};
    say(load(bank, overlapping, BLOCKS, rhs, SHARED_ROWS, m));
    say(load(bank, leaving, BLOCKS, rhs, SHARED_ROWS, m));
    /* the last inner drain has no row */
    say(load(bank, starts, 2, rhs, ROWS - 1, m));
}

int main(void) {
    /* drain, gate, source, inner drains */
    const double high[] = {48.0, 58.0, 47.6, 47.7, 47.7}, low[] = {0.5, 10.0, 0.0, 0.2, 0.2}, clamp[] = {60.0, 5.0, 0.0, 58.0};
    /* the high side conducts, the low side and the clamp do not */
    const double volts[ROWS] = {48.0, 0.0, 47.6, 58.0, 0.0, 0.0, 47.7, 47.7, 47.6, 47.6, 47.6};
    mivtolgya_device bank[DEVICES];
    double rhs[SHARED_ROWS] = {0};
    matrix m = full(ROWS);

    test_block(HIGH, high);
    test_block(LOW, low);
    test_block(CLAMP, clamp);

    printf("bridge:");
    for (size_t i = 0; i < DEVICES; i++) {
        const int block = i < 2 ? HIGH : i < 4 ? LOW : CLAMP;
        const size_t gates[BLOCKS] = {HIGH_GATE, LOW_GATE, CLAMP_GATE};
        const size_t drain = block == HIGH ? PLUS : OUTPUT, source = block == HIGH ? OUTPUT : MINUS;
        printf(" %.4f A", transistor(&bank[i], block, drain, gates[block], source, INNER + i, volts, ROWS));
    }
    /* what the slices held before does not matter */
    rhs[OUTPUT] = 1e9;
    m.values[0] = 1e9;
    must(load(bank, starts, BLOCKS, rhs, SHARED_ROWS, &m));
    printf("; ");
    print_sums(&m);
    printf("output: %.4f A; %.4f S with itself, %.4f S with the first inner drain\n", rhs[OUTPUT], m.values[OUTPUT * ROWS + OUTPUT],
           m.values[OUTPUT * ROWS + INNER]);
    load_by_cells(bank, &m, rhs);
    refusals(bank, rhs, &m);
    return 0;
}
