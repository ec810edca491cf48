/* Drives a library for tools/trial: evaluations, loads and loads by cells at 64 seeded points.
 *   calls CASE WHAT COUNT [PASSES]
 * CASE 0 direct current, 1 transient without capacitance, 2 with all five. WHAT e, l or r. COUNT 0 prints a checksum of every answer and
 * record instead; with PASSES it prints the best nanoseconds of a call. Count instructions by callgrind at two COUNTs. */
#include <mivtolgya.h>
#include <stdio.h>
#include <stdlib.h>
#include <string.h>
#include <time.h>

enum { POINTS = 64, ROWS = 4, CELLS = 16 };
static const char *const card_keys[] = {"vto", "kp", "lambda", "gamma", "tox", "cgso", "cgdo", "cgbo", "cj", "cjsw"};
static const double card_values[] = {0.7, 1e-4, 0.02, 0.4, 1e-7, 1e-10, 1e-10, 1e-10, 1e-4, 1e-10};
static const char *const size_keys[] = {"w", "l", "as", "ad", "ps", "pd"};
static const double size_values[] = {1e-5, 1e-6, 1e-10, 1e-10, 4e-5, 4e-5};
static double x[POINTS][ROWS], rhs[ROWS], values[CELLS];
static uint32_t columns[CELLS];
static size_t offsets[ROWS], lengths[ROWS];
static uint64_t sum = 1469598103934665603ull, refusals;

static void add_to_sum(const void *at, size_t count) {
    const unsigned char *bytes = at;
    for (size_t i = 0; i < count; i++) sum = (sum ^ bytes[i]) * 1099511628211ull;
}

static double between(double low, double high) {
    static uint64_t seed = 1;
    seed = seed * 6364136223846793005ull + 1442695040888963407ull;
    return low + (high - low) * (double)(seed >> 11) / (double)(1ull << 53);
}

static size_t lay_out(const char *const *names, size_t count, uint8_t *bytes, size_t *starts, size_t *sizes) {
    size_t end = 0;
    for (size_t i = 0; i < count; i++) {
        starts[i] = end;
        sizes[i] = strlen(names[i]);
        memcpy(bytes + end, names[i], sizes[i]);
        end += sizes[i];
    }
    return end;
}

static mivtolgya_device bound(int which) {
    uint8_t bytes[128];
    size_t starts[16], sizes[16], keys = which == 2 ? 10 : 4;
    mivtolgya_device d;
    memset(&d, 0, sizeof d);
    size_t end = lay_out(card_keys, keys, bytes, starts, sizes);
    d = mivtolgya_from_model_params(d, 0, bytes, end, starts, keys, sizes, keys, card_values, keys, starts, 0).device;
    end = lay_out(size_keys, 6, bytes, starts, sizes);
    d = mivtolgya_set_instance_params(d, bytes, end, starts, 6, sizes, 6, size_values, 6, starts, 0).device;
    d = mivtolgya_setup_model(d, 310.0).device;
    mivtolgya_nodes nodes = {{1, 0}, {1, 1}, {1, 2}, {1, 3}};
    return mivtolgya_setup_instance(d, nodes, ROWS).device;
}

static void prepare(void) {
    for (int i = 0; i < POINTS; i++) {
        x[i][0] = between(0, 5);
        x[i][1] = between(0, 5);
        x[i][2] = between(0, 0.3);
        x[i][3] = between(-0.5, 0);
    }
    for (size_t r = 0; r < ROWS; r++) {
        offsets[r] = ROWS * r;
        lengths[r] = ROWS;
        for (size_t c = 0; c < ROWS; c++) columns[ROWS * r + c] = (uint32_t)c;
    }
}

static void call(char what, mivtolgya_device *d, const mivtolgya_cells *cells, mivtolgya_conditions k, long i) {
    if (what == 'e') {
        mivtolgya_evaluation_reply reply = mivtolgya_eval_in_place(d, x[i % POINTS], ROWS, k);
        refusals |= reply.refusal;
    } else if (what == 'l')
        refusals |= mivtolgya_load_in_place(d, k.transient, 0, rhs, ROWS, values, CELLS, columns, CELLS, offsets, ROWS, lengths, ROWS);
    else
        refusals |= mivtolgya_load_resolved(d, k.transient, 0, cells, rhs, ROWS, values, CELLS);
}

static void checksum(mivtolgya_device *d, const mivtolgya_cells *cells, mivtolgya_conditions k) {
    for (long i = 0; i < 3 * POINTS; i++) {
        mivtolgya_evaluation_reply reply = mivtolgya_eval_in_place(d, x[i % POINTS], ROWS, k);
        add_to_sum(&reply, sizeof reply);
        call(i % 2 ? 'l' : 'r', d, cells, k, i);
        add_to_sum(d, sizeof *d);
        add_to_sum(rhs, sizeof rhs);
        add_to_sum(values, sizeof values);
        if (i % 3 == 0) refusals |= mivtolgya_commit_in_place(d, x[i % POINTS], ROWS);
    }
    printf("%016llx\n", (unsigned long long)sum);
}

static double seconds(void) {
    struct timespec t;
    clock_gettime(CLOCK_MONOTONIC, &t);
    return (double)t.tv_sec + 1e-9 * (double)t.tv_nsec;
}

int main(int count, char **words) {
    if (count < 4) return 2;
    int which = atoi(words[1]);
    long calls = atol(words[3]), passes = count > 4 ? atol(words[4]) : 1;
    prepare();
    mivtolgya_device d = bound(which);
    mivtolgya_conditions k = {310.0, 1e-12, 1, which > 0, {which > 0, which > 0 ? 1e-9 : 0, 0}};
    refusals |= mivtolgya_eval_in_place(&d, x[0], ROWS, k).refusal;
    mivtolgya_resolve_outcome found = mivtolgya_resolve(d, columns, CELLS, offsets, ROWS, lengths, ROWS);
    refusals |= found.refusal;
    double best = 1e9;
    if (calls == 0) checksum(&d, &found.cells, k);
    for (long p = 0; calls > 0 && p < passes; p++) {
        double began = seconds();
        for (long i = 0; i < calls; i++) call(words[2][0], &d, &found.cells, k, i);
        double took = (seconds() - began) / (double)calls;
        if (took < best) best = took;
    }
    if (calls > 0 && passes > 1) printf("%.1f\n", 1e9 * best);
    return refusals != 0;
}
