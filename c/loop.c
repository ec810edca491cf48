/* A loop as a simulator runs it: an NMOS is switched on and pulls its drain down from 5 V. The device's cells are looked up once,
 * after the binding; each iteration evaluates, clears the matrix, loads by the cells, adds the rest of the circuit and solves.
 * C99, and C++17. */
#include <mivtolgya.h>
#include <stdio.h>

/* the circuit's rows, and its matrix: two full rows */
enum { DRAIN, GATE, ROWS };
static const uint32_t columns[] = {DRAIN, GATE, DRAIN, GATE};
static const size_t offsets[] = {0, 2}, lengths[] = {2, 2};

/* 5 V behind 1 kOhm and 10 pF to ground at the drain, the input behind 50 Ohm at the gate; one step of length h from `before` */
static void add_circuit(double *rhs, double *values, double input, double h, double before) {
    const double load = 1e-3, driver = 1.0 / 50, capacitor = 10e-12 / h;
    values[0] += load + capacitor;
    rhs[DRAIN] += load * 5.0 + capacitor * before;
    values[3] += driver;
    rhs[GATE] += driver * input;
}

/* solves for the voltages; answers the larger of their two changes */
static double solve(const double *rhs, const double *a, double *x) {
    const double det = a[0] * a[3] - a[1] * a[2];
    const double drain = (rhs[0] * a[3] - rhs[1] * a[1]) / det, gate = (rhs[1] * a[0] - rhs[0] * a[2]) / det;
    const double d = drain > x[DRAIN] ? drain - x[DRAIN] : x[DRAIN] - drain, g = gate > x[GATE] ? gate - x[GATE] : x[GATE] - gate;
    x[DRAIN] = drain;
    x[GATE] = gate;
    return d > g ? d : g;
}

/* one time step: iterations until the voltages agree, then a commit */
static uint64_t step(mivtolgya_device *device, const mivtolgya_cells *cells, double *x, double input, double h) {
    const mivtolgya_conditions now = {300.15, 1e-12, 1, 1, mivtolgya_euler(h)};
    const double before = x[DRAIN];
    double change = 1.0;
    for (int i = 0; i < 100 && change > 1e-9; i++) {
        double rhs[ROWS] = {0, 0}, values[4] = {0, 0, 0, 0};
        uint64_t refusal = mivtolgya_eval_in_place(device, x, ROWS, now).refusal;
        if (refusal == MIVTOLGYA_ACCEPTED) {
            refusal = mivtolgya_load_resolved(device, 1, 0.0, cells, rhs, ROWS, values, 4);
        }
        if (refusal != MIVTOLGYA_ACCEPTED) {
            return refusal;
        }
        add_circuit(rhs, values, input, h, before);
        change = solve(rhs, values, x);
    }
    return mivtolgya_commit_in_place(device, x, ROWS);
}

/* from the card to the first voltages, whose charges are committed */
static uint64_t set_up(mivtolgya_device *device, const double *x) {
    const mivtolgya_key card[] = {{"vto", 1.0}, {"kp", 1e-4}, {"tox", 1e-7}, {"cgso", 1e-10}, {"cgdo", 1e-10}, {"cj", 1e-4}};
    const mivtolgya_key sizes[] = {{"w", 1e-4}, {"l", 2e-6}, {"ad", 1e-9}};
    const mivtolgya_nodes nodes = {mivtolgya_row(DRAIN), mivtolgya_row(GATE), mivtolgya_ground(), mivtolgya_ground()};
    const mivtolgya_conditions first = {300.15, 1e-12, 0, 1, mivtolgya_no_step()};
    uint64_t refusal = mivtolgya_device_init(device);
    refusal = refusal ? refusal : mivtolgya_read_card(device, MIVTOLGYA_NMOS, card, 6);
    refusal = refusal ? refusal : mivtolgya_read_geometry(device, sizes, 3);
    refusal = refusal ? refusal : mivtolgya_scale(device, 300.15);
    refusal = refusal ? refusal : mivtolgya_bind(device, nodes, ROWS);
    refusal = refusal ? refusal : mivtolgya_eval_in_place(device, x, ROWS, first).refusal;
    return refusal ? refusal : mivtolgya_commit_in_place(device, x, ROWS);
}

int main(void) {
    double x[ROWS] = {5.0, 0.0};
    mivtolgya_device device;
    uint64_t refusal = set_up(&device, x);
    /* once: nothing below binds again or changes the pattern */
    const mivtolgya_resolve_outcome resolved = mivtolgya_resolve(device, columns, 4, offsets, ROWS, lengths, ROWS);
    refusal = refusal ? refusal : resolved.refusal;
    for (int i = 1; i <= 8 && refusal == MIVTOLGYA_ACCEPTED; i++) {
        refusal = step(&device, &resolved.cells, x, 5.0, 1e-9);
        printf("%d ns: drain %.4f V, gate %.4f V\n", i, x[DRAIN], x[GATE]);
    }
    printf("%s\n", mivtolgya_refusal_text(refusal));
    return refusal != MIVTOLGYA_ACCEPTED;
}
