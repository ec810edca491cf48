/* From a card to a load and a commit: an NMOS with its source and bulk at ground, in a matrix of two rows that the device lays out.
 * C99, and C++17. A loop stands in loop.c. */
#include <mivtolgya.h>
#include <stdio.h>

static void print_refusal(const char *what, uint64_t refusal) {
    printf("%s: %u, %s\n", what, (unsigned)refusal, mivtolgya_refusal_text(refusal));
}

static void print_system(const double *rhs, const double *values) {
    printf("rhs %a %a\n", rhs[0], rhs[1]);
    printf("matrix %a %a %a %a\n", values[0], values[1], values[2], values[3]);
}

/* a card with a key that the library does not know: its place is listed */
static void read_card(mivtolgya_device *device) {
    const mivtolgya_key card[] = {{"vto", 1.0}, {"kp", 2.0}, {"gamma", 0.5}, {"cgso", 1e-9}, {"CJ", 2e-4}, {"shiny", 7.0}};
    uint8_t bytes[64];
    size_t offsets[6], lengths[6], unknown[4], end = 0;
    double values[6];
    print_refusal("keys", mivtolgya_lay_out(card, 6, bytes, sizeof bytes, offsets, lengths, values, 6, &end));
    mivtolgya_keys_outcome keys =
        mivtolgya_from_model_params(*device, MIVTOLGYA_NMOS, bytes, end, offsets, 6, lengths, 6, values, 6, unknown, 4);
    *device = keys.device;
    print_refusal("card", keys.refusal);
    printf("unknown: %zu, at %zu\n", keys.unknown, unknown[0]);
}

static void bind_terminals(mivtolgya_device *device) {
    mivtolgya_nodes nodes = {mivtolgya_row(0), {2, 0}, mivtolgya_ground(), mivtolgya_ground()};
    print_refusal("binding with tag 2", mivtolgya_bind(device, nodes, 2));
    nodes.gate = mivtolgya_row(1);
    printf("extra nodes: %zu\n", mivtolgya_extra_nodes(*device).count);
    print_refusal("binding", mivtolgya_bind(device, nodes, 2));
}

/* the matrix, of which the device says what it needs */
static uint32_t columns[MIVTOLGYA_LAYOUT_COLUMNS];
static size_t offsets[2], lengths[2], count;

/* first without room for the rows, which writes nothing: so a builder learns how many to reserve */
static void reserve_matrix(const mivtolgya_device *device) {
    mivtolgya_layout_outcome needed = mivtolgya_matrix_layout(*device, columns, MIVTOLGYA_LAYOUT_COLUMNS, offsets, 0, lengths, 0);
    printf("layout needs %zu columns and %zu rows\n", needed.columns, needed.rows);
    needed = mivtolgya_matrix_layout(*device, columns, MIVTOLGYA_LAYOUT_COLUMNS, offsets, 2, lengths, 2);
    print_refusal("layout", needed.refusal);
    count = needed.columns;
    for (size_t i = 0; i < needed.rows; i++) {
        printf("row %zu: %zu columns from %zu on\n", i, lengths[i], offsets[i]);
    }
}

static void evaluate(mivtolgya_device *device, const double *x) {
    const mivtolgya_conditions conditions = {300.15, 1e-12, 0, 1, mivtolgya_euler(1e-9)};
    mivtolgya_evaluation_outcome by_value = mivtolgya_eval(*device, x, 2, conditions);
    mivtolgya_evaluation_reply reply = mivtolgya_eval_in_place(device, x, 2, conditions);
    print_refusal("evaluation", reply.refusal);
    printf("ids %a gm %a gds %a gmbs %a\n", reply.answer.ids, reply.answer.gm, reply.answer.gds, reply.answer.gmbs);
    printf("by value the same record: %d\n", memcmp(&by_value.device, device, sizeof *device) == 0);
}

static void load(const mivtolgya_device *device) {
    double rhs[2] = {0, 0}, values[MIVTOLGYA_LAYOUT_COLUMNS] = {0};
    const uint32_t holed[] = {0, 0, 1};
    const size_t holed_offsets[] = {0, 1}, holed_lengths[] = {1, 2};
    print_refusal("load without a cell",
                  mivtolgya_load(*device, 1, 0.0, rhs, 2, values, 3, holed, 3, holed_offsets, 2, holed_lengths, 2));
    print_system(rhs, values);
    print_refusal("load", mivtolgya_load_in_place(device, 1, 0.0, rhs, 2, values, count, columns, count, offsets, 2, lengths, 2));
    print_system(rhs, values);
}

/* the same load by cells that are looked up once; with another count of values than they were looked up for, and with its own */
static void load_resolved(const mivtolgya_device *device) {
    double rhs[2] = {0, 0}, values[MIVTOLGYA_LAYOUT_COLUMNS] = {0};
    const mivtolgya_resolve_outcome found = mivtolgya_resolve(*device, columns, count, offsets, 2, lengths, 2);
    print_refusal("cells", found.refusal);
    printf("drain with gate at %zu, gate with gate at %zu\n", found.cells.places[0], found.cells.gate_places[0]);
    print_refusal("load of three values", mivtolgya_load_resolved(device, 1, 0.0, &found.cells, rhs, 2, values, count - 1));
    print_refusal("load by cells", mivtolgya_load_resolved(device, 1, 0.0, &found.cells, rhs, 2, values, count));
    print_system(rhs, values);
}

int main(void) {
    mivtolgya_device device;
    uint64_t unfit = mivtolgya_device_init(&device);
    if (unfit != MIVTOLGYA_ACCEPTED) {
        print_refusal("this program cannot go on", unfit);
        return 1;
    }
    print_refusal("scaling nothing", mivtolgya_scale(&device, 300.15));
    read_card(&device);
    printf("extra nodes so far: %zu\n", mivtolgya_num_extra_nodes(device).count);
    print_refusal("extra nodes before the geometry", mivtolgya_extra_nodes(device).refusal);
    const mivtolgya_key sizes[] = {{"w", 1e-4}, {"l", 1e-4}, {"as", 1e-8}};
    print_refusal("geometry", mivtolgya_read_geometry(&device, sizes, 3));
    print_refusal("scaling at 199 K", mivtolgya_scale(&device, 199.0));
    print_refusal("scaling at 300.15 K", mivtolgya_scale(&device, 300.15));
    bind_terminals(&device);
    reserve_matrix(&device);

    const double x[] = {1.0, 3.0};
    evaluate(&device, x);
    load(&device);
    load_resolved(&device);
    print_refusal("commit", mivtolgya_commit_in_place(&device, x, 2));
    printf("gate-source charge %a\n", device.histories.gs_hist.q_prev);
    mivtolgya_noise_outcome noise = mivtolgya_noise_sources(device, 300.15, 1e3);
    print_refusal("noise", noise.refusal);
    printf("density %a\n", noise.density);
    mivtolgya_reactances_outcome reactances = mivtolgya_small_signal_reactances(device);
    print_refusal("reactances", reactances.refusal);
    printf("gate-source capacitance %a\n", reactances.gs.capacitance);
    return 0;
}
