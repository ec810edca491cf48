/* Measures the stack that each call takes: it is run on a stack of its own that was filled with a pattern, and the deepest byte that
 * changed is looked up. What an empty function takes there is subtracted; what is passed or answered on the stack counts. The most
 * over several devices and conditions is printed, a line "BYTES CALL" each. Linux. */
#define _GNU_SOURCE
#include <mivtolgya.h>
#include <stdio.h>
#include <stdlib.h>
#include <ucontext.h>

#define ROOM ((size_t)1 << 18)

static _Alignas(64) uint8_t stack[ROOM];
static ucontext_t here, there;

static size_t used_by(void (*call)(void)) {
    memset(stack, 0xa5, ROOM);
    getcontext(&there);
    there.uc_stack.ss_sp = stack;
    there.uc_stack.ss_size = ROOM;
    there.uc_link = &here;
    makecontext(&there, call, 0);
    swapcontext(&here, &there);
    size_t untouched = 0;
    while (untouched < ROOM && stack[untouched] == 0xa5) {
        untouched++;
    }
    return ROOM - untouched;
}

/* ---- the calls, on what lies outside the stack */

static const mivtolgya_key sizes[] = {{"w", 1e-5}, {"l", 1e-6}, {"as", 1e-10}, {"ad", 1e-10}, {"ps", 4e-5}, {"pd", 4e-5}};
static const mivtolgya_key card[] = {{"gamma", 0.4},  {"lambda", 0.02}, {"tox", 1e-7}, {"cgso", 1e-10}, {"cgdo", 1e-10}, {"cgbo", 1e-10},
                                     {"cj", 1e-4},    {"cjsw", 1e-10},  {"kf", 1e-25}, {"rd", 10.0},    {"rs", 10.0}};
static uint8_t card_bytes[64], size_bytes[64];
static size_t card_end, size_end, card_offsets[16], card_lengths[16], size_offsets[8], size_lengths[8], unknown[1];
static double card_values[16], size_values[8], x[6], rhs[6], values[36];
static uint32_t columns[36];
static size_t offsets[6], lengths[6];
static uint64_t polarity;
static mivtolgya_device device, copy;
static mivtolgya_conditions conditions;
static mivtolgya_nodes nodes;
static mivtolgya_keys_outcome keys_outcome;
static mivtolgya_device_outcome device_outcome;
static mivtolgya_evaluation_outcome evaluation_outcome;
static mivtolgya_evaluation_reply reply;
static mivtolgya_resolve_outcome resolve_outcome;
static mivtolgya_count_outcome count_outcome;
static mivtolgya_layout_outcome layout_outcome;
static uint32_t laid_columns[MIVTOLGYA_LAYOUT_COLUMNS];
static size_t laid_offsets[6], laid_lengths[6];
static mivtolgya_noise_outcome noise_outcome;
static mivtolgya_reactances_outcome reactances_outcome;
static mivtolgya_device bank[3];
/* the second is empty and lies inside the first: row 14 is then asked to its end */
static const size_t starts[] = {2, 3}, counts[] = {6, 0};
static double shared[8];
static uint64_t refusal;

static void nothing(void) { refusal = 0; }

static void read_card(void) {
    keys_outcome = mivtolgya_from_model_params(copy, polarity, card_bytes, card_end, card_offsets, 11, card_lengths, 11, card_values, 11, unknown, 0);
    refusal = keys_outcome.refusal;
}

static void set_geometry(void) {
    keys_outcome = mivtolgya_set_instance_params(copy, size_bytes, size_end, size_offsets, 6, size_lengths, 6, size_values, 6, unknown, 0);
    refusal = keys_outcome.refusal;
}

static void scale(void) { refusal = (device_outcome = mivtolgya_setup_model(copy, conditions.temperature)).refusal; }
static void bind_nodes(void) { refusal = (device_outcome = mivtolgya_setup_instance(copy, nodes, 4)).refusal; }
static void extra_nodes(void) { refusal = (count_outcome = mivtolgya_extra_nodes(copy)).refusal; }
static void eval_in_place(void) { refusal = (reply = mivtolgya_eval_in_place(&copy, x, 6, conditions)).refusal; }
static void eval_by_value(void) { refusal = (evaluation_outcome = mivtolgya_eval(copy, x, 6, conditions)).refusal; }
static void commit_in_place(void) { refusal = mivtolgya_commit_in_place(&copy, x, 6); }
static void commit_by_value(void) { refusal = (device_outcome = mivtolgya_commit_timestep(copy, x, 6)).refusal; }
static void noise(void) { refusal = (noise_outcome = mivtolgya_noise_sources(copy, 300.0, 1e3)).refusal; }
static void reactances(void) { refusal = (reactances_outcome = mivtolgya_small_signal_reactances(copy)).refusal; }

static void matrix_layout(void) {
    layout_outcome = mivtolgya_matrix_layout(copy, laid_columns, MIVTOLGYA_LAYOUT_COLUMNS, laid_offsets, 6, laid_lengths, 6);
    refusal = layout_outcome.refusal;
}

static void load_in_place(void) {
    refusal = mivtolgya_load_in_place(&copy, conditions.transient, 1e9, rhs, 6, values, 36, columns, 36, offsets, 6, lengths, 6);
}

static void load_by_value(void) {
    refusal = mivtolgya_load(copy, conditions.transient, 1e9, rhs, 6, values, 36, columns, 36, offsets, 6, lengths, 6);
}

static void resolve(void) { refusal = (resolve_outcome = mivtolgya_resolve(copy, columns, 36, offsets, 6, lengths, 6)).refusal; }

static void load_resolved(void) {
    refusal = mivtolgya_load_resolved(&copy, conditions.transient, 1e9, &resolve_outcome.cells, rhs, 6, values, 36);
}

static void load_block(void) {
    refusal = mivtolgya_load_block(bank, 3, 0, starts, 2, counts, 2, conditions.transient, 1e9, shared, 8, values, 36, columns, 36, offsets,
                                   6, lengths, 6);
}

static void load_bridge(void) {
    refusal = mivtolgya_load_bridge(bank, 3, starts, 2, counts, 2, conditions.transient, 1e9, shared, 8, values, 36, columns, 36, offsets,
                                    6, lengths, 6);
}

static mivtolgya_cells lists[3];

static void load_bridge_resolved(void) {
    refusal = mivtolgya_load_bridge_resolved(bank, 3, starts, 2, counts, 2, conditions.transient, 1e9, lists, 3, shared, 8, values, 36);
}

/* a stage's calls, and what each took at most */
typedef struct {
    const char *name;
    void (*call)(void);
    uint64_t before, after; /* the stages of a device that it is tried on */
    size_t most;
} measured;

static measured all[] = {
    {"card", read_card, MIVTOLGYA_STAGE_CARD, MIVTOLGYA_STAGE_CARD, 0},
    {"geometry", set_geometry, MIVTOLGYA_STAGE_CARD, MIVTOLGYA_STAGE_SCALED, 0},
    {"scaling", scale, MIVTOLGYA_STAGE_GEOMETRY, MIVTOLGYA_STAGE_EVALUATED, 0},
    {"extra nodes", extra_nodes, MIVTOLGYA_STAGE_GEOMETRY, MIVTOLGYA_STAGE_EVALUATED, 0},
    {"binding", bind_nodes, MIVTOLGYA_STAGE_SCALED, MIVTOLGYA_STAGE_BOUND, 0},
    {"layout", matrix_layout, MIVTOLGYA_STAGE_BOUND, MIVTOLGYA_STAGE_EVALUATED, 0},
    {"evaluation in place", eval_in_place, MIVTOLGYA_STAGE_BOUND, MIVTOLGYA_STAGE_EVALUATED, 0},
    {"evaluation by value", eval_by_value, MIVTOLGYA_STAGE_BOUND, MIVTOLGYA_STAGE_EVALUATED, 0},
    {"load in place", load_in_place, MIVTOLGYA_STAGE_EVALUATED, MIVTOLGYA_STAGE_EVALUATED, 0},
    {"load by value", load_by_value, MIVTOLGYA_STAGE_EVALUATED, MIVTOLGYA_STAGE_EVALUATED, 0},
    {"resolving", resolve, MIVTOLGYA_STAGE_BOUND, MIVTOLGYA_STAGE_EVALUATED, 0},
    {"resolved load", load_resolved, MIVTOLGYA_STAGE_EVALUATED, MIVTOLGYA_STAGE_EVALUATED, 0},
    {"block load", load_block, MIVTOLGYA_STAGE_EVALUATED, MIVTOLGYA_STAGE_EVALUATED, 0},
    {"bridge load", load_bridge, MIVTOLGYA_STAGE_EVALUATED, MIVTOLGYA_STAGE_EVALUATED, 0},
    {"resolved bridge load", load_bridge_resolved, MIVTOLGYA_STAGE_EVALUATED, MIVTOLGYA_STAGE_EVALUATED, 0},
    {"commit in place", commit_in_place, MIVTOLGYA_STAGE_EVALUATED, MIVTOLGYA_STAGE_EVALUATED, 0},
    {"commit by value", commit_by_value, MIVTOLGYA_STAGE_EVALUATED, MIVTOLGYA_STAGE_EVALUATED, 0},
    {"noise", noise, MIVTOLGYA_STAGE_EVALUATED, MIVTOLGYA_STAGE_EVALUATED, 0},
    {"reactances", reactances, MIVTOLGYA_STAGE_EVALUATED, MIVTOLGYA_STAGE_EVALUATED, 0},
};

static void measure(size_t base) {
    for (size_t i = 0; i < sizeof all / sizeof *all; i++) {
        if (device.stage < all[i].before || device.stage > all[i].after) {
            continue;
        }
        copy = device;
        bank[0] = bank[1] = bank[2] = device;
        lists[0] = lists[1] = lists[2] = resolve_outcome.cells;
        size_t used = used_by(all[i].call) - base;
        if (refusal != MIVTOLGYA_ACCEPTED) {
            printf("%s was refused: %s\n", all[i].name, mivtolgya_refusal_text(refusal));
            exit(1);
        }
        all[i].most = used > all[i].most ? used : all[i].most;
    }
}

static void must(uint64_t number) {
    if (number != MIVTOLGYA_ACCEPTED) {
        printf("%s\n", mivtolgya_refusal_text(number));
        exit(1);
    }
}

/* through all stages, with each method, at voltages of every region, forward and reverse */
static void run(size_t base) {
    const mivtolgya_method methods[] = {mivtolgya_no_step(), mivtolgya_euler(1e-9), mivtolgya_trapezoid(1e-9), mivtolgya_gear(1e-9, 2e-9)};
    const double points[][6] = {{0, 0, 0, 0, 0, 0}, {1, 3, 0, 0, 1, 0}, {5, 2, 0, -1, 5, 0}, {-3, 4, 0.5, 0.6, -3, 0.5}, {-5, -2, 0, 1, -5, 0}};
    must(mivtolgya_device_init(&device));
    must(mivtolgya_read_card(&device, polarity, card, 11));
    measure(base);
    must(mivtolgya_read_geometry(&device, sizes, 6));
    measure(base);
    must(mivtolgya_scale(&device, 310.0));
    measure(base);
    must(mivtolgya_bind(&device, nodes, 4));
    for (size_t i = 0; i < 40; i++) {
        const mivtolgya_conditions now = {310.0, 1e-12, i & 1, i / 2 % 4 != 0, methods[i / 2 % 4]};
        conditions = now;
        memcpy(x, points[i / 8], sizeof x);
        measure(base);
        must(mivtolgya_eval_in_place(&device, x, 6, conditions).refusal);
        measure(base);
        must(mivtolgya_commit_in_place(&device, x, 6));
    }
}

int main(void) {
    must(mivtolgya_lay_out(card, 11, card_bytes, sizeof card_bytes, card_offsets, card_lengths, card_values, 16, &card_end));
    must(mivtolgya_lay_out(sizes, 6, size_bytes, sizeof size_bytes, size_offsets, size_lengths, size_values, 8, &size_end));
    for (uint32_t i = 0; i < 36; i++) {
        columns[i] = i % 6;
        offsets[i / 6] = i / 6 * 6;
        lengths[i / 6] = 6;
    }
    const mivtolgya_nodes bound = {mivtolgya_row(0), mivtolgya_row(1), mivtolgya_row(2), mivtolgya_row(3)};
    nodes = bound;
    conditions.temperature = 310.0;
    size_t base = used_by(nothing);
    for (polarity = MIVTOLGYA_NMOS; polarity <= MIVTOLGYA_PMOS; polarity++) {
        run(base);
    }
    for (size_t i = 0; i < sizeof all / sizeof *all; i++) {
        printf("%zu %s\n", all[i].most, all[i].name);
    }
    return 0;
}
