/* The SPICE Level-1 MOSFET model: its calls for C and C++ on x86-64 Linux. Link libmivtolgya.a (`tools/archives.sh mivtolgya` writes it
 * to target/staticlib/), and beside it, in any order, libmivtolgya_bridge.a (`tools/archives.sh mivtolgya_bridge`) where a call on several
 * devices is made: mivtolgya_load_block, mivtolgya_load_bridge, mivtolgya_load_bridge_resolved. docs/USING.md has the order of the
 * calls, the table of refusals, the keys with their ranges, and memory.
 *
 * A device is a record in the caller's memory. Every call answers the number of the refusal: MIVTOLGYA_ACCEPTED, or one of
 * MIVTOLGYA_REFUSED_.. below. Evaluation, load and commit stand over the record where it lies (`_in_place`): only what changes is
 * written, nothing is copied, and after a refusal nothing was written. mivtolgya_load_resolved takes the place of the load where the
 * matrix is large: its cells are looked up once, by mivtolgya_resolve. The other calls take the record by value, and one that changes
 * it answers the record that is to take its place, after a refusal the one handed in; nothing lent was then written. mivtolgya_eval,
 * mivtolgya_load and mivtolgya_commit_timestep, inline at the end of this file, are evaluation, load and commit on a copy.
 *
 * Rules of every pointer. A lent slice is a pointer and the count of its elements. The pointer is not null, also where the count is
 * 0, and aligned for its element: 8 bytes for double and size_t, 4 for uint32_t. A slice that is only read (const) may overlap other
 * slices that are only read. A slice that is written overlaps nothing else that is lent, the record included. No pointer is kept
 * after the call. Nothing checks these rules: a call that breaks one has no defined answer.
 *
 * Every field of a record has eight bytes, so records have no padding: they can be copied and compared byte by byte. */
#ifndef MIVTOLGYA_H
#define MIVTOLGYA_H

#include <stddef.h>
#include <stdint.h>
#include <string.h>

#if !defined(__x86_64__) || !defined(__linux__)
#error "libmivtolgya.a is an archive for x86-64 Linux"
#endif

#ifdef __cplusplus
#define MIVTOLGYA_ASSERT(name, test) static_assert(test, #name)
extern "C" {
#elif defined(__STDC_VERSION__) && __STDC_VERSION__ >= 201112L
#define MIVTOLGYA_ASSERT(name, test) _Static_assert(test, #name)
#else
#define MIVTOLGYA_ASSERT(name, test) typedef char mivtolgya_assert_##name[(test) ? 1 : -1]
#endif

/* The interface's number. It rises when a record, the parameters of a call or the meaning of a number changes. */
#define MIVTOLGYA_VERSION UINT64_C(1)

/* ---- refusals. The causes, and what to do, are in the table of docs/USING.md */
#define MIVTOLGYA_ACCEPTED UINT64_C(0)
#define MIVTOLGYA_REFUSED_KEY_PAIRS UINT64_C(1)     /* keys overlap or go past the bytes, or the counts differ */
#define MIVTOLGYA_REFUSED_KEY_BYTE UINT64_C(2)      /* a byte of a key is not ASCII */
#define MIVTOLGYA_REFUSED_UNKNOWN_KEYS UINT64_C(3)  /* more unknown keys than the lent list has room for */
#define MIVTOLGYA_REFUSED_KEY_VALUE UINT64_C(4)     /* a key's value is NaN or out of its range */
#define MIVTOLGYA_REFUSED_OXIDE UINT64_C(5)         /* flicker noise (kf) without an oxide capacitance */
#define MIVTOLGYA_REFUSED_TEMPERATURE UINT64_C(6)   /* a temperature, tnom or gmin is NaN or out of range */
#define MIVTOLGYA_REFUSED_POTENTIAL UINT64_C(7)     /* phi or pb would fall below 0.05 V at this temperature */
#define MIVTOLGYA_REFUSED_NODE UINT64_C(8)          /* a node lies behind the end of what is lent, or above 2^32 - 1 */
#define MIVTOLGYA_REFUSED_VOLTAGE UINT64_C(9)       /* a voltage is not finite or beyond 1000 V */
#define MIVTOLGYA_REFUSED_STAGE UINT64_C(10)        /* the call comes too early or too late */
#define MIVTOLGYA_REFUSED_STEP UINT64_C(11)         /* a step, or alpha where there is no step, is out of range */
#define MIVTOLGYA_REFUSED_PATTERN UINT64_C(12)      /* the matrix is not laid out as it must be, or not as it was resolved */
#define MIVTOLGYA_REFUSED_MISSING_CELL UINT64_C(13) /* the matrix has no place for a value, or the cells are another binding's */
#define MIVTOLGYA_REFUSED_RUN UINT64_C(14)          /* runs overlap or leave the right-hand side, a block has no run, or too many devices */
#define MIVTOLGYA_REFUSED_TAG UINT64_C(100)         /* an unknown tag, or memory that is no device */

/* ---- what the inline checks below answer besides; the library itself never does */
#define MIVTOLGYA_OTHER_VERSION UINT64_C(201)      /* the archive has another interface than this header */
#define MIVTOLGYA_OTHER_RECORD UINT64_C(202)       /* the archive's device has another size than this header's */
#define MIVTOLGYA_NO_ROOM UINT64_C(203)            /* more keys or bytes than an inline helper has room for */
#define MIVTOLGYA_OTHER_ROUNDING UINT64_C(204)     /* the rounding mode is not "to nearest, ties to even" */
#define MIVTOLGYA_SUBNORMALS_LOST UINT64_C(205)    /* flush-to-zero or denormals-are-zero is on */
#define MIVTOLGYA_EXCEPTIONS_TRAPPED UINT64_C(206) /* a floating-point exception would raise a signal */

/* ---- choices */
#define MIVTOLGYA_NMOS UINT64_C(0)
#define MIVTOLGYA_PMOS UINT64_C(1)

#define MIVTOLGYA_NODE_GROUND UINT64_C(0)
#define MIVTOLGYA_NODE_ROW UINT64_C(1)

#define MIVTOLGYA_ABSENT UINT64_C(0)
#define MIVTOLGYA_PRESENT UINT64_C(1)

#define MIVTOLGYA_METHOD_NONE UINT64_C(0)
#define MIVTOLGYA_METHOD_EULER UINT64_C(1)
#define MIVTOLGYA_METHOD_TRAPEZOID UINT64_C(2)
#define MIVTOLGYA_METHOD_GEAR UINT64_C(3)

/* in place of a number of mivtolgya_cells: the node, or an end of the cell, is ground; the pattern has no such cell */
#define MIVTOLGYA_CELL_GROUND SIZE_MAX
#define MIVTOLGYA_CELL_ABSENT (SIZE_MAX - 1)

/* How many columns mivtolgya_matrix_layout needs at most; without series resistances it needs at most 16. Lend it so many, and only the
 * room for the rows depends on the nodes. */
#define MIVTOLGYA_LAYOUT_COLUMNS 22

/* how many devices a block or a bridge has at most */
#define MIVTOLGYA_MOST_DEVICES 64

#define MIVTOLGYA_STAGE_CARD UINT64_C(1)
#define MIVTOLGYA_STAGE_GEOMETRY UINT64_C(2)
#define MIVTOLGYA_STAGE_SCALED UINT64_C(3)
#define MIVTOLGYA_STAGE_BOUND UINT64_C(4)
#define MIVTOLGYA_STAGE_EVALUATED UINT64_C(5)

/* ---- records */

/* A node: MIVTOLGYA_NODE_GROUND, or MIVTOLGYA_NODE_ROW and the row that `index` names, from 0 on. */
typedef struct {
    uint64_t tag;
    size_t index;
} mivtolgya_node;

/* A number that may be absent: MIVTOLGYA_ABSENT, or MIVTOLGYA_PRESENT and `value`. */
typedef struct {
    uint64_t tag;
    double value;
} mivtolgya_given;

/* An integration method, its tag a MIVTOLGYA_METHOD_..: none; Euler or trapezoid with the step h; Gear with h and the earlier step. */
typedef struct {
    uint64_t tag;
    double h;
    double h_prev;
} mivtolgya_method;

/* What the card says; tnom in kelvin. */
typedef struct {
    double vto;
    double kp;
    double lambda;
    double gamma;
    double phi;
    mivtolgya_given rd_card;
    mivtolgya_given rs_card;
    double rsh;
    double is_bulk;
    double js;
    double kf;
    double af;
    double tnom;
    double polarity;
    double cgso;
    double cgdo;
    double cgbo;
    double cox;
    double cj;
    double cjsw;
    double pb;
    double mj;
    double mjsw;
    double fc;
} mivtolgya_card;

/* The instance's geometry. */
typedef struct {
    double rd;
    double rs;
    double nrd;
    double nrs;
    double isat_bs;
    double isat_bd;
    double w;
    double l;
    double w_over_l;
    double as_;
    double ad;
    double ps;
    double pd;
    double cgs_ov;
    double cgd_ov;
    double cgb_ov;
    double cox_wl;
    double cbs_bot;
    double cbs_sw;
    double cbd_bot;
    double cbd_sw;
} mivtolgya_geometry;

/* The parameters at the scaling's temperature. */
typedef struct {
    double isat_t_factor;
    double pb_t;
    double cj_t_factor;
    double cjsw_t_factor;
    double vto_t;
    double kp_t;
    double phi_t;
} mivtolgya_scaled;

/* The six nodes. */
typedef struct {
    mivtolgya_node drain_ext;
    mivtolgya_node source_ext;
    mivtolgya_node drain;
    mivtolgya_node gate;
    mivtolgya_node source;
    mivtolgya_node bulk;
} mivtolgya_terminals;

/* What the last evaluation left. */
typedef struct {
    double ids_eval;
    double gbs;
    double gbd;
    double ibs_eq;
    double ibd_eq;
    double gm;
    double gds;
    double gmbs;
    double jeq;
    double vgs_eff_prev;
    double vds_eff_prev;
} mivtolgya_point;

/* What the last transient evaluation left. */
typedef struct {
    double cgs_eval;
    double cgd_eval;
    double cgb_eval;
    double q_gs_eval;
    double q_gd_eval;
    double q_gb_eval;
    double vbs_eval;
    double vbd_eval;
    double cbs_eval;
    double cbd_eval;
    double q_bs_eval;
    double q_bd_eval;
} mivtolgya_charges;

/* A charge branch's past. */
typedef struct {
    double q_prev;
    mivtolgya_given q_prev2;
    double i_prev;
} mivtolgya_history;

/* The pasts of the five charge branches: gate-source, gate-drain, gate-bulk, bulk-source, bulk-drain. */
typedef struct {
    mivtolgya_history gs_hist;
    mivtolgya_history gd_hist;
    mivtolgya_history gb_hist;
    mivtolgya_history bs_hist;
    mivtolgya_history bd_hist;
} mivtolgya_histories;

/* The device. `stage` is a MIVTOLGYA_STAGE_..; they count from 1, so memory of zeros is no device and only a card makes one. */
typedef struct {
    mivtolgya_card card;
    mivtolgya_geometry geometry;
    mivtolgya_scaled scaled;
    mivtolgya_terminals terminals;
    mivtolgya_point point;
    mivtolgya_charges charges;
    mivtolgya_histories histories;
    mivtolgya_method method;
    uint64_t stage;
} mivtolgya_device;

/* The device after a call and the number of the refusal. A refused call's device is the one handed in. */
typedef struct {
    uint64_t refusal;
    mivtolgya_device device;
} mivtolgya_device_outcome;

/* The device after a card or geometry call, the count of unknown keys, and the number of the refusal. A refused call's device is the
 * record handed in, its count 0. */
typedef struct {
    uint64_t refusal;
    size_t unknown;
    mivtolgya_device device;
} mivtolgya_keys_outcome;

/* A count, and the number of the refusal. */
typedef struct {
    uint64_t refusal;
    size_t count;
} mivtolgya_count_outcome;

/* The nodes of a binding. */
typedef struct {
    mivtolgya_node drain;
    mivtolgya_node gate;
    mivtolgya_node source;
    mivtolgya_node bulk;
} mivtolgya_nodes;

/* What an evaluation is handed besides the voltages: kelvin, siemens; the limiter and the transient flag, 0 or 1; the method. */
typedef struct {
    double temperature;
    double gmin;
    uint64_t limiter;
    uint64_t transient;
    mivtolgya_method method;
} mivtolgya_conditions;

/* In volts: the gate-source and drain-source voltages that the evaluation kept, times -1 for PMOS, and the threshold in the same
 * sense; the drain current in ampere as it flows, not flipped; in siemens gm, gds with gmin in it, and gmbs. */
typedef struct {
    double vgs;
    double vds;
    double vth;
    double ids;
    double gm;
    double gds;
    double gmbs;
} mivtolgya_answer;

/* The device after an evaluation by value, what it answers, and the number of the refusal. A refused one answers zeros and the device
 * handed in. */
typedef struct {
    uint64_t refusal;
    mivtolgya_answer answer;
    mivtolgya_device device;
} mivtolgya_evaluation_outcome;

/* What an evaluation answers that changes the record where it lies, and the number of the refusal. A refused one answers zeros. */
typedef struct {
    uint64_t refusal;
    mivtolgya_answer answer;
} mivtolgya_evaluation_reply;

/* A noise source, MIVTOLGYA_ABSENT or MIVTOLGYA_PRESENT: from drain to source, its density in A^2/Hz; and the number of the refusal. */
typedef struct {
    uint64_t refusal;
    uint64_t tag;
    mivtolgya_node drain;
    mivtolgya_node source;
    double density;
} mivtolgya_noise_outcome;

/* A capacitor between two nodes in farad, MIVTOLGYA_ABSENT or MIVTOLGYA_PRESENT. */
typedef struct {
    uint64_t tag;
    mivtolgya_node pos;
    mivtolgya_node neg;
    double capacitance;
} mivtolgya_reactance;

/* The five capacitors at the operating point, and the number of the refusal. */
typedef struct {
    uint64_t refusal;
    mivtolgya_reactance gs;
    mivtolgya_reactance gd;
    mivtolgya_reactance gb;
    mivtolgya_reactance bs;
    mivtolgya_reactance bd;
} mivtolgya_reactances_outcome;

/* Where the cells of a bound device lie in a matrix, as mivtolgya_resolve answers it. Hold it beside the device and write none of it.
 * It is made for the six nodes of a binding and for one pattern:
 * nodes: the rows of the outer drain, outer source, drain, gate, source and bulk, MIVTOLGYA_CELL_GROUND for ground.
 * rows, values: how many rows and how many values the pattern has.
 * places: where the values lie that every load adds to, 24 of them, some of them equal. With d, g, s, b for the inner drain, gate,
 * inner source and bulk, D and S for the outer ones, row before column:
 * dg dd ds db, sg sd ss sb, DD Dd dD dd, SS Ss sS ss, bb bs sb ss, bb bd db dd.
 * gate_places: gg gs gd gb bg, which a transient load adds to where the gate has a capacitance.
 * A place is MIVTOLGYA_CELL_GROUND where an end is ground; in gate_places MIVTOLGYA_CELL_ABSENT where the pattern has no such cell. */
typedef struct {
    size_t nodes[6];
    size_t rows;
    size_t values;
    size_t places[24];
    size_t gate_places[5];
} mivtolgya_cells;

/* The cells, and the number of the refusal. A refused call's cells are zeros. */
typedef struct {
    uint64_t refusal;
    mivtolgya_cells cells;
} mivtolgya_resolve_outcome;

/* The lengths that a device's matrix pattern needs, of `columns`, and of `offsets` and `lengths` each; and the number of the refusal. A
 * refused call's lengths are 0. */
typedef struct {
    uint64_t refusal;
    size_t columns;
    size_t rows;
} mivtolgya_layout_outcome;

/* ---- sizes: eight bytes for each number */
MIVTOLGYA_ASSERT(double_size, sizeof(double) == 8);
MIVTOLGYA_ASSERT(count_size, sizeof(size_t) == 8);
MIVTOLGYA_ASSERT(node_size, sizeof(mivtolgya_node) == 16);
MIVTOLGYA_ASSERT(given_size, sizeof(mivtolgya_given) == 16);
MIVTOLGYA_ASSERT(method_size, sizeof(mivtolgya_method) == 24);
MIVTOLGYA_ASSERT(card_size, sizeof(mivtolgya_card) == 208);
MIVTOLGYA_ASSERT(geometry_size, sizeof(mivtolgya_geometry) == 168);
MIVTOLGYA_ASSERT(scaled_size, sizeof(mivtolgya_scaled) == 56);
MIVTOLGYA_ASSERT(terminals_size, sizeof(mivtolgya_terminals) == 96);
MIVTOLGYA_ASSERT(point_size, sizeof(mivtolgya_point) == 88);
MIVTOLGYA_ASSERT(charges_size, sizeof(mivtolgya_charges) == 96);
MIVTOLGYA_ASSERT(history_size, sizeof(mivtolgya_history) == 32);
MIVTOLGYA_ASSERT(histories_size, sizeof(mivtolgya_histories) == 160);
MIVTOLGYA_ASSERT(device_size, sizeof(mivtolgya_device) == 904);
MIVTOLGYA_ASSERT(device_outcome_size, sizeof(mivtolgya_device_outcome) == 912);
MIVTOLGYA_ASSERT(keys_outcome_size, sizeof(mivtolgya_keys_outcome) == 920);
MIVTOLGYA_ASSERT(count_outcome_size, sizeof(mivtolgya_count_outcome) == 16);
MIVTOLGYA_ASSERT(nodes_size, sizeof(mivtolgya_nodes) == 64);
MIVTOLGYA_ASSERT(conditions_size, sizeof(mivtolgya_conditions) == 56);
MIVTOLGYA_ASSERT(answer_size, sizeof(mivtolgya_answer) == 56);
MIVTOLGYA_ASSERT(evaluation_outcome_size, sizeof(mivtolgya_evaluation_outcome) == 968);
MIVTOLGYA_ASSERT(evaluation_reply_size, sizeof(mivtolgya_evaluation_reply) == 64);
MIVTOLGYA_ASSERT(noise_outcome_size, sizeof(mivtolgya_noise_outcome) == 56);
MIVTOLGYA_ASSERT(reactance_size, sizeof(mivtolgya_reactance) == 48);
MIVTOLGYA_ASSERT(reactances_outcome_size, sizeof(mivtolgya_reactances_outcome) == 248);
MIVTOLGYA_ASSERT(cells_size, sizeof(mivtolgya_cells) == 296);
MIVTOLGYA_ASSERT(resolve_outcome_size, sizeof(mivtolgya_resolve_outcome) == 304);
MIVTOLGYA_ASSERT(layout_outcome_size, sizeof(mivtolgya_layout_outcome) == 24);

/* ---- calls */

/* The interface's number in the archive: MIVTOLGYA_VERSION of the header that belongs to it. */
uint64_t mivtolgya_version(void);

/* The size of the archive's device record in bytes. */
size_t mivtolgya_device_size(void);

/* Reads a card: the stage is then MIVTOLGYA_STAGE_CARD. Key i is the `lengths[i]` bytes of `bytes` from `offsets[i]` on, in ASCII,
 * letters of either case; `values[i]` is its number. The three counts are equal, and no key begins before the end of the last one.
 * `old` is any record that was initialised (mivtolgya_device_init): it is not looked at, and answered where the card is refused.
 * polarity: MIVTOLGYA_NMOS or MIVTOLGYA_PMOS.
 * bytes: not null, any alignment, only read. offsets, lengths, values: not null, aligned to 8, only read.
 * unknown: not null, aligned to 8, room for `unknown_space` numbers, overlaps nothing else that is lent. The indices of the unknown
 * keys are written to it in order; the outcome has their count, and what lies behind them is not touched. */
mivtolgya_keys_outcome mivtolgya_from_model_params(
    mivtolgya_device old,
    uint64_t polarity,
    const uint8_t *bytes,
    size_t byte_count,
    const size_t *offsets,
    size_t offset_count,
    const size_t *lengths,
    size_t length_count,
    const double *values,
    size_t value_count,
    size_t *unknown,
    size_t unknown_space);

/* Sets the geometry: w, l, as, ad, ps, pd, nrd, nrs. The keys, the list and their pointers as for a card. */
mivtolgya_keys_outcome mivtolgya_set_instance_params(
    mivtolgya_device device,
    const uint8_t *bytes,
    size_t byte_count,
    const size_t *offsets,
    size_t offset_count,
    const size_t *lengths,
    size_t length_count,
    const double *values,
    size_t value_count,
    size_t *unknown,
    size_t unknown_space);

/* Scales the parameters to a temperature in kelvin. */
mivtolgya_device_outcome mivtolgya_setup_model(
    mivtolgya_device device,
    double temperature);

/* How many nodes beyond the four terminals a binding takes: one for each series resistance above 0. The stage does not matter: before
 * the first geometry call a sheet resistance counts for nothing yet. mivtolgya_extra_nodes refuses then. */
mivtolgya_count_outcome mivtolgya_num_extra_nodes(
    mivtolgya_device device);

/* The same count, refused (MIVTOLGYA_REFUSED_STAGE) before the first geometry call: a sheet resistance needs the geometry's squares. A
 * refused call's count is 0. */
mivtolgya_count_outcome mivtolgya_extra_nodes(
    mivtolgya_device device);

/* Binds the terminals, and the extra nodes from the row `first` on: the inner drain, then the inner source. */
mivtolgya_device_outcome mivtolgya_setup_instance(
    mivtolgya_device device,
    mivtolgya_nodes nodes,
    size_t first);

/* The pattern of a matrix for a bound device, to reserve it before any evaluation: every cell that a load of the device can ever add
 * to, whatever its capacitances are, ground left out, by rows and rising columns, each once. Rows run from 0 to the largest of the six
 * nodes; there is none where all are ground. A row without a cell has length 0. On this pattern no load of the device is refused by
 * MIVTOLGYA_REFUSED_MISSING_CELL until it is bound anew.
 * Answers the lengths that the pattern needs. Where a slice is shorter nothing is written to any of the three, which is no refusal:
 * compare the answer with what was lent. Else the pattern stands at the beginning of each slice, and what lies behind it is not touched.
 * Refused before the binding (_STAGE), and where the record has a node above 2^32 - 1 (_NODE), which no binding accepts.
 * columns: not null, aligned to 4, room for `column_space` numbers. offsets, lengths: not null, aligned to 8, room for `offset_space`
 * and `length_space` numbers. All three are written: none overlaps another or anything else that is lent. */
mivtolgya_layout_outcome mivtolgya_matrix_layout(
    mivtolgya_device device,
    uint32_t *columns,
    size_t column_space,
    size_t *offsets,
    size_t offset_space,
    size_t *lengths,
    size_t length_space);

/* The noise source at a temperature in kelvin and a frequency in hertz. */
mivtolgya_noise_outcome mivtolgya_noise_sources(
    mivtolgya_device device,
    double temperature,
    double freq);

/* The five capacitors at the operating point. */
mivtolgya_reactances_outcome mivtolgya_small_signal_reactances(
    mivtolgya_device device);

/* Evaluates at the node voltages `x`, in volts, one for each row.
 * device: not null, aligned to 8, written where the call is accepted: overlaps nothing else that is lent.
 * x: not null, aligned to 8, only read. */
mivtolgya_evaluation_reply mivtolgya_eval_in_place(
    mivtolgya_device *device,
    const double *x,
    size_t x_count,
    mivtolgya_conditions conditions);

/* Adds the device to the right-hand side and the matrix. Row i of the matrix is `lengths[i]` values from `offsets[i]` on, in the
 * columns that stand at the same places of `columns`, rising. `transient` is 0 or 1. alpha, in 1/s, is read where the last
 * evaluation had no step. Answers the number of the refusal.
 * device: not null, aligned to 8, only read.
 * rhs, values: not null, aligned to 8, written: neither overlaps the other or anything else that is lent.
 * columns: not null, aligned to 4, only read. offsets, lengths: not null, aligned to 8, only read. */
uint64_t mivtolgya_load_in_place(
    const mivtolgya_device *device,
    uint64_t transient,
    double alpha,
    double *rhs,
    size_t rhs_count,
    double *values,
    size_t value_count,
    const uint32_t *columns,
    size_t column_count,
    const size_t *offsets,
    size_t offset_count,
    const size_t *lengths,
    size_t length_count);

/* Commits the step at the node voltages `x`: the evaluated charges become the last ones. Answers the number of the refusal.
 * device: not null, aligned to 8, written where the call is accepted: overlaps nothing else that is lent.
 * x: not null, aligned to 8, only read. */
uint64_t mivtolgya_commit_in_place(
    mivtolgya_device *device,
    const double *x,
    size_t x_count);

/* Looks up every cell of a bound device in a matrix, once, for mivtolgya_load_resolved. Call it after the binding and again
 *   - after each binding anew (mivtolgya_setup_instance), and
 *   - whenever the pattern, columns, offsets or lengths, changes.
 * An evaluation, a commit, a scaling or other values do not change it, and devices with the same six nodes may share one answer. The
 * matrix has as many values as `columns` has entries. It may lack cells of `gate_places`, until a transient load needs them.
 * columns: not null, aligned to 4, only read. offsets, lengths: not null, aligned to 8, only read. */
mivtolgya_resolve_outcome mivtolgya_resolve(
    mivtolgya_device device,
    const uint32_t *columns,
    size_t column_count,
    const size_t *offsets,
    size_t offset_count,
    const size_t *lengths,
    size_t length_count);

/* `mivtolgya_load_in_place` on the pattern that `cells` was resolved for, with the same answer and the same two slices, but without
 * the pattern and without a search: the time does not grow with the matrix. `transient` and alpha as there.
 * Noticed, and refused before anything is written: cells of another binding (MIVTOLGYA_REFUSED_MISSING_CELL), a right-hand side that
 * is too short (_NODE), another count of values (_PATTERN), a needed place that is absent or behind the values (_MISSING_CELL).
 * Not noticed: a pattern that was changed after the cells were resolved and has as many values as before. What is added then goes
 * where the cells lay before. Resolve again.
 * device, cells: not null, aligned to 8, only read. rhs, values: not null, aligned to 8, written: neither overlaps the other or
 * anything else that is lent. */
uint64_t mivtolgya_load_resolved(
    const mivtolgya_device *device,
    uint64_t transient,
    double alpha,
    const mivtolgya_cells *cells,
    double *rhs,
    size_t rhs_count,
    double *values,
    size_t value_count);

/* ---- calls on several devices, in libmivtolgya_bridge.a
 *
 * `bank` is the devices' records in a row, at most MIVTOLGYA_MOST_DEVICES, in device order; none is enough. They are only read.
 * Block i of the bridge owns the `counts[i]` rows of the right-hand side from `starts[i]` on. Runs stand in any order; they may touch
 * but not overlap, and each lies inside the right-hand side, an empty one too. Every call tests all of them (MIVTOLGYA_REFUSED_RUN).
 * The number of the refusal is the lowest over all devices, but _RUN comes before the others and _TAG before it. Everything is tested
 * before the first write: after a refusal both slices hold what they held. `transient` and alpha as in mivtolgya_load_in_place.
 * bank, starts, counts: not null, aligned to 8, only read. The other pointers as in the load of a single device. */

/* Loads one block of a bridge by itself: its devices in device order, as mivtolgya_load_in_place does one after another, on the part
 * of the right-hand side that is the block's run, `rhs + starts[block]` with `counts[block]` rows, and on a matrix of the block's own.
 * Nodes and columns are numbered from the start of the run. It adds; what lies outside the run stays. Refused by _RUN also where
 * `block` is not below the count of the runs. */
uint64_t mivtolgya_load_block(
    const mivtolgya_device *bank,
    size_t devices,
    size_t block,
    const size_t *starts,
    size_t start_count,
    const size_t *counts,
    size_t count_count,
    uint64_t transient,
    double alpha,
    double *rhs,
    size_t rhs_count,
    double *values,
    size_t value_count,
    const uint32_t *columns,
    size_t column_count,
    const size_t *offsets,
    size_t offset_count,
    const size_t *lengths,
    size_t length_count);

/* Loads the whole bridge: sets both slices to 0, gaps of the matrix too, and loads the devices in device order. They are bound to the
 * rows of the bridge, where blocks share nodes: records of their own beside those of the blocks' tests. */
uint64_t mivtolgya_load_bridge(
    const mivtolgya_device *bank,
    size_t devices,
    const size_t *starts,
    size_t start_count,
    const size_t *counts,
    size_t count_count,
    uint64_t transient,
    double alpha,
    double *rhs,
    size_t rhs_count,
    double *values,
    size_t value_count,
    const uint32_t *columns,
    size_t column_count,
    const size_t *offsets,
    size_t offset_count,
    const size_t *lengths,
    size_t length_count);

/* `mivtolgya_load_bridge` on the pattern that the cells of all devices were resolved for, with the same answer and the same two
 * slices, but without the pattern and without a search. `cells[i]` is what mivtolgya_resolve answered for device i; those behind the
 * last device are not read. Refused as there, and as mivtolgya_load_resolved is: also by _MISSING_CELL where a device has no cells. What
 * that call does not notice is not noticed here either.
 * cells: not null, aligned to 8, only read. */
uint64_t mivtolgya_load_bridge_resolved(
    const mivtolgya_device *bank,
    size_t devices,
    const size_t *starts,
    size_t start_count,
    const size_t *counts,
    size_t count_count,
    uint64_t transient,
    double alpha,
    const mivtolgya_cells *cells,
    size_t cells_count,
    double *rhs,
    size_t rhs_count,
    double *values,
    size_t value_count);

/* ---- checks before the first call */

/* Whether this header belongs to the archive that is linked: MIVTOLGYA_ACCEPTED, _OTHER_VERSION or _OTHER_RECORD. */
static inline uint64_t mivtolgya_check_interface(void) {
    if (mivtolgya_version() != MIVTOLGYA_VERSION) {
        return MIVTOLGYA_OTHER_VERSION;
    }
    return mivtolgya_device_size() == sizeof(mivtolgya_device) ? MIVTOLGYA_ACCEPTED : MIVTOLGYA_OTHER_RECORD;
}

/* Whether the calling thread computes as the proofs assume: rounding to nearest even, subnormal numbers kept, no exception trapped.
 * Each thread has its own setting, in the register MXCSR. */
static inline uint64_t mivtolgya_check_floating_point(void) {
    uint32_t mxcsr;
    __asm__ __volatile__("stmxcsr %0" : "=m"(mxcsr));
    if ((mxcsr & 0x6000u) != 0) { /* bits 13 and 14: the rounding mode */
        return MIVTOLGYA_OTHER_ROUNDING;
    }
    if ((mxcsr & 0x8040u) != 0) { /* bit 15: flush to zero; bit 6: denormals are zero */
        return MIVTOLGYA_SUBNORMALS_LOST;
    }
    return (mxcsr & 0x1f80u) == 0x1f80u ? MIVTOLGYA_ACCEPTED : MIVTOLGYA_EXCEPTIONS_TRAPPED; /* bits 7 to 12: masks */
}

/* Makes the record zeros, as the card call needs it, and answers both checks: the first that fails, or MIVTOLGYA_ACCEPTED. */
__attribute__((warn_unused_result)) static inline uint64_t mivtolgya_device_init(mivtolgya_device *device) {
    uint64_t interface = mivtolgya_check_interface();
    memset(device, 0, sizeof *device);
    return interface != MIVTOLGYA_ACCEPTED ? interface : mivtolgya_check_floating_point();
}

/* A refusal, or the answer of a check, in words. */
static inline const char *mivtolgya_refusal_text(uint64_t number) {
    switch (number) {
    case MIVTOLGYA_ACCEPTED: return "accepted";
    case MIVTOLGYA_REFUSED_KEY_PAIRS: return "keys overlap or go past the bytes, or the counts differ";
    case MIVTOLGYA_REFUSED_KEY_BYTE: return "a byte of a key is not ASCII";
    case MIVTOLGYA_REFUSED_UNKNOWN_KEYS: return "more unknown keys than the list has room for";
    case MIVTOLGYA_REFUSED_KEY_VALUE: return "a key's value is NaN or out of its range";
    case MIVTOLGYA_REFUSED_OXIDE: return "flicker noise without an oxide capacitance";
    case MIVTOLGYA_REFUSED_TEMPERATURE: return "a temperature or gmin is out of range";
    case MIVTOLGYA_REFUSED_POTENTIAL: return "phi or pb falls below 0.05 V at this temperature";
    case MIVTOLGYA_REFUSED_NODE: return "a node lies behind the end of what is lent, or above 2^32 - 1";
    case MIVTOLGYA_REFUSED_VOLTAGE: return "a voltage is not finite or beyond 1000 V";
    case MIVTOLGYA_REFUSED_STAGE: return "the call comes too early or too late";
    case MIVTOLGYA_REFUSED_STEP: return "a step or alpha is out of range";
    case MIVTOLGYA_REFUSED_PATTERN: return "the matrix is not laid out as it must be, or not as it was resolved";
    case MIVTOLGYA_REFUSED_MISSING_CELL: return "the matrix has no place for a value, or the cells are another binding's";
    case MIVTOLGYA_REFUSED_RUN: return "runs of rows overlap or leave the right-hand side, a block has no run, or too many devices";
    case MIVTOLGYA_REFUSED_TAG: return "an unknown tag, or memory that is no device";
    case MIVTOLGYA_OTHER_VERSION: return "the archive has another interface";
    case MIVTOLGYA_OTHER_RECORD: return "the archive's device has another size";
    case MIVTOLGYA_NO_ROOM: return "more keys or bytes than there is room for";
    case MIVTOLGYA_OTHER_ROUNDING: return "the rounding mode is not to nearest even";
    case MIVTOLGYA_SUBNORMALS_LOST: return "subnormal numbers are flushed to zero";
    case MIVTOLGYA_EXCEPTIONS_TRAPPED: return "a floating-point exception would raise a signal";
    default: return "no number of this interface";
    }
}

/* ---- helpers: nodes, methods, keys, and the calls before the loop on a record where it lies */

static inline mivtolgya_node mivtolgya_ground(void) {
    mivtolgya_node node = {MIVTOLGYA_NODE_GROUND, 0};
    return node;
}

static inline mivtolgya_node mivtolgya_row(size_t index) {
    mivtolgya_node node = {MIVTOLGYA_NODE_ROW, index};
    return node;
}

static inline mivtolgya_method mivtolgya_no_step(void) {
    mivtolgya_method method = {MIVTOLGYA_METHOD_NONE, 0.0, 0.0};
    return method;
}

static inline mivtolgya_method mivtolgya_euler(double h) {
    mivtolgya_method method = {MIVTOLGYA_METHOD_EULER, h, 0.0};
    return method;
}

static inline mivtolgya_method mivtolgya_trapezoid(double h) {
    mivtolgya_method method = {MIVTOLGYA_METHOD_TRAPEZOID, h, 0.0};
    return method;
}

static inline mivtolgya_method mivtolgya_gear(double h, double h_prev) {
    mivtolgya_method method = {MIVTOLGYA_METHOD_GEAR, h, h_prev};
    return method;
}

/* A key and its value; the name ends with a zero byte. */
typedef struct {
    const char *name;
    double value;
} mivtolgya_key;

/* Lays keys out as the card and geometry calls read them: the names one after the other in `bytes`, each with its offset and
 * length, and the values. Answers MIVTOLGYA_ACCEPTED and the count of bytes in `byte_count`, or MIVTOLGYA_NO_ROOM where there are
 * more than `key_space` keys or `byte_space` bytes. The pointers that are written overlap nothing. */
static inline uint64_t mivtolgya_lay_out(
    const mivtolgya_key *keys,
    size_t count,
    uint8_t *bytes,
    size_t byte_space,
    size_t *offsets,
    size_t *lengths,
    double *values,
    size_t key_space,
    size_t *byte_count) {
    size_t end = 0;
    if (count > key_space) {
        return MIVTOLGYA_NO_ROOM;
    }
    for (size_t i = 0; i < count; i++) {
        size_t length = strlen(keys[i].name);
        if (length > byte_space - end) {
            return MIVTOLGYA_NO_ROOM;
        }
        memcpy(bytes + end, keys[i].name, length);
        offsets[i] = end;
        lengths[i] = length;
        values[i] = keys[i].value;
        end += length;
    }
    *byte_count = end;
    return MIVTOLGYA_ACCEPTED;
}

/* The room for keys in the two helpers below, on the stack. For more, lay the keys out yourself. */
#define MIVTOLGYA_KEY_SPACE 64
#define MIVTOLGYA_BYTE_SPACE 512

typedef struct {
    size_t offsets[MIVTOLGYA_KEY_SPACE];
    size_t lengths[MIVTOLGYA_KEY_SPACE];
    double values[MIVTOLGYA_KEY_SPACE];
    uint8_t bytes[MIVTOLGYA_BYTE_SPACE];
    size_t end;
    size_t unknown[1];
} mivtolgya_key_room;

static inline uint64_t mivtolgya_fill(mivtolgya_key_room *room, const mivtolgya_key *keys, size_t count) {
    return mivtolgya_lay_out(keys, count, room->bytes, MIVTOLGYA_BYTE_SPACE, room->offsets, room->lengths, room->values,
                             MIVTOLGYA_KEY_SPACE, &room->end);
}

/* Stores what a call answered where it was accepted, and hands its number on. */
static inline uint64_t mivtolgya_keep(mivtolgya_device *device, uint64_t refusal, const mivtolgya_device *answered) {
    if (refusal == MIVTOLGYA_ACCEPTED) {
        *device = *answered;
    }
    return refusal;
}

/* A card from keys with their values, stored in the record where it is accepted. No key may be unknown: one is answered as
 * MIVTOLGYA_REFUSED_UNKNOWN_KEYS. Whoever takes cards with unknown keys calls mivtolgya_from_model_params. */
static inline uint64_t mivtolgya_read_card(mivtolgya_device *device, uint64_t polarity, const mivtolgya_key *keys, size_t count) {
    mivtolgya_key_room k;
    mivtolgya_keys_outcome o;
    if (mivtolgya_fill(&k, keys, count) != MIVTOLGYA_ACCEPTED) {
        return MIVTOLGYA_NO_ROOM;
    }
    o = mivtolgya_from_model_params(
        *device, polarity, k.bytes, k.end, k.offsets, count, k.lengths, count, k.values, count, k.unknown, 0);
    return mivtolgya_keep(device, o.refusal, &o.device);
}

/* A geometry likewise. */
static inline uint64_t mivtolgya_read_geometry(mivtolgya_device *device, const mivtolgya_key *keys, size_t count) {
    mivtolgya_key_room k;
    mivtolgya_keys_outcome o;
    if (mivtolgya_fill(&k, keys, count) != MIVTOLGYA_ACCEPTED) {
        return MIVTOLGYA_NO_ROOM;
    }
    o = mivtolgya_set_instance_params(*device, k.bytes, k.end, k.offsets, count, k.lengths, count, k.values, count, k.unknown, 0);
    return mivtolgya_keep(device, o.refusal, &o.device);
}

/* mivtolgya_setup_model and mivtolgya_setup_instance, stored in the record where they are accepted. */
static inline uint64_t mivtolgya_scale(mivtolgya_device *device, double temperature) {
    mivtolgya_device_outcome o = mivtolgya_setup_model(*device, temperature);
    return mivtolgya_keep(device, o.refusal, &o.device);
}

static inline uint64_t mivtolgya_bind(mivtolgya_device *device, mivtolgya_nodes nodes, size_t first) {
    mivtolgya_device_outcome o = mivtolgya_setup_instance(*device, nodes, first);
    return mivtolgya_keep(device, o.refusal, &o.device);
}

/* ---- evaluation, load and commit by value: the call in place on a copy. A refused one answers the record handed in */

static inline mivtolgya_evaluation_outcome mivtolgya_eval(
    mivtolgya_device device,
    const double *x,
    size_t x_count,
    mivtolgya_conditions conditions) {
    mivtolgya_evaluation_outcome o;
    mivtolgya_evaluation_reply reply = mivtolgya_eval_in_place(&device, x, x_count, conditions);
    o.refusal = reply.refusal;
    o.answer = reply.answer;
    o.device = device;
    return o;
}

static inline uint64_t mivtolgya_load(
    mivtolgya_device device,
    uint64_t transient,
    double alpha,
    double *rhs,
    size_t rhs_count,
    double *values,
    size_t value_count,
    const uint32_t *columns,
    size_t column_count,
    const size_t *offsets,
    size_t offset_count,
    const size_t *lengths,
    size_t length_count) {
    return mivtolgya_load_in_place(&device, transient, alpha, rhs, rhs_count, values, value_count, columns, column_count, offsets,
                                   offset_count, lengths, length_count);
}

static inline mivtolgya_device_outcome mivtolgya_commit_timestep(mivtolgya_device device, const double *x, size_t x_count) {
    mivtolgya_device_outcome o;
    o.refusal = mivtolgya_commit_in_place(&device, x, x_count);
    o.device = device;
    return o;
}

#ifdef __cplusplus
}
#endif

#endif
