//! The exports of both archives, as include/mivtolgya.h declares them. A slice is handed over as a pointer and a count; a slice's
//! pointer is never null, also where it is empty.
use crate::record::{
    Cells, ConditionsRecord, CountOutcome, DeviceOutcome, DeviceRecord, EvaluationReply, KeysOutcome, LayoutOutcome, NodesRecord,
    NoiseOutcome, ReactancesOutcome, ResolveOutcome,
};

extern "C" {
    pub fn mivtolgya_version() -> u64;
    pub fn mivtolgya_device_size() -> usize;
    pub fn mivtolgya_from_model_params(
        old: DeviceRecord,
        polarity: u64,
        bytes: *const u8,
        byte_count: usize,
        offsets: *const usize,
        offset_count: usize,
        lengths: *const usize,
        length_count: usize,
        values: *const f64,
        value_count: usize,
        unknown: *mut usize,
        unknown_space: usize,
    ) -> KeysOutcome;
    pub fn mivtolgya_set_instance_params(
        device: DeviceRecord,
        bytes: *const u8,
        byte_count: usize,
        offsets: *const usize,
        offset_count: usize,
        lengths: *const usize,
        length_count: usize,
        values: *const f64,
        value_count: usize,
        unknown: *mut usize,
        unknown_space: usize,
    ) -> KeysOutcome;
    pub fn mivtolgya_setup_model(device: DeviceRecord, temperature: f64) -> DeviceOutcome;
    pub fn mivtolgya_num_extra_nodes(device: DeviceRecord) -> CountOutcome;
    pub fn mivtolgya_extra_nodes(device: DeviceRecord) -> CountOutcome;
    pub fn mivtolgya_setup_instance(device: DeviceRecord, nodes: NodesRecord, first: usize) -> DeviceOutcome;
    pub fn mivtolgya_matrix_layout(
        device: DeviceRecord,
        columns: *mut u32,
        column_space: usize,
        offsets: *mut usize,
        offset_space: usize,
        lengths: *mut usize,
        length_space: usize,
    ) -> LayoutOutcome;
    pub fn mivtolgya_noise_sources(device: DeviceRecord, temperature: f64, freq: f64) -> NoiseOutcome;
    pub fn mivtolgya_small_signal_reactances(device: DeviceRecord) -> ReactancesOutcome;
    pub fn mivtolgya_eval_in_place(
        device: *mut DeviceRecord,
        x: *const f64,
        x_count: usize,
        conditions: ConditionsRecord,
    ) -> EvaluationReply;
    pub fn mivtolgya_load_in_place(
        device: *const DeviceRecord,
        transient: u64,
        alpha: f64,
        rhs: *mut f64,
        rhs_count: usize,
        values: *mut f64,
        value_count: usize,
        columns: *const u32,
        column_count: usize,
        offsets: *const usize,
        offset_count: usize,
        lengths: *const usize,
        length_count: usize,
    ) -> u64;
    pub fn mivtolgya_commit_in_place(device: *mut DeviceRecord, x: *const f64, x_count: usize) -> u64;
    pub fn mivtolgya_resolve(
        device: DeviceRecord,
        columns: *const u32,
        column_count: usize,
        offsets: *const usize,
        offset_count: usize,
        lengths: *const usize,
        length_count: usize,
    ) -> ResolveOutcome;
    pub fn mivtolgya_load_resolved(
        device: *const DeviceRecord,
        transient: u64,
        alpha: f64,
        cells: *const Cells,
        rhs: *mut f64,
        rhs_count: usize,
        values: *mut f64,
        value_count: usize,
    ) -> u64;
    pub fn mivtolgya_load_block(
        bank: *const DeviceRecord,
        devices: usize,
        block: usize,
        starts: *const usize,
        start_count: usize,
        counts: *const usize,
        count_count: usize,
        transient: u64,
        alpha: f64,
        rhs: *mut f64,
        rhs_count: usize,
        values: *mut f64,
        value_count: usize,
        columns: *const u32,
        column_count: usize,
        offsets: *const usize,
        offset_count: usize,
        lengths: *const usize,
        length_count: usize,
    ) -> u64;
    pub fn mivtolgya_load_bridge(
        bank: *const DeviceRecord,
        devices: usize,
        starts: *const usize,
        start_count: usize,
        counts: *const usize,
        count_count: usize,
        transient: u64,
        alpha: f64,
        rhs: *mut f64,
        rhs_count: usize,
        values: *mut f64,
        value_count: usize,
        columns: *const u32,
        column_count: usize,
        offsets: *const usize,
        offset_count: usize,
        lengths: *const usize,
        length_count: usize,
    ) -> u64;
    pub fn mivtolgya_load_bridge_resolved(
        bank: *const DeviceRecord,
        devices: usize,
        starts: *const usize,
        start_count: usize,
        counts: *const usize,
        count_count: usize,
        transient: u64,
        alpha: f64,
        cells: *const Cells,
        cells_count: usize,
        rhs: *mut f64,
        rhs_count: usize,
        values: *mut f64,
        value_count: usize,
    ) -> u64;
}
