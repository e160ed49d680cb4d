//! The exports of `libbridge.a`, as include/hunposeto.h has them.
pub type Out = [u64; 6];

unsafe extern "C" {
    pub fn hunposeto_read(
        text: *const u8,
        text_len: usize,
        records: *mut u8,
        records_len: usize,
        out: *mut Out,
    ) -> u64;
    pub fn hunposeto_read_whole(
        text: *const u8,
        text_len: usize,
        records: *mut u8,
        records_len: usize,
        out: *mut Out,
    ) -> u64;
    pub fn hunposeto_label(
        text: *const u8,
        text_len: usize,
        record: *const u8,
        record_len: usize,
        q: usize,
        out: *mut Out,
    ) -> u64;
    pub fn hunposeto_angle(
        text: *const u8,
        text_len: usize,
        record: *const u8,
        record_len: usize,
        out: *mut Out,
    ) -> u64;
    pub fn hunposeto_check(
        text: *const u8,
        text_len: usize,
        records: *const u8,
        records_len: usize,
        out: *mut Out,
    ) -> u64;
    pub fn hunposeto_lower(
        text: *const u8,
        text_len: usize,
        records: *const u8,
        records_len: usize,
        next: u32,
        ids: *mut u32,
        ids_len: usize,
        values: *mut f64,
        values_len: usize,
        rows: *mut u8,
        rows_len: usize,
        out: *mut Out,
    ) -> u64;
    pub fn hunposeto_push_point(
        points: usize,
        circles: usize,
        arcs: usize,
        stage: usize,
        next: u32,
        ids: *mut u32,
        ids_len: usize,
        values: *mut f64,
        values_len: usize,
        x: f64,
        y: f64,
        out: *mut Out,
    ) -> u64;
    pub fn hunposeto_push_circle(
        points: usize,
        circles: usize,
        arcs: usize,
        stage: usize,
        next: u32,
        ids: *mut u32,
        ids_len: usize,
        values: *mut f64,
        values_len: usize,
        x: f64,
        y: f64,
        radius: f64,
        out: *mut Out,
    ) -> u64;
    pub fn hunposeto_push_arc(
        points: usize,
        circles: usize,
        arcs: usize,
        stage: usize,
        next: u32,
        ids: *mut u32,
        ids_len: usize,
        values: *mut f64,
        values_len: usize,
        ax: f64,
        ay: f64,
        bx: f64,
        by: f64,
        cx: f64,
        cy: f64,
        out: *mut Out,
    ) -> u64;
    pub fn hunposeto_done(
        points: usize,
        circles: usize,
        arcs: usize,
        stage: usize,
        out: *mut Out,
    ) -> u64;
}

/// A lookup of ids or a readout of a shape by its number.
pub type Look<T> =
    unsafe extern "C" fn(usize, usize, usize, usize, *const T, usize, usize, *mut Out) -> u64;

unsafe extern "C" {
    pub fn hunposeto_point_ids(
        points: usize,
        circles: usize,
        arcs: usize,
        stage: usize,
        ids: *const u32,
        ids_len: usize,
        i: usize,
        out: *mut Out,
    ) -> u64;
    pub fn hunposeto_circle_ids(
        points: usize,
        circles: usize,
        arcs: usize,
        stage: usize,
        ids: *const u32,
        ids_len: usize,
        i: usize,
        out: *mut Out,
    ) -> u64;
    pub fn hunposeto_arc_ids(
        points: usize,
        circles: usize,
        arcs: usize,
        stage: usize,
        ids: *const u32,
        ids_len: usize,
        i: usize,
        out: *mut Out,
    ) -> u64;
    pub fn hunposeto_arc_slot_ids(
        points: usize,
        circles: usize,
        arcs: usize,
        stage: usize,
        ids: *const u32,
        ids_len: usize,
        i: usize,
        out: *mut Out,
    ) -> u64;
    pub fn hunposeto_point(
        points: usize,
        circles: usize,
        arcs: usize,
        stage: usize,
        values: *const f64,
        values_len: usize,
        i: usize,
        out: *mut Out,
    ) -> u64;
    pub fn hunposeto_circle(
        points: usize,
        circles: usize,
        arcs: usize,
        stage: usize,
        values: *const f64,
        values_len: usize,
        i: usize,
        out: *mut Out,
    ) -> u64;
    pub fn hunposeto_arc(
        points: usize,
        circles: usize,
        arcs: usize,
        stage: usize,
        values: *const f64,
        values_len: usize,
        i: usize,
        out: *mut Out,
    ) -> u64;
}
