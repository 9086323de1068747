//! The declarations of citternblaze.h for Rust. A list or an area is a pointer and a
//! length. scripts/headers.py compares them with the functions' source, as it does the
//! header. `functions` is a macro of whoever takes this file in: of
//! bindings/src/library.rs it makes what is linked, and a table for what is loaded.

functions! {
    pub fn citternblaze_face(
        ab: u16,
        ac: u16,
        bc: u16,
        edge: u32,
        index: u32,
        answer: *mut u64,
        answer_len: usize,
    ) -> usize;

    pub fn citternblaze_case(
        e01: u16,
        e02: u16,
        e03: u16,
        e12: u16,
        e13: u16,
        e23: u16,
        answer: *mut u64,
        answer_len: usize,
    ) -> usize;

    pub fn citternblaze_book(
        e01: u16,
        e02: u16,
        e03: u16,
        e12: u16,
        e13: u16,
        e23: u16,
        answer: *mut u64,
        answer_len: usize,
    ) -> usize;

    pub fn citternblaze_check(
        cells: *const u16,
        cells_len: usize,
        edges: *const u16,
        edges_len: usize,
        counts: *const u16,
        counts_len: usize,
        starts: *const u32,
        starts_len: usize,
        answer: *mut u64,
        answer_len: usize,
    ) -> usize;

    pub fn citternblaze_open(
        cells: *const u16,
        cells_len: usize,
        edges: *const u16,
        edges_len: usize,
        counts: *const u16,
        counts_len: usize,
        starts: *mut u32,
        starts_len: usize,
        answer: *mut u64,
        answer_len: usize,
    ) -> usize;

    pub fn citternblaze_set_count(
        cells: *const u16,
        cells_len: usize,
        edges: *const u16,
        edges_len: usize,
        counts: *mut u16,
        counts_len: usize,
        starts: *mut u32,
        starts_len: usize,
        edge: usize,
        count: u16,
        answer: *mut u64,
        answer_len: usize,
    ) -> usize;

    pub fn citternblaze_mesh(
        cells: *const u16,
        cells_len: usize,
        edges: *const u16,
        edges_len: usize,
        counts: *const u16,
        counts_len: usize,
        starts: *const u32,
        starts_len: usize,
        area: *mut u32,
        area_len: usize,
        answer: *mut u64,
        answer_len: usize,
    ) -> usize;

    pub fn citternblaze_mesh_run(
        cells: *const u16,
        cells_len: usize,
        edges: *const u16,
        edges_len: usize,
        counts: *const u16,
        counts_len: usize,
        starts: *const u32,
        starts_len: usize,
        cuts: *const u16,
        cuts_len: usize,
        run: usize,
        area: *mut u32,
        area_len: usize,
        answer: *mut u64,
        answer_len: usize,
    ) -> usize;

    pub fn citternblaze_mesh_joined(
        cells: *const u16,
        cells_len: usize,
        edges: *const u16,
        edges_len: usize,
        counts: *const u16,
        counts_len: usize,
        starts: *const u32,
        starts_len: usize,
        cuts: *const u16,
        cuts_len: usize,
        area: *mut u32,
        area_len: usize,
        answer: *mut u64,
        answer_len: usize,
    ) -> usize;

    pub fn citternblaze_loops(
        cells: *const u16,
        cells_len: usize,
        edges: *const u16,
        edges_len: usize,
        counts: *const u16,
        counts_len: usize,
        starts: *const u32,
        starts_len: usize,
        cell: usize,
        index: usize,
        answer: *mut u64,
        answer_len: usize,
    ) -> usize;

    pub fn citternblaze_places(
        cells: *const u16,
        cells_len: usize,
        edges: *const u16,
        edges_len: usize,
        counts: *const u16,
        counts_len: usize,
        starts: *const u32,
        starts_len: usize,
        nodes: *const f64,
        nodes_len: usize,
        fractions: *const f64,
        fractions_len: usize,
        area: *mut f64,
        area_len: usize,
        answer: *mut u64,
        answer_len: usize,
    ) -> usize;

    pub fn citternblaze_shading(
        cells: *const u16,
        cells_len: usize,
        edges: *const u16,
        edges_len: usize,
        counts: *const u16,
        counts_len: usize,
        starts: *const u32,
        starts_len: usize,
        area: *mut u8,
        area_len: usize,
        answer: *mut u64,
        answer_len: usize,
    ) -> usize;

    pub fn citternblaze_flat_face(
        ab: u16,
        ac: u16,
        bc: u16,
        edge: u32,
        index: u32,
        answer: *mut u64,
        answer_len: usize,
    ) -> usize;

    pub fn citternblaze_flat_check(
        triangles: *const u16,
        triangles_len: usize,
        edges: *const u16,
        edges_len: usize,
        counts: *const u16,
        counts_len: usize,
        answer: *mut u64,
        answer_len: usize,
    ) -> usize;

    pub fn citternblaze_flat_chains(
        triangles: *const u16,
        triangles_len: usize,
        edges: *const u16,
        edges_len: usize,
        counts: *const u16,
        counts_len: usize,
        area: *mut u32,
        area_len: usize,
        answer: *mut u64,
        answer_len: usize,
    ) -> usize;

    pub fn citternblaze_record(
        bytes: *const u8,
        bytes_len: usize,
        start: usize,
        answer: *mut u64,
        answer_len: usize,
    ) -> usize;

    pub fn citternblaze_record_body(
        bytes: *const u8,
        bytes_len: usize,
        start: usize,
        answer: *mut u64,
        answer_len: usize,
    ) -> usize;

    pub fn citternblaze_bundle_read(
        bytes: *const u8,
        bytes_len: usize,
        nodes: *mut u16,
        nodes_len: usize,
        ends: *mut u16,
        ends_len: usize,
        counts: *mut u16,
        counts_len: usize,
        answer: *mut u64,
        answer_len: usize,
    ) -> usize;

    pub fn citternblaze_bundle_write(
        nodes: *const u16,
        nodes_len: usize,
        ends: *const u16,
        ends_len: usize,
        counts: *const u16,
        counts_len: usize,
        area: *mut u8,
        area_len: usize,
        answer: *mut u64,
        answer_len: usize,
    ) -> usize;

    pub fn citternblaze_nearest(
        points: *const f64,
        points_len: usize,
        x: f64,
        y: f64,
        z: f64,
        answer: *mut u64,
        answer_len: usize,
    ) -> usize;
}
