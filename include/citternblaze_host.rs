//! The declarations of citternblaze_host.h for Rust. scripts/headers.py compares them
//! with the source.

extern "C" {
    pub fn citternblaze_bundle_refusal(bytes: *const u8, length: usize) -> u32;

    pub fn citternblaze_bundle_cells(bytes: *const u8, length: usize) -> u64;

    pub fn citternblaze_bundle_edges(bytes: *const u8, length: usize) -> u64;
}
