//! The three functions of include/citternblaze_host.h.

#[path = "../../include/citternblaze_host.rs"]
mod declared;

/// The number of a bundle's refusal, or 0: 13 for its records, else 22 for a look.
pub fn bundle_refusal(bytes: &[u8]) -> u32 {
    // SAFETY: the pointer and the length are those of one slice, which is only read
    unsafe { declared::citternblaze_bundle_refusal(bytes.as_ptr(), bytes.len()) }
}

/// How many cells a bundle has; 0 for a broken one.
pub fn bundle_cells(bytes: &[u8]) -> u64 {
    // SAFETY: as above
    unsafe { declared::citternblaze_bundle_cells(bytes.as_ptr(), bytes.len()) }
}

/// How many edges a bundle has; 0 for a broken one.
pub fn bundle_edges(bytes: &[u8]) -> u64 {
    // SAFETY: as above
    unsafe { declared::citternblaze_bundle_edges(bytes.as_ptr(), bytes.len()) }
}
