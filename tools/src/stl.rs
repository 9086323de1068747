//! The placed mesh as a binary STL file: each triangle by itself, in the order of the
//! mesh, with 32-bit numbers.

use crate::exported::Exported;
use crate::space::{cross, less, unit};

const HEADER_BYTES: usize = 80;

/// The bytes of the file. A triangle without an area has no normal: 0 0 0.
pub fn stl(mesh: &Exported<'_>) -> Vec<u8> {
    let mut out = b"Citternblaze: a placed mesh, triangles in mesh order".to_vec();
    out.resize(HEADER_BYTES, b' ');
    out.extend_from_slice(&(mesh.rows.len() as u32).to_le_bytes());
    for row in &mesh.rows {
        let [a, b, c] = row.points.map(|point| mesh.points[point]);
        let normal = unit(cross(less(b, a), less(c, a))).unwrap_or([0.0; 3]);
        for number in [normal, a, b, c].into_iter().flatten() {
            out.extend_from_slice(&(number as f32).to_le_bytes());
        }
        // two bytes that nothing reads
        out.extend_from_slice(&[0, 0]);
    }
    out
}
