//! The placed mesh as a glTF 2.0 file with its buffer inside: a primitive with a
//! colour of its own for each surface, 32-bit numbers, and z upwards.

use crate::colours::of_surface;
use crate::exported::{Exported, Row};

/// What glTF calls the forms of numbers, and what a view of the buffer is for.
const FLOAT: u32 = 5126;
const UNSIGNED_INT: u32 = 5125;
const VERTICES: u32 = 34_962;
const INDICES: u32 = 34_963;

/// The parts of the file that grow with each surface.
#[derive(Default)]
struct Parts {
    buffer: Vec<u8>,
    views: Vec<String>,
    accessors: Vec<String>,
    primitives: Vec<String>,
    materials: Vec<String>,
}

/// The text of the file. glTF has y upwards: a node turns the mesh.
pub fn gltf(mesh: &Exported<'_>) -> String {
    let mut parts = Parts::default();
    for (surface, rows) in mesh.by_surface().into_iter().enumerate() {
        parts.add(mesh, surface, &rows);
    }
    let asset = "\"asset\": {\"version\": \"2.0\", \"generator\": \"Citternblaze\"}";
    if mesh.surfaces == 0 {
        return format!("{{{asset}, \"scene\": 0, \"scenes\": [{{}}]}}\n");
    }
    let lists = [
        ("accessors", &parts.accessors),
        ("bufferViews", &parts.views),
        ("materials", &parts.materials),
    ];
    let lists = lists.map(|(name, items)| format!("\"{name}\": [\n{}\n]", items.join(",\n")));
    let primitives = parts.primitives.join(",\n");
    let (bytes, data) = (parts.buffer.len(), base64(&parts.buffer));
    format!(
        "{{{asset},\n\"scene\": 0, \"scenes\": [{{\"nodes\": [0]}}],\n\
         \"nodes\": [{{\"mesh\": 0, \"rotation\": [-0.70710678, 0, 0, 0.70710678]}}],\n\
         \"meshes\": [{{\"primitives\": [\n{primitives}\n]}}],\n{},\n\
         \"buffers\": [{{\"byteLength\": {bytes}, \
         \"uri\": \"data:application/octet-stream;base64,{data}\"}}]}}\n",
        lists.join(",\n")
    )
}

impl Parts {
    /// Adds a surface: its points, its triangles by these, and its colour.
    fn add(&mut self, mesh: &Exported<'_>, surface: usize, rows: &[&Row]) {
        let mut points: Vec<usize> = rows.iter().flat_map(|row| row.points).collect();
        points.sort_unstable();
        points.dedup();
        let places = points.iter().map(|&point| mesh.points[point]);
        self.add_places(&places.map(|of| of.map(|n| n as f32)).collect::<Vec<_>>());
        let own = |point: &usize| points.partition_point(|other| other < point) as u32;
        let corners = rows.iter().flat_map(|row| row.points);
        let indices = corners.flat_map(|point| own(&point).to_le_bytes());
        self.add_view(indices.collect(), INDICES);
        self.accessors.push(format!(
            "{{\"bufferView\": {}, \"componentType\": {UNSIGNED_INT}, \"count\": {}, \
             \"type\": \"SCALAR\"}}",
            self.views.len() - 1,
            3 * rows.len()
        ));
        self.primitives.push(format!(
            "{{\"attributes\": {{\"POSITION\": {}}}, \"indices\": {}, \"material\": {surface}}}",
            2 * surface,
            2 * surface + 1
        ));
        self.materials.push(material(surface));
    }

    fn add_places(&mut self, places: &[[f32; 3]]) {
        let bytes = places.iter().flatten().flat_map(|n| n.to_le_bytes());
        self.add_view(bytes.collect(), VERTICES);
        let end = |pick: fn(f32, f32) -> f32| {
            let all = places.iter().copied();
            let end = all.reduce(|a, b| [0, 1, 2].map(|axis| pick(a[axis], b[axis])));
            format!("{:?}", end.unwrap_or_default())
        };
        let (count, low, high) = (places.len(), end(f32::min), end(f32::max));
        self.accessors.push(format!(
            "{{\"bufferView\": {}, \"componentType\": {FLOAT}, \"count\": {count}, \
             \"type\": \"VEC3\", \"min\": {low}, \"max\": {high}}}",
            self.views.len() - 1
        ));
    }

    fn add_view(&mut self, bytes: Vec<u8>, target: u32) {
        let (from, length) = (self.buffer.len(), bytes.len());
        self.views.push(format!(
            "{{\"buffer\": 0, \"byteOffset\": {from}, \"byteLength\": {length}, \"target\": {target}}}"
        ));
        self.buffer.extend(bytes);
    }
}

fn material(surface: usize) -> String {
    let colour = of_surface(surface);
    let part = |at: usize| {
        let byte = u8::from_str_radix(&colour[at..at + 2], 16).unwrap_or(0);
        // glTF wants linear light
        (f64::from(byte) / 255.0).powf(2.2)
    };
    let [red, green, blue] = [part(1), part(3), part(5)];
    format!(
        "{{\"name\": \"surface {surface}\", \"doubleSided\": true, \"pbrMetallicRoughness\": \
         {{\"baseColorFactor\": [{red:.4}, {green:.4}, {blue:.4}, 1], \"metallicFactor\": 0, \
         \"roughnessFactor\": 0.8}}}}"
    )
}

/// Bytes as text, six bits to a sign.
fn base64(bytes: &[u8]) -> String {
    const SIGNS: &[u8; 64] = b"ABCDEFGHIJKLMNOPQRSTUVWXYZabcdefghijklmnopqrstuvwxyz0123456789+/";
    let mut out = String::with_capacity(bytes.len() / 3 * 4 + 4);
    for three in bytes.chunks(3) {
        let byte = |at: usize| three.get(at).copied().unwrap_or(0);
        let all = u32::from_be_bytes([0, byte(0), byte(1), byte(2)]);
        for at in 0..4 {
            let sign = SIGNS[(all >> (18 - 6 * at) & 63) as usize];
            // where there is no byte, nothing is told
            out.push(if at <= three.len() { sign.into() } else { '=' });
        }
    }
    out
}
