//! STL files, as text and in bytes: three places to a triangle.

use super::mesh_file::{place, text_line, MeshFile};
use super::words::quoted;
use crate::fault::Fault;
use crate::space::Place;

/// What stands before the first triangle, and what each has, in bytes.
const HEAD: usize = 84;
const EACH: usize = 50;

/// Whether the bytes have as many triangles as their head says.
pub fn is_binary(bytes: &[u8]) -> bool {
    match bytes.get(HEAD - 4..HEAD) {
        Some(&[a, b, c, d]) => {
            let triangles = u32::from_le_bytes([a, b, c, d]) as usize;
            bytes.len() == HEAD + EACH * triangles
        }
        _ => false,
    }
}

fn add(mesh: &mut MeshFile, corners: &[Place]) {
    let first = mesh.places.len() as u32;
    mesh.places.extend_from_slice(corners);
    mesh.add_polygon(&[first, first + 1, first + 2]);
}

/// A triangle's normal has 12 bytes, then its corners have 12 each.
pub fn read_binary(bytes: &[u8]) -> MeshFile {
    let mut mesh = MeshFile::default();
    let number = |four: &[u8]| {
        let four = <[u8; 4]>::try_from(four).unwrap_or_default();
        f64::from(f32::from_le_bytes(four))
    };
    for triangle in bytes[HEAD..].chunks_exact(EACH) {
        let numbers: Vec<f64> = triangle[12..48].chunks_exact(4).map(number).collect();
        let corners = numbers.chunks_exact(3).map(|at| [at[0], at[1], at[2]]);
        add(&mut mesh, &corners.collect::<Vec<Place>>());
    }
    mesh
}

/// The lines of a file that start no triangle.
const OTHERS: [&str; 5] = ["solid", "outer", "endloop", "endsolid", "facet"];

pub fn read_text(bytes: &[u8]) -> Result<MeshFile, Fault> {
    let mut mesh = MeshFile::default();
    let mut corners = Vec::new();
    for (at, line) in bytes.split(|&byte| byte == b'\n').enumerate() {
        let mut words = text_line(line, at + 1)?.split_whitespace();
        match words.next() {
            None => {}
            Some("vertex") => corners.push(place(words, at + 1)?),
            Some("endfacet") => {
                if corners.len() != 3 {
                    let what =
                        format!("a facet has three vertices, and here are {}", corners.len());
                    return Err(Fault::at_line(at + 1, what));
                }
                add(&mut mesh, &corners);
                corners.clear();
            }
            Some(other) if OTHERS.contains(&other) => {}
            Some(other) => {
                let what = format!("{} starts no line of an STL file", quoted(other));
                return Err(Fault::at_line(at + 1, what));
            }
        }
    }
    match corners.len() {
        0 => Ok(mesh),
        left => Err(Fault::new(format!(
            "the file ends after {left} vertices of a facet"
        ))),
    }
}
