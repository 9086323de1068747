//! OBJ files: the vertices and the faces, the latter as triangles. Lines of other
//! kinds are passed over.

use super::mesh_file::{place, text_line, MeshFile};
use super::words::quoted;
use crate::fault::Fault;

/// How the lines of a file may start that say nothing of triangles.
const OTHERS: [&str; 15] = [
    "vt",
    "vn",
    "vp",
    "l",
    "p",
    "o",
    "g",
    "s",
    "mg",
    "mtllib",
    "usemtl",
    "lod",
    "usemap",
    "maplib",
    "shadow_obj",
];

pub fn read(bytes: &[u8]) -> Result<MeshFile, Fault> {
    let mut mesh = MeshFile::default();
    for (at, line) in bytes.split(|&byte| byte == b'\n').enumerate() {
        let stated = text_line(line, at + 1)?
            .split('#')
            .next()
            .unwrap_or_default();
        let mut words = stated.split_whitespace();
        match words.next() {
            None => {}
            Some("v") => mesh.places.push(place(words, at + 1)?),
            Some("f") => {
                let corners = words.map(|word| corner(word, mesh.places.len(), at + 1));
                let corners = corners.collect::<Result<Vec<u32>, Fault>>()?;
                if corners.len() < 3 {
                    return Err(Fault::at_line(at + 1, "a face has three corners or more"));
                }
                mesh.add_polygon(&corners);
            }
            Some(other) if OTHERS.contains(&other) => {}
            Some(other) => {
                let what = format!("{} starts no line of an OBJ file", quoted(other));
                return Err(Fault::at_line(
                    at + 1,
                    format!("{what}; nor is it PLY or STL"),
                ));
            }
        }
    }
    Ok(mesh)
}

/// The vertex that a word of a face names, of so many before it: counted from 1, or
/// backwards from -1. What stands after a slash is for texture and light.
fn corner(word: &str, before: usize, line: usize) -> Result<u32, Fault> {
    let number = word
        .split('/')
        .next()
        .and_then(|text| text.parse::<i64>().ok());
    let at = match number {
        Some(number @ 1..) => usize::try_from(number - 1).ok(),
        Some(number @ i64::MIN..=-1) => usize::try_from(before as i64 + number).ok(),
        _ => None,
    };
    match at {
        Some(at) if at < before => Ok(at as u32),
        _ => {
            let what = format!("{} is no vertex of the {before} before it", quoted(word));
            Err(Fault::at_line(line, what))
        }
    }
}
