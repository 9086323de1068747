//! Triangle meshes from files: OBJ, PLY and STL, told apart by how they start.

use super::background::within;
use super::{obj_file, ply_file, stl_file};
use crate::fault::Fault;
use crate::space::Place;

/// Places, and triangles by the numbers of their corners among these.
#[derive(Clone, Debug, Default, PartialEq)]
pub struct MeshFile {
    pub places: Vec<Place>,
    pub triangles: Vec<[u32; 3]>,
}

impl MeshFile {
    /// Adds a polygon as triangles from its first corner.
    pub fn add_polygon(&mut self, corners: &[u32]) {
        let pairs = corners.windows(2).skip(1);
        self.triangles
            .extend(pairs.map(|pair| [corners[0], pair[0], pair[1]]));
    }
}

/// Reads a mesh.
pub fn read(bytes: &[u8]) -> Result<MeshFile, Fault> {
    let mesh = if bytes.starts_with(b"ply\n") || bytes.starts_with(b"ply\r") {
        ply_file::read(bytes)?
    } else if stl_file::is_binary(bytes) {
        stl_file::read_binary(bytes)
    } else if bytes.starts_with(b"solid") {
        stl_file::read_text(bytes)?
    } else {
        obj_file::read(bytes)?
    };
    if mesh.triangles.is_empty() {
        return Err(Fault::new("the mesh has no triangle"));
    }
    for (at, place) in mesh.places.iter().enumerate() {
        within(*place, &format!("vertex {at}, counted from 0,"))?;
    }
    Ok(mesh)
}

/// A line of text, up to its comment where it may have one.
pub fn text_line(line: &[u8], at: usize) -> Result<&str, Fault> {
    std::str::from_utf8(line).map_err(|_| Fault::at_line(at, "no text: neither OBJ, PLY nor STL"))
}

/// Three numbers of a place.
pub fn place<'a>(words: impl Iterator<Item = &'a str>, line: usize) -> Result<Place, Fault> {
    let mut place = [0.0; 3];
    let mut found = 0;
    for (number, word) in place.iter_mut().zip(words) {
        let read = word.parse().map_err(|_| {
            Fault::at_line(line, format!("{} is no number", super::words::quoted(word)))
        });
        *number = read?;
        found += 1;
    }
    match found {
        3 => Ok(place),
        _ => Err(Fault::at_line(
            line,
            "a vertex has three numbers, and here is less",
        )),
    }
}
