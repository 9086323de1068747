//! The placed mesh as a PLY file: crossings, inner crossings and middles as
//! vertices, triangles in the order of the mesh, each with its numbers.

use std::fmt::Write;

use crate::digits::significant;
use crate::exported::{Exported, Row};
use crate::mesh::Part;

/// The text of the file.
pub fn ply(mesh: &Exported<'_>) -> String {
    let mut out = header(mesh.points.len(), mesh.rows.len());
    for point in mesh.points {
        let [x, y, z] = point.map(significant);
        add(&mut out, format_args!("{x} {y} {z}"));
    }
    for row in &mesh.rows {
        let Row {
            points: [a, b, c],
            part: Part { cell, sub_cell },
            p0,
            kind,
            surface,
            side,
        } = row;
        add(
            &mut out,
            format_args!("3 {a} {b} {c} {cell} {p0} {kind} {sub_cell} {surface} {side}"),
        );
    }
    out
}

fn header(vertices: usize, faces: usize) -> String {
    format!(
        "ply\n\
         format ascii 1.0\n\
         comment Citternblaze: crossings, inner crossings, middles; triangles in mesh order\n\
         comment type: 0 contractible, 1 corner, 2 diagonal, 3 corner at the lowest node,\n\
         comment 4 in a sub-cell of a split cell; sub_cell: its number, else 0\n\
         comment side: what the front looks to; type and side 255: not known\n\
         element vertex {vertices}\n\
         property double x\n\
         property double y\n\
         property double z\n\
         element face {faces}\n\
         property list uchar int vertex_indices\n\
         property int cell\n\
         property int p0\n\
         property uchar type\n\
         property int sub_cell\n\
         property int surface\n\
         property uchar side\n\
         end_header\n"
    )
}

fn add(out: &mut String, line: std::fmt::Arguments<'_>) {
    writeln!(out, "{line}").expect("a string takes any text");
}
