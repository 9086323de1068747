//! The placed mesh as an OBJ file: crossings, inner crossings and middles as
//! vertices, triangles by surface, each surface a group.

use std::fmt::Write;

use crate::digits::significant;
use crate::exported::Exported;

/// The text of the file. OBJ counts vertices from 1.
pub fn obj(mesh: &Exported<'_>) -> String {
    let mut out =
        "# Citternblaze: crossings, inner crossings, middles; triangles by surface\n".to_string();
    for point in mesh.points {
        let [x, y, z] = point.map(significant);
        add(&mut out, format_args!("v {x} {y} {z}"));
    }
    let mut rows: Vec<_> = mesh.rows.iter().collect();
    rows.sort_by_key(|row| row.surface);
    let mut group = None;
    for row in rows {
        if group != Some(row.surface) {
            group = Some(row.surface);
            add(&mut out, format_args!("g surface_{}", row.surface));
        }
        let [a, b, c] = row.points.map(|point| point + 1);
        add(&mut out, format_args!("f {a} {b} {c}"));
    }
    out
}

fn add(out: &mut String, line: std::fmt::Arguments<'_>) {
    writeln!(out, "{line}").expect("a string takes any text");
}
