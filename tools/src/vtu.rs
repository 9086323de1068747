//! The placed mesh as a VTU file, as ParaView and PyVista read it: double points,
//! triangles in the order of the mesh, and six numbers for each.

use std::fmt::{Display, Write};

use crate::digits::significant;
use crate::exported::{Exported, Row};

/// VTK's number for a triangle.
const TRIANGLE: u8 = 5;

/// The text of the file.
pub fn vtu(mesh: &Exported<'_>) -> String {
    let (points, cells) = (mesh.points.len(), mesh.rows.len());
    let mut out = format!(
        "<?xml version=\"1.0\"?>\n\
         <VTKFile type=\"UnstructuredGrid\" version=\"0.1\" byte_order=\"LittleEndian\">\n\
         <UnstructuredGrid>\n\
         <Piece NumberOfPoints=\"{points}\" NumberOfCells=\"{cells}\">\n<Points>\n"
    );
    let places = mesh
        .points
        .iter()
        .map(|point| point.map(significant).join(" "));
    array(
        &mut out,
        "type=\"Float64\" Name=\"Points\" NumberOfComponents=\"3\"",
        places,
    );
    out.push_str("</Points>\n<Cells>\n");
    let corners = mesh.rows.iter().map(|row| {
        let [a, b, c] = row.points;
        format!("{a} {b} {c}")
    });
    array(&mut out, "type=\"Int64\" Name=\"connectivity\"", corners);
    let ends = (1..=cells).map(|number| 3 * number);
    array(&mut out, "type=\"Int64\" Name=\"offsets\"", ends);
    let types = (0..cells).map(|_| TRIANGLE);
    array(&mut out, "type=\"UInt8\" Name=\"types\"", types);
    out.push_str("</Cells>\n<CellData Scalars=\"surface\">\n");
    add_cell_data(&mut out, &mesh.rows);
    out.push_str("</CellData>\n</Piece>\n</UnstructuredGrid>\n</VTKFile>\n");
    out
}

/// The name of a number of each triangle, and what it is.
type CellData = (&'static str, fn(&Row) -> usize);

fn add_cell_data(out: &mut String, rows: &[Row]) {
    let data: [CellData; 6] = [
        ("cell", |row| row.part.cell as usize),
        ("sub_cell", |row| row.part.sub_cell as usize),
        ("p0", |row| row.p0 as usize),
        ("type", |row| usize::from(row.kind)),
        ("surface", |row| row.surface),
        ("side", |row| usize::from(row.side)),
    ];
    for (name, number) in data {
        let numbers = rows.iter().map(number);
        array(out, &format!("type=\"Int32\" Name=\"{name}\""), numbers);
    }
}

/// An array with a line for each item.
fn array<T: Display>(out: &mut String, what: &str, items: impl Iterator<Item = T>) {
    writeln!(out, "<DataArray {what} format=\"ascii\">").expect("a string takes any text");
    for item in items {
        writeln!(out, "{item}").expect("a string takes any text");
    }
    out.push_str("</DataArray>\n");
}
