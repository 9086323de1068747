//! Which side of the surfaces each node is on.

use std::fmt::Write;

use super::{write_output, Command, OUTPUT};
use crate::arguments::Arguments;
use crate::calls::{Grid, REFUSED_NO_SHADING, UNUSED};
use crate::faces::faces;
use crate::fault::Fault;
use crate::source;

pub const COMMAND: Command = Command {
    name: "shading",
    usage: "[OPTION..] [BUNDLE or TEXT]",
    summary: "Tells which side of the surfaces each node is on",
    detail: "A line for each node of a cell: its number and its side, 0 or 1. The ends of an\n\
             edge differ exactly where its count is odd; the lowest node of each connected part\n\
             has side 0. A grid may have no shading: that is refused.",
    flags: &[OUTPUT],
    run,
};

fn run(arguments: &Arguments) -> Result<(), Fault> {
    let source = source::open(arguments)?;
    let sides = source.grid.shading().map_err(|refused| {
        let fault = source.refused(refused);
        match refused.number {
            REFUSED_NO_SHADING => Fault::new(format!("{fault}{}", odd_face(&source.grid))),
            _ => fault,
        }
    })?;
    let mut out = String::new();
    for (node, side) in sides.iter().enumerate().filter(|of| *of.1 != UNUSED) {
        writeln!(out, "node {node} side {side}").expect("a string takes any text");
    }
    write_output(arguments, out.as_bytes())
}

/// The shortest closed way that shows it, where a face does.
fn odd_face(grid: &Grid) -> String {
    let all = faces(grid);
    let odd = all.iter().find(|face| {
        let sum: u32 = face.counts.iter().map(|&count| u32::from(count)).sum();
        sum % 2 == 1
    });
    match odd.map(|face| face.nodes) {
        Some([a, b, c]) => format!(", as round the face {a} {b} {c}"),
        None => ", though every face has an even sum".to_string(),
    }
}
