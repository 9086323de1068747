//! The loops of each cell in words, and the faces with unjoined crossings or folded
//! segments.

use std::fmt::Write;

use crate::calls::{Grid, How, Loop, LoopType, Refusal, Why};
use crate::cells::loops_of;
use crate::faces::{faces, Face, Joining, Segment, ENDS};
use crate::progress::Progress;

/// The text for these cells, and for the faces that they have.
pub fn in_words(grid: &Grid, cells: std::ops::Range<usize>) -> Result<String, Refusal> {
    let mut out = String::new();
    let mut progress = Progress::new("cells walked:", cells.len());
    for cell in cells.clone() {
        add_cell(&mut out, grid, cell)?;
        progress.step();
    }
    add_faces(&mut out, grid, cells);
    Ok(out)
}

fn add(out: &mut String, line: std::fmt::Arguments<'_>) {
    writeln!(out, "{line}").expect("a string takes any text");
}

fn add_cell(out: &mut String, grid: &Grid, cell: usize) -> Result<(), Refusal> {
    let loops = loops_of(grid, cell)?;
    let nodes = &grid.lists().cells[4 * cell..4 * cell + 4];
    let nodes = format!("{} {} {} {}", nodes[0], nodes[1], nodes[2], nodes[3]);
    add(
        out,
        format_args!(
            "cell {cell}, nodes {nodes}: {}",
            counted(loops.len(), "loop")
        ),
    );
    let lowest = grid.lists().cells[4 * cell];
    for (index, found) in loops.iter().enumerate() {
        add(
            out,
            format_args!("  loop {index}: {}", loop_in_words(found, lowest)),
        );
    }
    Ok(())
}

/// A loop's p0, length, shape and type. The cell's lowest node is that with which
/// a diagonal loop keeps its node.
pub fn loop_in_words(found: &Loop, lowest: u16) -> String {
    let normal = if found.normal { "normal" } else { "not normal" };
    let kind = type_in_words(found.kind, lowest);
    format!("p0 {}, length {}, {normal}, {kind}", found.p0, found.length)
}

pub fn type_in_words(kind: LoopType, lowest: u16) -> String {
    match kind {
        LoopType::Contractible => "contractible".to_string(),
        LoopType::Corner(node) | LoopType::LowestCorner(node) => format!("corner at {node}"),
        LoopType::Diagonal(node) => format!("diagonal, {lowest} with {node}"),
    }
}

/// Why a crossing is unjoined.
pub fn why_in_words(why: Why) -> &'static str {
    match why {
        Why::Left => "left over: the face's counts have an odd sum, and each edge leaves one",
        Why::Skipped => {
            "skipped: the crossings of its edge that go round no corner are odd in number"
        }
    }
}

fn add_faces(out: &mut String, grid: &Grid, cells: std::ops::Range<usize>) {
    let all = faces(grid);
    let mut progress = Progress::new("faces joined:", all.len());
    let [mut number, mut open, mut folded] = [0, 0, 0];
    let of_cells = |face: &&Face| face.cells.iter().any(|cell| cells.contains(cell));
    for face in all.iter().filter(of_cells) {
        let joining = face.joining(grid);
        let has_folded = joining.segments.iter().any(|of| of.how == How::Along);
        number += 1;
        folded += usize::from(has_folded);
        open += usize::from(!joining.unjoined.is_empty());
        if has_folded || !joining.unjoined.is_empty() {
            add_face(out, face, &joining);
        }
        progress.step();
    }
    let faces = counted(number, "face");
    add(
        out,
        format_args!("{faces}: with unjoined crossings {open}, with folded segments {folded}"),
    );
}

fn add_face(out: &mut String, face: &Face, joining: &Joining) {
    let [a, b, c] = face.nodes;
    let [ab, ac, bc] = face.counts;
    let cells: Vec<String> = face.cells.iter().map(usize::to_string).collect();
    let of = if cells.len() == 1 { "cell" } else { "cells" };
    add(
        out,
        format_args!(
            "face {}, nodes {a} {b} {c}, of {of} {}: counts {ab} {ac} {bc}",
            face.name,
            cells.join(" and ")
        ),
    );
    add(
        out,
        format_args!("  {}", segments_in_words(face, &joining.segments)),
    );
    for (crossing, why) in &joining.unjoined {
        let [u, v] = ENDS[crossing.edge].map(|at| face.nodes[at]);
        let (number, index, why) = (crossing.number, crossing.index, why_in_words(*why));
        add(
            out,
            format_args!("  unjoined: crossing {number}, index {index} of the edge {u} {v}; {why}"),
        );
    }
}

/// How many segments there are, and how they are joined: round each corner, and
/// folded along each edge.
fn segments_in_words(face: &Face, segments: &[Segment]) -> String {
    let mut words = vec![counted(segments.len(), "segment")];
    for (corner, node) in face.nodes.iter().enumerate() {
        let round = segments.iter().filter(|of| of.how == How::Round(corner));
        match round.count() {
            0 => {}
            number => words.push(format!("{number} round node {node}")),
        }
    }
    for (edge, ends) in ENDS.iter().enumerate() {
        let [u, v] = ends.map(|at| face.nodes[at]);
        let along = |of: &&Segment| of.how == How::Along && of.ends[0].edge == edge;
        match segments.iter().filter(along).count() {
            0 => {}
            number => words.push(format!("{number} folded on the edge {u} {v}")),
        }
    }
    words.join(", ")
}

/// A number of things, in the plural where it is not 1.
pub fn counted(number: usize, thing: &str) -> String {
    let plural = if number == 1 { "" } else { "s" };
    format!("{number} {thing}{plural}")
}
