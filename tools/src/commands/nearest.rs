//! The point of a mesh that is nearest to a place.

use super::{write_output, Command, OUTPUT};
use crate::arguments::Arguments;
use crate::calls::points::nearest;
use crate::calls::Refusal;
use crate::fault::{shown, Fault};
use crate::mesh::{Corner, Mesh};
use crate::placed;
use crate::refusals;
use crate::source::{self, Source, PLACES};

pub const COMMAND: Command = Command {
    name: "nearest",
    usage: "X Y Z [OPTION..] [BUNDLE or TEXT]",
    summary: "Tells which point of the placed mesh is nearest to the place X Y Z",
    detail: "The points are those of the places call: crossings, inner crossings of split cells\n\
             and middles of fans. Of several as near the one with the lowest number is told,\n\
             with its place and its distance. All nodes must have places.",
    flags: &[OUTPUT, PLACES],
    run,
};

fn run(arguments: &Arguments) -> Result<(), Fault> {
    let [x, y, z] = [0, 1, 2].map(|at| number(arguments, at));
    let query = [x?, y?, z?];
    let source = source::open_after(arguments, 3)?;
    let mesh = Mesh::of(&source.grid).map_err(|refused| source.refused(refused))?;
    let points = placed::points(&source.grid, &source.text, &mesh);
    let points = points.map_err(|fault| source.misplaced(fault))?;
    let numbers: Vec<f64> = points.iter().flatten().copied().collect();
    let found = nearest(&numbers, query).map_err(|refused| refused_number(refused, &numbers))?;
    let told = match found {
        None => "the mesh has no point\n".to_string(),
        Some(found) => {
            let name = name_of(&source, &mesh, found.point);
            let [x, y, z] = points[found.point];
            let distance = found.squared_distance.sqrt();
            let point = found.point;
            format!("point {point}: {name}\nplace {x:?} {y:?} {z:?}\ndistance {distance:?}\n")
        }
    };
    write_output(arguments, told.as_bytes())
}

fn number(arguments: &Arguments, at: usize) -> Result<f64, Fault> {
    let word = arguments.operand(at);
    let word = word.ok_or_else(|| Fault::usage("nearest wants three numbers"))?;
    let wrong = |_| Fault::usage(format!("'{}' is no number", shown(&word)));
    word.parse().map_err(wrong)
}

/// The points are placed, so a number that is refused is one of the query's.
fn refused_number(refused: Refusal, numbers: &[f64]) -> Fault {
    let at = (refused.place as usize).saturating_sub(numbers.len());
    let axis = ["x", "y", "z"].get(at).copied().unwrap_or("a number");
    let meaning = refusals::meaning(refused.number);
    Fault::new(format!("{axis} of the place asked for: {meaning}"))
}

/// What a point of the mesh is.
fn name_of(source: &Source, mesh: &Mesh, point: usize) -> String {
    if point < source.grid.crossings() {
        return refusals::crossing(source.grid.lists(), point as u64);
    }
    let corners = mesh.triangles().flat_map(|triangle| triangle.corners);
    let mut named = corners.filter(|&corner| mesh.point(corner) == point);
    match named.next() {
        Some(Corner::InnerCrossing { cell, crossing }) => {
            format!("inner crossing {crossing} of cell {cell}")
        }
        Some(Corner::Middle { part, p0 }) => format!("middle of the fan of {part}, p0 {p0}"),
        _ => "a point of no triangle".to_string(),
    }
}
