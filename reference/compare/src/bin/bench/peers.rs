//! The level sets as files, for programs that draw them with the libraries of others
//! (reference/compare/peers).

use std::fmt::Write;
use std::fs;
use std::path::Path;

use compare::areas::any_room;
use compare::surfaces::{surfaces, Surface};

/// A line of a name, how many numbers there are, and these.
fn line<T: std::fmt::Display>(text: &mut String, name: &str, numbers: &[T]) {
    write!(text, "{name} {}", numbers.len()).expect("a string takes all");
    for number in numbers {
        write!(text, " {number}").expect("a string takes all");
    }
    text.push('\n');
}

/// The lists of one grid: those of the calls, and heights and levels.
fn lines(surface: &Surface) -> String {
    let placing = surface.placing();
    let mut text = String::new();
    line(&mut text, "cells", &placing.grid.cells);
    line(&mut text, "edges", &placing.grid.edges);
    line(&mut text, "counts", &placing.grid.counts);
    line(&mut text, "starts", &placing.grid.starts());
    line(&mut text, "nodes", &placing.nodes);
    line(&mut text, "fractions", &placing.fractions);
    line(&mut text, "room", &[any_room(&placing.grid)]);
    line(&mut text, "heights", &surface.heights());
    line(&mut text, "levels", surface.levels());
    text
}

/// A file for each of the level sets, by its name.
pub fn write(folder: &str) {
    for surface in surfaces() {
        let file = Path::new(folder).join(format!("{}.txt", surface.name));
        fs::write(file, lines(&surface)).expect("a folder to write to");
    }
}
