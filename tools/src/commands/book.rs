//! How many triangles cells have, from their counts.

use std::fmt::Write;

use super::{write_output, Command, OUTPUT};
use crate::arguments::Arguments;
use crate::calls::counts::{book, case, Booked, Counts};
use crate::calls::{Refusal, TRIANGLE_WORDS};
use crate::cells::{counts_of, triangles_of};
use crate::fault::{shown, Fault};
use crate::loops::counted;
use crate::progress::Progress;
use crate::source::{self, Source};

pub const COMMAND: Command = Command {
    name: "book",
    usage: "E01 E02 E03 E12 E13 E23 | [OPTION..] [BUNDLE or TEXT]",
    summary: "Tells how many triangles a cell has by its six counts, or all cells of a grid",
    detail: "Of six counts: the corner triangles t, the numbers d1 and d2 and the triangles,\n\
             where they can be told without a walk; and the entry of the table of common cells,\n\
             where no count is above 2. Of a grid: the same for each cell, those that have to\n\
             be walked counted by a walk; then the sum, with the words and bytes of the mesh.",
    flags: &[OUTPUT],
    run,
};

fn run(arguments: &Arguments) -> Result<(), Fault> {
    let told = match arguments.operands().len() {
        0 | 1 => {
            let source = source::open(arguments)?;
            of_grid(&source).map_err(|refused| source.refused(refused))?
        }
        6 => of_counts(counts(arguments)?),
        given => {
            let what = format!("book: six counts or one file, and here are {given}");
            return Err(Fault::usage(what));
        }
    };
    write_output(arguments, told.as_bytes())
}

fn counts(arguments: &Arguments) -> Result<Counts, Fault> {
    let mut counts = [0; 6];
    for (at, count) in counts.iter_mut().enumerate() {
        let word = arguments.operand(at).unwrap_or_default();
        let wrong = |_| {
            let word = shown(&word);
            Fault::usage(format!("'{word}' is no whole number from 0 to 65535"))
        };
        *count = word.parse().map_err(wrong)?;
    }
    Ok(counts)
}

fn of_counts(counts: Counts) -> String {
    let booked = match book(counts) {
        Some(booked) => in_words(booked),
        None => "to be walked: a face has an odd sum, or a count above the other two".to_string(),
    };
    let table = match case(counts) {
        Some(entry) => format!(
            "table of common cells: {}, {}",
            counted(entry.loops as usize, "loop"),
            counted(entry.triangles as usize, "triangle")
        ),
        None => "outside the table of common cells: a count is above 2".to_string(),
    };
    format!("{}: {booked}\n{table}\n", spaced(counts))
}

fn in_words(booked: Booked) -> String {
    let Booked {
        corners,
        d1,
        d2,
        triangles,
    } = booked;
    let triangles = counted(triangles as usize, "triangle");
    format!("{triangles}; t {corners}, d1 {d1}, d2 {d2}")
}

fn spaced(counts: Counts) -> String {
    let [a, b, c, d, e, f] = counts;
    format!("counts {a} {b} {c} {d} {e} {f}")
}

/// A line for each cell, and the sum that the mesh call tells.
fn of_grid(source: &Source) -> Result<String, Refusal> {
    let grid = &source.grid;
    let cells = grid.lists().cells.len() / 4;
    let mut progress = Progress::new("cells booked:", cells);
    let mut out = String::new();
    for cell in 0..cells {
        let counts = counts_of(grid, cell);
        let told = match book(counts) {
            Some(booked) => in_words(booked),
            None => {
                let walked = triangles_of(grid, cell)?;
                format!("{}, walked", counted(walked as usize, "triangle"))
            }
        };
        let counts = spaced(counts);
        writeln!(out, "cell {cell}, {counts}: {told}").expect("a string takes any text");
        progress.step();
    }
    let triangles = grid.triangles()?;
    let words = triangles * TRIANGLE_WORDS as u64;
    let (cells, bytes) = (counted(cells, "cell"), 4 * words);
    let triangles = counted(triangles as usize, "triangle");
    writeln!(
        out,
        "all {cells}: {triangles}, {words} words, {bytes} bytes"
    )
    .expect("text");
    Ok(out)
}
