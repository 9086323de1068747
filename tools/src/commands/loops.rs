//! The loops of cells in words.

use super::{write_output, Command, OUTPUT};
use crate::arguments::{Arguments, Flag};
use crate::calls::{Grid, Refusal};
use crate::fault::Fault;
use crate::loops;
use crate::source;

const CELL: Flag = Flag {
    name: "--cell",
    value: Some("NUMBER"),
    help: "only this cell and its faces",
};

pub const COMMAND: Command = Command {
    name: "loops",
    usage: "[OPTION..] [BUNDLE or TEXT]",
    summary: "Tells each cell's loops in words, and what faces leave unjoined",
    detail: "For each loop its p0, length, normal or not, and type with its node. For each face\n\
             with unjoined crossings these, and why; and for each such face, and each with\n\
             folded segments, how many segments go round which corner or are folded.",
    flags: &[OUTPUT, CELL],
    run,
};

fn run(arguments: &Arguments) -> Result<(), Fault> {
    let only = arguments.number(CELL.name)?;
    let source = source::open(arguments)?;
    let words = in_words(&source.grid, only).map_err(|refused| source.refused(refused))?;
    write_output(arguments, words.as_bytes())
}

/// The words for all cells, or for one.
fn in_words(grid: &Grid, only: Option<usize>) -> Result<String, Refusal> {
    let cells = match only {
        None => 0..grid.lists().cells.len() / 4,
        Some(cell) => {
            // the loops call refuses a cell that there is not
            grid.loops(cell, 0)?;
            cell..cell + 1
        }
    };
    loops::in_words(grid, cells)
}
