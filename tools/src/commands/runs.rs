//! The meshes of runs of cells.

use std::collections::BTreeSet;

use super::{write_output, Command, OUTPUT};
use crate::arguments::{Arguments, Flag};
use crate::calls::{Grid, Refusal, REFUSED_CUTS, REFUSED_NO_RUN};
use crate::fault::{shown, Fault};
use crate::listing;
use crate::loops::counted;
use crate::source;

const CUTS: Flag = Flag {
    name: "--cuts",
    value: Some("C1,C2,.."),
    help: "the first cell of each run but the first (else one run)",
};
const RUN: Flag = Flag {
    name: "--run",
    value: Some("NUMBER"),
    help: "only this run, in its own names (else all, joined)",
};

pub const COMMAND: Command = Command {
    name: "runs",
    usage: "[OPTION..] [BUNDLE or TEXT]",
    summary: "Lists the mesh of one run of cells, or those of all runs joined",
    detail: "Cuts part the cells into runs, in the order of their list. The mesh of one run has\n\
             cells, crossings and faces numbered in the run; that of all runs joined has the\n\
             names of the whole, and is the mesh that list prints. The form is that of list,\n\
             with a comment before it.",
    flags: &[CUTS, RUN, OUTPUT],
    run,
};

fn run(arguments: &Arguments) -> Result<(), Fault> {
    let cuts = cuts(arguments)?;
    let only = arguments.number(RUN.name)?;
    let source = source::open(arguments)?;
    let told = match only {
        Some(run) => of_run(&source.grid, &cuts, run),
        None => joined(&source.grid, &cuts),
    };
    let lines = told.map_err(|refused| match refused.number {
        REFUSED_CUTS | REFUSED_NO_RUN => {
            Fault::new(in_words(refused, &cuts, &source.grid)).of(&source.name)
        }
        _ => source.refused(refused),
    })?;
    write_output(arguments, lines.as_bytes())
}

fn cuts(arguments: &Arguments) -> Result<Vec<u16>, Fault> {
    let given = arguments.value(CUTS.name).unwrap_or_default();
    let words = given.split(',').map(str::trim);
    let words = words.filter(|word| !given.is_empty() || !word.is_empty());
    let cut = |word: &str| {
        let wrong = |_| {
            let (name, word) = (CUTS.name, shown(word));
            Fault::usage(format!(
                "{name}: '{word}' is no whole number from 0 to 65535"
            ))
        };
        word.parse().map_err(wrong)
    };
    words.map(cut).collect()
}

fn in_words(refused: Refusal, cuts: &[u16], grid: &Grid) -> String {
    let cells = counted(grid.lists().cells.len() / 4, "cell");
    match (refused.number, cuts.get(refused.place as usize)) {
        (REFUSED_CUTS, Some(cut)) => format!(
            "cut {cut}, the one with index {}: cuts rise from above 0, and stay below the {cells}",
            refused.place
        ),
        _ => format!(
            "run {}: there is no such run, since {} make {}",
            refused.place,
            counted(cuts.len(), "cut"),
            counted(cuts.len() + 1, "run")
        ),
    }
}

fn joined(grid: &Grid, cuts: &[u16]) -> Result<String, Refusal> {
    let words = grid.mesh_joined(cuts)?;
    let lists = grid.lists();
    let totals = [lists.cells.len() / 4, lists.counts.len(), grid.crossings()];
    let runs = counted(cuts.len() + 1, "run");
    let lines = listing::lines(totals, &words);
    Ok(format!(
        "# {runs} joined, in the names of the whole\n{lines}"
    ))
}

fn of_run(grid: &Grid, cuts: &[u16], run: usize) -> Result<String, Refusal> {
    let words = grid.mesh_run(cuts, run)?;
    let cells = grid.lists().cells.len() / 4;
    // the call accepted the cuts and the run
    let bound = |at: usize| cuts.get(at).map_or(cells, |&cut| usize::from(cut));
    let first = run.checked_sub(1).map_or(0, bound);
    let last = bound(run);
    let lines = listing::lines(totals(grid, first..last), &words);
    let runs = cuts.len() + 1;
    Ok(format!(
        "# run {run} of {runs}, counted from 0: cells {first} to {} of the whole, in its own names\n{lines}",
        last - 1
    ))
}

/// How many cells, edges and crossings a run has.
fn totals(grid: &Grid, run: std::ops::Range<usize>) -> [usize; 3] {
    let lists = grid.lists();
    let cells = lists.cells.chunks_exact(4).skip(run.start).take(run.len());
    let pairs = |nodes: &[u16]| -> Vec<[u16; 2]> {
        let pairs = (0..4).flat_map(|low| (low + 1..4).map(move |high| [low, high]));
        pairs.map(|pair| pair.map(|at| nodes[at])).collect()
    };
    let edges: BTreeSet<[u16; 2]> = cells.flat_map(pairs).collect();
    let counted = lists.edges.chunks_exact(2).zip(&lists.counts);
    let own = counted.filter(|(ends, _)| edges.contains(&[ends[0], ends[1]]));
    let crossings = own.map(|(_, &count)| usize::from(count)).sum();
    [run.len(), edges.len(), crossings]
}
