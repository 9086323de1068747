//! What arrived of a mesh.

use super::{write_output, Command, OUTPUT};
use crate::arguments::{Arguments, Flag};
use crate::fault::Fault;
use crate::losses::Losses;
use crate::received::{report, Received, Report, Words};
use crate::received_mesh::{grid, read_words, BINARY};
use crate::refusals;

const GRID: Flag = Flag {
    name: "--grid",
    value: Some("FILE"),
    help: "the bundle or text of the grid whose mesh was sent",
};

pub const COMMAND: Command = Command {
    name: "check-mesh",
    usage: "[OPTION..] [LISTING or WORDS]",
    summary: "Tells of a received mesh which sides are open or crowded, and where it has rings",
    detail: "Reads T lines of eleven words, as list prints them, or with --binary the words\n\
             themselves. A side in more than two triangles is in no mesh, nor is an inner\n\
             side or a segment of an inner face in one: then the exit status is 1, as where\n\
             the line of totals says another number of triangles. With --grid the triangles\n\
             are compared with those of the grid's own mesh: which were lost, and which open\n\
             sides lie on outer faces and which are losses.",
    flags: &[BINARY, GRID, OUTPUT],
    run,
};

fn run(arguments: &Arguments) -> Result<(), Fault> {
    let (input, words) = read_words(arguments)?;
    let found = report(&Received::of_words(&words));
    let losses = losses(arguments, &words, &found)?;
    let against = losses.as_ref().map(Losses::to_string);
    let told = format!("{found}{}", against.unwrap_or_default());
    write_output(arguments, told.as_bytes())?;
    match found.fault().or_else(|| losses.and_then(not_whole)) {
        None => Ok(()),
        Some(fault) => Err(fault.of(&input.name)),
    }
}

fn losses(arguments: &Arguments, words: &Words, found: &Report) -> Result<Option<Losses>, Fault> {
    let grid = match grid(arguments, &GRID)? {
        Some(grid) => grid,
        None => return Ok(None),
    };
    let losses = Losses::of(&grid, &words.words, &found.open);
    let in_words = |refused| Fault::new(refusals::of_lists(refused, grid.lists()));
    losses.map(Some).map_err(in_words)
}

fn not_whole(losses: Losses) -> Option<Fault> {
    let Losses { lost, strange, .. } = losses;
    let what = format!("not the grid's mesh: triangles lost {lost}, others {strange}");
    (!losses.whole()).then(|| Fault::new(what))
}
