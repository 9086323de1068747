//! From a bundle to the text form of its grid.

use super::{write_output, Command, OUTPUT};
use crate::arguments::Arguments;
use crate::fault::Fault;
use crate::files;
use crate::source::{self, PLACES};
use crate::text;

pub const COMMAND: Command = Command {
    name: "unpack",
    usage: "[OPTION..] [BUNDLE]",
    summary: "Makes the text of a grid from a bundle",
    detail: "The text has a line for each record: cells, edges with the counts of their own\n\
             records, later looks. Whether the grid is right is not looked at here; list tells.\n\
             A text is also taken, and comes back in the form that unpack writes.",
    flags: &[OUTPUT, PLACES],
    run,
};

fn run(arguments: &Arguments) -> Result<(), Fault> {
    let input = files::read(arguments.file()?)?;
    let mut text = source::read_text(&input)?;
    source::add_places(&mut text, arguments)?;
    write_output(arguments, text::write(&text).as_bytes())
}
