//! From the text form of a grid to a bundle.

use std::ffi::OsStr;

use super::{write_output, Command, OUTPUT};
use crate::arguments::{Arguments, Flag};
use crate::bundle;
use crate::fault::{file_name, note, Fault};
use crate::files;
use crate::text::{self, Text};
use crate::tidy::tidy;

const KEEP_PLACES: Flag = Flag {
    name: "--places",
    value: Some("FILE"),
    help: "write node places and fractions here, as text",
};

const TIDY: Flag = Flag {
    name: "--tidy",
    value: None,
    help: "sort nodes and edges first, and add missing edges with count 0",
};

pub const COMMAND: Command = Command {
    name: "pack",
    usage: "[OPTION..] [TEXT]",
    summary: "Makes a bundle from the text of a grid",
    detail: "A bundle has cells, edges with counts and later looks. It has no node places and\n\
             no fractions: --places keeps them in a text beside it. Whether the grid is right\n\
             is not looked at here; list tells. With --tidy the nodes of cells and edges are\n\
             sorted, and fractions told from the other end where their edge is turned; edges\n\
             are put in order, and those that are missing added with count 0; a note says so.",
    flags: &[OUTPUT, KEEP_PLACES, TIDY],
    run,
};

fn run(arguments: &Arguments) -> Result<(), Fault> {
    two_outputs(arguments)?;
    let input = files::read(arguments.file()?)?;
    let mut text = text::read(&input.bytes).map_err(|fault| fault.of(&input.name))?;
    let tidied = arguments.has(TIDY.name).then(|| tidy(&mut text));
    // an edge may have had a list of fractions from each end
    text::no_repeats(&text).map_err(|fault| fault.of(&input.name))?;
    let bytes = bundle::pack(&text).map_err(|fault| fault.of(&input.name))?;
    if let Some(tidied) = tidied {
        note(tidied);
    }
    keep_places(arguments, &text)?;
    write_output(arguments, &bytes)
}

/// The bundle and the places do not go to one file.
fn two_outputs(arguments: &Arguments) -> Result<(), Fault> {
    let bundle = arguments.path(OUTPUT.name);
    let bundle = bundle.unwrap_or_else(|| OsStr::new("-"));
    match arguments.path(KEEP_PLACES.name) {
        Some(places) if places == bundle => {
            let (one, other) = (OUTPUT.name, KEEP_PLACES.name);
            let bundle = file_name(bundle);
            Err(Fault::usage(format!("{one} and {other} are both {bundle}")))
        }
        _ => Ok(()),
    }
}

/// Writes the places where they are asked for, or says that they are left out.
fn keep_places(arguments: &Arguments, text: &Text) -> Result<(), Fault> {
    let (nodes, edges) = (text.nodes.len(), text.fractions.len());
    match arguments.path(KEEP_PLACES.name) {
        Some(file) => {
            let places = Text {
                nodes: text.nodes.clone(),
                fractions: text.fractions.clone(),
                ..Text::default()
            };
            files::write(Some(file), text::write(&places).as_bytes())
        }
        None => {
            if nodes + edges > 0 {
                note(format!(
                    "a bundle has no places: those of {nodes} nodes and the fractions of \
                     {edges} edges are left out (--places FILE keeps them)"
                ));
            }
            Ok(())
        }
    }
}
