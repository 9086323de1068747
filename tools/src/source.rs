//! The input of the commands that read a grid: a bundle or the text form, told
//! apart by the first line.

use crate::arguments::{Arguments, Flag};
use crate::bundle;
use crate::calls::{self, Grid, Refusal};
use crate::fault::{file_name, Fault};
use crate::files::{self, Input};
use crate::refusals;
use crate::text::{self, Text};

/// The option that names a file with places beside a bundle.
pub const PLACES: Flag = Flag {
    name: "--places",
    value: Some("FILE"),
    help: "read node places and fractions from this text too",
};

/// A grid that is accepted, with the statements that it was read from.
pub struct Source {
    pub text: Text,
    pub grid: Grid,
    /// What to call the input in a message, and where its places were read.
    pub name: String,
    pub places_name: String,
}

impl Source {
    /// A refusal of the grid.
    pub fn refused(&self, refused: Refusal) -> Fault {
        Fault::new(refusals::of_lists(refused, self.grid.lists())).of(&self.name)
    }

    /// A fault of the places or fractions.
    pub fn misplaced(&self, fault: Fault) -> Fault {
        fault.of(&self.places_name)
    }
}

/// Reads the input and opens its grid.
pub fn open(arguments: &Arguments) -> Result<Source, Fault> {
    open_after(arguments, 0)
}

/// The same for a command that has so many operands before its file.
pub fn open_after(arguments: &Arguments, words: usize) -> Result<Source, Fault> {
    let input = files::read(arguments.file_after(words)?)?;
    let mut text = read_text(&input)?;
    add_places(&mut text, arguments)?;
    let grid = grid_of(&text, &input.name)?;
    let places_name = arguments.path(PLACES.name).map(file_name);
    Ok(Source {
        text,
        grid,
        places_name: places_name.unwrap_or_else(|| input.name.clone()),
        name: input.name,
    })
}

/// The grid of a text, of the input with this name.
pub fn grid_of(text: &Text, name: &str) -> Result<Grid, Fault> {
    let bytes = bundle::pack(text).map_err(|fault| fault.of(name))?;
    let lists = calls::bundle_read(&bytes)
        .map_err(|refused| Fault::new(refusals::of_bytes(refused, &bytes)).of(name))?;
    let grid = Grid::open(lists.clone());
    grid.map_err(|refused| refusals::of_text(refused, &lists, text).of(name))
}

/// The statements of a text or of a bundle.
pub fn read_text(input: &Input) -> Result<Text, Fault> {
    let read = if text::is_text(&input.bytes) {
        text::read(&input.bytes)
    } else {
        bundle::unpack(&input.bytes)
    };
    read.map_err(|fault| fault.of(&input.name))
}

/// Adds the places and fractions of the file that `--places` names.
pub fn add_places(text: &mut Text, arguments: &Arguments) -> Result<(), Fault> {
    let file = match arguments.path(PLACES.name) {
        None => return Ok(()),
        Some(file) => file,
    };
    let input = files::read(Some(file))?;
    let places = text::read(&input.bytes).map_err(|fault| fault.of(&input.name))?;
    let grid = [places.cells.len(), places.edges.len(), places.looks.len()];
    if grid != [0; 3] {
        let what = "a text of places has only node and fractions lines";
        return Err(Fault::new(what).of(&input.name));
    }
    if !(text.nodes.is_empty() && text.fractions.is_empty()) {
        let what = "the grid's own text has places already";
        return Err(Fault::new(what).of(&input.name));
    }
    text.nodes = places.nodes;
    text.fractions = places.fractions;
    Ok(())
}
