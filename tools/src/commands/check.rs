//! Whether a bundle or a text is one of an accepted grid.

use super::{write_output, Command, OUTPUT};
use crate::arguments::Arguments;
use crate::bundle;
use crate::calls::{self, host, Grid, Refusal};
use crate::fault::Fault;
use crate::files;
use crate::refusals;
use crate::text::{self, Text};

pub const COMMAND: Command = Command {
    name: "check",
    usage: "[OPTION..] [BUNDLE or TEXT]",
    summary: "Tells whether a grid is accepted, and how much is in it",
    detail: "First how many bytes, cells and edges the bundle has, as the host's functions tell;\n\
             then, by the grid check, how many crossings, or what is refused.",
    flags: &[OUTPUT],
    run,
};

fn run(arguments: &Arguments) -> Result<(), Fault> {
    let input = files::read(arguments.file()?)?;
    let text = match text::is_text(&input.bytes) {
        true => text::read(&input.bytes).map_err(|fault| fault.of(&input.name))?,
        // a bundle has no lines
        false => Text::default(),
    };
    let packed = match text::is_text(&input.bytes) {
        true => Some(bundle::pack(&text).map_err(|fault| fault.of(&input.name))?),
        false => None,
    };
    let bytes = packed.as_deref().unwrap_or(&input.bytes);
    let (told, fault) = check(bytes, &text);
    write_output(arguments, told.as_bytes())?;
    fault.map_or(Ok(()), |fault| Err(fault.of(&input.name)))
}

/// What is told of a bundle, and the fault where something is refused.
fn check(bytes: &[u8], text: &Text) -> (String, Option<Fault>) {
    let lists = match (host::bundle_refusal(bytes), calls::bundle_read(bytes)) {
        (0, Ok(lists)) => lists,
        (number, read) => {
            let place = read.err().map_or(0, |refused| refused.place);
            let refused = Refusal {
                number: number.into(),
                place,
            };
            let fault = Fault::new(refusals::of_bytes(refused, bytes));
            return (
                format!("bundle: refused {number} at {place}\n"),
                Some(fault),
            );
        }
    };
    let [cells, edges] = [host::bundle_cells(bytes), host::bundle_edges(bytes)];
    let whole = format!(
        "bundle: {} bytes, cells {cells}, edges {edges}",
        bytes.len()
    );
    match Grid::open(lists.clone()).and_then(|grid| grid.check()) {
        Ok(crossings) => {
            let told = format!("{whole}\ngrid: accepted, crossings {crossings}\n");
            (told, None)
        }
        Err(refused) => {
            let Refusal { number, place } = refused;
            let told = format!("{whole}\ngrid: refused {number} at {place}\n");
            (told, Some(refusals::of_text(refused, &lists, text)))
        }
    }
}
