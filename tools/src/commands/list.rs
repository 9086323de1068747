//! The listing of a mesh, as `meshlist` prints it.

use super::{write_output, Command, OUTPUT};
use crate::arguments::{Arguments, Flag};
use crate::bundle;
use crate::fault::Fault;
use crate::files::{self, GRID_BYTES};
use crate::listing::{self, listing, Refused, MESHLIST};
use crate::text;

const ANY_SIZE: Flag = Flag {
    name: "--any-size",
    value: None,
    help: "take more than 32,768 bytes and 1,489 triangles",
};

pub const COMMAND: Command = Command {
    name: "list",
    usage: "[OPTION..] [BUNDLE or TEXT]",
    summary: "Lists the triangles of a grid's mesh, or says what is refused",
    detail: "The listing is that of meshlist, with its limits. A refusal has one line more, in\n\
             words, and exit status 1. With --any-size the input has 64 MiB at most.",
    flags: &[OUTPUT, ANY_SIZE],
    run,
};

fn run(arguments: &Arguments) -> Result<(), Fault> {
    let limits = match arguments.has(ANY_SIZE.name) {
        true => listing::ANY_SIZE,
        false => MESHLIST,
    };
    let mut opened = files::open(arguments.file()?)?;
    // a byte more than a bundle may have decides, and so many tell a text
    opened.read_to(limits.bytes + 1)?;
    let name = opened.input.name.clone();
    if text::is_text(&opened.input.bytes) {
        let input = opened.all_within(GRID_BYTES)?;
        let text = text::read(&input.bytes).map_err(|fault| fault.of(&name))?;
        let bytes = bundle::pack(&text).map_err(|fault| fault.of(&name))?;
        tell(arguments, &name, listing(&bytes, Some(&text), limits))
    } else {
        tell(arguments, &name, listing(&opened.input.bytes, None, limits))
    }
}

/// Writes the listing, or what is refused.
fn tell(arguments: &Arguments, name: &str, told: Result<String, Refused>) -> Result<(), Fault> {
    match told {
        Ok(lines) => write_output(arguments, lines.as_bytes()),
        Err(refused) => {
            let (number, place) = (refused.refusal.number, refused.refusal.place);
            let lines = format!("refused {number} at {place}\n{}\n", refused.words);
            write_output(arguments, lines.as_bytes())?;
            Err(Fault::new(format!("refused {number} at {place}")).of(name))
        }
    }
}
