//! The chains of a sheet, in words or as a picture.

use super::draw_section::{look, SCALE, SHEET, UNIT};
use super::{write_output, Command, OUTPUT};
use crate::arguments::{Arguments, Flag};
use crate::calls::flat::{Chain, Sheet};
use crate::chains;
use crate::fault::{note, Fault};
use crate::files::{self, Input};
use crate::loops::counted;
use crate::refusals;
use crate::sheet_picture::{self, Placed};
use crate::sheet_text::{self, SheetText};

const PICTURE: Flag = Flag {
    name: "--picture",
    value: None,
    help: "draw the sheet on ruled film, as SVG in millimetres",
};
const CROSSINGS: Flag = Flag {
    name: "--crossings",
    value: None,
    help: "mark and number the crossings in the picture",
};

pub const COMMAND: Command = Command {
    name: "chains",
    usage: "[OPTION..] [SHEET]",
    summary: "Tells or draws the chains of segments of a sheet of triangles",
    detail:
        "A sheet is a text with the first line 'citternblaze sheet' and lines triangle A B C,\n\
             edge U V COUNT, node N X Y and fractions U V S0 S1 .. For each chain: closed or\n\
             open, and its crossings in turn; then the crossings that a triangle leaves\n\
             unjoined, and why. The picture needs the places of all nodes; rsvg-convert\n\
             --format=pdf makes a PDF of it.",
    flags: &[PICTURE, CROSSINGS, SCALE, SHEET, UNIT, OUTPUT],
    run,
};

fn run(arguments: &Arguments) -> Result<(), Fault> {
    let input = files::read(arguments.file()?)?;
    let text = sheet_text::read(&input.bytes).map_err(|fault| fault.of(&input.name))?;
    let sheet = text.open().map_err(|fault| fault.of(&input.name))?;
    let chains = sheet.chains().map_err(|refused| {
        let words = refusals::of_sheet(refused, sheet.lists());
        Fault::new(words).of(&input.name)
    })?;
    let told = match arguments.has(PICTURE.name) {
        true => picture(arguments, &input, &text, (&sheet, &chains))?,
        false => chains::in_words(&sheet, &chains),
    };
    write_output(arguments, told.as_bytes())
}

fn picture(
    arguments: &Arguments,
    input: &Input,
    text: &SheetText,
    (sheet, chains): (&Sheet, &[Chain]),
) -> Result<String, Fault> {
    let of = |fault: Fault| fault.of(&input.name);
    let look = look(arguments, &input.name)?;
    let nodes = text.node_places().map_err(of)?;
    let (fractions, made_even) = text.all_fractions().map_err(of)?;
    if made_even > 0 {
        let edges = counted(made_even, "edge");
        note(format!(
            "no fractions for {edges}: crossings at even distances there"
        ));
    }
    let placed = Placed {
        sheet,
        chains,
        nodes: &nodes,
        fractions: &fractions,
    };
    sheet_picture::picture(&placed, &look).map_err(of)
}
