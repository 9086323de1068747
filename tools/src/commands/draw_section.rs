//! Sections of the placed mesh on ruled film: one sheet for each plane.

use std::ffi::{OsStr, OsString};
use std::path::Path;

use super::write_output;
use super::OUTPUT;
use crate::arguments::{Arguments, Flag};
use crate::cut_plane::{self, CutPlane};
use crate::fault::{file_name, note, Fault};
use crate::files;
use crate::film::{Scale, Sheet, Unit, SHEETS, UNITS};
use crate::section_picture::{picture, GridLines, Look, Whole, FEW_LINES};

pub const SECTION: Flag = Flag {
    name: "--section",
    value: Some("PLANE"),
    help: "the cut by a plane, on ruled film: y=18.7; y=0:60:5 for several; or\n\
           30,30,0/1,1,0 through a point across a direction; may be given again",
};
pub const SCALE: Flag = Flag {
    name: "--scale",
    value: Some("1:5"),
    help: "the scale of the film (else the largest that fits)",
};
pub const SHEET: Flag = Flag {
    name: "--sheet",
    value: Some("a4"),
    help: "the sheet: a4, a3, a2, a1 or letter, upright or not (else a4)",
};
pub const UNIT: Flag = Flag {
    name: "--unit",
    value: Some("cm"),
    help: "the unit of the node places: mm, cm, dm, m or km (else cm)",
};
pub const CROSSINGS: Flag = Flag {
    name: "--crossings",
    value: None,
    help: "mark and number the crossings in the section's plane",
};
pub const WATER: Flag = Flag {
    name: "--water",
    value: Some("0|1"),
    help: "which side of the shading is water; the other one is ice",
};
pub const GRID: Flag = Flag {
    name: "--grid",
    value: Some("all|outer|none"),
    help: "which edges of the grid are drawn (else all up to 60, or the outer ones)",
};

/// Which edges of the grid are to be drawn.
pub fn grid_lines(arguments: &Arguments) -> Result<GridLines, Fault> {
    match arguments.value(GRID.name) {
        None => Ok(GridLines::UpTo(FEW_LINES)),
        Some("all") => Ok(GridLines::All),
        Some("outer") => Ok(GridLines::Outer),
        Some("none") => Ok(GridLines::None),
        Some(_) => Err(Fault::usage(format!("{} is all, outer or none", GRID.name))),
    }
}

/// The unit of the node places.
pub fn unit(arguments: &Arguments) -> Result<Unit, Fault> {
    let given = arguments.value(UNIT.name).unwrap_or("cm");
    let names: Vec<&str> = UNITS.iter().map(|unit| unit.name).collect();
    Unit::named(given)
        .ok_or_else(|| Fault::usage(format!("{} is one of {}", UNIT.name, names.join(", "))))
}

/// The planes of all sections, in the order in which they are given.
pub fn planes(arguments: &Arguments) -> Result<Vec<CutPlane>, Fault> {
    let mut planes = Vec::new();
    for given in arguments.values(SECTION.name) {
        planes.extend(cut_plane::parse(given).map_err(|fault| fault.of(SECTION.name))?);
    }
    Ok(planes)
}

/// How the sections are to look, of an input with this name.
pub fn look(arguments: &Arguments, name: &str) -> Result<Look, Fault> {
    let sheets: Vec<&str> = SHEETS.iter().map(|sheet| sheet.name).collect();
    let sheet = Sheet::named(arguments.value(SHEET.name).unwrap_or("a4"))
        .ok_or_else(|| Fault::usage(format!("{} is one of {}", SHEET.name, sheets.join(", "))))?;
    let scale = arguments.value(SCALE.name).map(|given| {
        let scale = Scale::parse(given);
        scale.ok_or_else(|| Fault::usage(format!("{} is two numbers as 1:5", SCALE.name)))
    });
    let water = match arguments.value(WATER.name) {
        None => None,
        Some("0") => Some(0),
        Some("1") => Some(1),
        Some(_) => return Err(Fault::usage(format!("{} is 0 or 1", WATER.name))),
    };
    Ok(Look {
        sheet,
        scale: scale.transpose()?,
        unit: unit(arguments)?,
        grid: grid_lines(arguments)?,
        crossings: arguments.has(CROSSINGS.name),
        water,
        name: short_name(name),
    })
}

/// The last part of a file's name.
fn short_name(name: &str) -> String {
    let last = name.rsplit('/').next().unwrap_or(name);
    last.chars()
        .filter(|of| !of.is_control())
        .take(40)
        .collect()
}

/// Draws a sheet for each plane, of a mesh from the input with this name.
pub fn draw(
    arguments: &Arguments,
    whole: Whole<'_>,
    name: &str,
    planes: &[CutPlane],
) -> Result<(), Fault> {
    let look = look(arguments, name)?;
    let draw = |plane| picture(&whole, plane, &look).map_err(|fault| fault.of(name));
    let sheets: Vec<String> = planes.iter().map(draw).collect::<Result<_, _>>()?;
    if let [sheet] = &sheets[..] {
        return write_output(arguments, sheet.as_bytes());
    }
    let output = arguments.path(OUTPUT.name).filter(|name| *name != "-");
    let output = output.ok_or_else(|| {
        let what = "several sections are several files: --output film.svg names film-1.svg, ..";
        Fault::usage(what)
    })?;
    for (at, sheet) in sheets.iter().enumerate() {
        let file = numbered(output, at + 1, sheets.len());
        files::write(Some(&file), sheet.as_bytes())?;
    }
    let ends = [1, sheets.len()].map(|at| numbered(output, at, sheets.len()));
    let [first, last] = ends.map(|file| file_name(&file));
    note(format!("{} sheets, {first} to {last}", sheets.len()));
    Ok(())
}

/// The name of one of several files: film.svg as film-07.svg, with as many digits as
/// the last one has, so that names have the order of the planes.
fn numbered(output: &OsStr, at: usize, of: usize) -> OsString {
    let digits = of.to_string().len();
    let path = Path::new(output);
    let mut name = path.file_stem().unwrap_or(output).to_os_string();
    name.push(format!("-{at:0digits$}"));
    if let Some(ending) = path.extension() {
        name.push(".");
        name.push(ending);
    }
    path.with_file_name(name).into_os_string()
}
