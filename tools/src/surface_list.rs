//! The surfaces of a placed mesh as a list, in words or as JSON.

use std::fmt::Write;

use crate::digits::significant;
use crate::loops::counted;
use crate::measures::Measure;
use crate::orientation::Winding;
use crate::placed_mesh::PlacedMesh;
use crate::space::Place;
use crate::surfaces::Surface;

/// A surface in few words, for lists and legends.
pub fn shape_in_words(surface: &Surface) -> String {
    let side = if surface.one_sided {
        ", one side only"
    } else {
        ""
    };
    match surface.is_closed() {
        true => format!("closed{side}"),
        false => format!("open{side}"),
    }
}

/// The volume of a closed surface, or the area of another, with four digits.
pub fn size_in_words(measure: &Measure, unit: &str) -> String {
    match measure.volume {
        Some(volume) => format!("volume {} {unit}³", digits(volume.abs(), 4)),
        None => format!("area {} {unit}²", digits(measure.area, 4)),
    }
}

/// What is known of each surface: a line for it, and its measures below.
pub fn in_words(placed: &PlacedMesh) -> String {
    let list = &placed.surfaces.list;
    let triangles = counted(placed.mesh.size(), "triangle");
    let mut out = format!("{} of {triangles}\n", counted(list.len(), "surface"));
    let measures = placed.measures();
    for (at, (surface, measure)) in list.iter().zip(&measures).enumerate() {
        add(&mut out, format_args!("surface {at}: {}", whole(surface)));
        add(
            &mut out,
            format_args!("  {}", winding_in_words(placed.orientation.of[at])),
        );
        add(
            &mut out,
            format_args!("  area {}, {}", short(measure.area), box_in_words(measure)),
        );
        if let Some(volume) = measure.volume {
            add(
                &mut out,
                format_args!(
                    "  volume {}, Euler number {}",
                    short(volume),
                    surface.euler()
                ),
            );
        }
    }
    out
}

fn add(out: &mut String, line: std::fmt::Arguments<'_>) {
    writeln!(out, "{line}").expect("a string takes any text");
}

fn whole(surface: &Surface) -> String {
    let mut words = vec![
        counted(surface.triangles, "triangle"),
        shape_in_words(surface),
    ];
    if !surface.is_closed() {
        words.push(counted(surface.open_sides, "open side"));
        words.push(counted(surface.holes, "hole"));
    }
    if surface.crowded_sides > 0 {
        let sides = counted(surface.crowded_sides, "side");
        words.push(format!("{sides} in more than two triangles"));
    }
    words.join(", ")
}

fn winding_in_words(winding: Winding) -> &'static str {
    match winding {
        Winding::Shaded => "wound counter-clockwise as seen from side 0",
        Winding::Alike => "wound alike throughout; no shading tells its sides",
        Winding::OneSided => "one side only: wound as the mesh has it",
        Winding::AsIs => "wound as the mesh has it",
    }
}

fn box_in_words(measure: &Measure) -> String {
    let along = |axis: usize| {
        format!(
            "{} to {}",
            short(measure.low[axis]),
            short(measure.high[axis])
        )
    };
    let [x, y, z] = [0, 1, 2].map(along);
    format!("box x {x}, y {y}, z {z}")
}

/// A number with six significant digits, and no zeros at its end.
pub fn short(number: f64) -> String {
    digits(number, 6)
}

/// A number with so many significant digits, and no zeros at its end.
pub fn digits(number: f64, significant: i32) -> String {
    let decimals = match number.abs() {
        size if size > 0.0 && size.is_finite() => {
            (significant - 1 - size.log10().floor() as i32).clamp(0, 12)
        }
        _ => 0,
    };
    let text = format!("{number:.*}", decimals as usize);
    let text = match text.contains('.') {
        true => text.trim_end_matches('0').trim_end_matches('.'),
        false => &text,
    };
    match text {
        "-0" => "0".to_string(),
        _ => text.to_string(),
    }
}

/// The same as JSON.
pub fn json(placed: &PlacedMesh) -> String {
    let list = &placed.surfaces.list;
    let measures = placed.measures();
    let each = list.iter().zip(&measures).zip(&placed.orientation.of);
    let objects: Vec<String> = each
        .map(|((surface, measure), &winding)| object(surface, measure, winding))
        .collect();
    format!(
        "{{\"triangles\": {}, \"surfaces\": [\n{}\n]}}\n",
        placed.mesh.size(),
        objects.join(",\n")
    )
}

fn object(surface: &Surface, measure: &Measure, winding: Winding) -> String {
    let wound = match winding {
        Winding::Shaded => "side 0",
        Winding::Alike => "alike",
        Winding::OneSided | Winding::AsIs => "as is",
    };
    let volume = measure.volume.map_or("null".to_string(), significant);
    format!(
        "{{\"first\": {}, \"triangles\": {}, \"closed\": {}, \"one_sided\": {}, \
         \"open_sides\": {}, \"crowded_sides\": {}, \"holes\": {}, \"points\": {}, \"euler\": {}, \
         \"wound\": \"{wound}\", \"area\": {}, \"low\": {}, \"high\": {}, \"volume\": {volume}}}",
        surface.first,
        surface.triangles,
        surface.is_closed(),
        surface.one_sided,
        surface.open_sides,
        surface.crowded_sides,
        surface.holes,
        surface.points,
        surface.euler(),
        significant(measure.area),
        place(measure.low),
        place(measure.high),
    )
}

fn place(of: Place) -> String {
    format!("[{}]", of.map(significant).join(", "))
}
