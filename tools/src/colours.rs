//! The colours of surfaces and of their two sides.

use crate::svg::{Stroke, BLUE, GREEN, ORANGE, PURPLE, SKY, VERMILION};

/// The first ten surfaces have colours of their own; then dashes change.
const SURFACES: [&str; 10] = [
    BLUE, VERMILION, GREEN, PURPLE, ORANGE, SKY, "#882255", "#332288", "#8a7a00", "#5e3c1a",
];

const DARK: [&str; 10] = [
    "#003f63", "#7a3600", "#005c43", "#7d3f62", "#855c00", "#24678f", "#4d1330", "#1c134d",
    "#4f4600", "#33200e",
];
const DASHES: [&str; 4] = ["", "1.8 0.9", "2.4 0.8 0.5 0.8", "0.7 0.7"];

/// The colour of a surface by its number.
pub fn of_surface(surface: usize) -> &'static str {
    SURFACES[surface % SURFACES.len()]
}

/// The same, darker, for its outline.
pub fn dark_of_surface(surface: usize) -> &'static str {
    DARK[surface % DARK.len()]
}

/// A colour in light from this part of full: from darker to lighter than it is.
pub fn lit(colour: &str, light: f64) -> String {
    let part = |at: usize| u8::from_str_radix(colour.get(at..at + 2).unwrap_or("80"), 16);
    let light = light.clamp(0.0, 1.0);
    let shade = |at: usize| {
        let full = f64::from(part(at).unwrap_or(128));
        let dark = 0.7 * full;
        let bright = full + 0.3 * (255.0 - full);
        (dark + light * (bright - dark)).round() as u8
    };
    let [red, green, blue] = [1, 3, 5].map(shade);
    format!("#{red:02x}{green:02x}{blue:02x}")
}

/// How a surface's line on film is dashed: in each run of ten surfaces alike.
pub fn dashes_of_surface(surface: usize) -> &'static str {
    DASHES[surface / SURFACES.len() % DASHES.len()]
}

/// The line of a surface on film.
pub fn film_stroke(surface: usize) -> Stroke {
    Stroke {
        colour: of_surface(surface),
        width: 0.45,
        dashes: dashes_of_surface(surface),
    }
}

/// The tints of sides 0 and 1.
pub const SIDES: [&str; 2] = ["#eef7fc", "#bfdff2"];
