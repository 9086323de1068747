//! The legend below a picture: marks, each with its words.

use crate::calls::Why;
use crate::marks::{draw_number, draw_ring, draw_unjoined};
use crate::plane::Point;
use crate::svg::{Label, Stroke, Svg, BLACK};

/// What stands before the words.
#[derive(Clone, Copy, Debug, PartialEq)]
pub enum Mark {
    Line(Stroke),
    Patch(&'static str),
    Unjoined(Why),
    Number,
    Dot(f64),
    Ring(f64),
    Nothing,
}

/// A line of the legend.
#[derive(Clone, Debug, PartialEq)]
pub struct Entry {
    pub mark: Mark,
    pub words: String,
}

impl Entry {
    pub fn new(mark: Mark, words: impl Into<String>) -> Entry {
        Entry {
            mark,
            words: words.into(),
        }
    }
}

const LINE: f64 = 22.0;
const SIZE: f64 = 13.0;

/// The height of a legend with so many lines.
pub fn height(entries: &[Entry]) -> f64 {
    LINE * entries.len() as f64 + 16.0
}

/// The height of a line.
pub fn line_height() -> f64 {
    LINE
}

/// Draws the legend downwards from a place.
pub fn draw(svg: &mut Svg, from: Point, entries: &[Entry]) {
    draw_sized(svg, from, entries, 1.0);
}

/// The same, so many times as large. Strokes have the width that they state.
pub fn draw_sized(svg: &mut Svg, from: Point, entries: &[Entry], by: f64) {
    for (at, entry) in entries.iter().enumerate() {
        let middle = from + Point::new(0.0, by * LINE * (at as f64 + 0.5));
        draw_mark(svg, middle, entry.mark, by);
        let words = match entry.mark {
            Mark::Nothing => middle,
            _ => middle + Point::new(by * 48.0, 0.0),
        };
        let label = Label::start(&entry.words, by * SIZE);
        svg.text(words + Point::new(0.0, by * 0.36 * SIZE), label);
    }
}

fn draw_mark(svg: &mut Svg, left: Point, mark: Mark, by: f64) {
    let right = left + Point::new(by * 36.0, 0.0);
    let centre = left + Point::new(by * 18.0, 0.0);
    match mark {
        Mark::Line(stroke) => svg.line([left, right], stroke),
        Mark::Patch(colour) => {
            let corner = |x, y| centre + Point::new(by * 12.0 * x, by * 7.0 * y);
            let corners = [
                corner(-1.0, -1.0),
                corner(1.0, -1.0),
                corner(1.0, 1.0),
                corner(-1.0, 1.0),
            ];
            svg.polygon(&corners, colour, 1.0, Stroke::solid(BLACK, by * 0.8));
        }
        Mark::Unjoined(why) => draw_unjoined(svg, centre, why, by * 5.0),
        Mark::Number => draw_number(svg, centre, 7, by * 8.0),
        Mark::Dot(radius) => svg.disc(centre, radius, BLACK, Stroke::solid(BLACK, 0.4 * radius)),
        Mark::Ring(radius) => draw_ring(svg, centre, radius),
        Mark::Nothing => {}
    }
}
