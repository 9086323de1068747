//! What pictures are put together from: numbered crossings, marks of unjoined ones,
//! names of nodes, and the head of a picture.

use crate::calls::Why;
use crate::plane::Point;
use crate::svg::{Label, Stroke, Svg, BLACK, VERMILION};

/// A crossing with its number.
pub fn draw_number(svg: &mut Svg, at: Point, number: usize, radius: f64) {
    let text = number.to_string();
    let size = (1.15 * radius).min(2.5 * radius / text.len() as f64);
    svg.disc(
        at,
        radius,
        "#ffffff",
        Stroke::solid(BLACK, 1.2_f64.min(0.15 * radius)),
    );
    svg.text(at, Label::middle(&text, size));
}

/// A crossing without a number.
pub fn draw_ring(svg: &mut Svg, at: Point, radius: f64) {
    svg.disc(at, radius, "#ffffff", Stroke::solid(BLACK, 0.4 * radius));
}

/// The mark of an unjoined crossing: a cross where rule 2 left it, a square where
/// rule 3 skipped it.
pub fn draw_unjoined(svg: &mut Svg, at: Point, why: Why, half: f64) {
    let stroke = Stroke::solid(VERMILION, 0.44 * half);
    let corner = |x, y| at + Point::new(half * x, half * y);
    let [a, b, c, d] = [
        corner(-1.0, -1.0),
        corner(1.0, -1.0),
        corner(1.0, 1.0),
        corner(-1.0, 1.0),
    ];
    match why {
        Why::Left => {
            svg.line([a, c], stroke);
            svg.line([b, d], stroke);
        }
        Why::Skipped => svg.polygon(&[a, b, c, d], "#ffffff", 1.0, stroke),
    }
}

/// Draws a title and a line below it.
pub fn draw_head(svg: &mut Svg, title: &str, below: &str) {
    svg.text(Point::new(24.0, 30.0), Label::start(title, 17.0).bold());
    svg.text(Point::new(24.0, 50.0), Label::start(below, 13.0));
}

/// Draws the name of a node beside its corner.
pub fn draw_node(svg: &mut Svg, at: Point, away: Point, node: u16) {
    let text = format!("node {node}");
    svg.text_beside(at, away, Label::middle(&text, 14.0).bold());
}
