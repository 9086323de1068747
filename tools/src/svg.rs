//! An SVG picture as text, and the colours and strokes that pictures use.

use std::fmt::{self, Write};

use crate::plane::Point;

/// Colours that people with any kind of colour vision tell apart (Okabe and Ito).
pub const BLUE: &str = "#0072b2";
pub const VERMILION: &str = "#d55e00";
pub const GREEN: &str = "#009e73";
pub const ORANGE: &str = "#e69f00";
pub const SKY: &str = "#56b4e9";
pub const YELLOW: &str = "#f0e442";
pub const PURPLE: &str = "#cc79a7";
pub const BLACK: &str = "#000000";
pub const GREY: &str = "#767676";

/// How a line is drawn. Dashes tell lines apart where colours are not printed.
#[derive(Clone, Copy, Debug, PartialEq)]
pub struct Stroke {
    pub colour: &'static str,
    pub width: f64,
    pub dashes: &'static str,
}

impl Stroke {
    pub const fn solid(colour: &'static str, width: f64) -> Stroke {
        Stroke {
            colour,
            width,
            dashes: "",
        }
    }
}

impl fmt::Display for Stroke {
    fn fmt(&self, out: &mut fmt::Formatter<'_>) -> fmt::Result {
        write!(
            out,
            r#"stroke="{}" stroke-width="{}""#,
            self.colour,
            Short(self.width)
        )?;
        match self.dashes {
            "" => Ok(()),
            dashes => write!(out, r#" stroke-dasharray="{dashes}""#),
        }
    }
}

/// A number with at most two digits after the point.
struct Short(f64);

impl fmt::Display for Short {
    fn fmt(&self, out: &mut fmt::Formatter<'_>) -> fmt::Result {
        let rounded = (self.0 * 100.0).round() / 100.0;
        // no negative zero
        write!(out, "{}", rounded + 0.0)
    }
}

struct At(Point);

impl fmt::Display for At {
    fn fmt(&self, out: &mut fmt::Formatter<'_>) -> fmt::Result {
        write!(out, "{} {}", Short(self.0.x), Short(self.0.y))
    }
}

/// A point to the thousandth, for sheets in millimetres.
struct Fine(Point);

impl fmt::Display for Fine {
    fn fmt(&self, out: &mut fmt::Formatter<'_>) -> fmt::Result {
        let [x, y] = [self.0.x, self.0.y].map(|of| (of * 1e3).round() / 1e3 + 0.0);
        write!(out, "{x} {y}")
    }
}

/// Where a text stands at its point.
#[derive(Clone, Copy, Debug, PartialEq, Eq)]
enum Anchor {
    Start,
    Middle,
    End,
}

/// A line of text.
#[derive(Clone, Copy, Debug)]
pub struct Label<'a> {
    text: &'a str,
    size: f64,
    anchor: Anchor,
    bold: bool,
}

impl<'a> Label<'a> {
    /// A text that starts at its point.
    pub fn start(text: &'a str, size: f64) -> Label<'a> {
        Label {
            text,
            size,
            anchor: Anchor::Start,
            bold: false,
        }
    }

    /// A text with its middle at its point.
    pub fn middle(text: &'a str, size: f64) -> Label<'a> {
        Label {
            anchor: Anchor::Middle,
            ..Label::start(text, size)
        }
    }

    /// A text that ends at its point, centred in height.
    pub fn end(text: &'a str, size: f64) -> Label<'a> {
        Label {
            anchor: Anchor::End,
            ..Label::start(text, size)
        }
    }

    /// About how wide it is.
    pub fn width(&self) -> f64 {
        let letter = if self.bold { 0.66 } else { 0.6 };
        letter * self.size * self.text.chars().count() as f64
    }

    pub fn bold(self) -> Label<'a> {
        Label { bold: true, ..self }
    }
}

/// A picture.
pub struct Svg {
    width: f64,
    height: f64,
    /// The unit of the picture's size: none is a pixel.
    unit: &'static str,
    title: String,
    body: String,
}

impl Svg {
    pub fn new(width: f64, height: f64, title: &str) -> Svg {
        Svg {
            width,
            height,
            unit: "",
            title: title.to_string(),
            body: String::new(),
        }
    }

    /// A sheet, in millimetres.
    pub fn sheet(width: f64, height: f64, title: &str) -> Svg {
        Svg {
            unit: "mm",
            ..Svg::new(width, height, title)
        }
    }

    fn add(&mut self, element: fmt::Arguments<'_>) {
        writeln!(self.body, "{element}").expect("a string takes any text");
    }

    pub fn line(&mut self, [from, to]: [Point; 2], stroke: Stroke) {
        self.add(format_args!(
            r#"<path d="M {} L {}" fill="none" {stroke}/>"#,
            At(from),
            At(to)
        ));
    }

    /// A line through points to the thousandth, closed or not.
    pub fn curve(&mut self, points: &[Point], closed: bool, stroke: Stroke) {
        let (path, end) = (path(points), if closed { " Z" } else { "" });
        self.add(format_args!(
            r#"<path d="{path}{end}" fill="none" {stroke}/>"#
        ));
    }

    /// What an odd number of rings surrounds.
    pub fn area(&mut self, rings: &[Vec<Point>], fill: &str, opacity: f64) {
        let rings: String = rings.iter().map(|ring| path(ring) + " Z ").collect();
        let opacity = Short(opacity);
        self.add(format_args!(
            r#"<path d="{}" fill="{fill}" fill-opacity="{opacity}" fill-rule="evenodd" stroke="none"/>"#,
            rings.trim_end()
        ));
    }

    /// A curve with one control point.
    pub fn bow(&mut self, [from, control, to]: [Point; 3], stroke: Stroke) {
        let (from, control, to) = (At(from), At(control), At(to));
        self.add(format_args!(
            r#"<path d="M {from} Q {control} {to}" fill="none" {stroke}/>"#
        ));
    }

    /// A curve with two control points.
    pub fn arc(&mut self, [from, one, other, to]: [Point; 4], stroke: Stroke) {
        let (from, one, other, to) = (At(from), At(one), At(other), At(to));
        self.add(format_args!(
            r#"<path d="M {from} C {one} {other} {to}" fill="none" {stroke}/>"#
        ));
    }

    pub fn polygon(&mut self, corners: &[Point], fill: &str, opacity: f64, stroke: Stroke) {
        let points: Vec<String> = corners
            .iter()
            .map(|&corner| At(corner).to_string())
            .collect();
        let (points, opacity) = (points.join(" L "), Short(opacity));
        self.add(format_args!(
            r#"<path d="M {points} Z" fill="{fill}" fill-opacity="{opacity}" {stroke}/>"#
        ));
    }

    /// Rings of points, filled where an odd number of them surrounds a place.
    pub fn facet(&mut self, rings: &[Vec<Point>], fill: &str, opacity: f64, stroke: Stroke) {
        let ring = |ring: &Vec<Point>| {
            let points: Vec<String> = ring.iter().map(|&at| At(at).to_string()).collect();
            format!("M {} Z", points.join(" "))
        };
        let rings: Vec<String> = rings.iter().map(ring).collect();
        let (rings, opacity) = (rings.join(" "), Short(opacity));
        self.add(format_args!(
            r#"<path d="{rings}" fill="{fill}" fill-opacity="{opacity}" fill-rule="evenodd" {stroke}/>"#
        ));
    }

    pub fn disc(&mut self, at: Point, radius: f64, fill: &str, stroke: Stroke) {
        let (x, y, radius) = (Short(at.x), Short(at.y), Short(radius));
        self.add(format_args!(
            r#"<circle cx="{x}" cy="{y}" r="{radius}" fill="{fill}" {stroke}/>"#
        ));
    }

    /// A text; `Middle` also centres it in height.
    pub fn text(&mut self, at: Point, label: Label<'_>) {
        let (anchor, drop) = match label.anchor {
            Anchor::Start => ("start", 0.0),
            Anchor::Middle => ("middle", 0.36 * label.size),
            Anchor::End => ("end", 0.36 * label.size),
        };
        let weight = if label.bold {
            r#" font-weight="bold""#
        } else {
            ""
        };
        let (x, y, size) = (Short(at.x), Short(at.y + drop), Short(label.size));
        let set = format!(r#"font-size="{size}" text-anchor="{anchor}"{weight}"#);
        let text = escaped(label.text);
        self.add(format_args!(r#"<text x="{x}" y="{y}" {set}>{text}</text>"#));
    }

    /// A text with its middle at a point, where curves pass behind it.
    pub fn text_on_white(&mut self, at: Point, label: Label<'_>) {
        let half = Point::new(0.5, 0.5) * (0.2 * label.size)
            + Point::new(0.5 * label.width(), 0.5 * label.size);
        let corner = |x: f64, y: f64| at + Point::new(x * half.x, y * half.y);
        let corners = [
            corner(-1.0, -1.0),
            corner(1.0, -1.0),
            corner(1.0, 1.0),
            corner(-1.0, 1.0),
        ];
        self.polygon(&corners, "#ffffff", 0.85, Stroke::solid("none", 0.0));
        self.text(at, label);
    }

    /// A text that starts at a point and runs in this direction, or where it would
    /// stand on its head, runs to the point from there.
    pub fn text_turned(&mut self, at: Point, along: Point, label: Label<'_>) {
        let back = along.x < -1e-9;
        let along = if back { along * -1.0 } else { along };
        let turn = along.y.atan2(along.x).to_degrees();
        let (x, y, size) = (Short(at.x), Short(at.y), Short(label.size));
        let (anchor, text) = (if back { "end" } else { "start" }, escaped(label.text));
        let drop = Short(0.36 * label.size);
        self.add(format_args!(
            r#"<text transform="translate({x} {y}) rotate({})" x="0" y="{drop}" font-size="{size}" text-anchor="{anchor}">{text}</text>"#,
            Short(turn)
        ));
    }

    /// A text whose nearest rim is at a point, in this direction from it.
    pub fn text_away(&mut self, at: Point, away: Point, label: Label<'_>) {
        let away = away.unit();
        let half = Point::new(0.5 * label.width(), 0.5 * label.size);
        self.text(at + Point::new(away.x * half.x, away.y * half.y), label);
    }

    /// A text beside a point, in this direction from it.
    pub fn text_beside(&mut self, at: Point, away: Point, label: Label<'_>) {
        let away = away.unit();
        let aside = away.x * (0.5 * label.width() + 12.0);
        let up = away.y * (0.5 * label.size + 14.0);
        self.text(at + Point::new(aside, up), label);
    }

    /// The whole picture.
    pub fn finish(self) -> String {
        let (width, height) = (Short(self.width), Short(self.height));
        let (unit, title, body) = (self.unit, escaped(&self.title), self.body);
        format!(
            "<?xml version=\"1.0\" encoding=\"UTF-8\"?>\n\
             <svg xmlns=\"http://www.w3.org/2000/svg\" width=\"{width}{unit}\" height=\"{height}{unit}\" \
             viewBox=\"0 0 {width} {height}\" font-family=\"DejaVu Sans, Arial, sans-serif\" \
             stroke-linecap=\"round\" stroke-linejoin=\"round\">\n\
             <title>{title}</title>\n\
             <rect width=\"{width}\" height=\"{height}\" fill=\"#ffffff\"/>\n\
             {body}</svg>\n"
        )
    }
}

/// The path through points.
fn path(points: &[Point]) -> String {
    let points: Vec<String> = points
        .iter()
        .map(|&point| Fine(point).to_string())
        .collect();
    format!("M {}", points.join(" L "))
}

fn escaped(text: &str) -> String {
    text.replace('&', "&amp;")
        .replace('<', "&lt;")
        .replace('>', "&gt;")
}
