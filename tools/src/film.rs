//! Ruled film: a sheet of paper in millimetres with a window ruled at 1, 5 and 10 mm,
//! axes with numbers, a head, a legend and a bar to check a print by. What is drawn on
//! it is given in the plane of the drawing, in units of length, and stands to scale.
//!
//! Use: `Film::new` with a `Setup`; then areas (`area`), then `rule`, then lines and
//! marks (`curve`, `dot`, `numbers`); then `finish`.

use std::collections::HashSet;

use crate::fault::Fault;
use crate::labels::{Aside, Labels};
use crate::legend::{self, Entry};
use crate::plane::Point;
use crate::surface_list::short;
use crate::svg::{Label, Stroke, Svg, BLACK, GREY};

/// A place in the plane of a drawing, in units: to the right and upwards.
pub type Flat = [f64; 2];

/// A unit of length.
#[derive(Clone, Copy, Debug, PartialEq)]
pub struct Unit {
    pub name: &'static str,
    pub millimetres: f64,
}

pub const UNITS: [Unit; 5] = [
    unit("mm", 1.0),
    unit("cm", 10.0),
    unit("dm", 100.0),
    unit("m", 1_000.0),
    unit("km", 1_000_000.0),
];

const fn unit(name: &'static str, millimetres: f64) -> Unit {
    Unit { name, millimetres }
}

impl Unit {
    pub fn named(name: &str) -> Option<Unit> {
        UNITS.into_iter().find(|unit| unit.name == name)
    }
}

/// A sheet of paper, upright, in millimetres.
#[derive(Clone, Copy, Debug, PartialEq)]
pub struct Sheet {
    pub name: &'static str,
    width: f64,
    height: f64,
}

pub const SHEETS: [Sheet; 5] = [
    sheet("a4", 210.0, 297.0),
    sheet("a3", 297.0, 420.0),
    sheet("a2", 420.0, 594.0),
    sheet("a1", 594.0, 841.0),
    sheet("letter", 215.9, 279.4),
];

const fn sheet(name: &'static str, width: f64, height: f64) -> Sheet {
    Sheet {
        name,
        width,
        height,
    }
}

impl Sheet {
    pub fn named(name: &str) -> Option<Sheet> {
        SHEETS.into_iter().find(|sheet| sheet.name == name)
    }

    fn landscape(self) -> Sheet {
        sheet(self.name, self.height, self.width)
    }
}

/// How much is drawn as how much: 1:5 is `Scale { drawn: 1.0, real: 5.0 }`.
#[derive(Clone, Copy, Debug, PartialEq)]
pub struct Scale {
    pub drawn: f64,
    pub real: f64,
}

impl Scale {
    /// The scale of a text as 1:5 or 2:1.
    pub fn parse(text: &str) -> Option<Scale> {
        let (drawn, real) = text.split_once(':')?;
        let number = |text: &str| {
            text.trim()
                .parse()
                .ok()
                .filter(|of| (1e-9..1e9).contains(of))
        };
        Some(Scale {
            drawn: number(drawn)?,
            real: number(real)?,
        })
    }

    /// Millimetres on the sheet for a unit of the drawing.
    fn millimetres(self, unit: Unit) -> f64 {
        unit.millimetres * self.drawn / self.real
    }

    fn in_words(self) -> String {
        format!("{}:{}", short(self.drawn), short(self.real))
    }

    /// Scales with short numbers, from large drawings to small ones.
    fn all() -> impl Iterator<Item = Scale> {
        let steps = [1.0, 1.5, 2.0, 2.5, 3.0, 4.0, 5.0, 6.0, 8.0];
        let tens = (-9..=9).flat_map(move |ten| steps.map(|step| (step, ten)));
        tens.map(|(step, ten)| match ten {
            0.. => Scale {
                drawn: 1.0,
                real: step * f64::powi(10.0, ten),
            },
            _ => Scale {
                drawn: f64::powi(10.0, -ten) / step,
                real: 1.0,
            },
        })
    }
}

/// What a film is to show.
#[derive(Clone, Debug)]
pub struct Setup {
    pub sheet: Sheet,
    /// The scale, or the largest of those with short numbers that fits.
    pub scale: Option<Scale>,
    pub unit: Unit,
    pub title: String,
    pub below: String,
    /// What the window must hold.
    pub low: Flat,
    pub high: Flat,
    /// The names of the axes, to the right and upwards.
    pub axes: [String; 2],
    pub entries: Vec<Entry>,
}

/// Millimetres round the sheet, above the window, left of it and below it.
const MARGIN: f64 = 10.0;
const HEAD: f64 = 18.5;
const LEFT: f64 = 13.0;
const BELOW: f64 = 13.0;
const FOOT: f64 = 11.0;
/// The size of a legend against that of pictures in pixels.
const LEGEND: f64 = 0.225;
const COLUMNS: usize = 2;
/// More lines of a legend would leave no room for the film.
const MOST_ENTRIES: usize = 24;

/// The rules, the finest first: their distance and their stroke.
const RULES: [(usize, Stroke); 3] = [
    (1, Stroke::solid("#eddcc6", 0.08)),
    (5, Stroke::solid("#e2c6a3", 0.14)),
    (10, Stroke::solid("#cfa577", 0.24)),
];

const NUMBER: f64 = 2.7;

/// A film that is being drawn on.
pub struct Film {
    svg: Svg,
    setup: Setup,
    scale: Scale,
    /// Millimetres for a unit.
    by: f64,
    /// The window on the sheet: its upper left corner, and its size in centimetres.
    corner: Point,
    wide: usize,
    high: usize,
    /// The lines of 10 mm at the window's left and lower rim, counted from the axes.
    first: [f64; 2],
    page: Sheet,
}

impl Setup {
    /// Leaves as many lines of the legend as there is room for, the last saying how many
    /// more there are.
    fn shorten_legend(&mut self) {
        if self.entries.len() > MOST_ENTRIES {
            let more = self.entries.len() - MOST_ENTRIES + 1;
            self.entries.truncate(MOST_ENTRIES - 1);
            let words = format!("and {more} more lines");
            self.entries.push(Entry::new(legend::Mark::Nothing, words));
        }
    }

    /// The scale given, or else the largest that fits, and the sheet upright or else across;
    /// none where there is no room.
    fn fitting(&self) -> Option<(Scale, Sheet)> {
        let pages = [self.sheet, self.sheet.landscape()];
        let fitting = |scale: Scale| {
            let fits = |page: &&Sheet| Window::of(self, scale).fits(self, **page);
            pages.iter().find(fits).map(|&page| (scale, page))
        };
        match self.scale {
            Some(scale) => fitting(scale),
            None => Scale::all().find_map(fitting),
        }
    }
}

impl Film {
    /// An empty film. Refused where the scale given leaves no room on the sheet.
    pub fn new(mut setup: Setup) -> Result<Film, Fault> {
        setup.shorten_legend();
        let (scale, page) = setup.fitting().ok_or_else(|| no_room(&setup))?;
        let window = Window::of(&setup, scale);
        let mut svg = Svg::sheet(page.width, page.height, &setup.title);
        let room = page.width - 2.0 * MARGIN - LEFT;
        let aside = (room - 10.0 * window.wide as f64) / 2.0;
        let corner = Point::new(MARGIN + LEFT + aside.max(0.0), MARGIN + HEAD);
        let left = corner.x - LEFT;
        let title = format!("{}, scale {}", setup.title, scale.in_words());
        svg.text(
            Point::new(left, MARGIN + 5.0),
            Label::start(&title, 5.0).bold(),
        );
        svg.text(
            Point::new(left, MARGIN + 10.5),
            Label::start(&setup.below, 3.0),
        );
        Ok(Film {
            svg,
            by: scale.millimetres(setup.unit),
            scale,
            corner,
            wide: window.wide,
            high: window.high,
            first: window.first,
            page,
            setup,
        })
    }

    /// The scale that the film has, in words.
    pub fn scale_in_words(&self) -> String {
        self.scale.in_words()
    }

    /// Where a place of the drawing is on the sheet.
    pub fn at(&self, [right, up]: Flat) -> Point {
        let bottom = self.corner.y + 10.0 * self.high as f64;
        Point::new(
            self.corner.x + self.by * right - 10.0 * self.first[0],
            bottom - (self.by * up - 10.0 * self.first[1]),
        )
    }

    /// Fills what an odd number of rings surrounds.
    pub fn area(&mut self, rings: &[Vec<Flat>], fill: &str, opacity: f64) {
        let rings: Vec<Vec<Point>> = rings.iter().map(|ring| self.all_at(ring)).collect();
        self.svg.area(&rings, fill, opacity);
    }

    fn all_at(&self, places: &[Flat]) -> Vec<Point> {
        places.iter().map(|&place| self.at(place)).collect()
    }

    /// Draws the rules over what is there.
    pub fn rule(&mut self) {
        let (width, height) = (10 * self.wide, 10 * self.high);
        let mut drawn = HashSet::new();
        let coarsest_first = RULES.iter().rev();
        let mut lines = Vec::new();
        for (index, (step, _)) in coarsest_first.enumerate() {
            for (upright, length) in [(true, width), (false, height)] {
                for at in (0..=length).step_by(*step) {
                    if drawn.insert((upright, at)) {
                        lines.push((index, upright, at));
                    }
                }
            }
        }
        // the finest are drawn first
        for (index, upright, at) in lines.into_iter().rev() {
            let (_, stroke) = RULES[RULES.len() - 1 - index];
            let (at, far) = (at as f64, if upright { height } else { width } as f64);
            let ends = match upright {
                true => [Point::new(at, 0.0), Point::new(at, far)],
                false => [Point::new(0.0, at), Point::new(far, at)],
            };
            self.svg.line(ends.map(|end| self.corner + end), stroke);
        }
        self.number_axes();
    }

    /// A line through places, closed or not.
    pub fn curve(&mut self, places: &[Flat], closed: bool, stroke: Stroke) {
        let points = self.all_at(places);
        self.svg.curve(&points, closed, stroke);
    }

    /// A mark at a place, with its radius in millimetres.
    pub fn dot(&mut self, place: Flat, radius: f64, fill: &str) {
        let at = self.at(place);
        self.svg.disc(at, radius, fill, Stroke::solid(BLACK, 0.15));
    }

    /// Names beside their places and clear of lines, set aside with leader lines where
    /// there is no room close by.
    pub fn names<'a>(
        &mut self,
        named: &[(Flat, String)],
        clear_of: impl Iterator<Item = &'a [Flat]>,
    ) {
        let far = Point::new(10.0 * self.wide as f64, 10.0 * self.high as f64);
        let mut labels = Labels::within(self.corner, self.corner + far, 2.2);
        for line in clear_of {
            labels.keep_clear(&self.all_at(line));
        }
        for (place, name) in named {
            labels.add(Aside::new(self.at(*place), name));
        }
        labels.draw(&mut self.svg, 0.1);
    }

    /// Numbers at the rules of 10 mm, and the names of the axes.
    fn number_axes(&mut self) {
        let size = Point::new(10.0 * self.wide as f64, 10.0 * self.high as f64);
        let corner = self.corner;
        let lines = [self.wide, self.high];
        let numbers = [0, 1].map(|axis| self.axis_numbers(axis, lines[axis]));
        for (at, number) in &numbers[0] {
            let place = corner + Point::new(10.0 * *at as f64, size.y + 3.4);
            self.svg.text(place, Label::middle(number, NUMBER));
        }
        for (at, number) in &numbers[1] {
            let place = corner + Point::new(-1.6, size.y - 10.0 * *at as f64);
            self.svg.text(place, Label::end(number, NUMBER));
        }
        let unit = self.setup.unit.name;
        let [right, up] = self
            .setup
            .axes
            .clone()
            .map(|name| format!("{name}, {unit}"));
        let below = corner + Point::new(size.x / 2.0, size.y + 8.2);
        self.svg.text(below, Label::middle(&right, 3.2).bold());
        self.svg.text(
            corner + Point::new(-LEFT, -2.2),
            Label::start(&up, 3.2).bold(),
        );
    }

    /// The rules of 10 mm that have a number, counted in the window, each with it.
    fn axis_numbers(&self, axis: usize, lines: usize) -> Vec<(usize, String)> {
        let number = |at: usize| short((self.first[axis] + at as f64) * 10.0 / self.by);
        let all: Vec<String> = (0..=lines).map(number).collect();
        let widest = all.iter().map(|text| Label::start(text, NUMBER).width());
        let widest = widest.fold(0.0, f64::max);
        // every one, every second or every fifth, from the axis on
        let steps = [1, 2, 5, 10, 20];
        let fits = |step: &&usize| axis == 1 || widest + 1.5 < 10.0 * **step as f64;
        let step = *steps.iter().find(fits).unwrap_or(&20) as f64;
        let shown = |at: &usize| (self.first[axis] + *at as f64) % step == 0.0;
        let with_number = (0..=lines).filter(shown);
        with_number.map(|at| (at, all[at].clone())).collect()
    }

    /// A bar of the sheet's millimetres, to check a print by.
    fn draw_bar(&mut self, at: Point) {
        let stroke = Stroke::solid(BLACK, 0.25);
        self.svg.line([at, at + Point::new(50.0, 0.0)], stroke);
        for tick in 0..=5 {
            let foot = at + Point::new(10.0 * f64::from(tick), 0.0);
            self.svg.line([foot, foot + Point::new(0.0, -1.6)], stroke);
        }
        let (unit, real) = (self.setup.unit.name, short(50.0 / self.by));
        let text = format!("50 mm on this sheet are {real} {unit}, if it is printed at 100 %");
        self.svg
            .text(at + Point::new(53.0, 0.0), Label::start(&text, 3.0));
    }

    /// The whole sheet.
    pub fn finish(mut self) -> String {
        let left = self.corner.x - LEFT;
        let bottom = self.corner.y + 10.0 * self.high as f64 + BELOW;
        self.draw_bar(Point::new(self.corner.x, bottom + 2.5));
        let entries = std::mem::take(&mut self.setup.entries);
        let rows = (entries.len() + COLUMNS - 1) / COLUMNS;
        let column = (self.page.width - MARGIN - self.corner.x) / COLUMNS as f64;
        for (at, part) in entries.chunks(rows.max(1)).enumerate() {
            let from = Point::new(
                left.max(self.corner.x) + column * at as f64,
                bottom + FOOT - 4.0,
            );
            legend::draw_sized(&mut self.svg, from, part, LEGEND);
        }
        self.svg.finish()
    }
}

/// The window of a film: its size in centimetres of the sheet, and the lines of 10 mm
/// at its left and lower rim.
struct Window {
    wide: usize,
    high: usize,
    first: [f64; 2],
}

impl Window {
    fn of(setup: &Setup, scale: Scale) -> Window {
        let by = scale.millimetres(setup.unit) / 10.0;
        // what is at a line but for rounding is at it
        let first = setup.low.map(|low| (low * by + 1e-6).floor());
        let last = setup.high.map(|high| (high * by - 1e-6).ceil());
        let [wide, high] = [0, 1].map(|axis| (last[axis] - first[axis]).clamp(1.0, 1e6) as usize);
        Window { wide, high, first }
    }

    fn fits(&self, setup: &Setup, page: Sheet) -> bool {
        let [width, height] = room(setup, page);
        10.0 * self.wide as f64 <= width && 10.0 * self.high as f64 <= height
    }
}

/// The room for the window on a page.
fn room(setup: &Setup, page: Sheet) -> [f64; 2] {
    let rows = (setup.entries.len() + COLUMNS - 1) / COLUMNS;
    let legend = LEGEND * legend::line_height() * rows as f64;
    [
        page.width - 2.0 * MARGIN - LEFT,
        page.height - 2.0 * MARGIN - HEAD - BELOW - FOOT - legend,
    ]
}

fn no_room(setup: &Setup) -> Fault {
    let name = setup.sheet.name;
    let scale = match setup.scale {
        Some(scale) => scale,
        None => return Fault::new(format!("a drawing of this size fits on no {name} sheet")),
    };
    let window = Window::of(setup, scale);
    let [width, height] = room(setup, setup.sheet).map(|room| (room / 10.0).floor() * 10.0);
    let (wide, high, scale) = (10 * window.wide, 10 * window.high, scale.in_words());
    Fault::new(format!(
        "at {scale} the film is {wide} by {high} mm, and a {name} sheet has {width} by {height}: \
         take a smaller scale, or a larger sheet"
    ))
}

/// The stroke of a grid's edges on a film.
pub const FAINT: Stroke = Stroke::solid(GREY, 0.1);
