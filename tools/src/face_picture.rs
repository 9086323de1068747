//! The picture of one face, and what it shares with that of a cell: curves, marks
//! and numbered crossings.

use crate::calls::{Grid, How, Why};
use crate::face_curves::{Curve, PlacedFace};
use crate::faces::{Face, Joining, Segment, ENDS};
use crate::legend::{self, Entry, Mark};
use crate::loops::counted;
use crate::marks::{draw_head, draw_node, draw_number, draw_unjoined};
use crate::plane::Point;
use crate::svg::{Label, Stroke, Svg, BLACK, BLUE, GREY, ORANGE, VERMILION};

pub const EDGE: Stroke = Stroke::solid(BLACK, 1.4);
const ROUND: Stroke = Stroke::solid(BLUE, 2.2);
const ALONG: Stroke = Stroke {
    colour: ORANGE,
    width: 2.6,
    dashes: "8 5",
};

/// The least side of the triangle, and the space round it.
const SIDE: f64 = 460.0;
const MARGIN: f64 = 92.0;
const ABOVE: f64 = 62.0;
const HEAD: f64 = 64.0;

/// How crossings are drawn: as discs with their numbers, or where discs would overlap
/// as dots, with their numbers aside at the ends of leader lines.
#[derive(Clone, Copy, Debug, PartialEq)]
pub struct Crossings {
    pub radius: f64,
    numbered: bool,
}

impl Crossings {
    const LARGEST: f64 = 11.0;
    const LEAST: f64 = 7.5;
    const DOT: f64 = 1.8;

    /// By the least distance of two crossings of an edge.
    pub fn among(edges: &[PlacedEdge<'_>]) -> Crossings {
        let spacings = edges.iter().map(PlacedEdge::spacing);
        let least = spacings.fold(f64::INFINITY, f64::min);
        let radius = Crossings::LARGEST.min(0.45 * least);
        if radius >= Crossings::LEAST {
            Crossings {
                radius,
                numbered: true,
            }
        } else {
            Crossings {
                radius: Crossings::DOT.min((0.3 * least).max(0.6)),
                numbered: false,
            }
        }
    }

    /// The stroke of a segment, thinner where crossings are close, so that there is
    /// space between segments.
    fn thin(self, stroke: Stroke) -> Stroke {
        let width = stroke.width.min(2.0 * self.radius);
        Stroke { width, ..stroke }
    }

    /// The line of the legend for crossings.
    pub fn entry(self) -> Entry {
        let (mark, words) = if self.numbered {
            (
                Mark::Number,
                "crossing with its number, at its fraction of the edge",
            )
        } else {
            (
                Mark::Dot(2.5),
                "crossing, at its fraction of the edge; a line leads to its number",
            )
        };
        Entry::new(mark, words)
    }
}

/// The size of a number that stands aside, the room that it takes along its edge, and
/// how far from the edge and from its ends it stands.
const ASIDE: f64 = 9.0;
const ASIDE_ROOM: f64 = 10.5;
const ASIDE_AWAY: f64 = 17.0;
const ASIDE_ENDS: f64 = 20.0;
const LEADER: Stroke = Stroke::solid(GREY, 0.6);

/// The side that a face is drawn with, at least this one: each of so many numbers on
/// an edge has its room there.
pub fn side_for(most_on_an_edge: usize, least: f64) -> f64 {
    least.max(ASIDE_ROOM * most_on_an_edge as f64 + 2.0 * ASIDE_ENDS)
}

/// Numbers along a line as near to where they belong as they can be, so far apart, and
/// within a range that has room for them.
pub fn spread(wanted: &[f64], apart: f64, [low, high]: [f64; 2]) -> Vec<f64> {
    // runs of neighbours that touch each other: how many, and their mean less the steps
    let mut runs: Vec<(usize, f64)> = Vec::new();
    for (at, &place) in wanted.iter().enumerate() {
        let mut run = (1, place - apart * at as f64);
        while let Some(&(number, mean)) = runs.last().filter(|last| last.1 > run.1) {
            let both = number + run.0;
            run = (
                both,
                (mean * number as f64 + run.1 * run.0 as f64) / both as f64,
            );
            runs.pop();
        }
        runs.push(run);
    }
    let last = (high - apart * wanted.len().saturating_sub(1) as f64).max(low);
    let starts = runs
        .into_iter()
        .flat_map(|(number, mean)| std::iter::repeat(mean.clamp(low, last)).take(number));
    let places = starts.enumerate();
    places
        .map(|(at, start)| start + apart * at as f64)
        .collect()
}

/// An edge in the plane of a picture, with its first crossing number and the
/// fractions of its crossings.
#[derive(Clone, Copy, Debug)]
pub struct PlacedEdge<'a> {
    pub ends: [Point; 2],
    pub start: usize,
    pub fractions: &'a [f64],
    /// Where numbers go that do not stand in a disc.
    pub outward: Point,
}

impl PlacedEdge<'_> {
    fn places(&self) -> impl Iterator<Item = Point> + '_ {
        let [u, v] = self.ends;
        self.fractions
            .iter()
            .map(move |&fraction| u.towards(v, fraction))
    }

    /// The least distance of a crossing from the next, and from an end.
    pub fn spacing(&self) -> f64 {
        let [u, v] = self.ends;
        let all: Vec<Point> = [u].into_iter().chain(self.places()).chain([v]).collect();
        let steps = all.windows(2).map(|two| (two[1] - two[0]).length());
        steps.fold(f64::INFINITY, f64::min)
    }

    pub fn draw(&self, svg: &mut Svg, crossings: Crossings) {
        if crossings.numbered {
            for (number, at) in (self.start..).zip(self.places()) {
                draw_number(svg, at, number, crossings.radius);
            }
            return;
        }
        self.draw_numbers_aside(svg);
        for at in self.places() {
            svg.disc(at, crossings.radius, BLACK, Stroke::solid(BLACK, 0.0));
        }
    }

    /// Each number outside the edge, across it, with a line that leads to it.
    fn draw_numbers_aside(&self, svg: &mut Svg) {
        let [u, v] = self.ends;
        let (length, along) = ((v - u).length(), (v - u).unit());
        let wanted: Vec<f64> = self.fractions.iter().map(|of| of * length).collect();
        let range = [ASIDE_ENDS, length - ASIDE_ENDS];
        let stands = spread(&wanted, ASIDE_ROOM, range);
        for (number, (at, stand)) in (self.start..).zip(self.places().zip(stands)) {
            let foot = u + along * stand + self.outward * ASIDE_AWAY;
            svg.line([at, foot], LEADER);
            let text = number.to_string();
            svg.text_turned(foot, self.outward, Label::start(&text, ASIDE));
        }
    }
}

/// Draws the segments of a face, each with the stroke given for it, and the marks
/// of its unjoined crossings.
pub fn draw_joining(
    svg: &mut Svg,
    placed: &PlacedFace<'_>,
    crossings: Crossings,
    stroke: impl Fn(&Segment) -> Stroke,
) {
    for segment in &placed.joining.segments {
        let stroke = crossings.thin(stroke(segment));
        match placed.curve(segment, crossings.radius + 12.0) {
            Curve::Bow(points) => svg.bow(points, stroke),
            Curve::Arc(points) => svg.arc(points, stroke),
        }
    }
    for &(crossing, why) in &placed.joining.unjoined {
        let mark = placed.mark(crossing, crossings.radius + 20.0);
        let stem = Stroke {
            dashes: "2 4",
            ..Stroke::solid(VERMILION, 1.6)
        };
        svg.line([placed.at(crossing), mark], stem);
        draw_unjoined(svg, mark, why, 5.0);
    }
}

/// The picture of a face. `fractions` are those of all crossings of the grid.
pub fn picture(grid: &Grid, face: &Face, fractions: &[f64]) -> String {
    let joining = face.joining(grid);
    let most = face.counts.iter().copied().max().unwrap_or(0);
    let side = side_for(usize::from(most), SIDE);
    let top = HEAD + ABOVE;
    let bottom = top + side * 0.75_f64.sqrt();
    let corners = [
        Point::new(MARGIN, bottom),
        Point::new(MARGIN + side, bottom),
        Point::new(MARGIN + side / 2.0, top),
    ];
    let placed = PlacedFace::new(face, &joining, corners, fractions);
    let edges = placed_edges(grid, &placed, fractions);
    let crossings = Crossings::among(&edges);
    let mut entries = vec![crossings.entry()];
    entries.extend(segment_entries(&placed));
    let below = bottom + ABOVE;
    let [a, b, c] = face.nodes;
    let title = format!("Face {}, nodes {a} {b} {c}", face.name);
    let mut svg = Svg::new(
        side + 2.0 * MARGIN,
        below + legend::height(&entries),
        &title,
    );
    draw_head(&mut svg, &title, &counts_in_words(face));
    svg.polygon(&corners, "#f4f6f8", 1.0, EDGE);
    draw_joining(&mut svg, &placed, crossings, |segment| stroke(segment.how));
    edges.iter().for_each(|edge| edge.draw(&mut svg, crossings));
    let centre = corners[0]
        .towards(corners[1], 0.5)
        .towards(corners[2], 1.0 / 3.0);
    for (corner, node) in corners.into_iter().zip(face.nodes) {
        draw_node(&mut svg, corner, corner - centre, node);
    }
    legend::draw(&mut svg, Point::new(24.0, below), &entries);
    svg.finish()
}

/// The three edges of a face, with their crossings.
pub fn placed_edges<'a>(
    grid: &Grid,
    placed: &PlacedFace<'_>,
    fractions: &'a [f64],
) -> Vec<PlacedEdge<'a>> {
    let edge = |at: usize| {
        let start = grid.start(placed.face.edges[at]);
        let [u, v] = ENDS[at];
        PlacedEdge {
            ends: [placed.corners[u], placed.corners[v]],
            start,
            fractions: &fractions[start..start + usize::from(placed.face.counts[at])],
            outward: placed.inward(at) * -1.0,
        }
    };
    (0..3).map(edge).collect()
}

fn stroke(how: How) -> Stroke {
    match how {
        How::Round(_) => ROUND,
        How::Along => ALONG,
    }
}

fn counts_in_words(face: &Face) -> String {
    let counts = ENDS.into_iter().zip(face.counts).map(|([u, v], count)| {
        format!(
            "{} on {} {}",
            counted(usize::from(count), "crossing"),
            face.nodes[u],
            face.nodes[v]
        )
    });
    counts.collect::<Vec<String>>().join(", ")
}

/// The lines of the legend for segments and unjoined crossings.
fn segment_entries(placed: &PlacedFace<'_>) -> Vec<Entry> {
    let segments = &placed.joining.segments;
    let along = segments.iter().filter(|of| of.how == How::Along).count();
    let round = segments.len() - along;
    let mut entries = Vec::new();
    if round > 0 {
        let words = format!("{} round a corner", counted(round, "segment"));
        entries.push(Entry::new(Mark::Line(ROUND), words));
    }
    if along > 0 {
        let words = format!(
            "{} folded: both ends on one edge",
            counted(along, "segment")
        );
        entries.push(Entry::new(Mark::Line(ALONG), words));
    }
    entries.extend(unjoined_entries([placed.joining].into_iter()));
    let note = "Drawn with equal sides, whatever the face's shape in space is.";
    entries.push(Entry::new(Mark::Nothing, note));
    entries
}

/// The lines of the legend for the unjoined crossings of faces.
pub fn unjoined_entries<'a>(joinings: impl Iterator<Item = &'a Joining> + Clone) -> Vec<Entry> {
    let words = [
        (
            Why::Left,
            "unjoined: odd sum of counts, each edge leaves one",
        ),
        (
            Why::Skipped,
            "unjoined: skipped, odd number left on its edge",
        ),
    ];
    let has = |why| {
        joinings
            .clone()
            .any(|of| of.unjoined.iter().any(|left| left.1 == why))
    };
    let present = words.into_iter().filter(|(why, _)| has(*why));
    present
        .map(|(why, words)| Entry::new(Mark::Unjoined(why), words))
        .collect()
}

/// The stroke of a segment that is on no loop.
pub const OPEN: Stroke = Stroke {
    colour: GREY,
    width: 1.6,
    dashes: "2 5",
};
