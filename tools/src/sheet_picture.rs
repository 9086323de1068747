//! The picture of a sheet of triangles on ruled film: its edges, and the segments of
//! its chains.

use std::collections::HashMap;

use crate::calls::flat::{Chain, Sheet};
use crate::calls::{How, Why};
use crate::chains::{shape_in_words, Joinings, Segment, Unjoined};
use crate::colours::film_stroke;
use crate::fault::Fault;
use crate::film::{Film, Flat, Setup, FAINT};
use crate::legend::{Entry, Mark};
use crate::loops::counted;
use crate::plane::Point;
use crate::section_picture::{Look, FEW_LINES};
use crate::svg::{Stroke, BLACK, GREY};

/// An edge of one triangle.
const RIM: Stroke = Stroke::solid(GREY, 0.25);

/// The stub of a crossing that a triangle leaves unjoined, by why.
const LEFT: Stroke = Stroke::solid(BLACK, 0.4);
const SKIPPED: Stroke = Stroke {
    dashes: "0.8 0.6",
    ..LEFT
};

const CROSSING: f64 = 0.6;

/// How far a folded segment and a stub go into their triangle, as a share of the way
/// to its middle, and how many pieces a folded segment is drawn in.
const FOLD: f64 = 0.35;
const STUB: f64 = 0.25;
const PIECES: u32 = 12;

/// A sheet with its chains, and where its nodes and crossings are.
pub struct Placed<'a> {
    pub sheet: &'a Sheet,
    pub chains: &'a [Chain],
    pub nodes: &'a HashMap<u16, Point>,
    pub fractions: &'a [f64],
}

/// The sheet on film. Refused where the paper is too small.
pub fn picture(placed: &Placed<'_>, look: &Look) -> Result<String, Fault> {
    let joinings = Joinings::of(placed.sheet);
    let crossings = placed.crossings();
    let [low, high] = placed.extent();
    let lists = placed.sheet.lists();
    let totals = [
        counted(lists.cells.len() / 3, "triangle"),
        counted(placed.sheet.crossings(), "crossing"),
        counted(placed.chains.len(), "chain"),
    ];
    let mut film = Film::new(Setup {
        sheet: look.sheet,
        scale: look.scale,
        unit: look.unit,
        title: "Sheet".to_string(),
        below: format!(
            "{}: {}. Film ruled at 1, 5 and 10 mm",
            look.name,
            totals.join(", ")
        ),
        low,
        high,
        axes: ["x".to_string(), "y".to_string()],
        entries: entries(placed, &joinings, look),
    })?;
    film.rule();
    placed.draw_edges(&mut film);
    let lines = placed.draw_segments(&mut film, &joinings, &crossings);
    let stubs = placed.draw_stubs(&mut film, &joinings.unjoined, &crossings);
    let mut named = placed.node_names();
    if look.crossings {
        for (number, &at) in crossings.iter().enumerate() {
            film.dot(at, CROSSING, "#ffffff");
            named.push((at, number.to_string()));
        }
    }
    film.names(&named, lines.iter().chain(&stubs).map(|line| &line[..]));
    Ok(film.finish())
}

impl Placed<'_> {
    fn node(&self, node: u16) -> Flat {
        let Point { x, y } = self.nodes[&node];
        [x, y]
    }

    fn extent(&self) -> [Flat; 2] {
        let mut ends = [[f64::INFINITY; 2], [f64::NEG_INFINITY; 2]];
        for &node in &self.sheet.lists().cells {
            let at = self.node(node);
            for axis in 0..2 {
                ends[0][axis] = ends[0][axis].min(at[axis]);
                ends[1][axis] = ends[1][axis].max(at[axis]);
            }
        }
        ends
    }

    /// Where each crossing is, by number.
    fn crossings(&self) -> Vec<Flat> {
        let lists = self.sheet.lists();
        let edges = lists.edges.chunks_exact(2).zip(&lists.counts);
        let ends = edges.flat_map(|(ends, &count)| (0..count).map(move |_| ends));
        let ends = ends.map(|ends| [self.node(ends[0]), self.node(ends[1])]);
        let all = ends.zip(self.fractions);
        all.map(|([u, v], &fraction)| towards(u, v, fraction))
            .collect()
    }

    fn middle(&self, triangle: usize) -> Flat {
        let nodes = &self.sheet.lists().cells[3 * triangle..3 * triangle + 3];
        let [a, b, c] = [0, 1, 2].map(|at| self.node(nodes[at]));
        [(a[0] + b[0] + c[0]) / 3.0, (a[1] + b[1] + c[1]) / 3.0]
    }

    /// Edges of two triangles are faint.
    fn draw_edges(&self, film: &mut Film) {
        let lists = self.sheet.lists();
        let mut times: HashMap<[u16; 2], usize> = HashMap::new();
        for nodes in lists.cells.chunks_exact(3) {
            let [a, b, c] = [nodes[0], nodes[1], nodes[2]];
            for ends in [[a, b], [a, c], [b, c]] {
                *times.entry(ends).or_insert(0) += 1;
            }
        }
        for ends in lists.edges.chunks_exact(2) {
            let rim = times.get(ends) == Some(&1);
            let line = [self.node(ends[0]), self.node(ends[1])];
            film.curve(&line, false, if rim { RIM } else { FAINT });
        }
    }

    /// Draws the segments, each as its chain, and answers their lines.
    fn draw_segments(
        &self,
        film: &mut Film,
        joinings: &Joinings,
        crossings: &[Flat],
    ) -> Vec<Vec<Flat>> {
        let mut chain_of = HashMap::new();
        for (at, chain) in self.chains.iter().enumerate() {
            chain_of.extend(chain.crossings.iter().map(|&crossing| (crossing, at)));
        }
        let mut lines = Vec::new();
        for segment in &joinings.segments {
            let line = self.line(segment, crossings);
            let chain = chain_of.get(&(segment.crossings[0] as u32));
            film.curve(&line, false, film_stroke(chain.copied().unwrap_or(0)));
            lines.push(line);
        }
        lines
    }

    /// A segment from edge to edge is straight; a folded one bows into its triangle.
    fn line(&self, segment: &Segment, crossings: &[Flat]) -> Vec<Flat> {
        let [from, to] = segment.crossings.map(|crossing| crossings[crossing]);
        match segment.how {
            How::Round(_) => vec![from, to],
            How::Along => {
                let between = towards(from, to, 0.5);
                let bend = towards(between, self.middle(segment.triangle), FOLD);
                let at = |piece: u32| {
                    let share = f64::from(piece) / f64::from(PIECES);
                    let (one, other) = (towards(from, bend, share), towards(bend, to, share));
                    towards(one, other, share)
                };
                (0..=PIECES).map(at).collect()
            }
        }
    }

    /// Draws a stub into each triangle that leaves a crossing unjoined.
    fn draw_stubs(
        &self,
        film: &mut Film,
        unjoined: &[Unjoined],
        crossings: &[Flat],
    ) -> Vec<Vec<Flat>> {
        let mut lines = Vec::new();
        for of in unjoined {
            let from = crossings[of.crossing];
            let line = vec![from, towards(from, self.middle(of.triangle), STUB)];
            film.curve(&line, false, stub(of.why));
            lines.push(line);
        }
        lines
    }

    /// The names of the nodes, where they are few.
    fn node_names(&self) -> Vec<(Flat, String)> {
        let mut nodes = self.sheet.lists().cells.clone();
        nodes.sort_unstable();
        nodes.dedup();
        let shown = if nodes.len() > FEW_LINES {
            0
        } else {
            nodes.len()
        };
        let name = |&node: &u16| (self.node(node), format!("node {node}"));
        nodes[..shown].iter().map(name).collect()
    }
}

fn towards(from: Flat, to: Flat, share: f64) -> Flat {
    [0, 1].map(|axis| from[axis] + share * (to[axis] - from[axis]))
}

fn stub(why: Why) -> Stroke {
    match why {
        Why::Left => LEFT,
        Why::Skipped => SKIPPED,
    }
}

fn entries(placed: &Placed<'_>, joinings: &Joinings, look: &Look) -> Vec<Entry> {
    let chains = placed.chains.iter().enumerate();
    let mut entries: Vec<Entry> = chains
        .map(|(at, chain)| {
            let words = format!("chain {at}: {}", shape_in_words(chain));
            Entry::new(Mark::Line(film_stroke(at)), words)
        })
        .collect();
    entries.push(Entry::new(Mark::Line(RIM), "edge of one triangle, the rim"));
    let reasons = [
        (Why::Left, "unjoined there: left over by an odd sum"),
        (Why::Skipped, "unjoined there: skipped on its edge"),
    ];
    for (why, words) in reasons {
        if joinings.unjoined.iter().any(|of| of.why == why) {
            entries.push(Entry::new(Mark::Line(stub(why)), words));
        }
    }
    if look.crossings {
        entries.push(Entry::new(
            Mark::Ring(CROSSING),
            "crossing, with its number",
        ));
    }
    entries
}
