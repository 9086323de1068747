//! The chains of a flat grid in words, and what its triangles leave unjoined.

use std::collections::HashMap;
use std::fmt::Write;

use crate::calls::flat::{self, Chain, Sheet};
use crate::calls::{How, Join, Why};
use crate::loops::counted;
use crate::refusals::crossing;

/// The three edges of a triangle by its corners: ab, ac, bc.
const ENDS: [[usize; 2]; 3] = [[0, 1], [0, 2], [1, 2]];

/// A segment of a triangle, between two crossings by number.
#[derive(Clone, Copy, Debug, PartialEq, Eq)]
pub struct Segment {
    pub triangle: usize,
    pub crossings: [usize; 2],
    pub how: How,
}

/// A crossing that a triangle leaves without a segment.
#[derive(Clone, Copy, Debug, PartialEq, Eq)]
pub struct Unjoined {
    pub triangle: usize,
    pub crossing: usize,
    pub why: Why,
}

/// What the face call says of all triangles.
#[derive(Clone, Debug, Default, PartialEq, Eq)]
pub struct Joinings {
    pub segments: Vec<Segment>,
    pub unjoined: Vec<Unjoined>,
}

impl Joinings {
    pub fn of(sheet: &Sheet) -> Joinings {
        let lists = sheet.lists();
        let mut start = 0;
        let mut edges = HashMap::new();
        for (ends, &count) in lists.edges.chunks_exact(2).zip(&lists.counts) {
            edges.insert([ends[0], ends[1]], (start, count));
            start += usize::from(count);
        }
        let mut all = Joinings::default();
        for (triangle, nodes) in lists.cells.chunks_exact(3).enumerate() {
            let own = ENDS.map(|ends| edges[&ends.map(|at| nodes[at])]);
            all.add(triangle, own);
        }
        all
    }

    /// Adds those of a triangle with these starts and counts of its edges.
    fn add(&mut self, triangle: usize, edges: [(usize, u16); 3]) {
        let counts = edges.map(|of| of.1);
        for (at, (start, count)) in edges.into_iter().enumerate() {
            for index in 0..usize::from(count) {
                let crossing = start + index;
                match flat::face(counts, at, index) {
                    Join::Joined { edge, index, how } => {
                        let crossings = [crossing, edges[edge].0 + index];
                        // a segment is met at both its ends
                        if crossings[0] < crossings[1] {
                            self.segments.push(Segment {
                                triangle,
                                crossings,
                                how,
                            });
                        }
                    }
                    Join::Unjoined(why) => self.unjoined.push(Unjoined {
                        triangle,
                        crossing,
                        why,
                    }),
                    Join::NoCrossing => {}
                }
            }
        }
    }
}

/// A chain by its crossings, as it is told.
pub fn shape_in_words(chain: &Chain) -> String {
    let shape = if chain.closed { "closed" } else { "open" };
    format!("{shape}, {}", counted(chain.crossings.len(), "crossing"))
}

/// The totals, a line for each chain, and one for each crossing that a triangle
/// leaves unjoined.
pub fn in_words(sheet: &Sheet, chains: &[Chain]) -> String {
    let lists = sheet.lists();
    let totals = [
        counted(lists.cells.len() / 3, "triangle"),
        counted(lists.counts.len(), "edge"),
        counted(sheet.crossings(), "crossing"),
        counted(chains.len(), "chain"),
    ];
    let mut out = format!("{}\n", totals.join(", "));
    for (at, chain) in chains.iter().enumerate() {
        let crossings: Vec<String> = chain.crossings.iter().map(u32::to_string).collect();
        let (shape, crossings) = (shape_in_words(chain), crossings.join(" "));
        writeln!(out, "chain {at}, {shape}: {crossings}").expect("a string takes any text");
    }
    for of in Joinings::of(sheet).unjoined {
        let nodes = &lists.cells[3 * of.triangle..3 * of.triangle + 3];
        let (crossing, why) = (crossing(lists, of.crossing as u64), why_in_words(of.why));
        writeln!(
            out,
            "unjoined in triangle {}, nodes {} {} {}: {crossing}; {why}",
            of.triangle, nodes[0], nodes[1], nodes[2]
        )
        .expect("a string takes any text");
    }
    out
}

/// Why a crossing of a triangle is unjoined.
pub fn why_in_words(why: Why) -> &'static str {
    match why {
        Why::Left => "left over: the triangle's counts have an odd sum, and the largest leaves one",
        Why::Skipped => {
            "skipped: the crossings of its edge that go round no corner are odd in number"
        }
    }
}
