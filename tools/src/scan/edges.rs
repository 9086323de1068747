//! All crossings of all edges, and the text that states them.

use super::background::Background;
use super::shapes::Surface;
use super::spread::spread;
use super::triangles::Triangles;
use super::words::thousands;
use crate::fault::Fault;
use crate::progress::Progress;
use crate::space::Place;
use crate::text::{At, Edge, Fractions, NodePlace, Text};

/// The most crossings of an edge and of a grid.
const MOST_OF_EDGE: usize = 4_095;
const MOST_OF_GRID: usize = 65_535;

/// What is scanned for.
#[derive(Default)]
pub struct Scene {
    pub surfaces: Vec<Surface>,
    pub mesh: Option<Triangles>,
}

/// The edges of a grid with the fractions of their crossings.
#[derive(Clone, Debug, PartialEq)]
pub struct Scan {
    pub edges: Vec<Fractions>,
    /// How many crossings were moved to a neighbouring number, and the first edge that
    /// has such a one.
    pub moved: usize,
    pub first_moved: Option<[u16; 2]>,
}

impl Scan {
    /// Scans every edge. An edge with too many crossings is a fault.
    pub fn of(background: &Background, scene: &mut Scene) -> Result<Scan, Fault> {
        let ends = background.edges();
        let mut progress = Progress::new("edges scanned:", ends.len());
        let mut scan = Scan {
            edges: Vec::new(),
            moved: 0,
            first_moved: None,
        };
        for ends in ends {
            let places = ends.map(|node| background.places[&node]);
            let mut fractions = scene.crossings(places)?;
            not_over(
                &format!("edge {} {}", ends[0], ends[1]),
                fractions.len(),
                MOST_OF_EDGE,
                "an edge",
            )?;
            match spread(&mut fractions) {
                0 => {}
                moved => {
                    scan.moved += moved;
                    scan.first_moved = scan.first_moved.or(Some(ends));
                }
            }
            scan.edges.push(Fractions { ends, fractions });
            progress.step();
        }
        not_over("the grid", scan.crossings(), MOST_OF_GRID, "a grid")?;
        Ok(scan)
    }

    /// How many crossings there are.
    pub fn crossings(&self) -> usize {
        self.edges.iter().map(|edge| edge.fractions.len()).sum()
    }

    /// What one crossing to an edge keeps: the first one of an odd number.
    pub fn classic(&self) -> Scan {
        let first = |edge: &Fractions| Fractions {
            ends: edge.ends,
            fractions: edge.fractions[..edge.fractions.len() % 2].to_vec(),
        };
        Scan {
            edges: self.edges.iter().map(first).collect(),
            ..*self
        }
    }

    /// The text of the grid with these crossings.
    pub fn text(&self, background: &Background) -> Text {
        let edge = |of: &Fractions| Edge {
            ends: of.ends,
            count: of.fractions.len() as u16,
        };
        let place = |(&node, &place): (&u16, &Place)| NodePlace { node, place };
        let crossed = self.edges.iter().filter(|edge| !edge.fractions.is_empty());
        Text {
            cells: unread(background.cells.iter().copied()),
            edges: unread(self.edges.iter().map(edge)),
            nodes: unread(background.places.iter().map(place)),
            fractions: unread(crossed.cloned()),
            ..Text::default()
        }
    }
}

impl Scene {
    /// The fractions of an edge's crossings, in no order.
    fn crossings(&mut self, ends: [Place; 2]) -> Result<Vec<f64>, Fault> {
        let mut all = Vec::new();
        for surface in &self.surfaces {
            all.extend(surface.crossings(ends)?);
        }
        if let Some(mesh) = &mut self.mesh {
            all.extend(mesh.crossings(ends));
        }
        Ok(all)
    }
}

/// Statements without a line.
fn unread<T>(all: impl Iterator<Item = T>) -> Vec<At<T>> {
    all.map(|it| At { line: 0, it }).collect()
}

fn not_over(what: &str, crossings: usize, most: usize, of: &str) -> Result<(), Fault> {
    if crossings <= most {
        return Ok(());
    }
    let [found, over, most] = [crossings, crossings - most, most].map(|of| thousands(of as u128));
    Err(Fault::new(format!(
        "{what} has {found} crossings: {over} over the {most} that {of} may have"
    )))
}
