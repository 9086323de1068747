//! The text form of a sheet, that is, of a flat grid (docs/FORMAT.md, "The text form
//! of a sheet"), and where its nodes and crossings are.

use std::collections::HashMap;

use crate::calls::flat::Sheet;
use crate::calls::{Lists, Refusal};
use crate::fault::Fault;
use crate::loops::counted;
use crate::plane::Point;
use crate::refusals::{self, is_of_edge, is_of_piece};
use crate::text::{each_statement, one_list, one_place, At, Edge, Fractions};

/// The first line of the text form.
pub const FIRST_LINE: &str = "citternblaze sheet";

/// The statements of a text, by what they state, each in the order of the text.
#[derive(Clone, Debug, Default, PartialEq)]
pub struct SheetText {
    pub triangles: Vec<At<[u16; 3]>>,
    pub edges: Vec<At<Edge>>,
    pub nodes: Vec<At<(u16, [f64; 2])>>,
    pub fractions: Vec<At<Fractions>>,
}

/// Reads the text form.
pub fn read(bytes: &[u8]) -> Result<SheetText, Fault> {
    let mut text = SheetText::default();
    each_statement(bytes, FIRST_LINE, |kind, words| {
        match kind {
            "triangle" => text
                .triangles
                .push(words.nodes("a triangle has three nodes")?),
            "edge" => text.edges.push(words.edge("an edge")?),
            "node" => {
                let place = words.place("a node's place has the node and two numbers")?;
                text.nodes.push(words.at(place));
            }
            "fractions" => text.fractions.push(words.fractions()?),
            other => return Err(words.unknown(other, "triangle, edge, node, fractions")),
        }
        Ok(())
    })?;
    one_place(text.nodes.iter().map(|of| (of.line, of.it.0)))?;
    one_list(&text.fractions)?;
    Ok(text)
}

impl SheetText {
    /// The flat grid, where its check accepts it.
    pub fn open(&self) -> Result<Sheet, Fault> {
        let lists = Lists {
            cells: self.triangles.iter().flat_map(|of| of.it).collect(),
            edges: self.edges.iter().flat_map(|of| of.it.ends).collect(),
            counts: self.edges.iter().map(|of| of.it.count).collect(),
        };
        Sheet::open(lists.clone()).map_err(|refused| self.refused(refused, &lists))
    }

    /// A refusal, on the line of the triangle or of the edge.
    fn refused(&self, refused: Refusal, lists: &Lists) -> Fault {
        let at = refused.place as usize;
        let line = match refused.number {
            number if is_of_piece(number) => self.triangles.get(at).map(|of| of.line),
            number if is_of_edge(number) => self.edges.get(at).map(|of| of.line),
            _ => None,
        };
        let words = refusals::of_sheet(refused, lists);
        match line {
            Some(line) => Fault::at_line(line, words),
            None => Fault::new(words),
        }
    }

    /// Where the nodes are that triangles have.
    pub fn node_places(&self) -> Result<HashMap<u16, Point>, Fault> {
        let placed: HashMap<u16, Point> = self
            .nodes
            .iter()
            .map(|of| (of.it.0, Point::new(of.it.1[0], of.it.1[1])))
            .collect();
        let mut used = self.triangles.iter().flat_map(|of| of.it);
        match used.find(|node| !placed.contains_key(node)) {
            Some(node) => Err(Fault::new(format!("node {node} of the sheet has no place"))),
            None => Ok(placed),
        }
    }

    /// The fractions of all crossings by number, and how many edges have none stated:
    /// crossings stand at even distances there.
    pub fn all_fractions(&self) -> Result<(Vec<f64>, usize), Fault> {
        let mut given: HashMap<[u16; 2], &At<Fractions>> =
            self.fractions.iter().map(|of| (of.it.ends, of)).collect();
        let (mut list, mut made_even) = (Vec::new(), 0);
        for edge in &self.edges {
            match given.remove(&edge.it.ends) {
                Some(of) => list.extend(rising(of, edge.it.count)?),
                None => {
                    let count = edge.it.count;
                    made_even += usize::from(count > 0);
                    list.extend((1..=count).map(|k| f64::from(k) / (f64::from(count) + 1.0)));
                }
            }
        }
        match given.values().map(|of| of.line).min() {
            Some(line) => Err(Fault::at_line(line, "the sheet has no such edge")),
            None => Ok((list, made_even)),
        }
    }
}

/// The fractions of a line, if they are one to a crossing, above 0, below 1 and
/// rising.
fn rising(of: &At<Fractions>, count: u16) -> Result<Vec<f64>, Fault> {
    let given = &of.it.fractions;
    let [u, v] = of.it.ends;
    if given.len() != usize::from(count) {
        let crossings = counted(usize::from(count), "crossing");
        let fractions = counted(given.len(), "fraction");
        let what = format!("edge {u} {v} has {crossings}, and this line has {fractions}");
        return Err(Fault::at_line(of.line, what));
    }
    let mut before = 0.0;
    for &fraction in given {
        if fraction <= before || fraction >= 1.0 {
            let which = refusals::wrong_fraction(fraction);
            return Err(Fault::at_line(of.line, format!("edge {u} {v}: {which}")));
        }
        before = fraction;
    }
    Ok(given.clone())
}
