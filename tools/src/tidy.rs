//! A text put in order: what a hand that writes a grid leaves undone and that can be
//! done in one way only. Cells keep their order, since their numbers are names.

use std::collections::BTreeSet;
use std::fmt;

use crate::loops::counted;
use crate::text::{At, Edge, Text};

/// What was done to a text.
#[derive(Clone, Copy, Debug, Default, PartialEq, Eq)]
pub struct Tidied {
    pub cells_sorted: usize,
    /// Edges, and looks at them, whose ends were turned.
    pub turned: usize,
    /// Lists of fractions that were turned with their edges.
    pub fractions_turned: usize,
    pub edges_moved: bool,
    pub edges_added: usize,
}

/// Sorts the nodes of each cell and the ends of each edge, puts the edges in order,
/// and adds those that are missing, with count 0. The fractions of a turned edge are
/// told from its other end: s becomes 1 - s, and the last is the first.
pub fn tidy(text: &mut Text) -> Tidied {
    let mut done = Tidied::default();
    for cell in &mut text.cells {
        let before = cell.it;
        cell.it.sort_unstable();
        done.cells_sorted += usize::from(cell.it != before);
    }
    for edge in text.edges.iter_mut().chain(&mut text.looks) {
        done.turned += usize::from(turn(&mut edge.it.ends));
    }
    for of in &mut text.fractions {
        if turn(&mut of.it.ends) {
            of.it.fractions.reverse();
            of.it.fractions.iter_mut().for_each(|s| *s = 1.0 - *s);
            done.fractions_turned += 1;
        }
    }
    let ends = |edge: &At<Edge>| edge.it.ends;
    done.edges_moved = text
        .edges
        .windows(2)
        .any(|two| ends(&two[0]) > ends(&two[1]));
    done.edges_added = add_missing(text);
    text.edges.sort_by_key(ends);
    done
}

/// Puts the lower end first, and answers whether it was not.
fn turn(ends: &mut [u16; 2]) -> bool {
    let turned = ends[0] > ends[1];
    if turned {
        ends.swap(0, 1);
    }
    turned
}

/// Adds the edges of cells that are not listed, and answers how many they are. Equal
/// nodes are no edge: the grid check refuses their cell.
fn add_missing(text: &mut Text) -> usize {
    let listed: BTreeSet<[u16; 2]> = text.edges.iter().map(|edge| edge.it.ends).collect();
    let of_cell = |cell: &At<[u16; 4]>| {
        let nodes = cell.it;
        (0..4).flat_map(move |low| (low + 1..4).map(move |high| [nodes[low], nodes[high]]))
    };
    let wanted: BTreeSet<[u16; 2]> = text.cells.iter().flat_map(of_cell).collect();
    let missing = wanted.difference(&listed).filter(|ends| ends[0] < ends[1]);
    let added: Vec<At<Edge>> = missing
        .map(|&ends| At {
            line: 0,
            it: Edge { ends, count: 0 },
        })
        .collect();
    text.edges.extend_from_slice(&added);
    added.len()
}

impl fmt::Display for Tidied {
    fn fmt(&self, out: &mut fmt::Formatter<'_>) -> fmt::Result {
        let mut words = Vec::new();
        let mut add = |number: usize, thing: &str, what: &str| {
            if number > 0 {
                words.push(format!("{} {what}", counted(number, thing)));
            }
        };
        add(self.cells_sorted, "cell", "with sorted nodes");
        add(self.turned, "edge", "turned, lower node first");
        add(
            self.fractions_turned,
            "list",
            "of fractions turned with its edge",
        );
        add(self.edges_added, "missing edge", "added with count 0");
        if self.edges_moved {
            words.push("edges put in order".to_string());
        }
        match words.is_empty() {
            true => write!(out, "nothing to tidy"),
            false => write!(out, "tidied: {}", words.join("; ")),
        }
    }
}
