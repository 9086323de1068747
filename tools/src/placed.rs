//! Where nodes and crossings are: the lists that the places call takes, from the
//! statements of a text.

use std::collections::HashMap;

use crate::calls::Grid;
use crate::fault::{note, Fault};
use crate::loops::counted;
use crate::mesh::Mesh;
use crate::refusals;
use crate::text::{Fractions, Text};

/// Three numbers for each node from 0 to the highest of a cell.
pub fn node_places(grid: &Grid, text: &Text) -> Result<Vec<f64>, Fault> {
    if text.nodes.is_empty() {
        return Err(Fault::new(
            "the grid has no node places: give them in node lines, or with --places FILE",
        ));
    }
    let placed: HashMap<u16, [f64; 3]> = text
        .nodes
        .iter()
        .map(|node| (node.it.node, node.it.place))
        .collect();
    let cells = &grid.lists().cells;
    if let Some(node) = cells.iter().find(|node| !placed.contains_key(node)) {
        return Err(Fault::new(format!("node {node} of the grid has no place")));
    }
    let highest = cells.iter().copied().max().unwrap_or(0);
    let places = (0..=highest).flat_map(|node| placed.get(&node).copied().unwrap_or([0.0; 3]));
    Ok(places.collect())
}

/// The fractions of all crossings, by crossing number. Those of an edge that the
/// text has none for are at even distances.
fn stated_fractions(grid: &Grid, text: &Text) -> Result<Vec<f64>, Fault> {
    each_of_an_edge(grid, text)?;
    let lists = grid.lists();
    let given: HashMap<[u16; 2], &Fractions> = text
        .fractions
        .iter()
        .map(|of| (of.it.ends, &of.it))
        .collect();
    let mut list = Vec::with_capacity(grid.crossings());
    let mut made_even = 0;
    for (ends, &count) in lists.edges.chunks_exact(2).zip(&lists.counts) {
        match given.get(ends) {
            Some(of) => list.extend_from_slice(&of.fractions),
            None => {
                made_even += usize::from(count > 0);
                list.extend(even(count));
            }
        }
    }
    if made_even > 0 {
        let edges = counted(made_even, "edge");
        note(format!(
            "no fractions for {edges}: crossings at even distances there"
        ));
    }
    Ok(list)
}

/// The fractions of all crossings, if the places call takes them. Where the nodes
/// are does not matter to it here.
pub fn fractions(grid: &Grid, text: &Text) -> Result<Vec<f64>, Fault> {
    let list = stated_fractions(grid, text)?;
    let in_words = |refused| Fault::new(refusals::of_lists(refused, grid.lists()));
    let room = Mesh::of(grid).map_err(in_words)?.points();
    let highest = grid.lists().cells.iter().copied().max().unwrap_or(0);
    let nodes = vec![0.0; 3 * (usize::from(highest) + 1)];
    grid.places(&nodes, &list, room).map_err(|refused| {
        let lists = [&nodes[..], &list[..]];
        refusals::of_places(refused, grid.lists(), text, lists)
    })?;
    Ok(list)
}

/// So many fractions at even distances.
fn even(count: u16) -> impl Iterator<Item = f64> {
    (1..=u32::from(count)).map(move |index| f64::from(index) / (f64::from(count) + 1.0))
}

/// Fractions are for an edge of the grid, one for each of its crossings.
fn each_of_an_edge(grid: &Grid, text: &Text) -> Result<(), Fault> {
    let lists = grid.lists();
    let edges = lists.edges.chunks_exact(2).zip(&lists.counts);
    let counts: HashMap<&[u16], u16> = edges.map(|(ends, &count)| (ends, count)).collect();
    for of in &text.fractions {
        let ([u, v], given) = (of.it.ends, of.it.fractions.len());
        let wrong = match counts.get(&of.it.ends[..]) {
            None => format!("the grid has no edge {u} {v}"),
            Some(&count) if usize::from(count) == given => continue,
            Some(count) => {
                let count = counted(usize::from(*count), "crossing");
                let given = counted(given, "fraction");
                format!("edge {u} {v} has {count}, and this line has {given}")
            }
        };
        return Err(Fault::at_line(of.line, wrong));
    }
    Ok(())
}

/// The placed points of a mesh: crossings, inner crossings, middles of fans.
pub fn points(grid: &Grid, text: &Text, mesh: &Mesh) -> Result<Vec<[f64; 3]>, Fault> {
    let nodes = node_places(grid, text)?;
    let fractions = stated_fractions(grid, text)?;
    let numbers = grid
        .places(&nodes, &fractions, mesh.points())
        .map_err(|refused| {
            let lists = [&nodes[..], &fractions[..]];
            refusals::of_places(refused, grid.lists(), text, lists)
        })?;
    Ok(numbers
        .chunks_exact(3)
        .map(|at| [at[0], at[1], at[2]])
        .collect())
}
