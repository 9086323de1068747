//! What program meshlist prints for given input.

use std::fmt::Write;

use crate::bundle;
use crate::cell::{NO_NUMBER, TRIANGLE_WORDS};
use crate::grid::{self, Lists};
use crate::mesh::mesh;
use crate::Refusal;

/// Most input bytes that the program takes.
pub const MAX_INPUT: usize = 32_768;
/// Triangles that its area has room for.
pub const MAX_TRIANGLES: usize = 1_489;

/// The program's output for the given standard input.
pub fn listing(input: &[u8]) -> String {
    list_mesh(input)
        .unwrap_or_else(|Refusal { number, place }| format!("refused {number} at {place}\n"))
}

fn list_mesh(input: &[u8]) -> Result<String, Refusal> {
    if input.len() > MAX_INPUT {
        return crate::refuse(13, MAX_INPUT);
    }
    let mut cells = vec![0; input.len() / 3];
    let mut edges = vec![0; input.len() / 3];
    let mut counts = vec![0; input.len() / 3];
    let sizes = bundle::read(input, &mut cells, &mut edges, &mut counts)?;
    cells.truncate(4 * sizes.cells);
    edges.truncate(2 * sizes.edges);
    counts.truncate(sizes.edges);
    let mut starts = vec![0; sizes.edges];
    let crossings = grid::open(&cells, &edges, &counts, &mut starts)?;
    let lists = Lists {
        cells: &cells,
        edges: &edges,
        counts: &counts,
        starts: &starts,
    };
    let mut area = vec![0; MAX_TRIANGLES * TRIANGLE_WORDS];
    let triangles = mesh(lists, &mut area)?.triangles;
    let mut text = format!(
        "cells {} edges {} crossings {crossings} triangles {triangles}\n",
        sizes.cells, sizes.edges
    );
    let words = &area[..triangles as usize * TRIANGLE_WORDS];
    words
        .chunks_exact(TRIANGLE_WORDS)
        .for_each(|triangle| add_line(&mut text, triangle));
    Ok(text)
}

/// Adds the line of one triangle.
fn add_line(text: &mut String, triangle: &[u32]) {
    text.push('T');
    for &word in triangle {
        if word == NO_NUMBER {
            text.push_str(" -");
        } else {
            write!(text, " {word}").expect("a string takes any text");
        }
    }
    text.push('\n');
}
