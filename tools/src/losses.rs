//! What arrived of a mesh against the mesh of its grid: which open sides are rightly
//! open, and which are losses.

use std::collections::{BTreeMap, BTreeSet, HashMap};
use std::fmt;

use crate::calls::{Grid, Refusal, TRIANGLE_WORDS};
use crate::faces::faces;
use crate::mesh::{triangles, Side};
use crate::received::{list_sides, Having};

/// What was found.
#[derive(Debug, Default, PartialEq, Eq)]
pub struct Losses {
    /// The triangles of the grid's mesh, those of them that did not arrive, and those
    /// that arrived and are not its own, or once too often.
    pub whole: usize,
    pub lost: usize,
    pub strange: usize,
    /// The cells of which triangles were lost.
    pub cells: BTreeSet<u32>,
    /// Open sides on outer faces.
    pub outer: usize,
    /// Open sides on other faces that are open in the grid's mesh too: their curve
    /// closes in one of its two cells only.
    pub one_cell: usize,
    /// Open sides that are in two triangles of the grid's mesh, or in none.
    pub torn: Having<Side>,
}

impl Losses {
    /// Compares words with those of the grid's mesh; `open` are their open sides.
    pub fn of(grid: &Grid, words: &[u32], open: &Having<Side>) -> Result<Losses, Refusal> {
        let whole = grid.mesh()?;
        let mut left: HashMap<&[u32], i64> = HashMap::new();
        for own in whole.chunks_exact(TRIANGLE_WORDS) {
            *left.entry(own).or_insert(0) += 1;
        }
        for arrived in words.chunks_exact(TRIANGLE_WORDS) {
            *left.entry(arrived).or_insert(0) -= 1;
        }
        let mut found = Losses {
            whole: whole.len() / TRIANGLE_WORDS,
            ..Losses::default()
        };
        for (own, &number) in &left {
            found.lost += number.max(0) as usize;
            found.strange += (-number).max(0) as usize;
            if number > 0 {
                found.cells.insert(own[0] % crate::calls::MOST_CELLS);
            }
        }
        found.sort_sides(grid, &whole, open);
        Ok(found)
    }

    fn sort_sides(&mut self, grid: &Grid, whole: &[u32], open: &Having<Side>) {
        let mut times: BTreeMap<Side, usize> = BTreeMap::new();
        for side in triangles(whole).flat_map(|triangle| triangle.sides) {
            *times.entry(side).or_insert(0) += 1;
        }
        let all = faces(grid);
        let outer = all.iter().filter(|face| face.cells.len() == 1);
        let outer: BTreeSet<u32> = outer.map(|face| face.name as u32).collect();
        for (side, at) in open {
            match (side, times.get(side)) {
                (Side::Segment { face, .. }, Some(1)) if outer.contains(face) => self.outer += 1,
                (_, Some(1)) => self.one_cell += 1,
                _ => {
                    self.torn.insert(*side, at.clone());
                }
            }
        }
    }

    /// Whether the words are the grid's whole mesh.
    pub fn whole(&self) -> bool {
        self.lost + self.strange == 0
    }
}

/// So many cells are told one by one.
const TOLD: usize = 20;

impl fmt::Display for Losses {
    fn fmt(&self, out: &mut fmt::Formatter<'_>) -> fmt::Result {
        writeln!(out, "triangles of the grid's mesh {}", self.whole)?;
        writeln!(out, "triangles lost {}", self.lost)?;
        if !self.cells.is_empty() {
            let shown: Vec<String> = self.cells.iter().take(TOLD).map(u32::to_string).collect();
            let more = match self.cells.len().saturating_sub(TOLD) {
                0 => String::new(),
                more => format!(" and {more} more"),
            };
            writeln!(out, "  of the cells {}{more}", shown.join(" "))?;
        }
        writeln!(
            out,
            "triangles that the grid's mesh has not {}",
            self.strange
        )?;
        writeln!(out, "open sides on outer faces {}", self.outer)?;
        writeln!(
            out,
            "open sides whose curve closes in one of two cells {}",
            self.one_cell
        )?;
        writeln!(out, "open sides that are losses {}", self.torn.len())?;
        list_sides(out, &self.torn)
    }
}
