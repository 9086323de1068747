//! What each triangle of a mesh belongs to: a loop of its cell, which has a type, or
//! a sub-cell of it.

use std::collections::HashMap;

use crate::calls::{Grid, Loop, LoopType, Refusal};
use crate::cells::loops_of;
use crate::mesh::Triangle;
use crate::progress::Progress;

/// What a triangle belongs to. The loops call tells the loops of cells; a loop of a
/// sub-cell is none of these.
#[derive(Clone, Copy, Debug, PartialEq, Eq)]
pub enum TriangleType {
    Loop(LoopType),
    SubCell,
}

impl TriangleType {
    /// The number of the loop's type, or 4.
    pub fn number(self) -> u64 {
        match self {
            TriangleType::Loop(kind) => kind.number(),
            TriangleType::SubCell => 4,
        }
    }
}

/// The loops of all cells, by cell and p0. Of a split cell's loops only the corner
/// triangles are drawn as such.
pub struct Loops(HashMap<(u32, u32), Loop>);

impl Loops {
    pub fn of(grid: &Grid) -> Result<Loops, Refusal> {
        let cells = grid.lists().cells.len() / 4;
        let mut progress = Progress::new("cells walked:", cells);
        let mut all = HashMap::new();
        for cell in 0..cells {
            for found in loops_of(grid, cell)? {
                all.insert((cell as u32, found.p0 as u32), found);
            }
            progress.step();
        }
        Ok(Loops(all))
    }

    /// What a triangle of the same grid belongs to. One that is of no sub-cell is of
    /// a loop of its cell.
    pub fn type_of(&self, of: &Triangle) -> TriangleType {
        match of.part.is_sub_cell() {
            true => TriangleType::SubCell,
            false => TriangleType::Loop(self.0[&(of.part.cell, of.p0)].kind),
        }
    }

    /// The same of a triangle that may be of no grid, or of another.
    pub fn known_type(&self, of: &Triangle) -> Option<TriangleType> {
        match of.part.is_sub_cell() {
            true => Some(TriangleType::SubCell),
            false => {
                let found = self.0.get(&(of.part.cell, of.p0));
                found.map(|found| TriangleType::Loop(found.kind))
            }
        }
    }
}
