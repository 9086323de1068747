//! A grid that the check accepts, and the calls on it.

use crate::answer::{answer, only, refusal, Refusal};
use crate::constants::{
    CONTRACTIBLE, CORNER, DIAGONAL, DONE, LOWEST_CORNER, REFUSED_MESH_AREA, SHADING_BYTES,
    TRIANGLE_WORDS,
};
use crate::library::{GridLists, LINKED};

/// The lists of a grid, right or wrong: four nodes to a cell, two ends and a count
/// to an edge.
#[derive(Clone, Debug, Default, PartialEq, Eq)]
pub struct Lists {
    pub cells: Vec<u16>,
    pub edges: Vec<u16>,
    pub counts: Vec<u16>,
}

/// The type of a loop, with its node (docs/FORMAT.md, "Loops of a cell").
#[derive(Clone, Copy, Debug, PartialEq, Eq)]
pub enum LoopType {
    Contractible,
    Corner(u64),
    Diagonal(u64),
    LowestCorner(u64),
}

impl LoopType {
    /// The number that the loops call answers.
    pub fn number(self) -> u64 {
        match self {
            LoopType::Contractible => CONTRACTIBLE,
            LoopType::Corner(_) => CORNER,
            LoopType::Diagonal(_) => DIAGONAL,
            LoopType::LowestCorner(_) => LOWEST_CORNER,
        }
    }

    /// The type of the last numbers that the loops call answers.
    fn of(numbers: &[u64]) -> Option<LoopType> {
        match *numbers {
            [CONTRACTIBLE] => Some(LoopType::Contractible),
            [CORNER, node] => Some(LoopType::Corner(node)),
            [DIAGONAL, node] => Some(LoopType::Diagonal(node)),
            [LOWEST_CORNER, node] => Some(LoopType::LowestCorner(node)),
            _ => None,
        }
    }
}

/// A loop of a cell.
#[derive(Clone, Copy, Debug, PartialEq, Eq)]
pub struct Loop {
    pub p0: u64,
    pub length: u64,
    pub normal: bool,
    pub kind: LoopType,
}

/// What is told of a mesh that was written.
#[derive(Clone, Copy, Debug, PartialEq, Eq)]
pub struct Meshed {
    pub triangles: u64,
    pub splits: u64,
}

impl Meshed {
    pub(crate) fn of(numbers: &[u64]) -> Result<Meshed, Refusal> {
        match *numbers {
            [DONE, triangles, splits] => Ok(Meshed { triangles, splits }),
            _ => Err(refusal(numbers)),
        }
    }
}

/// The words of a mesh that has no more triangles than `most`: asks without an area how
/// many there are, and then for these.
pub(crate) fn words_within(
    most: usize,
    call: impl Fn(&mut [u32]) -> Result<Meshed, Refusal>,
) -> Result<Vec<u32>, Refusal> {
    match call(&mut []) {
        Ok(_) => Ok(Vec::new()),
        Err(refused) if refused.number == REFUSED_MESH_AREA && refused.place <= most as u64 => {
            let mut words = vec![0; TRIANGLE_WORDS * refused.place as usize];
            call(&mut words)?;
            Ok(words)
        }
        Err(refused) => Err(refused),
    }
}

/// A grid that the grid check accepts.
#[derive(Clone, Debug)]
pub struct Grid {
    lists: Lists,
    starts: Vec<u32>,
    crossings: usize,
}

impl Grid {
    /// Accepts the lists of a grid, or refuses them.
    pub fn open(lists: Lists) -> Result<Grid, Refusal> {
        let Lists {
            cells,
            edges,
            counts,
        } = &lists;
        let mut starts = vec![0; counts.len()];
        let numbers = answer(|area| LINKED.open(cells, edges, counts, &mut starts, area));
        let crossings = only(&numbers)?;
        Ok(Grid {
            lists,
            starts,
            crossings,
        })
    }

    pub fn lists(&self) -> &Lists {
        &self.lists
    }

    /// The lists as the library takes them.
    pub(crate) fn lent(&self) -> GridLists<'_> {
        GridLists {
            cells: &self.lists.cells,
            edges: &self.lists.edges,
            counts: &self.lists.counts,
            starts: &self.starts,
        }
    }

    /// How many crossings the grid has.
    pub fn crossings(&self) -> usize {
        self.crossings
    }

    /// The crossing number of an edge's first crossing: the sum of the counts of
    /// all earlier edges.
    pub fn start(&self, edge: usize) -> usize {
        self.starts[edge] as usize
    }

    /// The edge of a crossing and its index there.
    pub fn edge_of(&self, crossing: usize) -> Option<(usize, usize)> {
        // edges without a crossing have the start of the next
        let passed = self
            .starts
            .partition_point(|&start| start as usize <= crossing);
        let edge = passed.checked_sub(1)?;
        (crossing < self.crossings).then(|| (edge, crossing - self.start(edge)))
    }

    /// The grid check: how many crossings there are.
    pub fn check(&self) -> Result<usize, Refusal> {
        only(&answer(|area| LINKED.check(self.lent(), area)))
    }

    /// The setting call: gives an edge another count. A refusal changes nothing.
    pub fn set_count(&mut self, edge: usize, count: u16) -> Result<(), Refusal> {
        let Grid { lists, starts, .. } = self;
        let Lists {
            cells,
            edges,
            counts,
        } = lists;
        let set = (edge, count);
        let numbers = answer(|area| LINKED.set_count((cells, edges), counts, starts, set, area));
        self.crossings = only(&numbers)?;
        Ok(())
    }

    /// The mesh call in an area of the caller's.
    pub fn mesh_into(&self, words: &mut [u32]) -> Result<Meshed, Refusal> {
        Meshed::of(&answer(|area| LINKED.mesh(self.lent(), words, area)))
    }

    /// The words of the mesh.
    pub fn mesh(&self) -> Result<Vec<u32>, Refusal> {
        self.mesh_within(usize::MAX)
    }

    /// The words of the mesh, if it has no more triangles than `most`.
    pub fn mesh_within(&self, most: usize) -> Result<Vec<u32>, Refusal> {
        words_within(most, |words| self.mesh_into(words))
    }

    /// How many triangles the mesh has, without its words.
    pub fn triangles(&self) -> Result<u64, Refusal> {
        match self.mesh_into(&mut []) {
            Ok(meshed) => Ok(meshed.triangles),
            Err(refused) if refused.number == REFUSED_MESH_AREA => Ok(refused.place),
            Err(refused) => Err(refused),
        }
    }

    /// The loops call: loop `index` of a cell, or none if there are no more.
    pub fn loops(&self, cell: usize, index: usize) -> Result<Option<Loop>, Refusal> {
        let numbers = answer(|area| LINKED.loops(self.lent(), [cell, index], area));
        let found = match &numbers[..] {
            [DONE] => return Ok(None),
            [DONE, p0, length, normal, kind @ ..] => LoopType::of(kind).map(|kind| Loop {
                p0: *p0,
                length: *length,
                normal: *normal == 1,
                kind,
            }),
            _ => None,
        };
        found.map_or_else(|| Err(refusal(&numbers)), |found| Ok(Some(found)))
    }

    /// The shading call: the side of each node, 0 or 1, and `UNUSED` for a node that
    /// no cell has. Refused with `REFUSED_NO_SHADING` where there is none.
    pub fn shading(&self) -> Result<Vec<u8>, Refusal> {
        let mut sides = vec![0; SHADING_BYTES];
        let numbers = answer(|area| LINKED.shading(self.lent(), &mut sides, area));
        match numbers[..] {
            [DONE] => Ok(sides),
            _ => Err(refusal(&numbers)),
        }
    }

    /// The places call: three numbers for each point, in an area with room for so
    /// many.
    pub fn places(
        &self,
        nodes: &[f64],
        fractions: &[f64],
        room: usize,
    ) -> Result<Vec<f64>, Refusal> {
        let mut points = vec![0.0; 3 * room];
        let numbers =
            answer(|area| LINKED.places(self.lent(), nodes, fractions, &mut points, area));
        points.truncate(3 * only(&numbers)?);
        Ok(points)
    }
}
