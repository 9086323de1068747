//! The mesh call and the loops call.

use crate::cell::{
    is_fan, loop_type, triangle_count, CellWalker, Closed, Loop, LoopType, Stop, Triangle,
    TRIANGLE_WORDS,
};
use crate::grid::{GridTables, Lists};
use crate::nest::Nest;
use crate::split::{self, PartWalker, Totals, Working, SUB_CELL_STEP};
use crate::{refuse, Refusal};

/// The answer of the mesh call.
#[derive(Clone, Copy, Debug, Default, PartialEq, Eq)]
pub struct MeshAnswer {
    pub triangles: u64,
    pub splits: u64,
}

/// The answer of the loops call.
#[derive(Clone, Copy, Debug, PartialEq, Eq)]
pub struct LoopAnswer {
    pub p0: u32,
    pub length: u32,
    pub normal: bool,
    /// Sum of the parities on the three edges from the cell's lowest node.
    pub parity_sum: u32,
    /// The type, with the node's number in the grid.
    pub kind: LoopType,
}

/// A traced loop: its cell, where its stops end, and whether it is normal. A
/// cell that is split has one span without stops in place of its loops.
#[derive(Clone, Copy)]
struct Span {
    cell: u32,
    end: u32,
    normal: bool,
    split: bool,
}

/// What a mesh is made of, in order.
pub(crate) enum Piece<'a> {
    Loop {
        cell: usize,
        stops: &'a [Stop],
        normal: bool,
    },
    SplitCell(usize),
}

/// Memory for the calls of this module, reused from call to call.
#[derive(Default)]
pub struct Mesher {
    tables: GridTables,
    walker: CellWalker,
    stops: Vec<Stop>,
    spans: Vec<Span>,
    /// Sums over the cells that are split.
    split_totals: Totals,
}

/// Writes the mesh of a grid into `area`; the answer is its triangles and the
/// splits made.
pub fn mesh(lists: Lists, area: &mut [u32]) -> Result<MeshAnswer, Refusal> {
    Mesher::default().mesh(lists, area)
}

/// Tells of loop `index` of a cell, if the cell has so many.
pub fn loop_of_cell(lists: Lists, cell: u64, index: u64) -> Result<Option<LoopAnswer>, Refusal> {
    Mesher::default().loop_of_cell(lists, cell, index)
}

/// Row 12: an area must have room for so many triangles.
pub(crate) fn check_area(area: &[u32], triangles: u64) -> Result<(), Refusal> {
    if ((area.len() / TRIANGLE_WORDS) as u64) < triangles {
        return refuse(12, triangles as usize);
    }
    Ok(())
}

impl Mesher {
    /// As the free function, with this memory.
    pub fn mesh(&mut self, lists: Lists, area: &mut [u32]) -> Result<MeshAnswer, Refusal> {
        self.tables.check(lists)?;
        self.mesh_checked(&lists, area)
    }

    /// The mesh of a run of an accepted grid, which need not pass row 9.
    pub(crate) fn mesh_run(&mut self, run: Lists, area: &mut [u32]) -> Result<MeshAnswer, Refusal> {
        self.tables.check_run(run)?;
        self.mesh_checked(&run, area)
    }

    /// The triangles and splits of a run of an accepted grid.
    pub(crate) fn count_run(&mut self, run: Lists) -> Result<MeshAnswer, Refusal> {
        self.tables.check_run(run)?;
        Ok(self.count_checked(&run))
    }

    /// Row 12 and the triangles of the grid that the tables are of.
    fn mesh_checked(&mut self, lists: &Lists, area: &mut [u32]) -> Result<MeshAnswer, Refusal> {
        let answer = self.count_checked(lists);
        check_area(area, answer.triangles)?;
        self.write_triangles(lists, area);
        Ok(answer)
    }

    /// Traces the grid that the tables are of.
    fn count_checked(&mut self, lists: &Lists) -> MeshAnswer {
        MeshAnswer {
            triangles: self.trace_grid(lists),
            splits: self.split_totals.splits,
        }
    }

    /// Gives the triangles of a grid one after another; the answer is as that of
    /// `mesh` in an area with room.
    pub fn each_triangle(
        &mut self,
        lists: Lists,
        give: impl FnMut(Triangle),
    ) -> Result<MeshAnswer, Refusal> {
        self.tables.check(lists)?;
        let triangles = self.trace_grid(&lists);
        self.give_triangles(&lists, give);
        Ok(MeshAnswer {
            triangles,
            splits: self.split_totals.splits,
        })
    }

    /// As the free function, with this memory.
    pub fn loop_of_cell(
        &mut self,
        lists: Lists,
        cell: u64,
        index: u64,
    ) -> Result<Option<LoopAnswer>, Refusal> {
        self.tables.check(lists)?;
        if cell >= lists.cell_count() as u64 {
            return Err(Refusal {
                number: 11,
                place: cell,
            });
        }
        Ok(self.describe_loop(&lists, cell as usize, index))
    }

    /// Checks a grid and traces all its loops; the answer is its crossings.
    pub(crate) fn prepare(&mut self, lists: &Lists) -> Result<u32, Refusal> {
        let crossings = self.tables.check(*lists)?;
        self.trace_grid(lists);
        Ok(crossings)
    }

    /// Sums over the cells of the traced grid that are split.
    pub(crate) fn split_totals(&self) -> Totals {
        self.split_totals
    }

    /// How many loops of the cells that are not split have fans.
    pub(crate) fn fan_count(&self) -> u64 {
        let loops = self.loops().filter(|(span, _)| !span.split);
        let fans = loops.filter(|(span, stops)| is_fan(stops.len() as u32, span.normal));
        fans.count() as u64
    }

    /// The loops and split cells of the traced grid, in mesh order.
    pub(crate) fn pieces(&self) -> impl Iterator<Item = Piece<'_>> {
        self.loops().map(|(span, stops)| match span.split {
            true => Piece::SplitCell(span.cell as usize),
            false => Piece::Loop {
                cell: span.cell as usize,
                stops,
                normal: span.normal,
            },
        })
    }

    /// The working of a cell of the traced grid.
    pub(crate) fn working(&self, lists: &Lists, cell: usize) -> Working {
        let (counts, starts) = self.edges_of(lists, cell);
        let working = Working::of(counts.map(|count| count as u16), starts, self.names(cell));
        working.expect("a cell that is split")
    }

    /// Names of a cell's faces by slot.
    fn names(&self, cell: usize) -> [u32; 4] {
        [0, 1, 2, 3].map(|slot| u32::from(self.tables.face_names[4 * cell + slot]))
    }

    /// The nest of each cell of the traced grid.
    pub(crate) fn nests(&self, lists: &Lists) -> Vec<Option<Nest>> {
        let mut lengths = vec![Vec::new(); lists.cell_count()];
        for (span, stops) in self.loops() {
            lengths[span.cell as usize].push(stops.len());
        }
        let cells = lengths.iter().enumerate();
        let nest = |(cell, lengths): (usize, &Vec<usize>)| {
            let (counts, starts) = self.edges_of(lists, cell);
            Nest::of(counts.map(|count| count as u16), starts, lengths)
        };
        cells.map(nest).collect()
    }

    /// Traces the loops of every cell that is not split and counts all
    /// triangles.
    fn trace_grid(&mut self, lists: &Lists) -> u64 {
        self.stops.clear();
        self.spans.clear();
        self.split_totals = Totals::default();
        let mut triangles = 0;
        for cell in 0..lists.cell_count() {
            let (counts, starts) = self.edges_of(lists, cell);
            match split::totals(counts.map(|count| count as u16)) {
                Some(totals) => self.note_split(cell, totals),
                None => {
                    self.walker.load(&counts, &starts);
                    triangles += self.trace_cell(cell);
                }
            }
        }
        triangles + self.split_totals.triangles
    }

    fn note_split(&mut self, cell: usize, totals: Totals) {
        self.split_totals.add(totals);
        self.spans.push(Span {
            cell: cell as u32,
            end: self.stops.len() as u32,
            normal: true,
            split: true,
        });
    }

    /// Traces the loops of the loaded cell and counts their triangles.
    fn trace_cell(&mut self, cell: usize) -> u64 {
        let mut triangles = 0;
        while let Some(Closed { length, normal }) = self.walker.next_loop(&mut self.stops) {
            triangles += u64::from(triangle_count(length, normal));
            self.spans.push(Span {
                cell: cell as u32,
                end: self.stops.len() as u32,
                normal,
                split: false,
            });
        }
        triangles
    }

    fn loops(&self) -> impl Iterator<Item = (Span, &[Stop])> {
        let mut begin = 0;
        self.spans.iter().map(move |&span| {
            let stops = &self.stops[begin..span.end as usize];
            begin = span.end as usize;
            (span, stops)
        })
    }

    fn write_triangles(&self, lists: &Lists, area: &mut [u32]) {
        let mut places = area.chunks_exact_mut(TRIANGLE_WORDS);
        self.give_triangles(lists, |triangle| {
            if let Some(place) = places.next() {
                place.copy_from_slice(&triangle.words());
            }
        });
    }

    fn give_triangles(&self, lists: &Lists, mut give: impl FnMut(Triangle)) {
        let mut walker = PartWalker::default();
        for piece in self.pieces() {
            match piece {
                Piece::Loop {
                    cell,
                    stops,
                    normal,
                } => Loop {
                    cell: cell as u32,
                    names: self.names(cell),
                    stops,
                    normal,
                }
                .each_triangle(&mut give),
                Piece::SplitCell(cell) => {
                    self.give_split(lists, cell, &mut walker, &mut give);
                }
            }
        }
    }

    /// Gives the triangles of a cell that is split, part by part: of a part
    /// that is split the loops of three segments, of others all loops.
    fn give_split(
        &self,
        lists: &Lists,
        cell: usize,
        walker: &mut PartWalker,
        mut give: impl FnMut(Triangle),
    ) {
        for step in self.working(lists, cell) {
            walker.load(&step.part);
            while let Some(normal) = walker.next_loop() {
                let spanned = Loop {
                    cell: cell as u32 + SUB_CELL_STEP * step.number,
                    names: step.part.faces,
                    stops: &walker.stops,
                    normal,
                };
                if step.split.is_none() || walker.stops.len() == 3 {
                    spanned.each_triangle(|triangle| give(triangle.renumbered(&walker.numbers)));
                }
            }
        }
    }

    /// The counts and first crossings of a cell's edges.
    fn edges_of(&self, lists: &Lists, cell: usize) -> ([u32; 6], [u32; 6]) {
        let edges = self.tables.cell_edges[cell];
        let (mut counts, mut starts) = ([0; 6], [0; 6]);
        for position in 0..6 {
            let edge = edges[position] as usize;
            counts[position] = u32::from(lists.counts[edge]);
            starts[position] = lists.starts[edge];
        }
        (counts, starts)
    }

    /// Loads a cell into the walker; gives its counts and first crossings.
    fn load_cell(&mut self, lists: &Lists, cell: usize) -> ([u32; 6], [u32; 6]) {
        let (counts, starts) = self.edges_of(lists, cell);
        self.walker.load(&counts, &starts);
        (counts, starts)
    }

    fn describe_loop(&mut self, lists: &Lists, cell: usize, index: u64) -> Option<LoopAnswer> {
        let (counts, starts) = self.load_cell(lists, cell);
        for _ in 0..index {
            self.walker.next_loop(&mut self.stops)?;
        }
        self.stops.clear();
        let Closed { length, normal } = self.walker.next_loop(&mut self.stops)?;
        let nodes = lists.cell(cell).map(u32::from);
        let (parity_sum, kind) = loop_type(&self.stops, &counts, &starts, nodes);
        Some(LoopAnswer {
            p0: u32::from(self.stops[0].crossing),
            length,
            normal,
            parity_sum,
            kind,
        })
    }
}
