//! The triangles of a mesh, from the words of the mesh call, and the points that
//! are their corners.

use std::collections::{BTreeMap, HashMap};

use crate::calls::{
    Grid, Refusal, INNER, INNER_CROSSING, INNER_FACE, MIDDLE, MOST_CELLS, TRIANGLE_WORDS,
};

/// What word 0 tells: a cell, or a sub-cell of a split cell.
#[derive(Clone, Copy, Debug, PartialEq, Eq, Hash, PartialOrd, Ord)]
pub struct Part {
    pub cell: u32,
    /// The number of the sub-cell, from 1, or 0 for the cell itself.
    pub sub_cell: u32,
}

impl Part {
    fn of(word: u32) -> Part {
        Part {
            cell: word % MOST_CELLS,
            sub_cell: word / MOST_CELLS,
        }
    }

    pub fn is_sub_cell(self) -> bool {
        self.sub_cell > 0
    }
}

/// A side of a triangle. Those that are in two triangles of any mesh rank first.
#[derive(Clone, Copy, Debug, PartialEq, Eq, Hash, PartialOrd, Ord)]
pub enum Side {
    /// An inner side, identified by words 0 and 1 of its triangles and its number.
    Inner { part: Part, p0: u32, number: u32 },
    /// A segment of an inner face, which belongs to its cell.
    InnerSegment { cell: u32, face: u32, crossing: u32 },
    /// A segment: its face's name and its lower crossing.
    Segment { face: u32, crossing: u32 },
}

/// A corner of a triangle. Those with one ring in any mesh rank first.
#[derive(Clone, Copy, Debug, PartialEq, Eq, Hash, PartialOrd, Ord)]
pub enum Corner {
    /// The middle of the loop with this part and p0.
    Middle {
        part: Part,
        p0: u32,
    },
    /// An inner crossing, which belongs to its cell.
    InnerCrossing {
        cell: u32,
        crossing: u32,
    },
    Crossing(u32),
}

/// A triangle by value. Side t runs from corner t to the next.
#[derive(Clone, Copy, Debug, PartialEq, Eq)]
pub struct Triangle {
    pub part: Part,
    pub p0: u32,
    pub corners: [Corner; 3],
    pub sides: [Side; 3],
}

/// The triangle of eleven words (docs/FORMAT.md, "Triangles" and "Split cells").
pub fn triangle(words: [u32; TRIANGLE_WORDS]) -> Triangle {
    let [word, p0, ..] = words;
    let part = Part::of(word);
    let cell = part.cell;
    let corner = |at: usize| match words[2 + at] {
        MIDDLE => Corner::Middle { part, p0 },
        crossing if crossing < INNER_CROSSING => Corner::Crossing(crossing),
        crossing => Corner::InnerCrossing { cell, crossing },
    };
    let side = |at: usize| match [words[5 + 2 * at], words[6 + 2 * at]] {
        [INNER, number] => Side::Inner { part, p0, number },
        [face, crossing] if face < INNER_FACE => Side::Segment { face, crossing },
        [face, crossing] => Side::InnerSegment {
            cell,
            face,
            crossing,
        },
    };
    Triangle {
        part,
        p0,
        corners: [0, 1, 2].map(corner),
        sides: [0, 1, 2].map(side),
    }
}

/// The triangles of whole groups of words.
pub fn triangles(words: &[u32]) -> impl Iterator<Item = Triangle> + '_ {
    let groups = words.chunks_exact(TRIANGLE_WORDS);
    let whole = groups.filter_map(|group| <[u32; TRIANGLE_WORDS]>::try_from(group).ok());
    whole.map(triangle)
}

/// The mesh of a grid. It keeps the words: a split cell can have millions of
/// triangles.
pub struct Mesh {
    words: Vec<u32>,
    crossings: usize,
    inner: InnerCrossings,
    /// The number of each middle among them, by the part and p0 of its loop.
    middles: HashMap<(Part, u32), usize>,
}

/// What a point is.
#[derive(Clone, Copy, Debug, PartialEq, Eq)]
pub enum PointKind {
    Crossing,
    InnerCrossing,
    Middle,
}

/// The inner crossings of all cells, by cell and number.
#[derive(Default)]
struct InnerCrossings {
    /// How many there are in the cells before each split cell.
    before: BTreeMap<u32, usize>,
    all: usize,
}

impl InnerCrossings {
    /// From how many there are in each cell.
    fn of(counts: BTreeMap<u32, usize>) -> InnerCrossings {
        let mut inner = InnerCrossings::default();
        for (cell, count) in counts {
            inner.before.insert(cell, inner.all);
            inner.all += count;
        }
        inner
    }
}

impl Mesh {
    pub fn of(grid: &Grid) -> Result<Mesh, Refusal> {
        Ok(Mesh::of_words(grid.mesh()?, grid.crossings()))
    }

    /// The mesh of these words, of a grid with so many crossings.
    pub fn of_words(words: Vec<u32>, crossings: usize) -> Mesh {
        let mut counts = BTreeMap::new();
        let mut middles = HashMap::new();
        for corner in triangles(&words).flat_map(|triangle| triangle.corners) {
            match corner {
                Corner::Crossing(_) => {}
                Corner::InnerCrossing { cell, crossing } => {
                    // each is a corner, so the highest tells how many there are
                    let number = (crossing - INNER_CROSSING) as usize;
                    let count = counts.entry(cell).or_insert(0);
                    *count = (number + 1).max(*count);
                }
                Corner::Middle { part, p0 } => {
                    let next = middles.len();
                    middles.entry((part, p0)).or_insert(next);
                }
            }
        }
        Mesh {
            words,
            crossings,
            inner: InnerCrossings::of(counts),
            middles,
        }
    }

    /// The same words, of a grid with so many crossings.
    pub fn with_crossings(self, crossings: usize) -> Mesh {
        Mesh { crossings, ..self }
    }

    /// Other words of the same grid, with the points of this mesh, if it has those of
    /// all their corners.
    pub fn with_words(self, words: Vec<u32>) -> Option<Mesh> {
        let has = |triangle: Triangle| triangle.corners.iter().all(|&of| self.has(of));
        let all = triangles(&words).all(has);
        all.then_some(Mesh { words, ..self })
    }

    /// Whether one of its triangles may have this corner.
    fn has(&self, corner: Corner) -> bool {
        match corner {
            Corner::Crossing(crossing) => (crossing as usize) < self.crossings,
            Corner::InnerCrossing { cell, crossing } => {
                let own = crossing.checked_sub(INNER_CROSSING);
                let first = self.inner.before.get(&cell);
                let next = self.inner.before.range(cell + 1..).next();
                let end = next.map_or(self.inner.all, |of| *of.1);
                matches!((own, first), (Some(own), Some(first)) if first + (own as usize) < end)
            }
            Corner::Middle { part, p0 } => self.middles.contains_key(&(part, p0)),
        }
    }

    /// One of its triangles.
    pub fn triangle(&self, at: usize) -> Triangle {
        let words = self.words[TRIANGLE_WORDS * at..].iter().copied();
        let mut own = [0; TRIANGLE_WORDS];
        own.iter_mut()
            .zip(words)
            .for_each(|(own, word)| *own = word);
        triangle(own)
    }

    pub fn triangles(&self) -> impl Iterator<Item = Triangle> + '_ {
        triangles(&self.words)
    }

    /// How many triangles it has.
    pub fn size(&self) -> usize {
        self.words.len() / TRIANGLE_WORDS
    }

    /// How many crossings its grid has.
    pub fn crossings(&self) -> usize {
        self.crossings
    }

    /// How many inner crossings its split cells have.
    pub fn inner_crossings(&self) -> usize {
        self.inner.all
    }

    /// How many loops are fans: each has a middle.
    pub fn fans(&self) -> usize {
        self.middles.len()
    }

    /// How many points the places call places.
    pub fn points(&self) -> usize {
        self.crossings + self.inner_crossings() + self.fans()
    }

    /// What the point with this number is.
    pub fn kind(&self, point: usize) -> PointKind {
        if point < self.crossings {
            PointKind::Crossing
        } else if point < self.crossings + self.inner.all {
            PointKind::InnerCrossing
        } else {
            PointKind::Middle
        }
    }

    /// The number of the point of one of its corners: crossings stand first, then
    /// the inner ones by cell and number, then the middles in the order of the mesh.
    pub fn point(&self, corner: Corner) -> usize {
        match corner {
            Corner::Crossing(crossing) => crossing as usize,
            Corner::InnerCrossing { cell, crossing } => {
                let within = (crossing - INNER_CROSSING) as usize;
                self.crossings + self.inner.before[&cell] + within
            }
            Corner::Middle { part, p0 } => {
                self.crossings + self.inner.all + self.middles[&(part, p0)]
            }
        }
    }
}
