//! What the picture of a mesh is painted from, the farthest first: triangles, outlines
//! of surfaces, edges of the grid, and where a side of the shading meets the grid's
//! outside.

use std::collections::HashMap;

use crate::calls::Grid;
use crate::clip::Clip;
use crate::colours::{dark_of_surface, lit, of_surface};
use crate::faces::faces;
use crate::mesh::{Side, Triangle};
use crate::mesh_picture::{Colour, MeshLook, Scene};
use crate::orientation::Winding;
use crate::outer_sides::{bent_edges, outer_sides, OuterSide};
use crate::paint_order::{cell_ranks, piece_order, seen_from, Piece};
use crate::plane::Point;
use crate::section_picture::GridLines;
use crate::space::{cross, dot, less, node, unit, Place};
use crate::svg::{Stroke, Svg, BLACK, GREY};
use crate::triangle_types::TriangleType;
use crate::view::Frame;

/// When a shape is painted: the rank of its cell, before, with or after the cell's
/// triangles, and then by number.
type Turn = (usize, u8, usize);

const BEFORE: u8 = 0;
const WITH: u8 = 1;
const AFTER: u8 = 2;

/// A shape, and when it is painted.
pub struct Shape {
    turn: Turn,
    what: What,
}

enum What {
    Facet {
        rings: Vec<Vec<Point>>,
        fill: String,
        opacity: f64,
        stroke: Stroke,
    },
    Line {
        ends: [Point; 2],
        stroke: Stroke,
    },
}

impl Shape {
    pub fn draw(&self, svg: &mut Svg) {
        match &self.what {
            What::Line { ends, stroke } => svg.line(*ends, *stroke),
            What::Facet {
                rings,
                fill,
                opacity,
                stroke,
            } => svg.facet(rings, fill, *opacity, *stroke),
        }
    }
}

/// A triangle of the picture, as far as the clip leaves it.
struct Kept {
    /// Its number in the mesh.
    at: usize,
    triangle: Triangle,
    corners: [Place; 3],
    left: Vec<Place>,
    near: f64,
    turn: Turn,
}

const GRID: Stroke = Stroke::solid(GREY, 1.0);
const NO_STROKE: Stroke = Stroke::solid("none", 0.0);

/// The colours of a triangle by the side that the viewer sees.
pub const SEEN_SIDES: [&str; 2] = ["#a9d3ec", "#2f6fa3"];
const NO_SIDE: &str = "#b8b8b8";

/// A picture's shapes as they are gathered.
pub struct Shapes<'a> {
    scene: &'a Scene<'a>,
    look: &'a MeshLook,
    frame: &'a Frame,
    clip: Option<Clip<'a>>,
    /// Whether the mesh is so large that its outlines tell more than its sides.
    large: bool,
    /// The rank of each cell of the grid.
    ranks: Vec<usize>,
    pub all: Vec<Shape>,
    /// What is drawn once more, over all: the outlines of surfaces, and the triangles
    /// of closed ones with their colours.
    pub outlines: Vec<([Point; 2], &'static str)>,
    pub closed: Vec<(Vec<Point>, &'static str)>,
}

impl<'a> Shapes<'a> {
    pub fn new(
        scene: &'a Scene<'a>,
        look: &'a MeshLook,
        frame: &'a Frame,
        size: f64,
    ) -> Shapes<'a> {
        let clip = look.clip.as_ref();
        let nodes = &scene.whole.placed.nodes;
        let ranks = scene
            .whole
            .grid
            .map(|grid| cell_ranks(grid, nodes, frame.towards()));
        Shapes {
            scene,
            look,
            frame,
            clip: clip.map(|plane| Clip::new(plane, frame.towards(), size)),
            large: scene.is_large(look),
            ranks: ranks.unwrap_or_default(),
            all: Vec::new(),
            outlines: Vec::new(),
            closed: Vec::new(),
        }
    }

    /// All shapes, the farthest first.
    pub fn gather(&mut self) {
        let mut kept = self.kept();
        self.put_in_order(&mut kept);
        for triangle in &kept {
            self.add_triangle(triangle);
        }
        if self.large {
            self.add_outlines(&kept);
            self.add_outer_sides();
        }
        self.add_grid(&kept);
        self.all.sort_by_key(|shape| shape.turn);
    }

    /// The triangles that are shown, as far as the clip leaves them.
    fn kept(&self) -> Vec<Kept> {
        let placed = self.scene.whole.placed;
        let mut kept = Vec::new();
        for (at, triangle) in placed.triangles().enumerate() {
            if !self.look.shows(triangle.part.cell as usize) {
                continue;
            }
            let corners = placed.corners(&triangle);
            let left = self.left(&corners);
            if left.len() < 3 {
                continue;
            }
            let middle = left.iter().map(|&place| self.frame.see(place).near);
            kept.push(Kept {
                at,
                triangle,
                corners,
                near: middle.sum::<f64>() / left.len() as f64,
                left,
                turn: (0, WITH, 0),
            });
        }
        kept
    }

    /// Gives each triangle its turn: cell by cell, or without a grid by its middle.
    fn put_in_order(&self, kept: &mut [Kept]) {
        if self.ranks.is_empty() {
            kept.sort_by(|one, other| one.near.total_cmp(&other.near));
            kept.iter_mut()
                .enumerate()
                .for_each(|(at, of)| of.turn = (at, WITH, 0));
            return;
        }
        let rank = |of: &Kept| self.ranks[of.triangle.part.cell as usize];
        kept.sort_by_key(rank);
        let mut start = 0;
        while start < kept.len() {
            let own = kept[start..].iter();
            let end = start + own.take_while(|of| rank(of) == rank(&kept[start])).count();
            let pieces: Vec<Piece<'_>> = kept[start..end]
                .iter()
                .map(|of| Piece {
                    corners: &of.left,
                    near: of.near,
                })
                .collect();
            let order = piece_order(&pieces, self.frame.towards());
            let rank = rank(&kept[start]);
            for (turn, at) in order.into_iter().enumerate() {
                kept[start + at].turn = (rank, WITH, turn);
            }
            start = end;
        }
    }

    /// What the clip leaves of a ring.
    fn left(&self, ring: &[Place]) -> Vec<Place> {
        match &self.clip {
            None => ring.to_vec(),
            Some(clip) => clip.ring(ring),
        }
    }

    fn left_of_line(&self, line: [Place; 2]) -> Option<[Place; 2]> {
        match &self.clip {
            None => Some(line),
            Some(clip) => clip.line(line),
        }
    }

    fn see_all(&self, ring: &[Place]) -> Vec<Point> {
        ring.iter().map(|&place| self.frame.see(place).at).collect()
    }

    fn add_triangle(&mut self, kept: &Kept) {
        let placed = self.scene.whole.placed;
        let surface = placed.surfaces.of[kept.at];
        let colour = self.colour(kept);
        let seen = self.see_all(&kept.left);
        if self.large && placed.surfaces.list[surface].is_closed() {
            self.closed.push((seen.clone(), colour));
        }
        let (opacity, stroke) = match self.large {
            true => (LARGE, Stroke::solid(dark_of_surface(surface), 0.25)),
            false => (SMALL, Stroke::solid(BLACK, 1.0)),
        };
        let what = What::Facet {
            rings: vec![seen],
            fill: lit(colour, self.light(kept.corners)),
            opacity,
            stroke,
        };
        let turn = kept.turn;
        self.all.push(Shape { turn, what });
    }

    /// How much light falls on a triangle, from 0 to 1: by its slope alone.
    fn light(&self, [a, b, c]: [Place; 3]) -> f64 {
        let normal = unit(cross(less(b, a), less(c, a)));
        normal.map_or(0.5, |normal| dot(normal, self.frame.light()).abs())
    }

    /// Whether a triangle's corners run counter-clockwise in the picture.
    fn is_front(&self, [a, b, c]: [Place; 3]) -> bool {
        dot(cross(less(b, a), less(c, a)), self.frame.towards()) >= 0.0
    }

    /// The colour of a triangle without light.
    fn colour(&self, kept: &Kept) -> &'static str {
        let placed = self.scene.whole.placed;
        let surface = placed.surfaces.of[kept.at];
        match (self.look.colour, self.scene.types) {
            (Colour::Type, Some(types)) => type_colour(types.type_of(&kept.triangle)),
            (Colour::Side, _) if placed.orientation.of[surface] == Winding::Shaded => {
                // from side 0 the corners run counter-clockwise
                SEEN_SIDES[usize::from(!self.is_front(kept.corners))]
            }
            (Colour::Side, _) => NO_SIDE,
            _ => of_surface(surface),
        }
    }

    /// The outlines of surfaces: open sides, and those between a triangle that is seen
    /// from one side and one that is seen from the other.
    fn add_outlines(&mut self, kept: &[Kept]) {
        let mut sides: HashMap<Side, Vec<(usize, usize)>> = HashMap::new();
        for (at, of) in kept.iter().enumerate() {
            for side in 0..3 {
                let name = of.triangle.sides[side];
                sides.entry(name).or_default().push((at, side));
            }
        }
        for (at, of) in kept.iter().enumerate() {
            for side in 0..3 {
                let others = sides[&of.triangle.sides[side]].iter();
                let mut others = others.filter(|&&other| other != (at, side));
                let front = self.is_front(of.corners);
                let alike =
                    |&(other, _): &(usize, usize)| self.is_front(kept[other].corners) == front;
                if !others.any(alike) {
                    let ends = [of.corners[side], of.corners[(side + 1) % 3]];
                    self.add_outline(of, ends);
                }
            }
        }
    }

    fn add_outline(&mut self, of: &Kept, ends: [Place; 2]) {
        let seen = match self.left_of_line(ends) {
            Some(left) => left.map(|end| self.frame.see(end).at),
            None => return,
        };
        let colour = of_surface(self.scene.whole.placed.surfaces.of[of.at]);
        let stroke = Stroke::solid(colour, 2.0);
        let what = What::Line { ends: seen, stroke };
        let turn = of.turn;
        self.all.push(Shape { turn, what });
        self.outlines.push((seen, colour));
    }

    /// What the side with the smaller part of the grid's outside takes of it.
    fn add_outer_sides(&mut self) {
        let (side, all) = match self.scene.tinted_side(self.look) {
            None => return,
            Some(found) => found,
        };
        for of in all {
            let rings = of.rings.iter().map(|ring| self.left(ring));
            let rings = rings.filter(|ring| ring.len() > 2);
            let rings: Vec<Vec<Point>> = rings.map(|ring| self.see_all(&ring)).collect();
            let when = if self.is_seen(&of) { AFTER } else { BEFORE };
            let turn = (self.ranks[of.cell], when, 0);
            let what = What::Facet {
                rings,
                fill: TINTS[side].to_string(),
                opacity: TINTED,
                stroke: NO_STROKE,
            };
            self.all.push(Shape { turn, what });
        }
    }

    /// Whether an outer face is seen from outside.
    fn is_seen(&self, of: &OuterSide) -> bool {
        let cells = self
            .scene
            .whole
            .grid
            .map(|grid| grid.lists().cells.chunks_exact(4));
        let cell = cells
            .and_then(|mut cells| cells.nth(of.cell))
            .unwrap_or(&[]);
        let nodes = &self.scene.whole.placed.nodes;
        seen_from(of.nodes, cell, nodes, self.frame.towards()).unwrap_or(false)
    }

    /// The edges of the grid that are shown. In a small mesh they stand in pieces among
    /// the triangles; in a large one behind all, or before all where the outside at
    /// them is seen.
    fn add_grid(&mut self, kept: &[Kept]) {
        let grid = match self.scene.whole.grid {
            None => return,
            Some(grid) => grid,
        };
        let seen_edges = self.seen_edges(grid);
        for edge in self.scene.edges(self.look) {
            let ends = [
                grid.lists().edges[2 * edge],
                grid.lists().edges[2 * edge + 1],
            ];
            let ends = ends.map(|of| node(&self.scene.whole.placed.nodes, of));
            let seen = match self.left_of_line(ends) {
                Some(left) => left.map(|place| self.frame.see(place)),
                None => continue,
            };
            let parts = if self.large { 1 } else { 12 };
            for part in 0..parts {
                let shares = [part, part + 1].map(|at| f64::from(at) / f64::from(parts));
                let piece = shares.map(|share| seen[0].towards(seen[1], share));
                let turn = match self.large {
                    true if seen_edges[edge] => (usize::MAX, AFTER, 0),
                    true => (0, BEFORE, 0),
                    false => turn_among(kept, (piece[0].near + piece[1].near) / 2.0),
                };
                let what = What::Line {
                    ends: piece.map(|end| end.at),
                    stroke: GRID,
                };
                self.all.push(Shape { turn, what });
            }
        }
    }

    /// The edges of outer faces that are seen from outside.
    fn seen_edges(&self, grid: &Grid) -> Vec<bool> {
        let mut seen = vec![false; grid.lists().counts.len()];
        let cells: Vec<&[u16]> = grid.lists().cells.chunks_exact(4).collect();
        let nodes = &self.scene.whole.placed.nodes;
        for face in faces(grid) {
            let own: Vec<usize> = face
                .cells
                .iter()
                .copied()
                .filter(|&of| self.look.shows(of))
                .collect();
            if let [cell] = own[..] {
                let front = seen_from(face.nodes, cells[cell], nodes, self.frame.towards());
                if front == Some(true) {
                    face.edges.iter().for_each(|&edge| seen[edge] = true);
                }
            }
        }
        seen
    }
}

/// The turn of a line among the triangles of a small mesh: after those whose middles
/// are farther.
fn turn_among(kept: &[Kept], near: f64) -> Turn {
    let farther = kept.iter().filter(|of| of.near <= near);
    let last = farther.map(|of| of.turn).max();
    last.unwrap_or((0, BEFORE, 0))
}

/// How strongly the triangles of a large and of a small mesh are drawn.
const LARGE: f64 = 0.86;
const SMALL: f64 = 0.9;
const TINTED: f64 = 0.85;

/// The tints of sides 0 and 1 on the grid's outside.
pub const TINTS: [&str; 2] = ["#d8ecf7", "#7fbfe6"];

/// The colour of a triangle: that of its loop's type, or one for all sub-cells.
pub fn type_colour(of: TriangleType) -> &'static str {
    use crate::calls::LoopType;
    use crate::svg::{BLUE, PURPLE, SKY, YELLOW};
    match of {
        TriangleType::Loop(LoopType::Contractible) => BLUE,
        TriangleType::Loop(LoopType::Corner(_) | LoopType::LowestCorner(_)) => SKY,
        TriangleType::Loop(LoopType::Diagonal(_)) => YELLOW,
        TriangleType::SubCell => PURPLE,
    }
}

impl Scene<'_> {
    /// The edges of the grid that are shown.
    pub fn edges(&self, look: &MeshLook) -> Vec<usize> {
        let grid = match self.whole.grid {
            None => return Vec::new(),
            Some(grid) => grid,
        };
        let own = self.edges_of_cells(look);
        let outer = |_: ()| bent_edges(grid, &self.whole.placed.nodes, &|cell| look.shows(cell));
        match look.grid {
            GridLines::None => Vec::new(),
            GridLines::Outer => outer(()),
            GridLines::UpTo(most) if own.len() > most => outer(()),
            GridLines::All | GridLines::UpTo(_) => own,
        }
    }

    /// The edges of the cells that are shown.
    pub fn edges_of_cells(&self, look: &MeshLook) -> Vec<usize> {
        let grid = match self.whole.grid {
            None => return Vec::new(),
            Some(grid) => grid,
        };
        let shown = |edge: &usize| {
            let ends = &grid.lists().edges[2 * edge..2 * edge + 2];
            let cells = grid.lists().cells.chunks_exact(4).enumerate();
            let mut of_edge = cells.filter(|(_, nodes)| ends.iter().all(|end| nodes.contains(end)));
            look.only.is_none() || of_edge.any(|(cell, _)| look.shows(cell))
        };
        (0..grid.lists().counts.len()).filter(shown).collect()
    }

    /// The side that takes the smaller part of the grid's outside, and what it takes.
    pub fn tinted_side(&self, look: &MeshLook) -> Option<(usize, Vec<OuterSide>)> {
        let grid = self.whole.grid?;
        let both = [0, 1].map(|side| {
            let mut all = outer_sides(self.whole.placed, grid, side);
            all.retain(|of| look.shows(of.cell));
            all
        });
        let area = |all: &[OuterSide]| all.iter().map(OuterSide::area).sum::<f64>();
        let areas = [0, 1].map(|side| area(&both[side]));
        let [of_0, of_1] = both;
        let found = match areas[0] < areas[1] {
            true => (0, of_0),
            false => (1, of_1),
        };
        (!found.1.is_empty()).then_some(found)
    }
}
