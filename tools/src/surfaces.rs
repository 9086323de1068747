//! The surfaces of a mesh. Two triangles hang together where they share a side, by
//! its name; a surface is all triangles that hang together, directly or by others.
//!
//! A surface is taken as its triangles make it, glued along shared sides and nowhere
//! else: where it touches itself at a point, or where two sides have equal ends, it
//! is not glued. So points are counted by the triangles that hang together round
//! them, and a point at which the surface touches itself counts more than once.

use crate::mesh::{Corner, Mesh, Side, Triangle};

/// A surface of a mesh.
#[derive(Clone, Debug, Default, PartialEq, Eq)]
pub struct Surface {
    /// The number of its first triangle in the mesh.
    pub first: usize,
    pub triangles: usize,
    /// Sides in one triangle, in two, and in more; no mesh has the last.
    pub open_sides: usize,
    pub inner_sides: usize,
    pub crowded_sides: usize,
    /// The closed lines that its open sides make.
    pub holes: usize,
    pub points: usize,
    /// Whether its triangles cannot be wound alike throughout.
    pub one_sided: bool,
}

impl Surface {
    /// Whether each side is in two triangles.
    pub fn is_closed(&self) -> bool {
        self.open_sides + self.crowded_sides == 0
    }

    /// Points less sides plus triangles: 2 for a ball's surface, 0 for a ring's, 1
    /// for a disk.
    pub fn euler(&self) -> i64 {
        let sides = self.open_sides + self.inner_sides + self.crowded_sides;
        self.points as i64 - sides as i64 + self.triangles as i64
    }
}

/// The surfaces of a mesh, in the order of their first triangles.
#[derive(Clone, Debug, Default, PartialEq, Eq)]
pub struct Surfaces {
    /// The number of each triangle's surface.
    pub of: Vec<usize>,
    /// Whether a triangle is wound against its surface's first one: where all such
    /// are turned, a side of two triangles is run through once each way. In a
    /// surface with one side only, none.
    pub against: Vec<bool>,
    pub list: Vec<Surface>,
}

impl Surfaces {
    pub fn of(mesh: &Mesh) -> Surfaces {
        let triangles: Vec<Triangle> = mesh.triangles().collect();
        Surfaces::of_triangles(&triangles)
    }

    /// The surfaces of any list of triangles.
    pub fn of_triangles(triangles: &[Triangle]) -> Surfaces {
        let groups = Groups::of(triangles);
        let mut pieces = Pieces::new(triangles.len());
        let mut twisted = Vec::new();
        for side in groups.iter().filter(|side| side.len() == 2) {
            let alike = begins(triangles, side[0]) == begins(triangles, side[1]);
            if !pieces.join(side[0] / 3, side[1] / 3, alike) {
                twisted.push(side[0] / 3);
            }
        }
        for side in groups.iter().filter(|side| side.len() > 2) {
            for two in side.windows(2) {
                pieces.join(two[0] / 3, two[1] / 3, false);
            }
        }
        let mut surfaces = numbered(&mut pieces, triangles.len());
        for triangle in twisted {
            surfaces.list[surfaces.of[triangle]].one_sided = true;
        }
        for triangle in 0..triangles.len() {
            let one_sided = surfaces.list[surfaces.of[triangle]].one_sided;
            surfaces.against[triangle] &= !one_sided;
        }
        count_sides(&mut surfaces, &groups);
        count_points(&mut surfaces, triangles, &groups);
        surfaces
    }
}

/// The corner at which a side of a triangle begins. A place is three times the
/// triangle plus the side.
fn begins(triangles: &[Triangle], place: usize) -> Corner {
    triangles[place / 3].corners[place % 3]
}

/// The places of each side, that is, three times the triangle plus the side there.
struct Groups {
    places: Vec<usize>,
    /// Where the places of each side start, and where the last ones end.
    starts: Vec<usize>,
}

impl Groups {
    fn of(triangles: &[Triangle]) -> Groups {
        let sides = triangles.iter().flat_map(|of| of.sides);
        let mut named: Vec<(Side, usize)> = sides.zip(0..).collect();
        named.sort_unstable();
        let new = |at: &usize| *at == 0 || named[*at].0 != named[*at - 1].0;
        let mut starts: Vec<usize> = (0..named.len()).filter(new).collect();
        starts.push(named.len());
        Groups {
            places: named.into_iter().map(|(_, place)| place).collect(),
            starts,
        }
    }

    fn iter(&self) -> impl Iterator<Item = &[usize]> {
        let ends = self.starts.windows(2);
        ends.map(move |ends| &self.places[ends[0]..ends[1]])
    }
}

/// Things that hang together in pieces, each turned or not against the others.
struct Pieces {
    /// Another thing of the same piece, nearer to its first, and whether this one is
    /// turned against it.
    up: Vec<(usize, bool)>,
}

impl Pieces {
    fn new(things: usize) -> Pieces {
        Pieces {
            up: (0..things).map(|thing| (thing, false)).collect(),
        }
    }

    /// The first thing of the piece, and whether this one is turned against it.
    fn first(&mut self, thing: usize) -> (usize, bool) {
        let (mut at, mut turned) = (thing, false);
        while self.up[at].0 != at {
            turned ^= self.up[at].1;
            at = self.up[at].0;
        }
        let (first, all) = (at, turned);
        at = thing;
        while self.up[at].0 != at {
            let (next, own) = self.up[at];
            self.up[at] = (first, turned);
            turned ^= own;
            at = next;
        }
        (first, all)
    }

    /// Joins two things, turned against each other or not. False where they are
    /// joined otherwise already.
    fn join(&mut self, one: usize, other: usize, turned: bool) -> bool {
        let (one, one_turned) = self.first(one);
        let (other, other_turned) = self.first(other);
        let turned = turned ^ one_turned ^ other_turned;
        if one == other {
            return !turned;
        }
        // the lowest is the first
        self.up[one.max(other)] = (one.min(other), turned);
        true
    }
}

/// The pieces of triangles as surfaces, with what is not counted yet.
fn numbered(pieces: &mut Pieces, triangles: usize) -> Surfaces {
    let mut surfaces = Surfaces::default();
    for triangle in 0..triangles {
        let (first, against) = pieces.first(triangle);
        if first == triangle {
            surfaces.of.push(surfaces.list.len());
            surfaces.list.push(Surface {
                first,
                ..Surface::default()
            });
        } else {
            surfaces.of.push(surfaces.of[first]);
        }
        surfaces.against.push(against);
        surfaces.list[surfaces.of[triangle]].triangles += 1;
    }
    surfaces
}

fn count_sides(surfaces: &mut Surfaces, groups: &Groups) {
    for side in groups.iter() {
        let surface = &mut surfaces.list[surfaces.of[side[0] / 3]];
        match side.len() {
            1 => surface.open_sides += 1,
            2 => surface.inner_sides += 1,
            _ => surface.crowded_sides += 1,
        }
    }
}

/// The two corners of a side as places of corners: three times the triangle plus the
/// corner there.
fn ends(place: usize) -> [usize; 2] {
    [place, place - place % 3 + (place + 1) % 3]
}

/// Counts points, and the lines that open sides make.
fn count_points(surfaces: &mut Surfaces, triangles: &[Triangle], groups: &Groups) {
    let mut points = Pieces::new(3 * triangles.len());
    for side in groups.iter() {
        for two in side.windows(2) {
            let ([a, b], [c, d]) = (ends(two[0]), ends(two[1]));
            let crosswise = begins(triangles, two[0]) != begins(triangles, two[1]);
            let [c, d] = if crosswise { [d, c] } else { [c, d] };
            points.join(a, c, false);
            points.join(b, d, false);
        }
    }
    let mut lines = Pieces::new(3 * triangles.len());
    let open = || groups.iter().filter(|side| side.len() == 1);
    for side in open() {
        let [a, b] = ends(side[0]).map(|end| points.first(end).0);
        lines.join(a, b, false);
    }
    for corner in 0..3 * triangles.len() {
        let surface = surfaces.of[corner / 3];
        surfaces.list[surface].points += usize::from(points.first(corner).0 == corner);
    }
    let mut counted: Vec<usize> = open()
        .map(|side| lines.first(points.first(side[0]).0).0)
        .collect();
    counted.sort_unstable();
    counted.dedup();
    for corner in counted {
        surfaces.list[surfaces.of[corner / 3]].holes += 1;
    }
}
