//! The curves of a face's segments. They do not cross, as the segments do not
//! alternate round the rim.
//!
//! A segment round a corner bows towards this corner: it stays in the triangle of
//! the corner and its two ends, and curves round one corner are one curve, scaled
//! more along both edges the further out it is. A segment along its edge stays in
//! the strip that stands on the edge between its ends, and below the outermost
//! segment round each corner.

use crate::calls::How;
use crate::faces::{Crossing, Face, Joining, Segment, ENDS};
use crate::plane::{until_line, Point};

/// How much of the way from its corner the control point of a bow goes along each
/// edge. One half is a straight line; less bows towards the corner.
const BOW: f64 = 0.4;

/// The share of the room above an edge that a curve or a mark takes at most.
const SHARE: f64 = 0.8;

/// A curve by its ends and control points.
#[derive(Clone, Copy, Debug, PartialEq)]
pub enum Curve {
    Bow([Point; 3]),
    Arc([Point; 4]),
}

/// A face in the plane of a picture.
pub struct PlacedFace<'a> {
    pub face: &'a Face,
    pub joining: &'a Joining,
    /// Where its nodes a, b, c are drawn.
    pub corners: [Point; 3],
    fractions: &'a [f64],
    /// The straight lines between the ends of the outermost segment round each
    /// corner.
    outermost: Vec<[Point; 2]>,
}

impl<'a> PlacedFace<'a> {
    /// `fractions` are those of all crossings of the grid.
    pub fn new(
        face: &'a Face,
        joining: &'a Joining,
        corners: [Point; 3],
        fractions: &'a [f64],
    ) -> PlacedFace<'a> {
        let mut placed = PlacedFace {
            face,
            joining,
            corners,
            fractions,
            outermost: Vec::new(),
        };
        placed.outermost = (0..3)
            .filter_map(|corner| placed.outermost_at(corner))
            .collect();
        placed
    }

    /// Where a crossing is drawn: at its fraction of the edge.
    pub fn at(&self, crossing: Crossing) -> Point {
        let [u, v] = ENDS[crossing.edge].map(|end| self.corners[end]);
        u.towards(v, self.fractions[crossing.number])
    }

    fn outermost_at(&self, corner: usize) -> Option<[Point; 2]> {
        let round = self
            .joining
            .segments
            .iter()
            .filter(|of| of.how == How::Round(corner));
        let chords = round.map(|of| of.ends.map(|end| self.at(end)));
        let reach = |chord: &[Point; 2]| (chord[0] - self.corners[corner]).length();
        chords.max_by(|one, other| reach(one).total_cmp(&reach(other)))
    }

    /// The curve of a segment. An arc rises by `rise` at least, where there is
    /// room.
    pub fn curve(&self, segment: &Segment, rise: f64) -> Curve {
        let [from, to] = segment.ends.map(|end| self.at(end));
        match segment.how {
            How::Round(corner) => {
                let corner = self.corners[corner];
                let control = corner + (from - corner) * BOW + (to - corner) * BOW;
                Curve::Bow([from, control, to])
            }
            How::Along => {
                let edge = segment.ends[0].edge;
                let room = self.room(from, edge).min(self.room(to, edge));
                // an arc rises to three quarters of its control points
                let wanted = (0.9 * (to - from).length()).max(rise / 0.75);
                let up = self.inward(edge) * wanted.min(SHARE * room);
                Curve::Arc([from, from + up, to + up, to])
            }
        }
    }

    /// Where the mark of an unjoined crossing stands: inside the face, `away` from
    /// the crossing where there is room.
    pub fn mark(&self, crossing: Crossing, away: f64) -> Point {
        let from = self.at(crossing);
        let room = self.room(from, crossing.edge);
        from + self.inward(crossing.edge) * away.min(SHARE * room)
    }

    /// The direction from an edge straight into the face.
    pub fn inward(&self, edge: usize) -> Point {
        let [u, v] = ENDS[edge].map(|end| self.corners[end]);
        let across = (v - u).across().unit();
        let third = self.corners[3 - ENDS[edge][0] - ENDS[edge][1]];
        if (v - u).turn(third - u) > 0.0 {
            across
        } else {
            across * -1.0
        }
    }

    /// How far one can go from a point of an edge straight into the face, before
    /// another edge or the outermost segment round a corner.
    fn room(&self, from: Point, edge: usize) -> f64 {
        let others = (0..3).filter(|&other| other != edge);
        let rims = others.map(|other| ENDS[other].map(|end| self.corners[end]));
        let limits = rims.chain(self.outermost.iter().copied());
        let met = limits.filter_map(|limit| until_line(from, self.inward(edge), limit));
        met.fold(f64::INFINITY, f64::min)
    }
}
