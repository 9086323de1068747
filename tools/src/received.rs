//! The words of a mesh as they were received: which sides are in how many
//! triangles, and where triangles form rings.

use std::collections::{BTreeMap, BTreeSet};
use std::fmt;

use crate::calls::TRIANGLE_WORDS;
use crate::fault::{shown, Fault};
use crate::listing::NO_NUMBER;
use crate::mesh::{triangles, Corner, Part, Side, Triangle};
use crate::progress::Progress;

/// Words that were received, and what the line of totals says, if there is one.
#[derive(Clone, Debug, Default, PartialEq, Eq)]
pub struct Words {
    pub words: Vec<u32>,
    pub stated: Option<Totals>,
}

/// What a line of totals says.
#[derive(Clone, Copy, Debug, PartialEq, Eq)]
pub struct Totals {
    pub crossings: Option<usize>,
    pub triangles: usize,
}

/// What was received.
#[derive(Clone, Debug, PartialEq, Eq)]
pub struct Received {
    pub triangles: Vec<Triangle>,
    /// How many there are by the line of totals, if there is one.
    pub stated: Option<usize>,
}

impl Received {
    /// Triangles without a line of totals.
    pub fn of(triangles: Vec<Triangle>) -> Received {
        Received {
            triangles,
            stated: None,
        }
    }

    pub fn of_words(read: &Words) -> Received {
        Received {
            triangles: triangles(&read.words).collect(),
            stated: read.stated.map(|totals| totals.triangles),
        }
    }
}

/// The triangles of a listing.
pub fn read_listing(bytes: &[u8]) -> Result<Received, Fault> {
    Ok(Received::of_words(&listed_words(bytes)?))
}

/// The triangles of words of four bytes, low byte first.
pub fn read_binary(bytes: &[u8]) -> Result<Received, Fault> {
    Ok(Received::of_words(&binary_words(bytes)?))
}

/// The words of a listing: lines with `T` and eleven words, where `-` is 4294967295,
/// and at most one line of totals. Comments and empty lines are passed over.
pub fn listed_words(bytes: &[u8]) -> Result<Words, Fault> {
    let text = as_text(bytes)?;
    let mut read = Words::default();
    for (at, text) in text.split('\n').enumerate() {
        let text = text.split('#').next().unwrap_or_default();
        let mut line = text.split_whitespace();
        match line.next() {
            None => {}
            Some("cells") if read.stated.is_none() => read.stated = Some(total(line, at + 1)?),
            Some("T") => read.words.extend(eleven(line, at + 1)?),
            Some(other) => {
                let other = shown(other);
                let what = format!("a triangle's line starts with T, and this one with '{other}'");
                return Err(Fault::at_line(at + 1, what));
            }
        }
    }
    Ok(read)
}

/// Bytes as lines of text. Words that are no text are told before any line is read:
/// nearly all have a byte 0.
fn as_text(bytes: &[u8]) -> Result<&str, Fault> {
    no_zero(bytes)?;
    std::str::from_utf8(bytes).map_err(|_| no_text())
}

/// Refuses bytes with a byte 0.
pub fn no_zero(bytes: &[u8]) -> Result<(), Fault> {
    match bytes.contains(&0) {
        true => Err(no_text()),
        false => Ok(()),
    }
}

fn no_text() -> Fault {
    Fault::new("no lines of text (--binary reads words of four bytes)")
}

/// The numbers of the line of totals.
fn total<'a>(line: impl Iterator<Item = &'a str>, at: usize) -> Result<Totals, Fault> {
    let words: Vec<&str> = line.collect();
    let after = |name: &str| {
        let at = words.iter().position(|&word| word == name)?;
        words.get(at + 1)?.parse().ok()
    };
    let triangles = after("triangles");
    let none = || Fault::at_line(at, "the line of totals has no number of triangles");
    Ok(Totals {
        crossings: after("crossings"),
        triangles: triangles.ok_or_else(none)?,
    })
}

/// The eleven words of a line.
fn eleven<'a>(line: impl Iterator<Item = &'a str>, at: usize) -> Result<Vec<u32>, Fault> {
    let word = |text: &str| match text {
        "-" => Ok(NO_NUMBER),
        _ => text
            .parse()
            .map_err(|_| Fault::at_line(at, format!("'{}' is no word of 32 bits", shown(text)))),
    };
    let words: Vec<u32> = line.map(word).collect::<Result<_, _>>()?;
    match words.len() {
        TRIANGLE_WORDS => Ok(words),
        given => Err(Fault::at_line(
            at,
            format!("a triangle has 11 words, and here are {given}"),
        )),
    }
}

/// Words of four bytes, low byte first.
pub fn binary_words(bytes: &[u8]) -> Result<Words, Fault> {
    let whole = 4 * TRIANGLE_WORDS;
    if bytes.len() % whole != 0 {
        let start = bytes.len() / whole * whole;
        let left = bytes.len() - start;
        return Err(Fault::new(format!(
            "byte {start}: a triangle has 44 bytes, and here are {left}"
        )));
    }
    let word = |four: &[u8]| {
        four.iter()
            .rev()
            .fold(0, |sum, &byte| sum << 8 | u32::from(byte))
    };
    Ok(Words {
        words: bytes.chunks_exact(4).map(word).collect(),
        stated: None,
    })
}

/// The numbers of the triangles that have a thing, by this thing.
pub type Having<T> = BTreeMap<T, Vec<usize>>;

/// What was found in a list of triangles.
#[derive(Debug, PartialEq, Eq)]
pub struct Report {
    pub triangles: usize,
    /// Where the line of totals says another number, this one.
    pub stated: Option<usize>,
    /// Loops of cells and of sub-cells, told apart by words 0 and 1.
    pub loops: usize,
    pub sub_cells: usize,
    pub split_cells: usize,
    pub sides: usize,
    /// Sides in one triangle, and in more than two, with these triangles.
    pub open: Having<Side>,
    pub crowded: Having<Side>,
    pub points: usize,
    /// Points whose triangles are not one ring.
    pub ringless: Vec<(Corner, Around)>,
}

/// How the triangles round a point hang together.
#[derive(Clone, Copy, Debug, PartialEq, Eq)]
pub enum Around {
    OneRing,
    /// One strip of triangles that does not close.
    Strip,
    /// More than one ring or strip.
    Several(usize),
    /// A side at the point is in more than two triangles.
    Crowded,
}

/// The triangles with each of the things that `of` names, by these.
fn having<T: Copy + Ord>(triangles: &[Triangle], of: impl Fn(&Triangle) -> [T; 3]) -> Having<T> {
    let mut all = Having::new();
    for (at, triangle) in triangles.iter().enumerate() {
        for thing in of(triangle) {
            all.entry(thing).or_insert_with(Vec::new).push(at);
        }
    }
    all
}

/// Looks at sides and points of the triangles.
pub fn report(received: &Received) -> Report {
    let triangles = &received.triangles[..];
    let sides = having(triangles, |triangle| triangle.sides);
    let points = having(triangles, |triangle| triangle.corners);
    let loops: BTreeSet<(Part, u32)> = triangles.iter().map(|of| (of.part, of.p0)).collect();
    let parts: BTreeSet<Part> = loops.iter().map(|of| of.0).collect();
    let sub_cells = parts.iter().filter(|part| part.is_sub_cell());
    let split_cells: BTreeSet<u32> = sub_cells.clone().map(|part| part.cell).collect();
    let mut ringless = Vec::new();
    let mut progress = Progress::new("points looked at:", points.len());
    for (&corner, at) in &points {
        match around(corner, at, triangles, &sides) {
            Around::OneRing => {}
            other => ringless.push((corner, other)),
        }
        progress.step();
    }
    Report {
        triangles: triangles.len(),
        stated: received.stated.filter(|&stated| stated != triangles.len()),
        loops: loops.len(),
        sub_cells: sub_cells.count(),
        split_cells: split_cells.len(),
        sides: sides.len(),
        points: points.len(),
        ringless,
        open: only(&sides, |triangles| triangles == 1),
        crowded: only(&sides, |triangles| triangles > 2),
    }
}

/// The sides with such a number of triangles.
fn only(sides: &Having<Side>, wanted: impl Fn(usize) -> bool) -> Having<Side> {
    let found = sides.iter().filter(|(_, at)| wanted(at.len()));
    found.map(|(&side, at)| (side, at.clone())).collect()
}

/// The two sides of a triangle that end at its corner.
fn sides_at(triangle: &Triangle, corner: Corner) -> Option<[Side; 2]> {
    let at = triangle.corners.iter().position(|&other| other == corner)?;
    Some([triangle.sides[at], triangle.sides[(at + 2) % 3]])
}

/// How the triangles with a corner hang together over the sides that end there.
fn around(corner: Corner, at: &[usize], triangles: &[Triangle], sides: &Having<Side>) -> Around {
    let mut open = 0;
    for side in at
        .iter()
        .filter_map(|&of| sides_at(&triangles[of], corner))
        .flatten()
    {
        match sides[&side].len() {
            1 => open += 1,
            2 => {}
            _ => return Around::Crowded,
        }
    }
    let strips = parts(corner, at, triangles, sides);
    match (strips, open) {
        (1, 0) => Around::OneRing,
        (1, _) => Around::Strip,
        (several, _) => Around::Several(several),
    }
}

/// Into how many parts the triangles with a corner fall, where a side that ends
/// there links two of them.
fn parts(corner: Corner, at: &[usize], triangles: &[Triangle], sides: &Having<Side>) -> usize {
    let mut left: BTreeSet<usize> = at.iter().copied().collect();
    let mut parts = 0;
    while let Some(&first) = left.iter().next() {
        parts += 1;
        let mut next = vec![first];
        while let Some(one) = next.pop() {
            if left.remove(&one) {
                let linked = sides_at(&triangles[one], corner).into_iter().flatten();
                next.extend(
                    linked
                        .flat_map(|side| &sides[&side])
                        .filter(|of| left.contains(of)),
                );
            }
        }
    }
    parts
}

/// So many sides or points of a kind are told one by one.
const TOLD: usize = 20;

impl Report {
    /// What no whole mesh has: another number of triangles than is stated, a side in
    /// more than two, or an inner side or a segment of an inner face in one.
    pub fn fault(&self) -> Option<Fault> {
        if let Some(stated) = self.stated {
            let what = format!("{} triangles of {stated}", self.triangles);
            return Some(Fault::new(format!("not a whole mesh: {what}")));
        }
        let open = |kind: fn(&Side) -> bool| self.open.keys().filter(|side| kind(side)).count();
        let inner = open(|side| matches!(side, Side::Inner { .. }));
        let segments = open(|side| matches!(side, Side::InnerSegment { .. }));
        match (self.crowded.len(), inner, segments) {
            (0, 0, 0) => None,
            (crowded, ..) => Some(Fault::new(format!(
                "not a whole mesh: sides in more than two triangles {crowded}, \
                 inner sides in one {inner}, segments of inner faces in one {segments}"
            ))),
        }
    }
}

impl fmt::Display for Report {
    fn fmt(&self, out: &mut fmt::Formatter<'_>) -> fmt::Result {
        let Report {
            triangles,
            loops,
            sides,
            points,
            ..
        } = self;
        writeln!(
            out,
            "triangles {triangles} loops {loops} sides {sides} points {points}"
        )?;
        if self.split_cells > 0 {
            let (cells, parts) = (self.split_cells, self.sub_cells);
            writeln!(out, "split cells {cells} sub-cells {parts}")?;
        }
        if let Some(stated) = self.stated {
            writeln!(out, "triangles that the line of totals says {stated}")?;
        }
        let whole = sides - self.open.len() - self.crowded.len();
        writeln!(out, "sides in two triangles {whole}")?;
        writeln!(out, "open sides, in one triangle {}", self.open.len())?;
        list_sides(out, &self.open)?;
        writeln!(
            out,
            "sides in more than two triangles {}",
            self.crowded.len()
        )?;
        list_sides(out, &self.crowded)?;
        writeln!(out, "points with one ring {}", points - self.ringless.len())?;
        writeln!(out, "points without one ring {}", self.ringless.len())?;
        for (corner, around) in self.ringless.iter().take(TOLD) {
            writeln!(out, "  {}: {around}", PointName(*corner))?;
        }
        and_more(out, self.ringless.len())
    }
}

pub fn list_sides(out: &mut fmt::Formatter<'_>, sides: &Having<Side>) -> fmt::Result {
    for (side, at) in sides.iter().take(TOLD) {
        let at: Vec<String> = at.iter().map(usize::to_string).collect();
        let name = SideName(*side);
        writeln!(out, "  {name}: triangle {}", at.join(", "))?;
    }
    and_more(out, sides.len())
}

fn and_more(out: &mut fmt::Formatter<'_>, number: usize) -> fmt::Result {
    match number.saturating_sub(TOLD) {
        0 => Ok(()),
        more => writeln!(out, "  and {more} more"),
    }
}

pub struct SideName(pub Side);

impl fmt::Display for SideName {
    fn fmt(&self, out: &mut fmt::Formatter<'_>) -> fmt::Result {
        match self.0 {
            Side::Segment { face, crossing } => write!(out, "segment {face} {crossing}"),
            Side::InnerSegment {
                cell,
                face,
                crossing,
            } => write!(out, "segment {face} {crossing} of cell {cell}"),
            Side::Inner { part, p0, number } => {
                write!(out, "inner side {number} of {part}, p0 {p0}")
            }
        }
    }
}

struct PointName(Corner);

impl fmt::Display for PointName {
    fn fmt(&self, out: &mut fmt::Formatter<'_>) -> fmt::Result {
        match self.0 {
            Corner::Crossing(crossing) => write!(out, "crossing {crossing}"),
            Corner::InnerCrossing { cell, crossing } => {
                write!(out, "inner crossing {crossing} of cell {cell}")
            }
            Corner::Middle { part, p0 } => write!(out, "middle of {part}, p0 {p0}"),
        }
    }
}

impl fmt::Display for Part {
    fn fmt(&self, out: &mut fmt::Formatter<'_>) -> fmt::Result {
        match self.sub_cell {
            0 => write!(out, "cell {}", self.cell),
            number => write!(out, "cell {}, sub-cell {number}", self.cell),
        }
    }
}

impl fmt::Display for Around {
    fn fmt(&self, out: &mut fmt::Formatter<'_>) -> fmt::Result {
        match self {
            Around::OneRing => write!(out, "one ring"),
            Around::Strip => write!(out, "one strip of triangles, open"),
            Around::Several(parts) => write!(out, "{parts} separate rings or strips"),
            Around::Crowded => write!(out, "a side here is in more than two triangles"),
        }
    }
}
