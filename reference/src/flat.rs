//! Flat sections: a sheet of triangles, the segments of its triangles, and the
//! chains that they make.

use crate::face::{How, Join, Why, INCIDENT};
use crate::grid::{MAX_COUNT, MAX_CROSSINGS, NODE_LIMIT};
use crate::{refuse, Refusal};

/// Most triangles that a sheet may have.
pub const MAX_TRIANGLES: usize = 2048;
/// The rows of refusals of the check, in the order in which they run.
pub const ROWS: [u8; 10] = [1, 2, 3, 4, 5, 6, 18, 7, 8, 10];

/// A crossing of a triangle: its edge (0 ab, 1 ac, 2 bc) and its index there.
pub type End = (usize, u32);

const NODE_BITS: u32 = 12;
const TRIANGLE_BITS: u32 = 11;
const NONE: u32 = u32::MAX;

/// The caller's three lists.
#[derive(Clone, Copy)]
pub struct Sheet<'a> {
    pub triangles: &'a [u16],
    pub edges: &'a [u16],
    pub counts: &'a [u16],
}

/// The check of a sheet: the number of crossings of an accepted one.
pub fn check(sheet: &Sheet) -> Result<u32, Refusal> {
    Tracer::default().check(sheet)
}

/// All segments of a triangle with these counts.
pub fn segments(counts: [u32; 3]) -> Vec<[End; 2]> {
    let mut found = Vec::new();
    each_segment(counts, |one, other, _| found.push([one, other]));
    found
}

/// Where the segment from crossing `index` of `edge` leads and how, or why there is
/// none.
pub fn join(counts: [u32; 3], edge: u32, index: u32) -> Join {
    if edge > 2 || index >= counts[edge as usize] {
        return Join::NoCrossing;
    }
    let mut answer = Join::Unjoined(match longest(counts) {
        Some(_) => Why::Skipped,
        None => Why::Left,
    });
    each_segment(counts, |one, other, how| {
        for (from, (edge_to, index_to)) in [(one, other), (other, one)] {
            if from == (edge as usize, index) {
                answer = Join::Joined {
                    edge: edge_to as u32,
                    index: index_to,
                    how,
                };
            }
        }
    });
    answer
}

/// The edge whose count is above the other two: rule 3.
fn longest(counts: [u32; 3]) -> Option<usize> {
    let sum: u32 = counts.iter().sum();
    (0..3).find(|&edge| 2 * counts[edge] > sum)
}

/// Hands out the two ends of each segment, and how it runs.
fn each_segment(counts: [u32; 3], mut take: impl FnMut(End, End, How)) {
    let sum: u32 = counts.iter().sum();
    let above = longest(counts);
    let cuts = corner_cuts(counts, sum, above);
    for (corner, &cut) in cuts.iter().enumerate() {
        let [one, other] = INCIDENT[corner];
        for rank in 0..cut {
            take(
                (one, from_corner(counts, one, corner, rank)),
                (other, from_corner(counts, other, corner, rank)),
                How::Round(corner as u32),
            );
        }
    }
    if let Some(edge) = above {
        let [low, high] = INCIDENT[edge];
        let stop = counts[edge] - cuts[high];
        let mut index = cuts[low] + sum % 2;
        while index < stop {
            take((edge, index), (edge, index + 1), How::Along);
            index += 2;
        }
    }
}

/// How many segments go round each corner.
fn corner_cuts(counts: [u32; 3], sum: u32, above: Option<usize>) -> [u32; 3] {
    let mut cuts = [0; 3];
    match above {
        Some(edge) => {
            for corner in INCIDENT[edge] {
                let [one, other] = INCIDENT[corner];
                cuts[corner] = counts[one + other - edge];
            }
        }
        None => {
            let mut used = counts;
            if sum % 2 == 1 {
                let most = counts.iter().max();
                let largest = counts.iter().position(|count| Some(count) == most);
                used[largest.unwrap_or(0)] -= 1;
            }
            for (corner, cut) in cuts.iter_mut().enumerate() {
                let [one, other] = INCIDENT[corner];
                *cut = (used[one] + used[other] - used[2 - corner]) / 2;
            }
        }
    }
    cuts
}

/// The index of the crossing that is `rank`-th from `corner` on `edge`.
fn from_corner(counts: [u32; 3], edge: usize, corner: usize, rank: u32) -> u32 {
    if INCIDENT[edge][0] == corner {
        rank
    } else {
        counts[edge] - 1 - rank
    }
}

/// A chain of crossings.
#[derive(Clone, Debug, PartialEq, Eq)]
pub struct Chain {
    pub closed: bool,
    pub crossings: Vec<u32>,
}

/// Traces the chains of sheets. One value serves many sheets in turn and keeps
/// its memory.
#[derive(Default)]
pub struct Tracer {
    keys: Vec<u64>,
    edge_keys: Vec<u32>,
    /// Numbers of each triangle's three edges.
    triangle_edges: Vec<[usize; 3]>,
    /// Number of the first crossing on each edge.
    starts: Vec<u32>,
    /// The two crossings of each segment, and the segments of each crossing in
    /// the order of their triangles.
    segments: Vec<[u32; 2]>,
    meeting: Vec<[u32; 2]>,
    passed: Vec<bool>,
    words: Vec<u32>,
    /// By chain: its least crossing, and where its words start and stop.
    spans: Vec<(u32, usize, usize)>,
}

/// Writes the words of the chains at the front of an area; their number.
pub fn chains(sheet: &Sheet, area: &mut [u32]) -> Result<u32, Refusal> {
    Tracer::default().chains(sheet, area)
}

impl Tracer {
    pub fn chains(&mut self, sheet: &Sheet, area: &mut [u32]) -> Result<u32, Refusal> {
        let crossings = self.check(sheet)?;
        self.join_all(sheet, crossings);
        self.trace_all(crossings);
        if self.words.len() > area.len() {
            return refuse(24, self.words.len());
        }
        let mut at = 0;
        for &(_, start, stop) in &self.spans {
            area[at..at + stop - start].copy_from_slice(&self.words[start..stop]);
            at += stop - start;
        }
        Ok(at as u32)
    }

    /// The chains as values.
    pub fn list(&mut self, sheet: &Sheet) -> Result<Vec<Chain>, Refusal> {
        let crossings = self.check(sheet)?;
        self.join_all(sheet, crossings);
        self.trace_all(crossings);
        let chain = |&(_, start, stop): &(u32, usize, usize)| Chain {
            closed: self.words[start] == 1,
            crossings: self.words[start + 2..stop].to_vec(),
        };
        Ok(self.spans.iter().map(chain).collect())
    }

    fn check(&mut self, sheet: &Sheet) -> Result<u32, Refusal> {
        check_lengths(sheet)?;
        check_nodes(sheet)?;
        self.check_repeated(sheet)?;
        self.check_crowded(sheet)?;
        self.list_edges(sheet)?;
        if let Some(edge) = sheet.counts.iter().position(|&count| count > MAX_COUNT) {
            return refuse(18, edge);
        }
        self.find_edges(sheet)?;
        self.number_crossings(sheet)
    }

    /// Row 4.
    fn check_repeated(&mut self, sheet: &Sheet) -> Result<(), Refusal> {
        self.keys.clear();
        for (number, nodes) in sheet.triangles.chunks_exact(3).enumerate() {
            self.keys
                .push(packed(nodes) << TRIANGLE_BITS | number as u64);
        }
        self.keys.sort_unstable();
        match repeated(&self.keys, 2) {
            Some(triangle) => refuse(4, triangle),
            None => Ok(()),
        }
    }

    /// Row 5.
    fn check_crowded(&mut self, sheet: &Sheet) -> Result<(), Refusal> {
        self.keys.clear();
        for (number, nodes) in sheet.triangles.chunks_exact(3).enumerate() {
            for [low, high] in INCIDENT {
                let ends = packed(&[nodes[low], nodes[high]]);
                self.keys.push(ends << TRIANGLE_BITS | number as u64);
            }
        }
        self.keys.sort_unstable();
        match repeated(&self.keys, 3) {
            Some(triangle) => refuse(5, triangle),
            None => Ok(()),
        }
    }

    /// Row 6.
    fn list_edges(&mut self, sheet: &Sheet) -> Result<(), Refusal> {
        self.edge_keys.clear();
        for (number, ends) in sheet.edges.chunks_exact(2).enumerate() {
            let key = edge_key(ends[0], ends[1]);
            let after = self.edge_keys.last().map_or(true, |&last| last < key);
            if ends[0] >= ends[1] || !after {
                return refuse(6, number);
            }
            self.edge_keys.push(key);
        }
        Ok(())
    }

    /// Rows 7 and 8.
    fn find_edges(&mut self, sheet: &Sheet) -> Result<(), Refusal> {
        let mut used = vec![false; sheet.counts.len()];
        self.triangle_edges.clear();
        for (number, nodes) in sheet.triangles.chunks_exact(3).enumerate() {
            let mut found = [0; 3];
            for (place, [low, high]) in INCIDENT.into_iter().enumerate() {
                let key = edge_key(nodes[low], nodes[high]);
                match self.edge_keys.binary_search(&key) {
                    Ok(edge) => found[place] = edge,
                    Err(_) => return refuse(7, number),
                }
                used[found[place]] = true;
            }
            self.triangle_edges.push(found);
        }
        match used.iter().position(|&used| !used) {
            Some(edge) => refuse(8, edge),
            None => Ok(()),
        }
    }

    /// Row 10.
    fn number_crossings(&mut self, sheet: &Sheet) -> Result<u32, Refusal> {
        self.starts.clear();
        let mut total = 0;
        for &count in sheet.counts {
            self.starts.push(total as u32);
            total += u64::from(count);
        }
        if total > MAX_CROSSINGS {
            return refuse(10, 0);
        }
        Ok(total as u32)
    }

    /// Lists the segments of all triangles.
    fn join_all(&mut self, sheet: &Sheet, crossings: u32) {
        self.segments.clear();
        self.meeting.clear();
        self.meeting.resize(crossings as usize, [NONE; 2]);
        for edges in &self.triangle_edges {
            let counts = edges.map(|edge| u32::from(sheet.counts[edge]));
            let starts = edges.map(|edge| self.starts[edge]);
            let (segments, meeting) = (&mut self.segments, &mut self.meeting);
            each_segment(counts, |one, other, _| {
                let ends = [one, other].map(|(edge, index)| starts[edge] + index);
                for end in ends {
                    let place = &mut meeting[end as usize];
                    let side = usize::from(place[0] != NONE);
                    place[side] = segments.len() as u32;
                }
                segments.push(ends);
            });
        }
    }

    /// Open chains from their lower ends, then closed ones from their least
    /// crossings, and all of them by least crossing.
    fn trace_all(&mut self, crossings: u32) {
        self.passed.clear();
        self.passed.resize(crossings as usize, false);
        self.words.clear();
        self.spans.clear();
        for ends in [true, false] {
            for start in 0..crossings {
                let [first, second] = self.meeting[start as usize];
                let starts = first != NONE && (second == NONE) == ends;
                if starts && !self.passed[start as usize] {
                    self.trace(start, first);
                }
            }
        }
        self.spans.sort_unstable();
    }

    /// The chain that leaves a crossing by a segment.
    fn trace(&mut self, start: u32, segment: u32) {
        let from = self.words.len();
        self.words.extend([0, 0]);
        let (mut crossing, mut leaving, mut least) = (start, segment, start);
        let mut closed = false;
        loop {
            self.passed[crossing as usize] = true;
            self.words.push(crossing);
            least = least.min(crossing);
            if leaving == NONE {
                break;
            }
            let [one, other] = self.segments[leaving as usize];
            crossing ^= one ^ other;
            if crossing == start {
                closed = true;
                break;
            }
            let [first, second] = self.meeting[crossing as usize];
            leaving = if first == leaving { second } else { first };
        }
        self.words[from] = u32::from(closed);
        self.words[from + 1] = (self.words.len() - from - 2) as u32;
        self.spans.push((least, from, self.words.len()));
    }
}

/// Rows 1 and 2.
fn check_lengths(sheet: &Sheet) -> Result<(), Refusal> {
    let numbers = sheet.triangles.len();
    if numbers % 3 != 0 || numbers == 0 || numbers / 3 > MAX_TRIANGLES {
        return refuse(1, 0);
    }
    if sheet.edges.len() != 2 * sheet.counts.len() {
        return refuse(2, 0);
    }
    Ok(())
}

/// Row 3.
fn check_nodes(sheet: &Sheet) -> Result<(), Refusal> {
    let bad = |nodes: &[u16]| {
        let rises = nodes[0] < nodes[1] && nodes[1] < nodes[2];
        !rises || nodes[2] >= NODE_LIMIT
    };
    match sheet.triangles.chunks_exact(3).position(bad) {
        Some(triangle) => refuse(3, triangle),
        None => Ok(()),
    }
}

/// The lowest triangle that stands as the `times`-th of sorted keys that are
/// equal but for the triangle.
fn repeated(keys: &[u64], times: usize) -> Option<usize> {
    let late = keys.windows(times).filter_map(|some| {
        let (first, last) = (some[0], some[times - 1]);
        let same = first >> TRIANGLE_BITS == last >> TRIANGLE_BITS;
        same.then_some((last & ((1 << TRIANGLE_BITS) - 1)) as usize)
    });
    late.min()
}

fn packed(nodes: &[u16]) -> u64 {
    let join = |key, &node| key << NODE_BITS | u64::from(node);
    nodes.iter().fold(0, join)
}

fn edge_key(u: u16, v: u16) -> u32 {
    u32::from(u) << 16 | u32::from(v)
}
