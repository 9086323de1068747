//! Records and bundles: the record reader's two calls, the bundle reader, the
//! writer, and the three numbers for a host program.

use crate::{refuse, Refusal};
use std::collections::{HashMap, HashSet};

/// Kind of a cell record: four nodes.
pub const CELL: u16 = 1;
/// Kind of an edge record: two nodes and a count of one byte.
pub const EDGE: u16 = 2;
/// Kind of the record that ends a bundle.
pub const END: u16 = 3;
/// Kind of an edge record with a count of two bytes, which one byte can't hold.
pub const WIDE_EDGE: u16 = 4;
/// Kind of a later look at an edge: two nodes and its new count, of two bytes.
pub const LOOK: u16 = 5;

/// Bytes of the length and kind before a body.
const HEAD: usize = 4;
const CELL_BYTES: usize = HEAD + 8;
const EDGE_BYTES: usize = HEAD + 5;
const WIDE_EDGE_BYTES: usize = HEAD + 6;
const LOOK_BYTES: usize = HEAD + 6;
const END_BYTES: usize = HEAD;
/// Bytes before the count in a record of an edge or a look.
const BEFORE_COUNT: usize = HEAD + 4;

/// How many cells and edges a bundle has.
#[derive(Clone, Copy, Debug, PartialEq, Eq)]
pub struct Sizes {
    pub cells: usize,
    pub edges: usize,
}

/// Kind of the record at `start`, and where the next one starts.
pub fn record(bytes: &[u8], start: usize) -> Result<(u16, usize), Refusal> {
    let rest = match bytes.get(start..) {
        Some(rest) => rest,
        None => return refuse(13, bytes.len()),
    };
    match first_record(rest) {
        Some((kind, size)) => Ok((kind, start + size)),
        None => refuse(13, start),
    }
}

/// Kind and bytes of the record that the input begins with, if it is whole and
/// of a form that a writer makes.
fn first_record(input: &[u8]) -> Option<(u16, usize)> {
    let head = input.get(..HEAD)?;
    let length = usize::from(u16::from_le_bytes([head[0], head[1]]));
    let kind = u16::from_le_bytes([head[2], head[3]]);
    let size = record_bytes(kind)?;
    let record = input.get(..size)?;
    let right = size == 2 + length && (kind != WIDE_EDGE || edge_kind(count_of(record)) == kind);
    right.then_some((kind, size))
}

/// Body of the record at `start`, or the empty front of the input where
/// `record` refuses.
pub fn record_body(bytes: &[u8], start: usize) -> &[u8] {
    match record(bytes, start) {
        Ok((_, next)) => &bytes[start + HEAD..next],
        Err(_) => &bytes[..0],
    }
}

/// Reads a bundle into the lent lists.
pub fn read(
    bytes: &[u8],
    cells: &mut [u16],
    edges: &mut [u16],
    counts: &mut [u16],
) -> Result<Sizes, Refusal> {
    let layout = scan(bytes)?;
    let sizes = layout.sizes;
    let room = cells.len() / 4 >= sizes.cells
        && edges.len() / 2 >= sizes.edges
        && counts.len() >= sizes.edges;
    if !room {
        return refuse(14, 0);
    }
    let cell_records = layout.cells.chunks_exact(CELL_BYTES);
    for (record, nodes) in cell_records.zip(cells.chunks_exact_mut(4)) {
        copy_numbers(&record[HEAD..], nodes);
    }
    // a later record for the pair takes the place of an earlier one
    let seen: HashMap<&[u8], u16> = layout
        .looks()
        .map(|look| (pair_of(look), count_of(look)))
        .collect();
    let lists = edges.chunks_exact_mut(2).zip(counts);
    for (record, (ends, count)) in layout.edges().zip(lists) {
        copy_numbers(&record[HEAD..], ends);
        let again = seen.get(pair_of(record)).copied();
        *count = again.unwrap_or_else(|| count_of(record));
    }
    Ok(sizes)
}

/// Writes a bundle into `area`; the answer is the bytes written.
pub fn write(
    cells: &[u16],
    edges: &[u16],
    counts: &[u16],
    area: &mut [u8],
) -> Result<usize, Refusal> {
    if cells.len() % 4 != 0 || edges.len() != 2 * counts.len() {
        return refuse(13, 0);
    }
    let edges_at = cells.len() / 4 * CELL_BYTES;
    let end_at = edges_at + counts.iter().map(|&count| edge_bytes(count)).sum::<usize>();
    let needed = end_at + END_BYTES;
    if area.len() < needed {
        return refuse(14, needed.min(u32::MAX as usize));
    }
    let cell_records = area[..edges_at].chunks_exact_mut(CELL_BYTES);
    for (record, nodes) in cell_records.zip(cells.chunks_exact(4)) {
        put_record(record, CELL, nodes);
    }
    let mut at = edges_at;
    for (ends, &count) in edges.chunks_exact(2).zip(counts) {
        let record = &mut area[at..at + edge_bytes(count)];
        at += record.len();
        put_record(record, edge_kind(count), ends);
        let counted = &mut record[BEFORE_COUNT..];
        counted.copy_from_slice(&count.to_le_bytes()[..counted.len()]);
    }
    put_record(&mut area[end_at..needed], END, &[]);
    Ok(needed)
}

/// The host's first number: 0, or the number of the bundle's refusal.
pub fn host_refusal(bytes: &[u8]) -> u32 {
    scan(bytes).map_or_else(|refusal| u32::from(refusal.number), |_| 0)
}

/// The host's second number: the bundle's cells, 0 if it is broken.
pub fn host_cells(bytes: &[u8]) -> u32 {
    scan(bytes).map_or(0, |layout| layout.sizes.cells as u32)
}

/// The host's third number: the bundle's edges, 0 if it is broken.
pub fn host_edges(bytes: &[u8]) -> u32 {
    scan(bytes).map_or(0, |layout| layout.sizes.edges as u32)
}

/// The records of a whole bundle, section by section.
struct Layout<'a> {
    sizes: Sizes,
    cells: &'a [u8],
    edges: &'a [u8],
    looks: &'a [u8],
}

impl<'a> Layout<'a> {
    fn edges(&self) -> impl Iterator<Item = &'a [u8]> {
        let mut rest = self.edges;
        std::iter::from_fn(move || {
            let (_, size) = first_record(rest)?;
            let (record, others) = rest.split_at(size);
            rest = others;
            Some(record)
        })
    }

    fn looks(&self) -> impl Iterator<Item = &'a [u8]> {
        self.looks.chunks_exact(LOOK_BYTES)
    }

    /// The number of the first look whose pair no edge has.
    fn stray(&self) -> Option<usize> {
        if self.looks.is_empty() {
            return None;
        }
        let known: HashSet<&[u8]> = self.edges().map(pair_of).collect();
        self.looks().position(|look| !known.contains(pair_of(look)))
    }
}

/// Rows 13 and 22 over a whole bundle.
fn scan(bytes: &[u8]) -> Result<Layout<'_>, Refusal> {
    let layout = lay_out(bytes)?;
    let looks_at = layout.cells.len() + layout.edges.len();
    match layout.stray() {
        Some(look) => refuse(22, looks_at + look * LOOK_BYTES),
        None => Ok(layout),
    }
}

/// Row 13 over a whole bundle: cells, edges, looks and one end, in this order.
fn lay_out(bytes: &[u8]) -> Result<Layout<'_>, Refusal> {
    let mut sizes = Sizes { cells: 0, edges: 0 };
    let [mut edges_at, mut looks_at, mut start] = [0; 3];
    loop {
        let (kind, next) = record(bytes, start)?;
        match kind {
            CELL if edges_at == start => {
                sizes.cells += 1;
                [edges_at, looks_at] = [next; 2];
            }
            EDGE | WIDE_EDGE if looks_at == start => {
                sizes.edges += 1;
                looks_at = next;
            }
            LOOK => {}
            END if next == bytes.len() => {
                return Ok(Layout {
                    sizes,
                    cells: &bytes[..edges_at],
                    edges: &bytes[edges_at..looks_at],
                    looks: &bytes[looks_at..start],
                })
            }
            END => return refuse(13, next),
            _ => return refuse(13, start),
        }
        start = next;
    }
}

/// Bytes of a whole record of this kind.
fn record_bytes(kind: u16) -> Option<usize> {
    match kind {
        CELL => Some(CELL_BYTES),
        EDGE => Some(EDGE_BYTES),
        WIDE_EDGE => Some(WIDE_EDGE_BYTES),
        LOOK => Some(LOOK_BYTES),
        END => Some(END_BYTES),
        _ => None,
    }
}

/// The kind of the record of an edge with this count.
fn edge_kind(count: u16) -> u16 {
    match u8::try_from(count) {
        Ok(_) => EDGE,
        Err(_) => WIDE_EDGE,
    }
}

/// Bytes of the record of an edge with this count.
fn edge_bytes(count: u16) -> usize {
    match edge_kind(count) {
        EDGE => EDGE_BYTES,
        _ => WIDE_EDGE_BYTES,
    }
}

/// The two nodes in the record of an edge or a look, as bytes.
fn pair_of(record: &[u8]) -> &[u8] {
    &record[HEAD..BEFORE_COUNT]
}

/// The count in the record of an edge or a look.
fn count_of(record: &[u8]) -> u16 {
    let high = record.get(BEFORE_COUNT + 1).copied().unwrap_or(0);
    u16::from_le_bytes([record[BEFORE_COUNT], high])
}

fn copy_numbers(body: &[u8], numbers: &mut [u16]) {
    for (number, pair) in numbers.iter_mut().zip(body.chunks_exact(2)) {
        *number = u16::from_le_bytes([pair[0], pair[1]]);
    }
}

/// Fills in a record's length, kind and 16-bit numbers.
fn put_record(record: &mut [u8], kind: u16, numbers: &[u16]) {
    let length = (record.len() - 2) as u16;
    record[..2].copy_from_slice(&length.to_le_bytes());
    record[2..HEAD].copy_from_slice(&kind.to_le_bytes());
    for (pair, number) in record[HEAD..].chunks_exact_mut(2).zip(numbers) {
        pair.copy_from_slice(&number.to_le_bytes());
    }
}
