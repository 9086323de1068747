//! The record reader's two calls, the bundle reader and the bundle writer.

use crate::answer::{answer, only, refusal, Refusal};
use crate::constants::{DONE, KIND_CELL, KIND_EDGE, KIND_END, KIND_LOOK, KIND_WIDE_EDGE};
use crate::grid::Lists;
use crate::library::LINKED;

/// The kind of a record.
#[derive(Clone, Copy, Debug, PartialEq, Eq)]
pub enum Kind {
    Cell,
    Edge,
    End,
    WideEdge,
    Look,
}

impl Kind {
    fn of(number: u64) -> Option<Kind> {
        match number {
            KIND_CELL => Some(Kind::Cell),
            KIND_EDGE => Some(Kind::Edge),
            KIND_END => Some(Kind::End),
            KIND_WIDE_EDGE => Some(Kind::WideEdge),
            KIND_LOOK => Some(Kind::Look),
            _ => None,
        }
    }
}

/// A record of a bundle, with its body and the start of the next.
#[derive(Clone, Copy, Debug, PartialEq, Eq)]
pub struct Record<'a> {
    pub kind: Kind,
    pub body: &'a [u8],
    pub next: usize,
}

/// What stands at a start of a bundle's bytes.
pub fn record(bytes: &[u8], start: usize) -> Result<Record<'_>, Refusal> {
    let numbers = answer(|area| LINKED.record(bytes, start, area));
    let read = match numbers[..] {
        [DONE, kind, next] => Kind::of(kind).map(|kind| (kind, next)),
        _ => None,
    };
    match read {
        Some((kind, next)) => Ok(Record {
            kind,
            body: record_body(bytes, start),
            next: next as usize,
        }),
        None => Err(refusal(&numbers)),
    }
}

fn record_body(bytes: &[u8], start: usize) -> &[u8] {
    match answer(|area| LINKED.record_body(bytes, start, area))[..] {
        [from, number] => {
            let (from, number) = (from as usize, number as usize);
            bytes.get(from..from + number).unwrap_or_default()
        }
        _ => &[],
    }
}

/// The bundle reader: the lists of a bundle, with the counts that survive.
pub fn bundle_read(bytes: &[u8]) -> Result<Lists, Refusal> {
    // a cell's record has 12 bytes and an edge's at least 9
    let [cells, edges] = [bytes.len() / 12, bytes.len() / 9];
    let mut lists = Lists {
        cells: vec![0; 4 * cells],
        edges: vec![0; 2 * edges],
        counts: vec![0; edges],
    };
    let Lists {
        cells: nodes,
        edges: ends,
        counts,
    } = &mut lists;
    let numbers = answer(|area| LINKED.bundle_read(bytes, nodes, ends, counts, area));
    match numbers[..] {
        [DONE, cells, edges] => {
            nodes.truncate(4 * cells as usize);
            ends.truncate(2 * edges as usize);
            counts.truncate(edges as usize);
            Ok(lists)
        }
        _ => Err(refusal(&numbers)),
    }
}

/// The bundle writer: the bytes of a bundle without looks.
pub fn bundle_write(lists: &Lists) -> Result<Vec<u8>, Refusal> {
    let Lists {
        cells,
        edges,
        counts,
    } = lists;
    // 12 bytes for a cell, 9 or 10 for an edge, 4 for the end
    let mut bytes = vec![0; 3 * cells.len() + 5 * edges.len() + 4];
    let numbers = answer(|area| LINKED.bundle_write(cells, edges, counts, &mut bytes, area));
    bytes.truncate(only(&numbers)?);
    Ok(bytes)
}
