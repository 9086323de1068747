//! A bundle's bytes from the statements of a text, and back.

use crate::calls::{self, Kind, Lists, Record, Refusal};
use crate::fault::Fault;
use crate::progress::Progress;
use crate::refusals;
use crate::text::{At, Edge, Text};

const LOOK_BYTES: usize = 10;
const END_BYTES: usize = 4;

/// The bundle of a text's cells, edges and looks.
pub fn pack(text: &Text) -> Result<Vec<u8>, Fault> {
    let lists = own_lists(text);
    let mut bytes = calls::bundle_write(&lists).map_err(|refused| in_words(refused, &[]))?;
    let looks = bytes.len() - END_BYTES;
    let end = bytes.split_off(looks);
    for look in &text.looks {
        bytes.extend_from_slice(&look_record(look.it));
    }
    bytes.extend_from_slice(&end);
    match calls::bundle_read(&bytes) {
        Ok(_) => Ok(bytes),
        Err(refused) => Err(at_look(text, looks, refused, &bytes)),
    }
}

/// The lists of a text without its looks.
fn own_lists(text: &Text) -> Lists {
    Lists {
        cells: text.cells.iter().flat_map(|cell| cell.it).collect(),
        edges: text.edges.iter().flat_map(|edge| edge.it.ends).collect(),
        counts: text.edges.iter().map(|edge| edge.it.count).collect(),
    }
}

/// The record of kind 5: its length without the first two bytes, its kind, its
/// body.
fn look_record(look: Edge) -> [u8; LOOK_BYTES] {
    let [u, v] = look.ends;
    let mut record = [0; LOOK_BYTES];
    for (at, number) in [8, 5, u, v, look.count].into_iter().enumerate() {
        record[2 * at..2 * at + 2].copy_from_slice(&number.to_le_bytes());
    }
    record
}

/// What is refused in a packed text: a look at no edge, on its line.
fn at_look(text: &Text, looks: usize, refused: Refusal, bytes: &[u8]) -> Fault {
    let at = (refused.place as usize).saturating_sub(looks) / LOOK_BYTES;
    match text.looks.get(at) {
        Some(look) => Fault::at_line(look.line, refusals::of_bytes(refused, bytes)),
        None => in_words(refused, bytes),
    }
}

fn in_words(refused: Refusal, bytes: &[u8]) -> Fault {
    Fault::new(refusals::of_bytes(refused, bytes))
}

/// The statements of a bundle's records.
pub fn unpack(bytes: &[u8]) -> Result<Text, Fault> {
    calls::bundle_read(bytes).map_err(|refused| in_words(refused, bytes))?;
    let mut text = Text::default();
    let mut progress = Progress::new("bytes read:", bytes.len());
    let mut start = 0;
    while start < bytes.len() {
        let record = calls::record(bytes, start).map_err(|refused| in_words(refused, bytes))?;
        add_record(&mut text, &record);
        start = record.next;
        progress.reach(start);
    }
    Ok(text)
}

fn add_record(text: &mut Text, record: &Record<'_>) {
    let body = numbers(record.body);
    let line = 0;
    match (record.kind, &body[..]) {
        (Kind::Cell, &[a, b, c, d]) => text.cells.push(At {
            line,
            it: [a, b, c, d],
        }),
        (Kind::Edge | Kind::WideEdge, &[u, v, count]) => {
            let ends = [u, v];
            text.edges.push(At {
                line,
                it: Edge { ends, count },
            });
        }
        (Kind::Look, &[u, v, count]) => {
            let ends = [u, v];
            text.looks.push(At {
                line,
                it: Edge { ends, count },
            });
        }
        // the reader accepted the bundle: what is left is its end
        _ => {}
    }
}

/// The numbers of a record's body: two bytes each, low byte first; a count of one
/// byte stands last.
pub fn numbers(body: &[u8]) -> Vec<u16> {
    let pairs = body.chunks(2);
    let number = |pair: &[u8]| {
        pair.iter()
            .rev()
            .fold(0, |sum, &byte| sum << 8 | u16::from(byte))
    };
    pairs.map(number).collect()
}
