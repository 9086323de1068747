//! Random bundles, whole and damaged.

use reference::bundle;
use reference::gen::{Rng, Sample};

/// A record of each kind, looks being for the pair of the edges; one of kind 4
/// with a count that kind 2 can hold; a look with the pair turned round.
pub const CELL: [u8; 12] = [10, 0, 1, 0, 0, 0, 1, 0, 2, 0, 3, 1];
pub const EDGE: [u8; 9] = [7, 0, 2, 0, 5, 0, 255, 255, 9];
pub const WIDE: [u8; 10] = [8, 0, 4, 0, 5, 0, 255, 255, 9, 1];
pub const END: [u8; 4] = [2, 0, 3, 0];
pub const NARROW: [u8; 10] = [8, 0, 4, 0, 5, 0, 255, 255, 255, 0];
pub const LOOK: [u8; 10] = [8, 0, 5, 0, 5, 0, 255, 255, 7, 0];
pub const AGAIN: [u8; 10] = [8, 0, 5, 0, 5, 0, 255, 255, 1, 16];
pub const STRAY: [u8; 10] = [8, 0, 5, 0, 255, 255, 5, 0, 7, 0];

pub fn small_bundles() -> [Vec<u8>; 11] {
    [
        END.to_vec(),
        [&CELL[..], &END].concat(),
        [&EDGE[..], &END].concat(),
        [&CELL[..], &EDGE, &END].concat(),
        [&CELL[..], &CELL, &EDGE, &EDGE, &END].concat(),
        [&WIDE[..], &END].concat(),
        [&CELL[..], &EDGE, &WIDE, &END].concat(),
        [&CELL[..], &WIDE, &EDGE, &WIDE, &END].concat(),
        [&EDGE[..], &LOOK, &END].concat(),
        [&CELL[..], &WIDE, &LOOK, &END].concat(),
        [&CELL[..], &EDGE, &WIDE, &LOOK, &AGAIN, &END].concat(),
    ]
}

/// The bytes of the bundle of these lists.
pub fn size(lists: &Sample) -> usize {
    let wide = lists.counts.iter().filter(|&&count| count > 255).count();
    3 * lists.cells.len() + 9 * lists.counts.len() + wide + 4
}

/// The bundle of the lists, by the second implementation, or none where they are
/// not four numbers to a cell and two to a count.
pub fn written(lists: &Sample) -> Option<Vec<u8>> {
    let mut area = vec![0; size(lists)];
    match bundle::write(&lists.cells, &lists.edges, &lists.counts, &mut area) {
        Ok(_) => Some(area),
        Err(_) => None,
    }
}

/// Whether a record of this kind stands before the first fault of the records.
pub fn has_kind(bytes: &[u8], wanted: u16) -> bool {
    let mut start = 0;
    while let Ok((kind, next)) = bundle::record(bytes, start) {
        if kind == wanted {
            return true;
        }
        start = next;
    }
    false
}

/// Any lists with four numbers to a cell and two to a count; counts have from 1
/// to 16 bits.
pub fn random_lists(rng: &mut Rng, most: usize) -> Sample {
    let [cells, edges] = [(); 2].map(|()| rng.between(0, most));
    let mut words = |many| (0..many).map(|_| rng.word() as u16).collect::<Vec<u16>>();
    let mut lists = Sample {
        cells: words(4 * cells),
        edges: words(2 * edges),
        counts: words(edges),
    };
    for count in &mut lists.counts {
        *count >>= rng.below(16);
    }
    lists
}

/// A look with the pair of one of the edges; now and then with another pair.
fn random_look(rng: &mut Rng, edges: &[u16]) -> Vec<u8> {
    let mut pair = match edges.len() {
        0 => [1, 2],
        many => {
            let edge = 2 * rng.below(many / 2);
            [edges[edge], edges[edge + 1]]
        }
    };
    match rng.below(30) {
        0 => pair.reverse(),
        1 => pair[rng.below(2)] ^= 1 << rng.below(16),
        _ => {}
    }
    let count = rng.word() as u16 >> rng.below(16);
    let numbers = [8, bundle::LOOK, pair[0], pair[1], count];
    numbers
        .iter()
        .flat_map(|number| number.to_le_bytes())
        .collect()
}

/// The bundle of these lists with up to so many looks before its end.
pub fn seen_again(rng: &mut Rng, mut bytes: Vec<u8>, edges: &[u16], most: usize) -> Vec<u8> {
    let end = bytes.len() - END.len();
    let looks = (0..rng.between(0, most)).map(|_| random_look(rng, edges));
    let looks = looks.collect::<Vec<Vec<u8>>>().concat();
    bytes.splice(end..end, looks);
    bytes
}

/// Changes the bytes at one place.
pub fn damage(rng: &mut Rng, bytes: &mut Vec<u8>) {
    let at = rng.below(bytes.len() + 1);
    match rng.below(6) {
        0 => bytes.insert(at, rng.below(12) as u8),
        1 => bytes.truncate(at),
        2 => drop(bytes.splice(at..at, END)),
        3 => drop(bytes.splice(at..at, [WIDE, NARROW, LOOK, STRAY][rng.below(4)])),
        4 if at < bytes.len() => bytes[at] = rng.word() as u8,
        _ => {
            let until = rng.between(at, bytes.len());
            bytes.drain(at..until);
        }
    }
}

/// Any few bytes, or a bundle of any few cells and edges, whose writer is
/// `bundle_of`; damaged at up to three places.
pub fn random_bytes(rng: &mut Rng, bundle_of: impl Fn(&Sample) -> Vec<u8>) -> Vec<u8> {
    let mut bytes = match rng.below(4) {
        0 => (0..rng.below(40)).map(|_| rng.word() as u8).collect(),
        1 => (0..rng.below(40)).map(|_| rng.below(12) as u8).collect(),
        _ => {
            let lists = random_lists(rng, 4);
            let bytes = bundle_of(&lists);
            match rng.below(2) {
                0 => seen_again(rng, bytes, &lists.edges, 6),
                _ => bytes,
            }
        }
    };
    for _ in 0..rng.below(4) {
        damage(rng, &mut bytes);
    }
    bytes
}
