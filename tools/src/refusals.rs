//! Refusals in words: what the number means, and what stands at the place.

use crate::bundle::numbers;
use crate::calls::{
    self, Kind, Lists, Refusal, HIGHEST_NODE, REFUSED_BUNDLE_AREA, REFUSED_CELL_LIST,
    REFUSED_CELL_NODES, REFUSED_CELL_REPEATED, REFUSED_CHAIN_AREA, REFUSED_COUNT,
    REFUSED_CROSSINGS, REFUSED_CUTS, REFUSED_EDGE_LIST, REFUSED_EDGE_MISSING, REFUSED_EDGE_ORDER,
    REFUSED_EDGE_STRAY, REFUSED_EDGE_UNLINKED, REFUSED_FACE_CROWDED, REFUSED_FRACTION,
    REFUSED_LOOK, REFUSED_MESH_AREA, REFUSED_NODE_PLACE, REFUSED_NO_CELL, REFUSED_NO_EDGE,
    REFUSED_NO_RUN, REFUSED_NO_SHADING, REFUSED_PLACE_LISTS, REFUSED_POINTS, REFUSED_RECORDS,
    REFUSED_SHADING_AREA,
};
use crate::fault::Fault;
use crate::text::{Text, FIRST_LINE};

/// What a refusal's number means (docs/FORMAT.md, "Refusals").
pub fn meaning(number: u64) -> &'static str {
    match number {
        REFUSED_CELL_LIST => "there is none, or there are more than 2,048",
        REFUSED_EDGE_LIST => {
            "the edges have not two ends and one start to a count, or a start is not the sum"
        }
        REFUSED_CELL_NODES => "a node is over 4,095, or the nodes do not increase",
        REFUSED_CELL_REPEATED => "an earlier cell has the same nodes",
        REFUSED_FACE_CROWDED => "a face of it is in two earlier cells already",
        REFUSED_EDGE_ORDER => "not a lower and a higher node, or not after the edge before it",
        REFUSED_EDGE_MISSING => "one of its six edges is not listed",
        REFUSED_EDGE_STRAY => "no cell has this edge",
        REFUSED_EDGE_UNLINKED => {
            "the cells that have it do not hang together through faces that contain it"
        }
        REFUSED_CROSSINGS => "there are more than 65,535 crossings",
        REFUSED_NO_CELL => "there is no such cell",
        REFUSED_MESH_AREA => "the mesh has more triangles than there is room for",
        REFUSED_RECORDS => "no record that may stand here",
        REFUSED_BUNDLE_AREA => "the lists are too short for the bundle",
        REFUSED_PLACE_LISTS => "places or fractions are not as many as there must be",
        REFUSED_NODE_PLACE => "not a number from -1,000,000 to 1,000,000",
        REFUSED_FRACTION => "a fraction is not above 0 and below 1, or not above the one before it",
        REFUSED_COUNT => "the count is over 4,095",
        REFUSED_SHADING_AREA => "the area of a shading has not 4,096 bytes",
        REFUSED_NO_SHADING => {
            "it has no shading: on a closed way along edges the crossings are odd in number"
        }
        REFUSED_NO_EDGE => "there is no such edge",
        REFUSED_LOOK => "a later look at an edge that the bundle has not",
        REFUSED_POINTS => "not a number from -1,000,000 to 1,000,000",
        REFUSED_CHAIN_AREA => "the chains have more words than there is room for",
        REFUSED_CUTS => "cuts rise from above 0 and stay below the number of cells",
        REFUSED_NO_RUN => "there is no such run",
        _ => "docs/FORMAT.md has no such refusal",
    }
}

/// Whether a refusal's place is the number of a cell, or of a flat grid's triangle.
pub fn is_of_piece(number: u64) -> bool {
    matches!(
        number,
        REFUSED_CELL_NODES | REFUSED_CELL_REPEATED | REFUSED_FACE_CROWDED | REFUSED_EDGE_MISSING
    )
}

/// Whether a refusal's place is the number of an edge.
pub fn is_of_edge(number: u64) -> bool {
    matches!(
        number,
        REFUSED_EDGE_ORDER | REFUSED_EDGE_STRAY | REFUSED_EDGE_UNLINKED | REFUSED_COUNT
    )
}

/// A refusal of a bundle's bytes.
pub fn of_bytes(refused: Refusal, bytes: &[u8]) -> String {
    let stands = match refused.number {
        REFUSED_RECORDS | REFUSED_LOOK => at_byte(bytes, refused.place),
        _ => format!("place {}", refused.place),
    };
    let meaning = match refused.number {
        REFUSED_RECORDS => no_record(bytes, refused.place),
        other => meaning(other),
    };
    match bytes {
        [a, b, ..] if refused.place == 0 && is_letter(*a) && is_letter(*b) => {
            format!("{stands}: {meaning}; a text would start with the line '{FIRST_LINE}'")
        }
        _ => format!("{stands}: {meaning}"),
    }
}

/// What `REFUSED_RECORDS` means, by what the record reader says of the place.
fn no_record(bytes: &[u8], place: u64) -> &'static str {
    let start = place as usize;
    match calls::record(bytes, start) {
        _ if start >= bytes.len() => "a bundle's last record is its end, and here is none",
        Ok(_) => "this record may not stand here: cells, edges, looks, and then one end",
        Err(_) => "not a whole record with the length and the count that its kind must have",
    }
}

/// Whether a byte is one of a text. A record starts with its length, whose second
/// byte is 0.
fn is_letter(byte: u8) -> bool {
    byte.is_ascii_graphic() || byte.is_ascii_whitespace()
}

/// What a grid or a flat grid is made of.
struct Kinds {
    piece: &'static str,
    nodes: usize,
    /// What two pieces share.
    side: &'static str,
}

const GRID: Kinds = Kinds {
    piece: "cell",
    nodes: 4,
    side: "face",
};

const SHEET: Kinds = Kinds {
    piece: "triangle",
    nodes: 3,
    side: "edge",
};

/// A refusal of a grid's lists.
pub fn of_lists(refused: Refusal, lists: &Lists) -> String {
    in_words(refused, lists, &GRID)
}

/// A refusal of a flat grid's lists, with its triangles as cells of three nodes.
pub fn of_sheet(refused: Refusal, lists: &Lists) -> String {
    in_words(refused, lists, &SHEET)
}

fn in_words(refused: Refusal, lists: &Lists, kinds: &Kinds) -> String {
    let Refusal { number, place } = refused;
    let pieces = lists.cells.len() / kinds.nodes;
    let stands = match number {
        REFUSED_CELL_LIST => format!("{pieces} {}s", kinds.piece),
        number if is_of_piece(number) => piece(lists, place, kinds),
        number if is_of_edge(number) => edge(lists, place),
        REFUSED_CROSSINGS => format!("{} crossings", sum(&lists.counts)),
        REFUSED_NO_CELL => format!("cell {place} of {pieces}"),
        REFUSED_MESH_AREA => format!("{place} triangles"),
        REFUSED_NODE_PLACE => format!("{} of the place of node {}", axis(place), place / 3),
        REFUSED_FRACTION => crossing(lists, place),
        REFUSED_NO_SHADING => "the grid".to_string(),
        REFUSED_NO_EDGE => format!("edge {place} of {}", lists.counts.len()),
        REFUSED_CHAIN_AREA => format!("{place} words"),
        REFUSED_CUTS => format!("cut {place}, counted from 0"),
        REFUSED_NO_RUN => format!("run {place}"),
        _ => format!("place {place}"),
    };
    match which(refused, lists, kinds) {
        Some(which) => format!("{stands}: {which}"),
        None => format!("{stands}: {}", meaning(number)),
    }
}

/// Which of a number's faults it is, where it has several.
fn which(refused: Refusal, lists: &Lists, kinds: &Kinds) -> Option<String> {
    let place = usize::try_from(refused.place).ok()?;
    match refused.number {
        REFUSED_CELL_LIST if lists.cells.is_empty() => Some(format!("there is no {}", kinds.piece)),
        REFUSED_CELL_LIST => Some("there are more than 2,048".to_string()),
        REFUSED_CELL_NODES => wrong_nodes(nodes_of(lists, place, kinds)?),
        REFUSED_CELL_REPEATED => same_nodes(lists, place, kinds),
        REFUSED_FACE_CROWDED => crowded(lists, place, kinds),
        REFUSED_EDGE_ORDER => wrong_order(lists, place),
        REFUSED_EDGE_MISSING => missing_edges(lists, nodes_of(lists, place, kinds)?),
        REFUSED_EDGE_STRAY | REFUSED_EDGE_UNLINKED if kinds.nodes == 3 => {
            Some("no triangle has this edge".to_string())
        }
        _ => None,
    }
}

fn nodes_of<'a>(lists: &'a Lists, place: usize, kinds: &Kinds) -> Option<&'a [u16]> {
    lists.cells.chunks_exact(kinds.nodes).nth(place)
}

fn wrong_nodes(nodes: &[u16]) -> Option<String> {
    if let Some(node) = nodes.iter().find(|&&node| node > HIGHEST_NODE) {
        return Some(format!("node {node} is over 4,095"));
    }
    let two = nodes.windows(2).find(|two| two[0] >= two[1])?;
    let how = if two[0] == two[1] {
        format!("node {} stands there twice", two[0])
    } else {
        format!("its nodes do not increase, {} before {}", two[0], two[1])
    };
    Some(how)
}

fn same_nodes(lists: &Lists, place: usize, kinds: &Kinds) -> Option<String> {
    let nodes = nodes_of(lists, place, kinds)?;
    let mut all = lists.cells.chunks_exact(kinds.nodes);
    let earlier = all.position(|other| other == nodes)?;
    Some(format!("{} {earlier} has the same nodes", kinds.piece))
}

/// The side that is in two earlier pieces, and these.
fn crowded(lists: &Lists, place: usize, kinds: &Kinds) -> Option<String> {
    let nodes = nodes_of(lists, place, kinds)?;
    let earlier = || lists.cells.chunks_exact(kinds.nodes).take(place);
    (0..kinds.nodes).find_map(|omitted| {
        let mut side = nodes.to_vec();
        side.remove(omitted);
        let has = |other: &[u16]| side.iter().all(|node| other.contains(node));
        let with: Vec<usize> = (0..)
            .zip(earlier())
            .filter(|of| has(of.1))
            .map(|of| of.0)
            .collect();
        match with[..] {
            [one, other, ..] => Some(format!(
                "its {} {} is in the {}s {one} and {other} already",
                kinds.side,
                spaced(&side),
                kinds.piece
            )),
            _ => None,
        }
    })
}

fn wrong_order(lists: &Lists, place: usize) -> Option<String> {
    let ends = |at: usize| lists.edges.chunks_exact(2).nth(at);
    let own = ends(place)?;
    if own[0] == own[1] {
        return Some("its ends are one node".to_string());
    }
    if own[0] > own[1] {
        return Some("its lower node must stand first".to_string());
    }
    let before = ends(place.checked_sub(1)?)?;
    Some(match before == own {
        true => "the edge before it has the same ends".to_string(),
        false => format!("it must stand before the edge {}", spaced(before)),
    })
}

/// The edges of a piece that are not listed.
fn missing_edges(lists: &Lists, nodes: &[u16]) -> Option<String> {
    let listed = |ends: &[u16; 2]| lists.edges.chunks_exact(2).any(|other| other == ends);
    let missing: Vec<String> = pairs(nodes)
        .filter(|ends| !listed(ends))
        .map(|ends| spaced(&ends))
        .collect();
    match &missing[..] {
        [] => None,
        [one] => Some(format!("its edge {one} is not listed")),
        several => Some(format!("its edges {} are not listed", several.join(", "))),
    }
}

/// All pairs of nodes, in their order.
fn pairs(nodes: &[u16]) -> impl Iterator<Item = [u16; 2]> + '_ {
    (0..nodes.len())
        .flat_map(move |low| (low + 1..nodes.len()).map(move |high| [nodes[low], nodes[high]]))
}

fn axis(place: u64) -> &'static str {
    ["x", "y", "z"][(place % 3) as usize]
}

/// A refusal of a grid's lists that a text states, on the line where it can be told.
pub fn of_text(refused: Refusal, lists: &Lists, text: &Text) -> Fault {
    let line = line_of(refused, text).filter(|&line| line > 0);
    match line {
        Some(line) => Fault::at_line(line, of_lists(refused, lists)),
        None => Fault::new(of_lists(refused, lists)),
    }
}

/// The line of the cell or of the edge that is refused; of a count, that of the look
/// that gives it.
fn line_of(refused: Refusal, text: &Text) -> Option<usize> {
    let place = usize::try_from(refused.place).ok()?;
    match refused.number {
        number if is_of_piece(number) => Some(text.cells.get(place)?.line),
        REFUSED_COUNT => {
            let edge = text.edges.get(place)?;
            let looks = || text.looks.iter().rev();
            let look = looks().find(|look| look.it.ends == edge.it.ends);
            Some(look.map_or(edge.line, |look| look.line))
        }
        number if is_of_edge(number) => Some(text.edges.get(place)?.line),
        _ => None,
    }
}

/// A refusal of places or fractions, with these.
pub fn of_places(
    refused: Refusal,
    lists: &Lists,
    text: &Text,
    [nodes, fractions]: [&[f64]; 2],
) -> Fault {
    let words = of_lists(refused, lists);
    let at = refused.place as usize;
    let told = match (refused.number, nodes.get(at), fractions.get(at)) {
        (REFUSED_NODE_PLACE, Some(number), _) => {
            let node = at / 3;
            let mut stated = text.nodes.iter();
            let stated = stated.find(|of| usize::from(of.it.node) == node);
            (
                stated.map(|of| of.line),
                format!("{words}, and this is {number:?}"),
            )
        }
        (REFUSED_FRACTION, _, Some(fraction)) => {
            let ends = ends_of(lists, refused.place);
            let mut stated = text.fractions.iter();
            let stated = stated.find(|of| Some(&of.it.ends[..]) == ends);
            let which = wrong_fraction(*fraction);
            (
                stated.map(|of| of.line),
                format!("{}: {which}", crossing(lists, refused.place)),
            )
        }
        _ => (None, words),
    };
    match told {
        (Some(line), words) if line > 0 => Fault::at_line(line, words),
        (_, words) => Fault::new(words),
    }
}

/// What is wrong with a fraction that is refused.
pub fn wrong_fraction(fraction: f64) -> String {
    match fraction {
        _ if fraction <= 0.0 => format!("its fraction {fraction:?} is not above 0"),
        _ if fraction >= 1.0 => format!("its fraction {fraction:?} is not below 1"),
        _ => format!("its fraction {fraction:?} is not above the one before it"),
    }
}

fn sum(counts: &[u16]) -> u64 {
    counts.iter().map(|&count| u64::from(count)).sum()
}

fn piece(lists: &Lists, place: u64, kinds: &Kinds) -> String {
    let name = kinds.piece;
    match nodes_of(lists, place as usize, kinds) {
        Some(nodes) => format!("{name} {place} with the nodes {}", spaced(nodes)),
        None => format!("{name} {place}"),
    }
}

fn edge(lists: &Lists, place: u64) -> String {
    let ends = lists.edges.chunks_exact(2).nth(place as usize);
    match (ends, lists.counts.get(place as usize)) {
        (Some(&[u, v]), Some(count)) => {
            format!("edge {place} with the ends {u} {v} and the count {count}")
        }
        _ => format!("edge {place}"),
    }
}

/// The ends of a crossing's edge, and its index there.
fn edge_of(lists: &Lists, place: u64) -> Option<(&[u16], u64)> {
    let mut start = 0;
    for (ends, &count) in lists.edges.chunks_exact(2).zip(&lists.counts) {
        if place < start + u64::from(count) {
            return Some((ends, place - start));
        }
        start += u64::from(count);
    }
    None
}

fn ends_of(lists: &Lists, place: u64) -> Option<&[u16]> {
    edge_of(lists, place).map(|of| of.0)
}

/// A crossing, with its edge and its index there.
pub fn crossing(lists: &Lists, place: u64) -> String {
    match edge_of(lists, place) {
        Some((ends, index)) => {
            let ends = spaced(ends);
            format!("crossing {place}, index {index} of the edge {ends}")
        }
        None => format!("crossing {place}"),
    }
}

/// The record at a byte, or its bytes where it is none.
fn at_byte(bytes: &[u8], place: u64) -> String {
    let start = place as usize;
    if start >= bytes.len() {
        return format!("byte {place}, the end of the input");
    }
    match calls::record(bytes, start) {
        Ok(record) => {
            let numbers = spaced(&numbers(record.body));
            match record.kind {
                Kind::Cell => format!("byte {place}, cell {numbers}"),
                Kind::Edge | Kind::WideEdge => format!("byte {place}, edge {numbers}"),
                Kind::Look => format!("byte {place}, look {numbers}"),
                Kind::End => format!("byte {place}, end"),
            }
        }
        Err(_) => format!("byte {place}, {}", raw(&bytes[start..])),
    }
}

/// The length and kind that a broken record states, and its first bytes.
fn raw(bytes: &[u8]) -> String {
    let shown: Vec<String> = bytes
        .iter()
        .take(12)
        .map(|byte| format!("{byte:02x}"))
        .collect();
    let shown = shown.join(" ");
    let more = if bytes.len() > 12 { " .." } else { "" };
    match *bytes {
        [a, b, c, d, ..] => {
            let [length, kind] = [[a, b], [c, d]].map(u16::from_le_bytes);
            format!("length {length}, kind {kind}, bytes {shown}{more}")
        }
        _ => format!("bytes {shown}"),
    }
}

fn spaced(numbers: &[u16]) -> String {
    let words: Vec<String> = numbers.iter().map(u16::to_string).collect();
    words.join(" ")
}
