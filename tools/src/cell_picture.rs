//! The picture of a cell: its four faces unfolded, with each loop in its own
//! stroke.

use std::collections::HashMap;

use crate::calls::{Grid, Loop, Refusal};
use crate::cells::{loops_of, Ways};
use crate::face_curves::PlacedFace;
use crate::face_picture::{
    draw_joining, placed_edges, side_for, unjoined_entries, Crossings, PlacedEdge, EDGE, OPEN,
};
use crate::faces::{faces_of_cell, Face, Joining, Segment};
use crate::legend::{self, Entry, Mark};
use crate::loops::{counted, loop_in_words};
use crate::marks::{draw_head, draw_node};
use crate::plane::Point;
use crate::svg::{Label, Stroke, Svg, BLUE, GREEN, ORANGE, PURPLE, SKY, VERMILION};

/// The least side of a face, and the space round the four.
const SIDE: f64 = 310.0;
const MARGIN: f64 = 70.0;
const HEAD: f64 = 64.0;

/// Loops are told apart by colour and by dashes. The first twelve differ.
const COLOURS: [&str; 6] = [BLUE, VERMILION, GREEN, PURPLE, ORANGE, SKY];
const DASHES: [&str; 4] = ["", "9 5", "14 4 3 4", "4 4"];
const STROKES: usize = 12;

fn loop_stroke(index: usize) -> Stroke {
    Stroke {
        colour: COLOURS[index % COLOURS.len()],
        width: 2.4,
        dashes: DASHES[index % DASHES.len()],
    }
}

/// Where the faces of slots 0 to 3 stand: that of slot 3 in the middle, head down,
/// the others on its sides, so that the highest node has the three tips.
fn net(side: f64) -> [[Point; 3]; 4] {
    let height = side * 0.75_f64.sqrt();
    let top = HEAD + MARGIN;
    let at = |sides: f64, heights: f64| Point::new(MARGIN + sides * side, top + heights * height);
    let [a, b, c] = [at(0.5, 1.0), at(1.5, 1.0), at(1.0, 2.0)];
    let [tip, left, right] = [at(1.0, 0.0), at(0.0, 2.0), at(2.0, 2.0)];
    [[b, c, right], [a, c, left], [a, b, tip], [a, b, c]]
}

/// The picture of a cell. `fractions` are those of all crossings of the grid.
pub fn picture(
    grid: &Grid,
    all: &[Face],
    cell: usize,
    fractions: &[f64],
) -> Result<String, Refusal> {
    let own = faces_of_cell(all, cell);
    let counts = own.iter().flat_map(|face| face.counts);
    let side = side_for(usize::from(counts.max().unwrap_or(0)), SIDE);
    let joinings: Vec<Joining> = own.iter().map(|face| face.joining(grid)).collect();
    let placed: Vec<PlacedFace<'_>> = own
        .iter()
        .zip(&joinings)
        .zip(net(side))
        .map(|((face, joining), corners)| PlacedFace::new(face, joining, corners, fractions))
        .collect();
    let loops = loops_of(grid, cell)?;
    let strokes = segment_strokes(&Ways::of(&own, &joinings), &loops);
    let nodes = &grid.lists().cells[4 * cell..4 * cell + 4];
    let edges = net_edges(grid, &placed, fractions);
    let crossings = Crossings::among(&edges);
    let mut entries = vec![crossings.entry()];
    entries.extend(loop_entries(&placed, &loops, &strokes, nodes[0]));
    let below = HEAD + 2.0 * MARGIN + 2.0 * side * 0.75_f64.sqrt();
    let names: Vec<String> = nodes.iter().map(u16::to_string).collect();
    let title = format!(
        "Cell {cell}, nodes {}: its four faces unfolded",
        names.join(" ")
    );
    let width = 2.0 * (side + MARGIN);
    let mut svg = Svg::new(width, below + legend::height(&entries), &title);
    draw_head(&mut svg, &title, &faces_in_words(&own));
    draw_faces(&mut svg, &placed, crossings, &strokes);
    edges.iter().for_each(|edge| edge.draw(&mut svg, crossings));
    draw_names(&mut svg, &placed);
    legend::draw(&mut svg, Point::new(24.0, below), &entries);
    Ok(svg.finish())
}

/// The stroke of each segment of a cell that is on a loop, by its name. The loops
/// are followed over the faces: the triangles of a split cell are not of its loops.
fn segment_strokes(ways: &Ways, loops: &[Loop]) -> HashMap<(usize, usize), Stroke> {
    let mut strokes = HashMap::new();
    for (index, found) in loops.iter().enumerate() {
        let names = ways.segments(found).into_iter();
        strokes.extend(names.map(|name| (name, loop_stroke(index))));
    }
    strokes
}

/// The edges of the net, with their crossings: the three of the middle face once,
/// each other twice.
fn net_edges<'a>(
    grid: &Grid,
    placed: &[PlacedFace<'_>],
    fractions: &'a [f64],
) -> Vec<PlacedEdge<'a>> {
    let mut edges = Vec::new();
    for (slot, face) in placed.iter().enumerate() {
        // the first edge of an outer face is one of the middle face
        let first = usize::from(slot < 3);
        edges.extend(placed_edges(grid, face, fractions).into_iter().skip(first));
    }
    edges
}

fn draw_faces(
    svg: &mut Svg,
    placed: &[PlacedFace<'_>],
    crossings: Crossings,
    strokes: &HashMap<(usize, usize), Stroke>,
) {
    for face in placed {
        svg.polygon(&face.corners, "#f4f6f8", 1.0, EDGE);
    }
    for face in placed {
        let stroke = |segment: &Segment| {
            let name = (face.face.name, segment.ends[0].number);
            strokes.get(&name).copied().unwrap_or(OPEN)
        };
        draw_joining(svg, face, crossings, stroke);
    }
}

/// The names of the nodes, and at each tip that of its face.
fn draw_names(svg: &mut Svg, placed: &[PlacedFace<'_>]) {
    let middle = &placed[3];
    let [a, b, c] = middle.corners;
    let centre = a.towards(b, 0.5).towards(c, 1.0 / 3.0);
    for (corner, node) in middle.corners.into_iter().zip(middle.face.nodes) {
        draw_node(svg, corner, corner - centre, node);
    }
    for face in &placed[..3] {
        let (tip, node) = (face.corners[2], face.face.nodes[2]);
        let away = Point::new(0.0, tip.y - centre.y);
        draw_node(svg, tip, away, node);
        let text = format!("face {}", face.face.name);
        let label = Label::middle(&text, 12.0);
        svg.text(tip + away.unit() * 38.0, label);
    }
}

fn faces_in_words(own: &[&Face]) -> String {
    match own.last() {
        Some(face) => {
            let [a, b, c] = face.nodes;
            format!(
                "In the middle face {}, nodes {a} {b} {c}. \
                 Each side of the large triangle is one edge, seen twice.",
                face.name
            )
        }
        None => String::new(),
    }
}

/// The lines of the legend for loops, open curves and unjoined crossings.
fn loop_entries(
    placed: &[PlacedFace<'_>],
    loops: &[Loop],
    strokes: &HashMap<(usize, usize), Stroke>,
    lowest: u16,
) -> Vec<Entry> {
    let mut entries = Vec::new();
    for (index, found) in loops.iter().take(STROKES).enumerate() {
        let words = format!("loop {index}: {}", loop_in_words(found, lowest));
        entries.push(Entry::new(Mark::Line(loop_stroke(index)), words));
    }
    if loops.len() > STROKES {
        let more = counted(loops.len() - STROKES, "more loop");
        let words = format!("and {more}, in these strokes again");
        entries.push(Entry::new(Mark::Nothing, words));
    }
    let on_loop = |face: &PlacedFace<'_>, of: &Segment| {
        strokes.contains_key(&(face.face.name, of.ends[0].number))
    };
    let open = |face: &PlacedFace<'_>| face.joining.segments.iter().any(|of| !on_loop(face, of));
    if placed.iter().any(open) {
        entries.push(Entry::new(
            Mark::Line(OPEN),
            "segment of a curve that does not close",
        ));
    }
    entries.extend(unjoined_entries(placed.iter().map(|face| face.joining)));
    let note = "Drawn with equal sides, whatever the cell's shape in space is.";
    entries.push(Entry::new(Mark::Nothing, note));
    entries
}
