//! The placed mesh as a page for any browser: one file with its own style, program
//! and numbers. The mesh stands in it as JSON, and the page draws it (page.js).

use std::collections::HashMap;
use std::fmt::Write;

use crate::calls::Grid;
use crate::cells::loops_of;
use crate::faces::{faces, Face};
use crate::loops::type_in_words;
use crate::mesh::{Corner, Side, Triangle};
use crate::placed_mesh::PlacedMesh;
use crate::space::{cross, length, less, node, plus, times, Place};

const PAGE: &str = include_str!("page.html");
const STYLE: &str = include_str!("page.css");
const SCRIPT: &str = include_str!("page.js");

/// What a page shows. Without a grid it has no outer edges, and tells no loops.
pub struct Shown<'a> {
    pub name: &'a str,
    pub placed: &'a PlacedMesh,
    pub grid: Option<&'a Grid>,
}

/// The page.
pub fn page(shown: &Shown<'_>) -> String {
    let title = format!("Citternblaze: {}", shown.name);
    PAGE.replace("{{TITLE}}", &escaped(&title))
        .replace("{{STYLE}}", STYLE)
        .replace("{{SCRIPT}}", SCRIPT)
        .replace("{{DATA}}", &data(shown))
}

fn escaped(text: &str) -> String {
    let character = |of: char| match of {
        '&' => "&amp;".to_string(),
        '<' => "&lt;".to_string(),
        '>' => "&gt;".to_string(),
        '"' => "&quot;".to_string(),
        // braces are for the page's own marks
        '{' => "&#123;".to_string(),
        other => other.to_string(),
    };
    text.chars().map(character).collect()
}

/// A JSON object, put together name by name.
#[derive(Default)]
struct Object(Vec<String>);

impl Object {
    fn with(mut self, name: &str, value: impl std::fmt::Display) -> Object {
        self.0.push(format!("\"{name}\": {value}"));
        self
    }

    fn finish(self, between: &str) -> String {
        format!("{{{}}}", self.0.join(between))
    }
}

fn list<T: std::fmt::Display>(all: impl Iterator<Item = T>) -> String {
    let mut out = "[".to_string();
    for (at, of) in all.enumerate() {
        let before = if at == 0 { "" } else { "," };
        write!(out, "{before}{of}").expect("a string takes any text");
    }
    out.push(']');
    out
}

/// A number as JSON: the fewest digits that read back to the same bits.
fn decimal(number: f64) -> String {
    match number.is_finite() {
        true => format!("{number:?}"),
        false => "null".to_string(),
    }
}

fn numbers(places: impl Iterator<Item = Place>) -> String {
    list(places.flatten().map(decimal))
}

fn data(shown: &Shown<'_>) -> String {
    let placed = shown.placed;
    let mesh = &placed.mesh;
    let triangles: Vec<Triangle> = placed.triangles().collect();
    let points = || {
        triangles
            .iter()
            .flat_map(|of| of.corners)
            .map(|of| mesh.point(of))
    };
    let (loops, loop_of) = loops_in_words(shown, &triangles);
    let (open, open_surface) = open_sides(placed, &triangles);
    let cells = shown.grid.map_or(0, |grid| grid.lists().cells.len() / 4);
    Object::default()
        .with("cells", cells)
        .with("crossings", mesh.crossings())
        .with("inner", mesh.inner_crossings())
        .with("innerStarts", inner_starts(placed, &triangles))
        .with("box", extent(placed))
        .with("surfaces", surfaces(placed))
        .with(
            "loops",
            list(loops.iter().map(|words| format!("\"{words}\""))),
        )
        .with("points", numbers(placed.points.iter().copied()))
        .with("corners", list(points()))
        .with("surface", list(placed.surfaces.of.iter()))
        .with("cell", list(triangles.iter().map(|of| of.part.cell)))
        .with("subCell", list(triangles.iter().map(|of| of.part.sub_cell)))
        .with("p0", list(triangles.iter().map(|of| of.p0)))
        .with("loop", list(loop_of.iter()))
        .with("open", list(open.iter()))
        .with("openSurface", list(open_surface.iter()))
        .with(
            "grid",
            shown
                .grid
                .map_or_else(no_grid, |grid| outer_edges(grid, &placed.nodes)),
        )
        .finish(",\n")
}

/// The cells with inner crossings, each with the number of its first among the points.
fn inner_starts(placed: &PlacedMesh, triangles: &[Triangle]) -> String {
    let mut starts: HashMap<u32, usize> = HashMap::new();
    for corner in triangles.iter().flat_map(|of| of.corners) {
        if let Corner::InnerCrossing { cell, .. } = corner {
            let point = placed.mesh.point(corner);
            let start = starts.entry(cell).or_insert(point);
            *start = point.min(*start);
        }
    }
    let mut starts: Vec<(u32, usize)> = starts.into_iter().collect();
    starts.sort_unstable();
    list(
        starts
            .iter()
            .map(|(cell, first)| format!("[{cell},{first}]")),
    )
}

/// The least box that holds all nodes of the grid, or all points without one.
fn extent(placed: &PlacedMesh) -> String {
    let mut low = [f64::INFINITY; 3];
    let mut high = [f64::NEG_INFINITY; 3];
    let nodes = placed.nodes.chunks_exact(3).map(|of| [of[0], of[1], of[2]]);
    for place in nodes.chain(placed.points.iter().copied()) {
        for (axis, number) in place.into_iter().enumerate() {
            low[axis] = number.min(low[axis]);
            high[axis] = number.max(high[axis]);
        }
    }
    if low[0] > high[0] {
        (low, high) = ([0.0; 3], [1.0; 3]);
    }
    let ends = [low, high].map(|of| numbers([of].into_iter()));
    Object::default()
        .with("low", &ends[0])
        .with("high", &ends[1])
        .finish(", ")
}

fn surfaces(placed: &PlacedMesh) -> String {
    let measures = placed.measures();
    let each = placed.surfaces.list.iter().zip(&measures);
    let object = each.map(|(surface, measure)| {
        let volume = measure.volume.map_or("null".to_string(), decimal);
        let middle = times(plus(measure.low, measure.high), 0.5);
        Object::default()
            .with("triangles", surface.triangles)
            .with("closed", surface.is_closed())
            .with("open", surface.open_sides)
            .with("area", decimal(measure.area))
            .with("volume", volume)
            .with("middle", numbers([middle].into_iter()))
            .finish(", ")
    });
    list(object)
}

/// What is told of loops, each once, and for each triangle which of these it is.
fn loops_in_words(shown: &Shown<'_>, triangles: &[Triangle]) -> (Vec<String>, Vec<usize>) {
    let mut told: HashMap<(u32, u32), String> = HashMap::new();
    if let Some(grid) = shown.grid {
        for cell in 0..grid.lists().cells.len() / 4 {
            let lowest = grid.lists().cells[4 * cell];
            // the grid is accepted and has the cell
            for of in loops_of(grid, cell).unwrap_or_default() {
                let normal = if of.normal { "normal" } else { "not normal" };
                let kind = type_in_words(of.kind, lowest);
                let words = format!("{kind}; length {}, {normal}", of.length);
                told.insert((cell as u32, of.p0 as u32), words);
            }
        }
    }
    let words = |of: &Triangle| match (of.part.is_sub_cell(), told.get(&(of.part.cell, of.p0))) {
        (true, _) => "in a sub-cell, whose loops have no type".to_string(),
        (false, Some(words)) => words.clone(),
        (false, None) => "unknown without the grid".to_string(),
    };
    let mut all = Vec::new();
    let mut numbers: HashMap<String, usize> = HashMap::new();
    let mut number = |words: String| {
        *numbers.entry(words.clone()).or_insert_with(|| {
            all.push(words);
            all.len() - 1
        })
    };
    let of = triangles.iter().map(|of| number(words(of))).collect();
    (all, of)
}

/// The points of sides in one triangle only, two for each, and their surfaces.
fn open_sides(placed: &PlacedMesh, triangles: &[Triangle]) -> (Vec<usize>, Vec<usize>) {
    let mut having: HashMap<Side, usize> = HashMap::new();
    for side in triangles.iter().flat_map(|of| of.sides) {
        *having.entry(side).or_default() += 1;
    }
    let (mut points, mut surfaces) = (Vec::new(), Vec::new());
    for (at, triangle) in triangles.iter().enumerate() {
        for side in (0..3).filter(|&side| having[&triangle.sides[side]] == 1) {
            let ends = [side, (side + 1) % 3].map(|corner| triangle.corners[corner]);
            points.extend(ends.map(|corner| placed.mesh.point(corner)));
            surfaces.push(placed.surfaces.of[at]);
        }
    }
    (points, surfaces)
}

fn no_grid() -> String {
    r#"{"nodes": [], "outer": [], "creases": []}"#.to_string()
}

/// Faces side by side that turn by less than this lie flat.
const FLAT: f64 = 1e-9;

/// The edges of faces that one cell has: those within a flat part of the grid's
/// outside, and the creases between such parts.
fn outer_edges(grid: &Grid, nodes: &[f64]) -> String {
    let all = faces(grid);
    let mut normals: HashMap<usize, Vec<Place>> = HashMap::new();
    for face in all.iter().filter(|face| face.cells.len() == 1) {
        for edge in face.edges {
            normals.entry(edge).or_default().push(normal(face, nodes));
        }
    }
    let mut edges: Vec<(usize, bool)> = normals
        .into_iter()
        .map(|(edge, normals)| (edge, is_flat(&normals)))
        .collect();
    edges.sort_unstable();
    let ends = |flat: bool| {
        let of = edges.iter().filter(move |edge| edge.1 == flat);
        list(of.flat_map(|edge| &grid.lists().edges[2 * edge.0..2 * edge.0 + 2]))
    };
    Object::default()
        .with("nodes", list(nodes.iter().copied().map(decimal)))
        .with("outer", ends(true))
        .with("creases", ends(false))
        .finish(",\n")
}

fn normal(face: &Face, nodes: &[f64]) -> Place {
    let [a, b, c] = face.nodes.map(|of| node(nodes, of));
    cross(less(b, a), less(c, a))
}

/// Whether two faces lie in one plane.
fn is_flat(normals: &[Place]) -> bool {
    match normals {
        [one, other] => length(cross(*one, *other)) <= FLAT * length(*one) * length(*other),
        _ => false,
    }
}
