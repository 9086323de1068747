//! The picture of a placed mesh: a parallel projection, the farthest triangles first,
//! in light that tells their slope. In a small mesh crossings are numbered and hidden
//! sides dotted; of a large one the outlines of its surfaces are drawn, once more
//! where they are hidden, and where a side of the shading meets the grid's outside.

use std::collections::HashSet;

use crate::box_axes;
use crate::clip::Clip;
use crate::colours::of_surface;
use crate::cut_plane::{size_of, CutPlane};
use crate::film::Unit;
use crate::labels::{Aside, Labels};
use crate::legend::{self, Entry, Mark};
use crate::loops::counted;
use crate::marks::{draw_head, draw_number, draw_ring};
use crate::mesh::{PointKind, Triangle};
use crate::mesh_shapes::{type_colour, Shapes, SEEN_SIDES, TINTS};
use crate::plane::Point;
use crate::progress::Progress;
use crate::section::{grid_cut, section};
use crate::section_picture::{GridLines, Whole};
use crate::space::{node, Place};
use crate::surface_list::{shape_in_words, size_in_words};
use crate::svg::{Stroke, Svg, BLACK, BLUE, GREY, PURPLE, SKY, YELLOW};
use crate::triangle_types::Loops;
use crate::view::{Frame, Room, View};

const WIDTH: f64 = 760.0;
/// The room for the projection, above it and beside it.
const ROOM: f64 = 560.0;
const MARGIN: f64 = 66.0;
const HEAD: f64 = 66.0;

const SIDE: Stroke = Stroke::solid(BLACK, 1.0);
const HIDDEN: Stroke = Stroke {
    colour: BLACK,
    width: 0.8,
    dashes: "0.5 4",
};
const GRID: Stroke = Stroke::solid(GREY, 1.2);
const GRID_HIDDEN: Stroke = Stroke {
    colour: GREY,
    width: 0.9,
    dashes: "0.5 4",
};

/// The radius of a middle's dot, of an inner crossing's ring, and of a number's disc.
const MIDDLE: f64 = 3.0;
const INNER: f64 = 2.5;
const DISC: f64 = 8.0;

/// So many crossings or nodes are named, and so many triangles have dotted sides; more
/// would hide the mesh.
const NAMED: usize = 60;

/// How strongly a closed surface shows through what hides it.
const HIDDEN_BODY: f64 = 0.25;

/// So many surfaces have a line in the legend.
const TOLD: usize = 14;

/// What the colour of a triangle tells.
#[derive(Clone, Copy, Debug, PartialEq, Eq)]
pub enum Colour {
    Surface,
    Type,
    Side,
}

/// How a mesh is drawn.
#[derive(Clone, Debug)]
pub struct MeshLook {
    pub view: View,
    pub colour: Colour,
    pub grid: GridLines,
    pub unit: Unit,
    /// The cells that are shown, where not all are.
    pub only: Option<HashSet<usize>>,
    /// The plane before which all is cut away.
    pub clip: Option<CutPlane>,
}

impl MeshLook {
    pub fn shows(&self, cell: usize) -> bool {
        self.only.as_ref().map_or(true, |only| only.contains(&cell))
    }
}

/// What is drawn: a placed mesh, and the types of its triangles where they are known.
pub struct Scene<'a> {
    pub whole: Whole<'a>,
    pub types: Option<&'a Loops>,
}

impl Scene<'_> {
    /// The triangles of cells that are shown.
    fn triangles<'b>(&'b self, look: &'b MeshLook) -> impl Iterator<Item = (usize, Triangle)> + 'b {
        let all = self.whole.placed.triangles().enumerate();
        all.filter(move |(_, triangle)| look.shows(triangle.part.cell as usize))
    }

    /// Whether there are so many triangles that sides and numbers would hide them.
    pub fn is_large(&self, look: &MeshLook) -> bool {
        self.triangles(look).take(NAMED + 1).count() > NAMED
    }

    /// The nodes of the cells that are shown, each once.
    fn nodes(&self, look: &MeshLook) -> Vec<u16> {
        let cells = self.whole.grid.map_or(&[][..], |grid| &grid.lists().cells);
        let cells = cells.chunks_exact(4).enumerate();
        let shown = cells.filter(|(cell, _)| look.shows(*cell));
        let mut nodes: Vec<u16> = shown.flat_map(|(_, nodes)| nodes.to_vec()).collect();
        nodes.sort_unstable();
        nodes.dedup();
        nodes
    }

    /// The points that are corners of what is shown.
    fn points(&self, look: &MeshLook) -> Vec<usize> {
        let mesh = &self.whole.placed.mesh;
        let corners = self.triangles(look).flat_map(|(_, of)| of.corners);
        let mut points: Vec<usize> = corners.map(|corner| mesh.point(corner)).collect();
        points.sort_unstable();
        points.dedup();
        points
    }

    /// The places that the picture must hold.
    fn places(&self, look: &MeshLook) -> Vec<Place> {
        let placed = self.whole.placed;
        let nodes = self.nodes(look).into_iter();
        let nodes = nodes.map(|of| node(&placed.nodes, of));
        let points = self.points(look).into_iter().map(|of| placed.points[of]);
        let mut places: Vec<Place> = nodes.chain(points).collect();
        if let Some(plane) = &look.clip {
            let [_, _, towards] = look.view.directions();
            let clip = Clip::new(plane, towards, size_of(&places));
            places.retain(|&place| clip.keeps(place));
            places.extend(self.cut_places(plane));
        }
        places
    }

    /// The places of a cut by a plane.
    fn cut_places(&self, plane: &CutPlane) -> Vec<Place> {
        let placed = self.whole.placed;
        let cut = self.whole.grid.map(|grid| grid_cut(placed, grid, plane));
        let lines = cut.unwrap_or_default().outer.into_iter().flatten();
        let curves = section(placed, self.whole.grid, plane).curves.into_iter();
        let flat = lines.chain(curves.flat_map(|curve| curve.places));
        flat.map(|flat| plane.place(flat)).collect()
    }
}

/// The picture of a placed mesh.
pub fn picture(scene: &Scene<'_>, look: &MeshLook) -> String {
    let places = scene.places(look);
    let room = Room {
        left: MARGIN + 34.0,
        top: HEAD + MARGIN / 2.0,
        width: WIDTH - 2.0 * MARGIN - 34.0,
        height: ROOM,
    };
    let bounds = box_axes::box_of(&places);
    let frame = Frame::around(look.view, &box_axes::corners(bounds), room);
    let entries = entries(scene, look);
    let below = HEAD + 1.6 * MARGIN + frame.height;
    let title = title(scene, look);
    let mut svg = Svg::new(WIDTH, below + 30.0 + legend::height(&entries), &title);
    draw_head(&mut svg, &title, &view_in_words(look));
    let unit = look.unit.name;
    if !places.is_empty() {
        box_axes::draw(&mut svg, &frame, bounds, unit);
    }
    draw_shapes(&mut svg, scene, look, &frame, size_of(&places));
    draw_names(&mut svg, scene, look, &frame);
    box_axes::draw_bar(&mut svg, &frame, Point::new(24.0, below + 8.0), unit);
    legend::draw(&mut svg, Point::new(24.0, below + 24.0), &entries);
    svg.finish()
}

fn title(scene: &Scene<'_>, look: &MeshLook) -> String {
    let placed = scene.whole.placed;
    let surfaces = counted(placed.surfaces.list.len(), "surface");
    let triangles = counted(scene.triangles(look).count(), "triangle");
    match scene.whole.grid {
        None => format!("Mesh: {surfaces}, {triangles}"),
        Some(grid) => {
            let cells = (0..grid.lists().cells.len() / 4).filter(|&cell| look.shows(cell));
            format!(
                "Mesh of {}: {surfaces}, {triangles}",
                counted(cells.count(), "cell")
            )
        }
    }
}

fn view_in_words(look: &MeshLook) -> String {
    let View { round, up } = look.view;
    let from = format!("Parallel projection, seen from {round}° round the z axis and {up}° up");
    match &look.clip {
        None => from,
        Some(plane) => format!("{from}; cut at {}", plane.name),
    }
}

fn draw_shapes(svg: &mut Svg, scene: &Scene<'_>, look: &MeshLook, frame: &Frame, size: f64) {
    let mut shapes = Shapes::new(scene, look, frame, size);
    shapes.gather();
    let mut progress = Progress::new("triangles and edges drawn:", shapes.all.len());
    for shape in &shapes.all {
        shape.draw(svg);
        progress.step();
    }
    for (corners, colour) in &shapes.closed {
        svg.facet(
            std::slice::from_ref(corners),
            colour,
            HIDDEN_BODY,
            Stroke::solid("none", 0.0),
        );
    }
    for (ends, colour) in &shapes.outlines {
        let hidden = Stroke {
            colour,
            width: 1.0,
            dashes: "3 3",
        };
        svg.line(*ends, hidden);
    }
    if let Some(plane) = &look.clip {
        draw_cut(svg, scene, plane, frame);
    } else if !scene.is_large(look) {
        draw_hidden(svg, scene, look, frame);
    }
}

/// The cut by the clip's plane: its sides, and the curves of the surfaces.
fn draw_cut(svg: &mut Svg, scene: &Scene<'_>, plane: &CutPlane, frame: &Frame) {
    let see = |flat: &[f64; 2]| frame.see(plane.place(*flat)).at;
    if let Some(grid) = scene.whole.grid {
        let cut = grid_cut(scene.whole.placed, grid, plane);
        let ring = |ring: &Vec<[f64; 2]>| ring.iter().map(see).collect();
        let rings: Vec<Vec<Point>> = cut.side_1.iter().map(ring).collect();
        svg.facet(&rings, TINTS[1], 0.6, Stroke::solid("none", 0.0));
        for line in &cut.outer {
            svg.line([see(&line[0]), see(&line[1])], GRID);
        }
    }
    for curve in section(scene.whole.placed, scene.whole.grid, plane).curves {
        let points: Vec<Point> = curve.places.iter().map(see).collect();
        let stroke = Stroke::solid(of_surface(curve.surface), 2.4);
        svg.curve(&points, curve.closed, stroke);
    }
}

/// All sides, and the edges of the grid, dotted.
fn draw_hidden(svg: &mut Svg, scene: &Scene<'_>, look: &MeshLook, frame: &Frame) {
    let placed = scene.whole.placed;
    if let Some(grid) = scene.whole.grid {
        for edge in scene.edges(look) {
            let ends = [
                grid.lists().edges[2 * edge],
                grid.lists().edges[2 * edge + 1],
            ];
            let ends = ends.map(|of| frame.see(node(&placed.nodes, of)).at);
            svg.line(ends, GRID_HIDDEN);
        }
    }
    for (_, triangle) in scene.triangles(look) {
        let corners = placed.corners(&triangle).map(|corner| frame.see(corner).at);
        svg.polygon(&corners, "none", 1.0, HIDDEN);
    }
}

/// Whether crossings are numbered, and nodes named.
fn numbered(scene: &Scene<'_>, look: &MeshLook) -> bool {
    look.clip.is_none() && scene.points(look).len() <= 2 * NAMED && !scene.is_large(look)
}

fn draw_names(svg: &mut Svg, scene: &Scene<'_>, look: &MeshLook, frame: &Frame) {
    if !numbered(scene, look) {
        return;
    }
    let placed = scene.whole.placed;
    let low = Point::new(4.0, HEAD);
    let high = Point::new(WIDTH - 4.0, HEAD + 1.6 * MARGIN + frame.height);
    let mut labels = Labels::within(low, high, 12.0);
    let crossings = crossings_of(scene, look);
    let seen = |point: usize| frame.see(placed.points[point]).at;
    for point in scene.points(look) {
        match placed.mesh.kind(point) {
            PointKind::Crossing => {}
            PointKind::InnerCrossing => draw_ring(svg, seen(point), INNER),
            PointKind::Middle => svg.disc(seen(point), MIDDLE, BLACK, SIDE),
        }
    }
    let nodes = scene.nodes(look);
    let all = nodes
        .iter()
        .map(|&of| frame.see(node(&placed.nodes, of)).at);
    let sum = all.fold(Point::new(0.0, 0.0), |sum, at| sum + at);
    let centre = sum * (1.0 / nodes.len().max(1) as f64);
    for &of in nodes.iter().filter(|_| nodes.len() <= NAMED) {
        let at = frame.see(node(&placed.nodes, of)).at;
        svg.disc(at, 2.5, GREY, Stroke::solid(GREY, 0.5));
        labels.add(Aside::bold(at, &format!("node {of}")).towards(at - centre));
    }
    let all: Vec<Point> = crossings.iter().map(|&of| seen(of)).collect();
    for (&number, &at) in crossings.iter().zip(&all) {
        let near = |other: &&Point| (**other - at).length() < 2.0 * DISC;
        match all.iter().filter(near).count() {
            1 => {
                draw_number(svg, at, number, DISC);
                labels.keep_clear_disc(at, DISC);
            }
            _ => {
                svg.disc(at, 2.0, "#ffffff", Stroke::solid(BLACK, 1.0));
                labels.add(Aside::new(at, &number.to_string()));
            }
        }
    }
    labels.draw(svg, 0.8);
}

/// The crossings that are numbered: those of the edges of cells that are shown, or of
/// the triangles where there is no grid.
fn crossings_of(scene: &Scene<'_>, look: &MeshLook) -> Vec<usize> {
    let mesh = &scene.whole.placed.mesh;
    match scene.whole.grid {
        None => {
            let points = scene.points(look).into_iter();
            points
                .filter(|&of| mesh.kind(of) == PointKind::Crossing)
                .collect()
        }
        Some(grid) => {
            let edges = scene.edges_of_cells(look).into_iter();
            let own = |edge: usize| {
                let start = grid.start(edge);
                start..start + usize::from(grid.lists().counts[edge])
            };
            edges.flat_map(own).collect()
        }
    }
}

/// What the legend says of the colours of types.
const TYPES: [(&str, &str); 4] = [
    (SKY, "triangle of a loop that cuts off a corner"),
    (YELLOW, "triangle of a diagonal loop"),
    (BLUE, "triangle of a contractible loop"),
    (PURPLE, "triangle of a split cell, in one of its sub-cells"),
];

/// The lines of the legend for what the picture has.
fn entries(scene: &Scene<'_>, look: &MeshLook) -> Vec<Entry> {
    let mut entries = match (look.colour, scene.types) {
        (Colour::Type, Some(types)) => type_entries(scene, look, types),
        (Colour::Side, _) => side_entries(),
        _ => surface_entries(scene, look),
    };
    let large = scene.is_large(look);
    if let (true, Some((side, _))) = (large, scene.tinted_side(look)) {
        let words = format!("side {side} where it meets the grid's outside");
        entries.push(Entry::new(Mark::Patch(TINTS[side]), words));
    }
    if numbered(scene, look) {
        entries.extend(point_entries(scene, look));
    }
    let side = match large {
        true => "outline of a surface; dashed where it is hidden",
        false => "side of a triangle; dotted where it is hidden",
    };
    entries.push(Entry::new(Mark::Line(SIDE), side));
    if !scene.edges(look).is_empty() {
        let words = match large {
            true => "edge of the grid's outside",
            false => "edge of the grid; dotted where it is hidden",
        };
        entries.push(Entry::new(Mark::Line(GRID), words));
    }
    entries
}

fn point_entries(scene: &Scene<'_>, look: &MeshLook) -> Vec<Entry> {
    let mut entries = vec![Entry::new(Mark::Number, "crossing with its number")];
    let points = scene.points(look);
    let has = |kind| {
        points
            .iter()
            .any(|&of| scene.whole.placed.mesh.kind(of) == kind)
    };
    if has(PointKind::InnerCrossing) {
        let words = "inner crossing of a split cell";
        entries.push(Entry::new(Mark::Ring(INNER), words));
    }
    if has(PointKind::Middle) {
        entries.push(Entry::new(Mark::Dot(MIDDLE), "middle of a loop"));
    }
    entries
}

fn type_entries(scene: &Scene<'_>, look: &MeshLook, types: &Loops) -> Vec<Entry> {
    let triangles = scene.triangles(look);
    let used: HashSet<&str> = triangles
        .map(|(_, of)| type_colour(types.type_of(&of)))
        .collect();
    let shown = TYPES.iter().filter(|of| used.contains(of.0));
    shown
        .map(|&(colour, words)| Entry::new(Mark::Patch(colour), words))
        .collect()
}

fn side_entries() -> Vec<Entry> {
    let words = [
        "seen from side 0, that of the lowest node",
        "seen from side 1",
    ];
    let both = SEEN_SIDES.into_iter().zip(words);
    both.map(|(colour, words)| Entry::new(Mark::Patch(colour), words))
        .collect()
}

fn surface_entries(scene: &Scene<'_>, look: &MeshLook) -> Vec<Entry> {
    let placed = scene.whole.placed;
    let shown: HashSet<usize> = scene
        .triangles(look)
        .map(|(at, _)| placed.surfaces.of[at])
        .collect();
    let measures = placed.measures();
    let told = (0..placed.surfaces.list.len()).filter(|at| shown.contains(at));
    let mut entries: Vec<Entry> = told
        .take(TOLD)
        .map(|at| {
            let surface = &placed.surfaces.list[at];
            let size = size_in_words(&measures[at], look.unit.name);
            let triangles = counted(surface.triangles, "triangle");
            let shape = shape_in_words(surface);
            let words = format!("surface {at}: {shape}, {size}, {triangles}");
            Entry::new(Mark::Patch(of_surface(at)), words)
        })
        .collect();
    if shown.len() > TOLD {
        let more = counted(shown.len() - TOLD, "more surface");
        let words = format!("and {more}, in these colours again");
        entries.push(Entry::new(Mark::Nothing, words));
    }
    entries
}
