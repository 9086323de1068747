//! The picture of a section on ruled film.

use crate::calls::Grid;
use crate::colours::{film_stroke, of_surface, SIDES};
use crate::cut_plane::{size_of, CutPlane};
use crate::fault::Fault;
use crate::film::{Film, Flat, Scale, Setup, Sheet, Unit, FAINT};
use crate::legend::{Entry, Mark};
use crate::loops::counted;
use crate::placed_mesh::PlacedMesh;
use crate::section::{grid_cut, section, GridCut, Section};
use crate::space::{node, Place};
use crate::surface_list::{shape_in_words, short, size_in_words};
use crate::svg::{Stroke, GREY};

/// Which edges of the grid a picture shows.
#[derive(Clone, Copy, Debug, PartialEq, Eq)]
pub enum GridLines {
    All,
    Outer,
    None,
    /// All of them up to so many, else the outer ones.
    UpTo(usize),
}

/// So many edges of a grid, or lines of its cut, do not hide a surface.
pub const FEW_LINES: usize = 60;

/// How sections are drawn.
#[derive(Clone, Debug)]
pub struct Look {
    pub sheet: Sheet,
    pub scale: Option<Scale>,
    pub unit: Unit,
    pub grid: GridLines,
    /// Whether crossings in the plane are marked and numbered.
    pub crossings: bool,
    /// Which side is water, where that is known.
    pub water: Option<usize>,
    /// What the mesh is called.
    pub name: String,
}

/// A placed mesh, and its grid where there is one.
#[derive(Clone, Copy)]
pub struct Whole<'a> {
    pub placed: &'a PlacedMesh,
    pub grid: Option<&'a Grid>,
}

impl Whole<'_> {
    /// The places that the picture must hold.
    fn places(&self) -> Vec<Place> {
        match self.grid {
            None => self.placed.points.clone(),
            Some(grid) => {
                let mut nodes = grid.lists().cells.clone();
                nodes.sort_unstable();
                nodes.dedup();
                let nodes = nodes.into_iter();
                nodes.map(|of| node(&self.placed.nodes, of)).collect()
            }
        }
    }
}

/// How strongly a triangle is drawn that lies in the plane, and the radius of a
/// crossing's mark.
const LYING: f64 = 0.35;
const CROSSING: f64 = 0.6;

const OUTLINE: Stroke = Stroke::solid(GREY, 0.2);

/// The sheet of a section. Refused where the plane misses all, or where the sheet is
/// too small.
pub fn picture(whole: &Whole<'_>, plane: &CutPlane, look: &Look) -> Result<String, Fault> {
    let places = whole.places();
    let [low, high] = extent(plane, &places)?;
    let found = section(whole.placed, whole.grid, plane);
    let cut = whole.grid.map(|grid| grid_cut(whole.placed, grid, plane));
    let cut = cut.unwrap_or_default();
    let setup = Setup {
        sheet: look.sheet,
        scale: look.scale,
        unit: look.unit,
        title: format!("Section {}", named(plane, look.unit)),
        below: in_words(look, &found),
        low,
        high,
        axes: plane.axes.clone(),
        entries: entries(whole.placed, look, &found, &cut),
    };
    let mut film = Film::new(setup)?;
    film.area(&cut.whole, SIDES[0], 1.0);
    film.area(&cut.side_1, SIDES[1], 1.0);
    film.rule();
    draw_grid(&mut film, &cut, look.grid);
    draw_curves(&mut film, &found);
    if look.crossings {
        draw_crossings(&mut film, &found);
    }
    Ok(film.finish())
}

/// The plane's name, with the unit where it is a number alone.
fn named(plane: &CutPlane, unit: Unit) -> String {
    match plane.name.contains('=') {
        true => format!("{} {}", plane.name, unit.name),
        false => plane.name.clone(),
    }
}

/// The box of places in the drawing of a plane that does not miss them all.
fn extent(plane: &CutPlane, places: &[Place]) -> Result<[Flat; 2], Fault> {
    let [mut low, mut high] = [[f64::INFINITY; 2], [f64::NEG_INFINITY; 2]];
    let [mut least, mut most] = [f64::INFINITY, f64::NEG_INFINITY];
    let size = size_of(places);
    for &place in places {
        let flat = plane.flat(place);
        for axis in 0..2 {
            low[axis] = low[axis].min(flat[axis]);
            high[axis] = high[axis].max(flat[axis]);
        }
        least = least.min(plane.height(place, size));
        most = most.max(plane.height(place, size));
    }
    if least <= 0.0 && most >= 0.0 {
        return Ok([low, high]);
    }
    let (name, least, most) = (&plane.name, short(least), short(most));
    Err(Fault::new(format!(
        "the plane {name} misses all: what there is lies from {least} to {most} beside it"
    )))
}

fn in_words(look: &Look, found: &Section) -> String {
    let curves = match found.curves.len() {
        0 => "no surface in this plane".to_string(),
        number => {
            let mut surfaces: Vec<usize> = found.curves.iter().map(|of| of.surface).collect();
            surfaces.sort_unstable();
            surfaces.dedup();
            let surfaces = counted(surfaces.len(), "surface");
            format!("{} of {surfaces}", counted(number, "curve"))
        }
    };
    format!("{}: {curves}. Film ruled at 1, 5 and 10 mm", look.name)
}

fn draw_grid(film: &mut Film, cut: &GridCut, lines: GridLines) {
    let (outer, inner) = match lines {
        GridLines::All => (true, true),
        GridLines::Outer => (true, false),
        GridLines::None => (false, false),
        GridLines::UpTo(most) => (true, cut.inner.len() <= most),
    };
    if inner {
        cut.inner
            .iter()
            .for_each(|line| film.curve(line, false, FAINT));
    }
    if outer {
        cut.outer
            .iter()
            .for_each(|line| film.curve(line, false, OUTLINE));
    }
}

fn draw_curves(film: &mut Film, found: &Section) {
    for (surface, corners) in &found.lying {
        film.area(&[corners.to_vec()], of_surface(*surface), LYING);
    }
    for curve in &found.curves {
        film.curve(&curve.places, curve.closed, film_stroke(curve.surface));
    }
}

/// Crossings as dots, with their numbers beside them.
fn draw_crossings(film: &mut Film, found: &Section) {
    for &(_, place) in &found.crossings {
        film.dot(place, CROSSING, "#ffffff");
    }
    let named = found.crossings.iter();
    let named: Vec<(Flat, String)> = named.map(|(of, at)| (*at, of.to_string())).collect();
    let lines = found.curves.iter().map(|curve| &curve.places[..]);
    film.names(&named, lines);
}

/// The lines of the legend: surfaces that are cut or lie in the plane, then sides and
/// marks.
fn entries(placed: &PlacedMesh, look: &Look, found: &Section, cut: &GridCut) -> Vec<Entry> {
    let mut entries = Vec::new();
    let measures = placed.measures();
    for (at, surface) in placed.surfaces.list.iter().enumerate() {
        if found.curves.iter().any(|curve| curve.surface == at) {
            let size = size_in_words(&measures[at], look.unit.name);
            let words = format!("surface {at}: {}, {size}", shape_in_words(surface));
            entries.push(Entry::new(Mark::Line(film_stroke(at)), words));
        }
        if found.lying.iter().any(|lying| lying.0 == at) {
            let words = format!("surface {at}: it lies in the plane here");
            entries.push(Entry::new(Mark::Patch(of_surface(at)), words));
        }
    }
    if !cut.whole.is_empty() {
        for (side, colour) in SIDES.into_iter().enumerate() {
            entries.push(Entry::new(Mark::Patch(colour), side_in_words(look, side)));
        }
    }
    if look.crossings {
        let words = format!(
            "crossing in the plane, with its number ({})",
            found.crossings.len()
        );
        entries.push(Entry::new(Mark::Ring(CROSSING), words));
    }
    entries
}

fn side_in_words(look: &Look, side: usize) -> String {
    let place = ["side 0, that of the lowest node", "side 1"][side];
    match look.water {
        None => place.to_string(),
        Some(water) if water == side => format!("water: {place}"),
        Some(_) => format!("ice: {place}"),
    }
}
