//! A mesh that was received, with its points, in place of a grid.

use crate::arguments::{Arguments, Flag};
use crate::calls::Grid;
use crate::fault::{note, shown, Fault};
use crate::files::{self, Input, MESH_BYTES};
use crate::mesh::{triangles, Corner, Mesh};
use crate::placed_mesh::PlacedMesh;
use crate::received::{self, Received, Words};
use crate::source;
use crate::space::Place;

/// The option that says where the points of the words are.
pub const POINTS: Flag = Flag {
    name: "--points",
    value: Some("FILE"),
    help: "read words of a mesh in place of a grid, and their points here",
};

pub const BINARY: Flag = Flag {
    name: "--binary",
    value: None,
    help: "read words of four bytes, low byte first, and no listing",
};

/// The option that names the grid whose mesh the words are.
pub const MESH_OF: Flag = Flag {
    name: "--mesh-of",
    value: Some("FILE"),
    help: "the bundle or text of the grid whose mesh the words are",
};

/// So many bytes tell words from a listing before the rest is read.
const FIRST_BYTES: usize = 65_536;

/// A received mesh, and its grid where that is known.
pub struct Arrived {
    pub placed: PlacedMesh,
    pub grid: Option<Grid>,
    /// What to call the words in a message.
    pub name: String,
}

/// The received mesh, where points are given; else the input is a grid.
pub fn open(arguments: &Arguments, as_is: bool) -> Result<Option<Arrived>, Fault> {
    let file = match arguments.path(POINTS.name) {
        Some(file) => file,
        None if arguments.has(BINARY.name) || arguments.has(MESH_OF.name) => {
            let what = "words want their points: --points FILE";
            return Err(Fault::usage(what));
        }
        None => return Ok(None),
    };
    let input = files::open(Some(file))?.all_within(MESH_BYTES)?;
    let points = read_points(&input.bytes).map_err(|fault| fault.of(&input.name))?;
    let (input, words) = read_words(arguments)?;
    let fault = received::report(&Received::of_words(&words)).fault();
    let whole = fault.is_none();
    if let Some(fault) = fault {
        note(fault.of(&input.name));
    }
    let grid = grid(arguments, &MESH_OF)?;
    let mesh = match &grid {
        Some(grid) => of_grid(grid, words, points.len()),
        None => of_words(words, whole, points.len()),
    };
    let mesh = mesh.map_err(|fault| fault.of(&input.name))?;
    Ok(Some(Arrived {
        placed: PlacedMesh::of_words(mesh, points, as_is),
        grid,
        name: input.name,
    }))
}

/// The words of the input: a listing, or with `--binary` the words themselves.
pub fn read_words(arguments: &Arguments) -> Result<(Input, Words), Fault> {
    let mut opened = files::open(arguments.file()?)?;
    let binary = arguments.has(BINARY.name);
    if !binary {
        opened.read_to(FIRST_BYTES)?;
        let name = &opened.input.name;
        received::no_zero(&opened.input.bytes).map_err(|fault| fault.of(name))?;
    }
    let input = opened.all_within(MESH_BYTES)?;
    let words = match binary {
        true => received::binary_words(&input.bytes),
        false => received::listed_words(&input.bytes),
    };
    let words = words.map_err(|fault| fault.of(&input.name))?;
    Ok((input, words))
}

/// The grid that an option names.
pub fn grid(arguments: &Arguments, option: &Flag) -> Result<Option<Grid>, Fault> {
    match arguments.path(option.name) {
        None => Ok(None),
        Some(file) => {
            let input = files::read(Some(file))?;
            let text = source::read_text(&input)?;
            source::grid_of(&text, &input.name).map(Some)
        }
    }
}

/// Points as text, three numbers to a line, or as 64-bit floats, low byte first. They
/// are a text where each byte is a printable one of ASCII, or white space.
pub fn read_points(bytes: &[u8]) -> Result<Vec<Place>, Fault> {
    let printable = |byte: &u8| byte.is_ascii_graphic() || byte.is_ascii_whitespace();
    let points = match std::str::from_utf8(bytes) {
        Ok(text) if bytes.iter().all(printable) => listed_points(text),
        _ => binary_points(bytes),
    }?;
    let finite = |point: &Place| point.iter().all(|number| number.is_finite());
    match points.iter().position(|point| !finite(point)) {
        Some(at) => Err(Fault::new(format!(
            "point {at} has a number that is not finite"
        ))),
        None => Ok(points),
    }
}

fn listed_points(text: &str) -> Result<Vec<Place>, Fault> {
    let mut points = Vec::new();
    for (at, line) in (1..).zip(text.lines()) {
        let line = line.split('#').next().unwrap_or_default();
        let words: Vec<&str> = line.split_whitespace().collect();
        let number = |word: &str| {
            let wrong = |_| Fault::at_line(at, format!("'{}' is no number", shown(word)));
            word.parse::<f64>().map_err(wrong)
        };
        match words[..] {
            [] => {}
            [x, y, z] => points.push([number(x)?, number(y)?, number(z)?]),
            _ => {
                let given = words.len();
                let what = format!("a point has three numbers, and here are {given}");
                return Err(Fault::at_line(at, what));
            }
        }
    }
    Ok(points)
}

fn binary_points(bytes: &[u8]) -> Result<Vec<Place>, Fault> {
    const BYTES: usize = 24;
    if bytes.len() % BYTES != 0 {
        let start = bytes.len() / BYTES * BYTES;
        let left = bytes.len() - start;
        let what = format!("byte {start}: a point has 24 bytes, and here are {left}");
        return Err(Fault::new(what));
    }
    let number = |point: &[u8], axis: usize| {
        let mut own = [0; 8];
        own.copy_from_slice(&point[8 * axis..8 * axis + 8]);
        f64::from_le_bytes(own)
    };
    let points = bytes.chunks_exact(BYTES);
    Ok(points
        .map(|point| [0, 1, 2].map(|axis| number(point, axis)))
        .collect())
}

/// The mesh of words of a known grid: its points are known whatever was lost.
fn of_grid(grid: &Grid, words: Words, points: usize) -> Result<Mesh, Fault> {
    let whole = Mesh::of(grid);
    let whole = whole.map_err(|_| Fault::new("the grid has no mesh"))?;
    let wanted = whole.points();
    if wanted != points {
        let what = format!("the mesh of the grid has {wanted} points, and here are {points}");
        return Err(Fault::new(what));
    }
    let mesh = whole.with_words(words.words);
    mesh.ok_or_else(|| Fault::new("a corner of a triangle is no point of the grid's mesh"))
}

/// The mesh of words alone. Crossings are told by number; after them stand the inner
/// crossings and the middles, of which the words tell how many there are only where
/// all have arrived.
fn of_words(words: Words, whole: bool, points: usize) -> Result<Mesh, Fault> {
    let lowest = lowest_crossings(&words.words);
    let stated = words.stated.and_then(|totals| totals.crossings);
    let mesh = Mesh::of_words(words.words, 0);
    let others = mesh.inner_crossings() + mesh.fans();
    let crossings = match (others, stated) {
        (0, _) => points,
        (_, Some(crossings)) => crossings,
        (_, None) => points.saturating_sub(others),
    };
    let fit = match others {
        0 => lowest <= points,
        _ => whole && crossings.checked_add(others) == Some(points) && lowest <= crossings,
    };
    match fit {
        true => Ok(mesh.with_crossings(crossings)),
        false => Err(Fault::new(format!(
            "{points} points do not fit these triangles: some were lost, or the points are \
             others' (--mesh-of FILE names the grid, whose mesh tells which point is which)"
        ))),
    }
}

/// How many crossings the grid of these words has at least.
fn lowest_crossings(words: &[u32]) -> usize {
    let corners = triangles(words).flat_map(|triangle| triangle.corners);
    let crossings = corners.filter_map(|corner| match corner {
        Corner::Crossing(crossing) => Some(crossing as usize + 1),
        _ => None,
    });
    crossings.max().unwrap_or(0)
}
