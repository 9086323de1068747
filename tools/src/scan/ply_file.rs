//! PLY files, as text and in bytes of either order.

use super::mesh_file::MeshFile;
use super::words::quoted;
use crate::fault::Fault;

/// A kind of number, with its bytes.
#[derive(Clone, Copy, Debug, PartialEq)]
enum Kind {
    Whole { bytes: usize, signed: bool },
    Float { bytes: usize },
}

impl Kind {
    fn of(name: &str) -> Option<Kind> {
        let whole = |bytes, signed| Some(Kind::Whole { bytes, signed });
        match name {
            "char" | "int8" => whole(1, true),
            "uchar" | "uint8" => whole(1, false),
            "short" | "int16" => whole(2, true),
            "ushort" | "uint16" => whole(2, false),
            "int" | "int32" => whole(4, true),
            "uint" | "uint32" => whole(4, false),
            "float" | "float32" => Some(Kind::Float { bytes: 4 }),
            "double" | "float64" => Some(Kind::Float { bytes: 8 }),
            _ => None,
        }
    }

    fn bytes(self) -> usize {
        match self {
            Kind::Whole { bytes, .. } | Kind::Float { bytes } => bytes,
        }
    }

    /// The number of bytes that stand low byte first.
    fn number(self, bytes: &[u8]) -> f64 {
        let raw = bytes
            .iter()
            .rev()
            .fold(0_u64, |sum, &byte| sum << 8 | u64::from(byte));
        match self {
            Kind::Float { bytes: 4 } => f64::from(f32::from_bits(raw as u32)),
            Kind::Float { .. } => f64::from_bits(raw),
            Kind::Whole { signed: false, .. } => raw as f64,
            Kind::Whole { bytes, .. } => {
                let unused = 64 - 8 * bytes as u32;
                ((raw << unused) as i64 >> unused) as f64
            }
        }
    }
}

struct Property {
    name: String,
    /// The kind of a list's length, where it is one.
    length: Option<Kind>,
    kind: Kind,
}

struct Element {
    name: String,
    number: usize,
    properties: Vec<Property>,
}

#[derive(Clone, Copy, PartialEq)]
enum Order {
    Text,
    LowFirst,
    HighFirst,
}

struct Head {
    order: Order,
    elements: Vec<Element>,
    /// Where the numbers start, and the line.
    body: usize,
}

/// A line without its end, and where the next starts.
fn line_at(bytes: &[u8], start: usize) -> Option<(&[u8], usize)> {
    let rest = bytes.get(start..).filter(|rest| !rest.is_empty())?;
    let end = rest
        .iter()
        .position(|&byte| byte == b'\n')
        .unwrap_or(rest.len() - 1);
    let line = &rest[..=end];
    Some((line, start + end + 1))
}

fn head(bytes: &[u8]) -> Result<Head, Fault> {
    let mut head = Head {
        order: Order::Text,
        elements: Vec::new(),
        body: 0,
    };
    let mut number = 0;
    loop {
        number += 1;
        let fault = |what: &str| Fault::at_line(number, what);
        let (line, next) = line_at(bytes, head.body)
            .ok_or_else(|| fault("the head of the PLY file has no end"))?;
        head.body = next;
        let line = std::str::from_utf8(line).map_err(|_| fault("no text in UTF-8"))?;
        let words: Vec<&str> = line.split_whitespace().collect();
        if words == ["end_header"] {
            return Ok(head);
        }
        add_to_head(&mut head, &words).map_err(|what| fault(&what))?;
    }
}

fn add_to_head(head: &mut Head, words: &[&str]) -> Result<(), String> {
    match *words {
        [] | ["ply"] | ["comment", ..] | ["obj_info", ..] => {}
        ["format", "ascii", _] => head.order = Order::Text,
        ["format", "binary_little_endian", _] => head.order = Order::LowFirst,
        ["format", "binary_big_endian", _] => head.order = Order::HighFirst,
        ["element", name, number] => head.elements.push(Element {
            name: name.to_string(),
            number: number
                .parse()
                .map_err(|_| format!("{} is no number", quoted(number)))?,
            properties: Vec::new(),
        }),
        ["property", "list", length, kind, name] => add_property(head, name, kind, Some(length))?,
        ["property", kind, name] => add_property(head, name, kind, None)?,
        [first, ..] => return Err(format!("{} starts no line of a PLY head", quoted(first))),
    }
    Ok(())
}

fn add_property(
    head: &mut Head,
    name: &str,
    kind: &str,
    length: Option<&str>,
) -> Result<(), String> {
    let known = |kind: &str| Kind::of(kind).ok_or(format!("{} is no kind of number", quoted(kind)));
    let element = head
        .elements
        .last_mut()
        .ok_or("a property before any element")?;
    element.properties.push(Property {
        name: name.to_string(),
        length: length.map(known).transpose()?,
        kind: known(kind)?,
    });
    Ok(())
}

/// The numbers after the head, one by one.
struct Numbers<'a> {
    order: Order,
    rest: &'a [u8],
    given: usize,
}

impl Numbers<'_> {
    fn next(&mut self, kind: Kind) -> Result<f64, Fault> {
        self.given += 1;
        match self.order {
            Order::Text => self.next_word(),
            order => {
                if self.rest.len() < kind.bytes() {
                    return Err(Fault::new("the PLY file ends before its numbers do"));
                }
                let (bytes, rest) = self.rest.split_at(kind.bytes());
                self.rest = rest;
                let mut bytes = bytes.to_vec();
                if order == Order::HighFirst {
                    bytes.reverse();
                }
                Ok(kind.number(&bytes))
            }
        }
    }

    fn next_word(&mut self) -> Result<f64, Fault> {
        let is_space = |byte: &u8| byte.is_ascii_whitespace();
        let start = self.rest.iter().position(|byte| !is_space(byte));
        let start = start.ok_or_else(|| Fault::new("the PLY file ends before its numbers do"))?;
        let word = &self.rest[start..];
        let end = word.iter().position(is_space).unwrap_or(word.len());
        self.rest = &word[end..];
        let word = String::from_utf8_lossy(&word[..end]);
        let given = self.given;
        word.parse().map_err(|_| {
            Fault::new(format!(
                "number {given} after the head: {} is no number",
                quoted(&word)
            ))
        })
    }
}

pub fn read(bytes: &[u8]) -> Result<MeshFile, Fault> {
    let head = head(bytes)?;
    let mut numbers = Numbers {
        order: head.order,
        rest: &bytes[head.body..],
        given: 0,
    };
    let mut mesh = MeshFile::default();
    for element in &head.elements {
        for at in 0..element.number {
            match element.name.as_str() {
                "vertex" => add_vertex(&mut mesh, element, &mut numbers)?,
                _ => add_face(&mut mesh, element, &mut numbers, at)?,
            }
            if element.properties.is_empty() {
                break;
            }
        }
    }
    Ok(mesh)
}

fn list(property: &Property, numbers: &mut Numbers<'_>) -> Result<Vec<f64>, Fault> {
    let length = match property.length {
        None => 1.0,
        Some(kind) => numbers.next(kind)?,
    };
    if !(0.0..=4e9).contains(&length) || length.fract() != 0.0 {
        return Err(Fault::new(format!(
            "a list of {length} numbers in the PLY file"
        )));
    }
    let mut all = Vec::new();
    for _ in 0..length as usize {
        all.push(numbers.next(property.kind)?);
    }
    Ok(all)
}

fn add_vertex(mesh: &mut MeshFile, of: &Element, numbers: &mut Numbers<'_>) -> Result<(), Fault> {
    let mut place = [f64::NAN; 3];
    for property in &of.properties {
        let given = list(property, numbers)?;
        let axis = ["x", "y", "z"]
            .iter()
            .position(|axis| property.name == *axis);
        if let (Some(axis), &[number]) = (axis, &given[..]) {
            place[axis] = number;
        }
    }
    if place.iter().any(|number| number.is_nan()) {
        let at = mesh.places.len();
        return Err(Fault::new(format!(
            "vertex {at} of the PLY file has no x, y and z"
        )));
    }
    mesh.places.push(place);
    Ok(())
}

/// A face, or something else that is passed over.
fn add_face(
    mesh: &mut MeshFile,
    of: &Element,
    numbers: &mut Numbers<'_>,
    at: usize,
) -> Result<(), Fault> {
    for property in &of.properties {
        let given = list(property, numbers)?;
        let is_corners = matches!(property.name.as_str(), "vertex_indices" | "vertex_index");
        if of.name != "face" || !is_corners {
            continue;
        }
        let vertices = mesh.places.len();
        let corner = |&number: &f64| {
            match number {
            _ if number >= 0.0 && number < vertices as f64 && number.fract() == 0.0 => Ok(number as u32),
            _ => Err(Fault::new(format!(
                "face {at} of the PLY file has the corner {number}, and there are {vertices} vertices"
            ))),
        }
        };
        let corners = given
            .iter()
            .map(corner)
            .collect::<Result<Vec<u32>, Fault>>()?;
        if corners.len() < 3 {
            return Err(Fault::new(format!(
                "face {at} of the PLY file has fewer than 3 corners"
            )));
        }
        mesh.add_polygon(&corners);
    }
    Ok(())
}
