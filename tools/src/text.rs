//! The text form of a grid (docs/FORMAT.md, "The text form of a grid"): read with
//! line numbers, and written.

use std::collections::HashMap;
use std::fmt::Write;
use std::str::SplitWhitespace;

use crate::fault::{shown, Fault};

/// The first line of the text form, by which it is told from a bundle.
pub const FIRST_LINE: &str = "citternblaze grid";

/// A statement and the number of its line, from 1; 0 where it was not read.
#[derive(Clone, Debug, PartialEq)]
pub struct At<T> {
    pub line: usize,
    pub it: T,
}

/// An edge with its count, or a later look at one.
#[derive(Clone, Copy, Debug, PartialEq, Eq)]
pub struct Edge {
    pub ends: [u16; 2],
    pub count: u16,
}

/// The place of a node.
#[derive(Clone, Copy, Debug, PartialEq)]
pub struct NodePlace {
    pub node: u16,
    pub place: [f64; 3],
}

/// The fractions of an edge's crossings, by index.
#[derive(Clone, Debug, PartialEq)]
pub struct Fractions {
    pub ends: [u16; 2],
    pub fractions: Vec<f64>,
}

/// The statements of a text, by what they state, each in the order of the text.
#[derive(Clone, Debug, Default, PartialEq)]
pub struct Text {
    pub cells: Vec<At<[u16; 4]>>,
    pub edges: Vec<At<Edge>>,
    pub looks: Vec<At<Edge>>,
    pub nodes: Vec<At<NodePlace>>,
    pub fractions: Vec<At<Fractions>>,
}

/// What some editors put before a text in UTF-8.
const MARK: &[u8] = b"\xef\xbb\xbf";

fn without_mark(bytes: &[u8]) -> &[u8] {
    bytes.strip_prefix(MARK).unwrap_or(bytes)
}

/// Whether bytes are meant as the text form. No bundle starts with these bytes.
pub fn is_text(bytes: &[u8]) -> bool {
    without_mark(bytes).starts_with(FIRST_LINE.as_bytes())
}

/// Reads the text form.
pub fn read(bytes: &[u8]) -> Result<Text, Fault> {
    let mut text = Text::default();
    each_statement(bytes, FIRST_LINE, |kind, words| {
        read_statement(&mut text, kind, words)
    })?;
    no_repeats(&text)?;
    Ok(text)
}

/// Goes over the statements of a text with this first line: the word that each starts
/// with, and the rest of its words.
pub fn each_statement(
    bytes: &[u8],
    first_line: &str,
    mut read: impl FnMut(&str, &mut Words<'_>) -> Result<(), Fault>,
) -> Result<(), Fault> {
    let lines = without_mark(bytes).split(|&byte| byte == b'\n');
    let mut lines = (1..).zip(lines);
    let first = lines.next().map_or(&[][..], |(_, line)| line);
    if without_comment(first, 1)?.trim() != first_line {
        let thing = first_line.rsplit(' ').next().unwrap_or_default();
        let want = format!("the first line of a {thing}'s text is '{first_line}'");
        return Err(Fault::at_line(1, want));
    }
    for (at, line) in lines {
        let mut words = Words {
            line: at,
            rest: without_comment(line, at)?.split_whitespace(),
        };
        if let Some(kind) = words.rest.next() {
            read(kind, &mut words)?;
        }
    }
    Ok(())
}

/// A line up to its comment.
fn without_comment(line: &[u8], at: usize) -> Result<&str, Fault> {
    match std::str::from_utf8(line) {
        Ok(line) => Ok(line.split('#').next().unwrap_or_default()),
        Err(_) => Err(Fault::at_line(at, "no text in UTF-8")),
    }
}

fn read_statement(text: &mut Text, kind: &str, words: &mut Words<'_>) -> Result<(), Fault> {
    match kind {
        "cell" => text.cells.push(words.nodes("a cell has four nodes")?),
        "edge" => text.edges.push(words.edge("an edge")?),
        "look" => text.looks.push(words.edge("a look")?),
        "node" => text.nodes.push(words.node_place()?),
        "fractions" => text.fractions.push(words.fractions()?),
        other => return Err(words.unknown(other, "cell, edge, look, node, fractions")),
    }
    Ok(())
}

/// The words of a line that are still to be read.
pub struct Words<'a> {
    line: usize,
    rest: SplitWhitespace<'a>,
}

impl<'a> Words<'a> {
    fn fault(&self, what: String) -> Fault {
        Fault::at_line(self.line, what)
    }

    /// A statement of a kind that there is not.
    pub fn unknown(&self, kind: &str, known: &str) -> Fault {
        self.fault(format!("'{}' is none of {known}", shown(kind)))
    }

    pub fn at<T>(&self, it: T) -> At<T> {
        At {
            line: self.line,
            it,
        }
    }

    fn word(&mut self, whole: &str) -> Result<&'a str, Fault> {
        let word = self.rest.next();
        word.ok_or_else(|| self.fault(format!("{whole}, and here is less")))
    }

    /// The number of a place or a fraction.
    fn decimal(&self, word: &str) -> Result<f64, Fault> {
        match word.parse() {
            Ok(number) if f64::is_finite(number) => Ok(number),
            Ok(_) => Err(self.fault(format!("'{}' is no finite number", shown(word)))),
            Err(_) => Err(self.fault(format!("'{}' is no number", shown(word)))),
        }
    }

    fn short(&mut self, whole: &str) -> Result<u16, Fault> {
        let word = self.word(whole)?;
        let number = word.parse();
        number.map_err(|_| {
            let word = shown(word);
            self.fault(format!("'{word}' is no whole number from 0 to 65535"))
        })
    }

    fn end(&mut self, whole: &str) -> Result<(), Fault> {
        match self.rest.next() {
            None => Ok(()),
            Some(word) => {
                let word = shown(word);
                Err(self.fault(format!("{whole}, and here is more: '{word}'")))
            }
        }
    }

    /// So many nodes.
    pub fn nodes<const N: usize>(&mut self, whole: &str) -> Result<At<[u16; N]>, Fault> {
        let mut nodes = [0; N];
        for node in &mut nodes {
            *node = self.short(whole)?;
        }
        self.end(whole)?;
        Ok(self.at(nodes))
    }

    pub fn edge(&mut self, what: &str) -> Result<At<Edge>, Fault> {
        let whole = format!("{what} has two nodes and a count");
        let ends = [self.short(&whole)?, self.short(&whole)?];
        let count = self.short(&whole)?;
        self.end(&whole)?;
        Ok(self.at(Edge { ends, count }))
    }

    fn node_place(&mut self) -> Result<At<NodePlace>, Fault> {
        let (node, place) = self.place("a node's place has the node and three numbers")?;
        Ok(self.at(NodePlace { node, place }))
    }

    /// A node and so many numbers.
    pub fn place<const N: usize>(&mut self, whole: &str) -> Result<(u16, [f64; N]), Fault> {
        let node = self.short(whole)?;
        let mut place = [0.0; N];
        for number in &mut place {
            let word = self.word(whole)?;
            *number = self.decimal(word)?;
        }
        self.end(whole)?;
        Ok((node, place))
    }

    pub fn fractions(&mut self) -> Result<At<Fractions>, Fault> {
        let whole = "fractions have the edge's two nodes before them";
        let ends = [self.short(whole)?, self.short(whole)?];
        let mut fractions = Vec::new();
        while let Some(word) = self.rest.next() {
            fractions.push(self.decimal(word)?);
        }
        Ok(self.at(Fractions { ends, fractions }))
    }
}

/// A node has one place, and an edge one list of fractions.
pub fn no_repeats(text: &Text) -> Result<(), Fault> {
    one_place(text.nodes.iter().map(|of| (of.line, of.it.node)))?;
    one_list(&text.fractions)
}

/// No node has two places.
pub fn one_place(places: impl Iterator<Item = (usize, u16)>) -> Result<(), Fault> {
    let mut nodes = HashMap::new();
    for (line, node) in places {
        if let Some(before) = nodes.insert(node, line) {
            let what = format!("node {node} has a place on line {before} already");
            return Err(Fault::at_line(line, what));
        }
    }
    Ok(())
}

/// No edge has two lists of fractions.
pub fn one_list(fractions: &[At<Fractions>]) -> Result<(), Fault> {
    let mut edges = HashMap::new();
    for At { line, it } in fractions {
        let [u, v] = it.ends;
        if let Some(before) = edges.insert(it.ends, line) {
            let what = format!("edge {u} {v} has fractions on line {before} already");
            return Err(Fault::at_line(*line, what));
        }
    }
    Ok(())
}

/// The text form of statements. Numbers have the digits that read back to the same
/// bits.
pub fn write(text: &Text) -> String {
    let mut out = format!("{FIRST_LINE}\n");
    for At {
        it: [a, b, c, d], ..
    } in &text.cells
    {
        line(&mut out, format_args!("cell {a} {b} {c} {d}"));
    }
    for (word, edges) in [("edge", &text.edges), ("look", &text.looks)] {
        for At { it, .. } in edges {
            let [u, v] = it.ends;
            line(&mut out, format_args!("{word} {u} {v} {}", it.count));
        }
    }
    for At { it, .. } in &text.nodes {
        let [x, y, z] = it.place;
        line(&mut out, format_args!("node {} {x:?} {y:?} {z:?}", it.node));
    }
    for At { it, .. } in &text.fractions {
        let numbers: String = it.fractions.iter().map(|s| format!(" {s:?}")).collect();
        let [u, v] = it.ends;
        line(&mut out, format_args!("fractions {u} {v}{numbers}"));
    }
    out
}

fn line(out: &mut String, stated: std::fmt::Arguments<'_>) {
    writeln!(out, "{stated}").expect("a string takes any text");
}
