//! A grid with another count on one edge.

use super::{write_output, Command, OUTPUT};
use crate::arguments::{Arguments, Flag};
use crate::calls::{Grid, REFUSED_COUNT};
use crate::cells::edge_number;
use crate::fault::{note, shown, Fault};
use crate::loops::counted;
use crate::source::{self, PLACES};
use crate::text::{self, At, Edge, Fractions, Text};

const FRACTIONS: Flag = Flag {
    name: "--fractions",
    value: Some("S0,S1,.."),
    help: "where the edge's crossings are now, as many as the count",
};

pub const COMMAND: Command = Command {
    name: "set-count",
    usage: "U V COUNT [OPTION..] [BUNDLE or TEXT]",
    summary: "Gives the edge U V another count, and writes the grid's text",
    detail: "The text has the counts that survive all looks, this one set by the setting call,\n\
             and no look. The edge's own fractions are those of --fractions; without them its\n\
             crossings stand at even distances. A note says how many crossings the grid has.",
    flags: &[FRACTIONS, OUTPUT, PLACES],
    run,
};

fn run(arguments: &Arguments) -> Result<(), Fault> {
    let [u, v, count] = [0, 1, 2].map(|at| short(arguments, at));
    let (ends, count) = ([u?, v?], count?);
    let fractions = fractions(arguments, count)?;
    let mut source = source::open_after(arguments, 3)?;
    let [u, v] = ends;
    let edge = edge_number(source.grid.lists(), ends).ok_or_else(|| {
        let what = format!("the grid has no edge {u} {v}");
        Fault::new(what).of(&source.name)
    })?;
    let before = source.grid.lists().counts[edge];
    let set = source.grid.set_count(edge, count);
    set.map_err(|refused| {
        let what = match refused.number {
            REFUSED_COUNT => format!("edge {u} {v}: the count {count} is over 4,095"),
            _ => format!(
                "edge {u} {v} with the count {count}: there would be more than 65,535 crossings"
            ),
        };
        Fault::new(what).of(&source.name)
    })?;
    let crossings = counted(source.grid.crossings(), "crossing");
    let text = with_counts(source.text, &source.grid, ends, fractions);
    write_output(arguments, text::write(&text).as_bytes())?;
    note(format!(
        "edge {edge}, {u} {v}: count {count} in place of {before}; the grid has {crossings}"
    ));
    Ok(())
}

fn short(arguments: &Arguments, at: usize) -> Result<u16, Fault> {
    let word = arguments.operand(at);
    let word = word.ok_or_else(|| Fault::usage("set-count wants two nodes and a count"))?;
    let wrong = |_| {
        let word = shown(&word);
        Fault::usage(format!("'{word}' is no whole number from 0 to 65535"))
    };
    word.parse().map_err(wrong)
}

/// The fractions given, if any: as many as the count, above 0, below 1, rising.
fn fractions(arguments: &Arguments, count: u16) -> Result<Option<Vec<f64>>, Fault> {
    let given = match arguments.value(FRACTIONS.name) {
        None => return Ok(None),
        Some(given) => given,
    };
    let wrong = |what: String| Fault::usage(format!("{}: {what}", FRACTIONS.name));
    let mut list = Vec::new();
    for word in given
        .split(',')
        .map(str::trim)
        .filter(|word| !word.is_empty())
    {
        let number = word.parse::<f64>();
        let number = number.map_err(|_| wrong(format!("'{}' is no number", shown(word))))?;
        let above = list.last().copied().unwrap_or(0.0);
        if !(number > above && number < 1.0) {
            let word = shown(word);
            return Err(wrong(format!(
                "{word} is not above {above:?} and below 1: fractions rise"
            )));
        }
        list.push(number);
    }
    match list.len() == usize::from(count) {
        true => Ok(Some(list)),
        false => Err(wrong(format!(
            "{} for {}",
            counted(list.len(), "fraction"),
            counted(usize::from(count), "crossing")
        ))),
    }
}

/// The statements with the counts of a grid, no look, and these fractions for one
/// edge.
fn with_counts(text: Text, grid: &Grid, ends: [u16; 2], fractions: Option<Vec<f64>>) -> Text {
    let lists = grid.lists();
    let edges = lists.edges.chunks_exact(2).zip(&lists.counts);
    let edge = |(ends, &count): (&[u16], &u16)| At {
        line: 0,
        it: Edge {
            ends: [ends[0], ends[1]],
            count,
        },
    };
    let mut all = Text {
        edges: edges.map(edge).collect(),
        looks: Vec::new(),
        ..text
    };
    let own = all.fractions.iter().position(|of| of.it.ends == ends);
    match (own, fractions) {
        (Some(at), Some(fractions)) => all.fractions[at].it.fractions = fractions,
        (Some(at), None) => {
            all.fractions.remove(at);
        }
        (None, Some(fractions)) => all.fractions.push(At {
            line: 0,
            it: Fractions { ends, fractions },
        }),
        (None, None) => {}
    }
    all
}
