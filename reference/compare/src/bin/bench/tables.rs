//! What is measured of each call, and the tables of it.

use compare::areas::any_room;
use compare::bundles::written;
use compare::placing::Placing;
use reference::cases::counts_of;
use reference::gen::{separate, Rng, Sample};
use reference::grid::MAX_CELLS;

use crate::inputs::{
    self, crossings_below, in_runs, nearer, part_of_box, points, typical, Named, TYPICAL,
};
use crate::on_grids::{self, triangles};
use crate::on_lists::{self, with_looks};
use crate::report::{entry, ratio, table, time, whole, Report};
use crate::worst::{print_worst, Worst};

/// The inputs of which tables print more than the name.
struct Inputs {
    shapes: Vec<Named<Sample>>,
    drawn: Vec<Named<Placing>>,
    sizes: Vec<Named<Placing>>,
}

fn inputs() -> Inputs {
    let mut rng = Rng::new(1);
    let mut drawn = inputs::scans();
    drawn.extend(inputs::harder(&mut rng));
    Inputs {
        shapes: inputs::shapes(&mut rng),
        drawn,
        sizes: inputs::sizes(),
    }
}

/// The calls that every table of grids has.
fn drawing(report: &mut Report, name: &str, placing: &Placing) {
    let grid = &placing.grid;
    let exact = triangles(grid);
    report.add("check", name, || on_grids::check(grid));
    report.add("mesh, any room", name, || {
        on_grids::mesh(grid, any_room(grid))
    });
    report.add("mesh, exact room", name, || on_grids::mesh(grid, exact));
    report.add("places", name, || on_grids::places(placing));
    report.add("loops", name, || on_grids::loops(grid));
}

/// The calls that check and write little.
fn checking(report: &mut Report, name: &str, grid: &Sample) {
    report.add("open", name, || on_grids::open(grid));
    report.add("set_count", name, || on_grids::set_count(grid));
    report.add("shading", name, || on_grids::shading(grid));
}

fn layers(report: &mut Report) {
    let grid = typical().grid;
    for runs in [1, 10, 100, grid.cells.len() / 4] {
        let layered = in_runs(&grid, runs);
        let name = format!("{TYPICAL}, {} runs", whole(runs));
        let room = any_room(&grid);
        report.add("mesh_joined", &name, || on_grids::joined(&layered, room));
        report.add("mesh_run", &name, || {
            on_grids::run(&layered, runs / 2, room)
        });
    }
}

/// Counts of one face or cell, many in one measure.
fn singles(report: &mut Report) {
    let asked = crossings_below(12);
    report.add("face", "counts below 12", || on_lists::faces(&asked, false));
    report.add("flat_face", "counts below 12", || {
        on_lists::faces(&asked, true)
    });
    let entries: Vec<[u16; 6]> = (0..729).map(counts_of).collect();
    report.add("case", "every entry", || on_lists::case(&entries));
    let level = typical().grid.counts_in_cells();
    report.add("book", TYPICAL, || on_lists::book(&level));
}

fn nearest(report: &mut Report) {
    let mut rng = Rng::new(3);
    for many in [1_000, 32_768, 65_536] {
        let list = points(&mut rng, many);
        let name = format!("{} points", whole(many));
        report.add("nearest", &name, || on_lists::nearest(&list));
    }
    let list = nearer(65_536);
    report.add("nearest", "65,536, nearer and nearer", || {
        on_lists::nearest(&list)
    });
}

fn flat(report: &mut Report) {
    for (name, sheet) in inputs::sheets(&mut Rng::new(4)) {
        let crossings: usize = sheet.counts.iter().map(|&count| usize::from(count)).sum();
        report.add("flat_check", &name, || on_lists::flat_check(&sheet));
        report.add("flat_chains", &name, || {
            on_lists::chains(&sheet, 2 * crossings)
        });
    }
}

/// The bundles of one cell, of a box, and of as many edges as a grid may have.
fn bundled(rng: &mut Rng) -> Vec<Named<Sample>> {
    let apart = |cells: usize| separate(cells as u16).with_counts(&mut Rng::new(5), 0, 300);
    let boxed = part_of_box(MAX_CELLS).with_counts(rng, 0, 20);
    let all = [apart(1), boxed, apart(MAX_CELLS / 2), apart(MAX_CELLS)];
    let named = |lists: Sample| (format!("{} edges", whole(lists.counts.len())), lists);
    all.map(named).to_vec()
}

fn bundles(report: &mut Report) {
    let mut rng = Rng::new(6);
    for (name, lists) in bundled(&mut rng) {
        let edges = lists.counts.len();
        let plain = written(&lists).expect("formed lists");
        let looked = with_looks(&lists, edges, &mut rng);
        report.add("bundle_write", &name, || on_lists::write(&lists));
        report.add("bundle_read", &name, || on_lists::read(&plain, edges));
        report.add("bundle_read, looks", &name, || {
            on_lists::read(&looked, edges)
        });
        report.add("record", &name, || on_lists::records(&plain));
    }
}

/// Measures every call on each of its inputs.
pub fn measure(report: &mut Report) {
    let Inputs {
        shapes,
        drawn,
        sizes,
    } = inputs();
    for (name, grid) in &shapes {
        report.add("check", name, || on_grids::check(grid));
        checking(report, name, grid);
    }
    for (name, placing) in &drawn {
        drawing(report, name, placing);
    }
    checking(report, TYPICAL, &typical().grid);
    for (name, placing) in &sizes {
        drawing(report, name, placing);
        checking(report, name, &placing.grid);
    }
    layers(report);
    singles(report);
    nearest(report);
    flat(report);
    bundles(report);
}

/// All measures, one to a line.
pub fn list(report: &Report) {
    for row in &report.rows {
        println!("{}, {}: {}", row.call, row.input, entry(&row.measure));
    }
}

/// A table with a row to an input and a column to a call.
fn by_input(report: &Report, title: &str, head: (&[&str], Vec<Vec<String>>), calls: &[&str]) {
    let (columns, mut rows) = head;
    for row in &mut rows {
        let input = row[0].clone();
        row.extend(calls.iter().map(|call| report.entry(call, &input)));
    }
    table(title, &[columns, calls].concat(), &rows);
}

/// Rows that have only a name so far.
fn names<T>(all: &[Named<T>]) -> Vec<Vec<String>> {
    all.iter().map(|(name, _)| vec![name.clone()]).collect()
}

/// The inputs on which a call was measured.
fn inputs_of(report: &Report, call: &str) -> Vec<Vec<String>> {
    let rows = report.rows.iter().filter(|row| row.call == call);
    rows.map(|row| vec![row.input.clone()]).collect()
}

fn sized(all: &[Named<Placing>]) -> Vec<Vec<String>> {
    let row = |(name, placing): &Named<Placing>| {
        let sizes = [
            placing.grid.cells.len() / 4,
            placing.fractions.len(),
            triangles(&placing.grid),
        ];
        let mut row = vec![name.clone()];
        row.extend(sizes.map(whole));
        row
    };
    all.iter().map(row).collect()
}

/// A call in the summary: what it is linear in; the input that is ordinary; the
/// smallest; two of which the second is twice the first; and how many calls a
/// measure has.
struct Summed {
    call: &'static str,
    linear: &'static str,
    ordinary: &'static str,
    least: &'static str,
    twice: [&'static str; 2],
    calls: usize,
}

fn on_grid(call: &'static str, linear: &'static str) -> Summed {
    Summed {
        call,
        linear,
        ordinary: TYPICAL,
        least: "1 cell",
        twice: ["1,000 cells", "2,000 cells"],
        calls: 1,
    }
}

fn single(call: &'static str, ordinary: &'static str, calls: usize) -> Summed {
    Summed {
        call,
        linear: "a fixed time",
        ordinary,
        least: "",
        twice: ["", ""],
        calls,
    }
}

fn other(
    [call, linear]: [&'static str; 2],
    [ordinary, least]: [&'static str; 2],
    twice: [&'static str; 2],
) -> Summed {
    Summed {
        call,
        linear,
        ordinary,
        least,
        twice,
        calls: 1,
    }
}

fn summed_on_grids() -> Vec<Summed> {
    let runs = ["36 levels, 10 runs", ""];
    vec![
        on_grid("check", "cells, edges"),
        on_grid("open", "cells, edges"),
        on_grid("set_count", "cells, edges"),
        on_grid("shading", "cells, edges"),
        on_grid("mesh, any room", "cells, crossings, triangles"),
        on_grid("mesh, exact room", "cells, crossings, triangles"),
        on_grid("places", "cells, crossings, points"),
        on_grid("loops", "cells, edges, the cell's crossings"),
        other(["mesh_run", "the check, the run"], runs, ["", ""]),
        other(["mesh_joined", "the mesh, runs"], runs, ["", ""]),
    ]
}

fn summed_on_lists() -> Vec<Summed> {
    let sheets = ["2,048 triangles, 0..16", "2 triangles, 0..16"];
    let more_sheets = ["1,024 triangles, 0..16", "2,048 triangles, 0..16"];
    let edges = ["12,288 edges", "6 edges"];
    let more_edges = ["6,144 edges", "12,288 edges"];
    let points = ["65,536 points", ""];
    let more_points = ["32,768 points", "65,536 points"];
    let asked = crossings_below(12).len();
    vec![
        single("face", "counts below 12", asked),
        single("flat_face", "counts below 12", asked),
        single("case", "every entry", 729),
        single("book", TYPICAL, 2_016),
        other(["nearest", "points"], points, more_points),
        other(["flat_check", "triangles, edges"], sheets, more_sheets),
        other(["flat_chains", "triangles, crossings"], sheets, more_sheets),
        other(["bundle_write", "bytes"], edges, more_edges),
        other(["bundle_read", "bytes"], edges, more_edges),
        other(["bundle_read, looks", "edges, looks"], edges, more_edges),
        other(["record", "bytes"], edges, more_edges),
    ]
}

/// The least and the greatest, or one of them where they are alike.
fn range(numbers: Vec<f64>) -> String {
    let least = numbers.iter().copied().fold(f64::INFINITY, f64::min);
    let most = numbers.iter().copied().fold(0.0, f64::max);
    match (numbers.len(), ratio(least) == ratio(most)) {
        (0, _) => "–".to_string(),
        (_, true) => ratio(least),
        _ => format!("{} to {}", ratio(least), ratio(most)),
    }
}

/// Inputs of few cells, triangles or edges, of which the ranges say nothing.
const SMALL: [&str; 8] = [
    "1 cell",
    "10 cells",
    "50 cells",
    "42 apart, all 255",
    "2 apart, all 4,095",
    "one split (400, 2)",
    "2 triangles, 0..16",
    "6 edges",
];

fn summary_row(report: &Report, summed: &Summed, hard: &[Worst]) -> Vec<String> {
    let dash = || "–".to_string();
    let rows = report.rows.iter();
    let large = rows.filter(|row| row.call == summed.call && !SMALL.contains(&&row.input[..]));
    let measures: Vec<_> = large.map(|row| row.measure).collect();
    let at = |input: &str| report.get(summed.call, input);
    let micros = |input: &str| at(input).map_or(f64::NAN, |measure| measure.proved);
    let growth = micros(summed.twice[1]) / micros(summed.twice[0]);
    let base = summed.call.split(',').next().unwrap_or_default();
    let hardest = hard.iter().filter(|one| one.call == base).map(Worst::ratio);
    let hardest = hardest.fold(f64::NAN, f64::max);
    let told = |number: f64| {
        if number.is_nan() {
            dash()
        } else {
            ratio(number)
        }
    };
    vec![
        format!("{} ({})", summed.call, summed.ordinary),
        summed.linear.to_string(),
        at(summed.ordinary).map_or_else(dash, |one| time(one.proved / summed.calls as f64)),
        range(measures.iter().map(|one| one.over_second()).collect()),
        at(summed.ordinary)
            .and_then(|one| one.over_copy())
            .map_or_else(dash, ratio),
        at(summed.least).map_or_else(dash, |one| time(one.proved)),
        told(growth),
        told(hardest),
    ]
}

fn summary(report: &Report, hard: &[Worst]) {
    let columns = [
        "call (on)",
        "linear in",
        "time",
        "over second",
        "over copy",
        "least input",
        "twice the input",
        "worst",
    ];
    let all = summed_on_grids().into_iter().chain(summed_on_lists());
    let rows: Vec<_> = all.map(|one| summary_row(report, &one, hard)).collect();
    table("Every call", &columns, &rows);
}

/// The calls on a grid.
fn print_grids(report: &Report) {
    let Inputs {
        shapes,
        drawn,
        sizes,
    } = inputs();
    let checks = ["check", "open", "set_count", "shading"];
    by_input(report, "Checking", (&["grid"], names(&shapes)), &checks);
    let draws = ["mesh, any room", "mesh, exact room", "places", "loops"];
    let columns = ["grid", "cells", "crossings", "triangles"];
    by_input(report, "Drawing", (&columns, sized(&drawn)), &draws);
    let calls = [&["check"][..], &draws].concat();
    let title = "Few cells, and growth: the first of 36 levels";
    by_input(report, title, (&["grid"], names(&sizes)), &calls);
}

/// All tables.
pub fn print(report: &Report, hard: &[Worst]) {
    summary(report, hard);
    print_grids(report);
    let runs = inputs_of(report, "mesh_run");
    let calls = ["mesh_joined", "mesh_run"];
    by_input(report, "Layers", (&["grid"], runs), &calls);
    let sheets = inputs_of(report, "flat_check");
    let calls = ["flat_check", "flat_chains"];
    by_input(report, "Flat grids", (&["triangles"], sheets), &calls);
    let bundles = inputs_of(report, "bundle_read");
    let calls = [
        "bundle_write",
        "bundle_read",
        "bundle_read, looks",
        "record",
    ];
    by_input(report, "Bundles", (&["bundle"], bundles), &calls);
    print_worst(hard);
}
