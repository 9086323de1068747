//! Inputs that are hard for a call, each over an ordinary one of its size. Both are
//! called in turn.

use compare::areas::any_room;
use compare::colliding;
use compare::crowded;
use compare::grids::{dealt, nested_cell, twisted};
use compare::placing::{placing, Kind, Placing};
use reference::gen::{box_of_six, closed_fan, cone, row_of, separate, Rng, Sample};
use reference::grid::MAX_CELLS;
use reference::sheets::{disc, squares, FlatSample};

use crate::inputs::{
    crossings_below, in_runs, nearer, one_split, part_of_box, points, split_apart, split_sphere,
    stack_with, typical,
};
use crate::on_grids::{self, triangles};
use crate::on_lists::{self, with_looks};
use crate::report::{ratio, table, time, whole};
use crate::timing::{Bench, Calls};

/// Microseconds of a call on a hard input and on an ordinary one.
pub struct Worst {
    pub call: &'static str,
    input: String,
    ordinary: String,
    micros: [f64; 2],
}

impl Worst {
    pub fn ratio(&self) -> f64 {
        self.micros[1] / self.micros[0]
    }
}

/// What is found.
struct Found<'a> {
    bench: &'a Bench,
    all: Vec<Worst>,
}

impl Found<'_> {
    /// A hard input of a call, over an ordinary one.
    fn add(&mut self, call: &'static str, names: [&str; 2], calls: [Calls; 2]) {
        let mut both = calls.map(|calls| calls.proved);
        let medians = self.bench.medians(&mut both);
        let [ordinary, input] = names.map(str::to_string);
        let one = Worst {
            call,
            input,
            ordinary,
            micros: [medians[0], medians[1]],
        };
        eprintln!("worst {call}, {}: {}", one.input, ratio(one.ratio()));
        self.all.push(one);
    }
}

/// Cells all round the lowest node.
fn round_lowest() -> Sample {
    let cells = cone([13, 13, 13]).cell_list();
    let highest = cells.iter().flatten().copied().max().unwrap_or(0);
    let turned = |nodes: [u16; 4]| nodes.map(|node| highest - node);
    Sample::from_cells(cells.into_iter().map(turned))
}

/// Grids of as many cells as there may be that are hard to check.
fn hard_to_check(rng: &mut Rng) -> Vec<(&'static str, Sample)> {
    let many = MAX_CELLS;
    let boxed = part_of_box(many);
    let equal = vec![[0, 1, 2, 3]; many];
    let one_face = (0..many as u16).map(|k| [0, 1, 2, 3 + k]);
    let refused = |cells: Vec<[u16; 4]>| Sample {
        cells: cells.into_iter().flatten().collect(),
        ..boxed.clone()
    };
    vec![
        ("edges of few remainders", colliding::edges(rng, many)),
        ("faces of one remainder", colliding::faces(rng, many)),
        ("cells of one remainder", colliding::cells(rng, many)),
        ("cells that share nodes", colliding::any_cells(rng, many)),
        ("box, shuffled", dealt(rng, &boxed)),
        ("row, shuffled", dealt(rng, &row_of(many as u16))),
        ("round one edge", closed_fan(many as u16)),
        (
            "round one edge, shuffled",
            dealt(rng, &closed_fan(many as u16)),
        ),
        ("round one node, the highest", cone([13, 13, 13])),
        ("round one node, the lowest", round_lowest()),
        ("refused: all cells equal", refused(equal)),
        (
            "refused: one face in all cells",
            refused(one_face.collect()),
        ),
    ]
}

/// The edges of a box, and all others of its list, apart.
fn others_alone(long: &Sample, grid: &Sample) -> Sample {
    let own = grid.edge_list();
    let edges = long
        .edge_list()
        .into_iter()
        .filter(|ends| own.binary_search(ends).is_err());
    let edges: Vec<u16> = edges.flatten().collect();
    Sample {
        cells: long.cells.clone(),
        counts: vec![0; edges.len() / 2],
        edges,
    }
}

fn checks(found: &mut Found) {
    let mut rng = Rng::new(21);
    let boxed = part_of_box(MAX_CELLS);
    let hard = hard_to_check(&mut rng);
    for (name, grid) in &hard {
        let calls = [on_grids::check(&boxed), on_grids::check(grid)];
        found.add("check", ["box", name], calls);
    }
    let (name, edges) = &hard[0];
    let names = ["box", *name];
    found.add("open", names, [&boxed, edges].map(on_grids::open));
    found.add("set_count", names, [&boxed, edges].map(on_grids::set_count));
    found.add("shading", names, [&boxed, edges].map(on_grids::shading));
    let long = colliding::long_list(&mut rng, MAX_CELLS);
    let many = long.counts.len();
    let plain = colliding::lengthened(&mut rng, &boxed, many);
    let alone = others_alone(&plain, &boxed);
    let name = format!("refused: {} edges of one remainder", whole(many));
    let ordinary = format!("box, {} edges", whole(many));
    found.add(
        "check",
        [&ordinary, &name],
        [&plain, &long].map(on_grids::check),
    );
    let others = whole(alone.counts.len());
    let name = format!("refused: {others} edges, none of a cell");
    found.add(
        "check",
        [&ordinary, &name],
        [&plain, &alone].map(on_grids::check),
    );
}

fn shadings(found: &mut Found) {
    let mut rng = Rng::new(22);
    let row = row_of(MAX_CELLS as u16).with_even_counts(&mut rng, 3);
    let ring = twisted(&mut rng, MAX_CELLS as u16, 3);
    let shuffled = dealt(&mut rng, &row);
    for (name, grid) in [
        ("row, shuffled", shuffled),
        ("ring without a shading", ring),
    ] {
        found.add(
            "shading",
            ["row", name],
            [&row, &grid].map(on_grids::shading),
        );
    }
}

/// Grids that are hard to draw, with names: random counts, cells that are split, and
/// loops one inside the other.
fn hard_to_draw(rng: &mut Rng) -> Vec<(&'static str, Placing)> {
    let shape = box_of_six([6, 5, 10]);
    let mut nests = separate(400);
    for counts in nests.counts.chunks_mut(6) {
        counts.copy_from_slice(&nested_cell(rng, 6).counts);
    }
    let grids = [
        ("random 0..3", shape.clone().with_counts(rng, 0, 3)),
        ("random 16..24", shape.clone().with_counts(rng, 16, 24)),
        ("even sums, 0..21", shape.with_even_counts(rng, 10)),
        (
            "round one edge, 4..14",
            closed_fan(MAX_CELLS as u16).with_counts(rng, 4, 14),
        ),
        ("nested loops", nests),
        ("split sphere (4, 2)", split_sphere(rng)),
        ("split apart, to 30", split_apart(rng, 300, 30)),
        ("one split (300, 2)", one_split(rng, [300, 2])),
    ];
    let placed = |(name, grid)| (name, placing(rng, grid, Kind::Any));
    grids.into_iter().map(placed).collect()
}

/// Meshes over level sets with as many crossings or triangles, of whichever there are
/// more; places over those with as many points.
fn drawings(found: &mut Found) {
    let mut rng = Rng::new(23);
    for (name, hard) in hard_to_draw(&mut rng) {
        let (crossings, exact) = (hard.fractions.len(), triangles(&hard.grid));
        let easy = match crossings < exact {
            true => stack_with(exact, false),
            false => stack_with(crossings, true),
        };
        let names = ["level sets", name];
        let both = [&easy.grid, &hard.grid];
        let any = both.map(|grid| on_grids::mesh(grid, any_room(grid)));
        found.add("mesh", names, any);
        let exact_name = format!("{name}, exact room");
        let exact = both.map(|grid| on_grids::mesh(grid, triangles(grid)));
        found.add("mesh", ["level sets", &exact_name], exact);
        found.add("places", names, [&easy, &hard].map(on_grids::places));
    }
}

/// Cells of nothing but corner triangles and quads, so many crossings to each.
fn level_cells(cells: u16, corner: u16, quads: u16) -> Sample {
    let mut grid = separate(cells);
    for counts in grid.counts.chunks_mut(6) {
        counts.copy_from_slice(&[corner, corner + quads, corner + quads, quads, quads, 0]);
    }
    grid
}

fn large_counts(found: &mut Found) {
    let rng = &mut Rng::new(24);
    let full = separate(42).with_counts(rng, 255, 255);
    let fuller = separate(2).with_counts(rng, 4_095, 4_095);
    let [easy, easier] = [level_cells(42, 510, 0), level_cells(3, 0, 4_095)];
    for (name, grid, easy) in [
        ("42 apart, all 255", full, easy),
        ("2 apart, all 4,095", fuller, easier),
    ] {
        let names = ["corner triangles, quads", name];
        let mesh = |grid| on_grids::mesh(grid, any_room(grid));
        found.add("mesh", names, [&easy, &grid].map(mesh));
        found.add("loops", names, [&easy, &grid].map(on_grids::loops));
        let both = [easy, grid].map(|grid| placing(rng, grid, Kind::Any));
        found.add(
            "places",
            names,
            [on_grids::places(&both[0]), on_grids::places(&both[1])],
        );
    }
}

fn layers(found: &mut Found) {
    let grid = typical().grid;
    let cells = grid.cells.len() / 4;
    let [few, most] = [in_runs(&grid, 10), in_runs(&grid, cells)];
    let room = any_room(&grid);
    let joined = |layered| on_grids::joined(layered, room);
    found.add(
        "mesh_joined",
        ["10 runs", "a run to each cell"],
        [&few, &most].map(joined),
    );
    let run = |layered| on_grids::run(layered, 5, room);
    found.add(
        "mesh_run",
        ["10 runs", "a run to each cell"],
        [&few, &most].map(run),
    );
}

fn singles(found: &mut Found) {
    let asked = crossings_below(12);
    let raised = |&(counts, edge, index): &([u16; 3], u32, u32)| {
        (counts.map(|count: u16| count * 350), edge, index * 350)
    };
    let large: Vec<_> = asked.iter().map(raised).collect();
    for (call, flat) in [("face", false), ("flat_face", true)] {
        let calls = [&asked, &large].map(|list| on_lists::faces(list, flat));
        found.add(call, ["counts below 12", "counts to 3,850"], calls);
    }
    let level = typical().grid.counts_in_cells();
    let mut deep = separate(2_016);
    for counts in deep.counts.chunks_mut(6) {
        // twice the numbers of Fibonacci: no two numbers have more divisions
        counts.copy_from_slice(&[3_194, 1_974, 1_220, 1_220, 1_974, 3_194]);
    }
    let deep = deep.counts_in_cells();
    let calls = [&level, &deep].map(|cells| on_lists::book(cells));
    found.add("book", ["36 levels", "split 14 times over"], calls);
    let rng = &mut Rng::new(25);
    let lists = [points(rng, 65_536), nearer(65_536)];
    let calls = lists.map(|list| on_lists::nearest(&list));
    found.add("nearest", ["points anywhere", "each nearer"], calls);
}

fn sheets(found: &mut Found) {
    let rng = &mut Rng::new(26);
    let plain = squares(32, 32);
    let sides = colliding::sides(2_048);
    let shuffled = plain.renumbered(rng).reordered(rng);
    let long = colliding::long_sides(sides.clone());
    let longer = colliding::lengthened_sides(rng, &plain, long.counts.len());
    let hard = [
        (
            "triangles of one remainder",
            colliding::triangles(rng, 2_048),
        ),
        ("edges of one remainder", sides),
        ("round one node", disc(2_048)),
        ("shuffled", shuffled),
    ];
    for (name, sheet) in &hard {
        let calls = [&plain, sheet].map(on_lists::flat_check);
        found.add("flat_check", ["squares", name], calls);
        let both = [&plain, sheet].map(|sheet| sheet.clone().with_counts(rng, 16));
        let chains = |sheet: FlatSample| {
            let crossings: usize = sheet.counts.iter().map(|&count| usize::from(count)).sum();
            on_lists::chains(&sheet, 2 * crossings)
        };
        found.add("flat_chains", ["squares", name], both.map(chains));
    }
    let many = whole(long.counts.len());
    let names = [
        format!("squares, {many} edges"),
        format!("refused: {many} edges of one remainder"),
    ];
    let calls = [&longer, &long].map(on_lists::flat_check);
    found.add("flat_check", [&names[0], &names[1]], calls);
}

/// Lists of edges alone, with small counts.
fn edges_alone(pairs: &[[u16; 2]]) -> Sample {
    Sample {
        cells: Vec::new(),
        edges: pairs.iter().flatten().copied().collect(),
        counts: (0..pairs.len()).map(|edge| (edge % 300) as u16).collect(),
    }
}

/// Pairs that are hard to find, with names.
fn hard_to_find(many: usize) -> Vec<(String, Vec<[u16; 2]>)> {
    let remainders = [0, 3, 5, 7].map(|low| {
        let name = format!("one remainder, {low} equal bits");
        (name, crowded::in_one_tree(many, low))
    });
    let mut all = remainders.to_vec();
    all.push(("equal edges".to_string(), crowded::equal(many)));
    all.push(("edges at one node".to_string(), crowded::at_one_node(many)));
    let high = crowded::high(&mut Rng::new(13), many);
    all.push(("nodes above 4,095".to_string(), high));
    all.retain(|(_, pairs)| pairs.len() == many);
    all
}

/// Bundles with a look at each edge: a box, cells that share nothing, and any pairs,
/// in more looks than a block has.
fn bundles(found: &mut Found) {
    let rng = &mut Rng::new(27);
    let boxed = part_of_box(MAX_CELLS).with_counts(rng, 0, 20);
    let apart = separate(MAX_CELLS as u16).with_counts(rng, 0, 300);
    let any = edges_alone(&crowded::low(rng, 30_000));
    for (ordinary, lists) in [("box", boxed), ("cells apart", apart), ("any pairs", any)] {
        let many = lists.counts.len();
        for (name, pairs) in hard_to_find(many) {
            let mut read = |lists: &Sample| {
                let bytes = with_looks(lists, many, rng);
                on_lists::read(&bytes, many)
            };
            let calls = [read(&lists), read(&edges_alone(&pairs))];
            found.add(
                "bundle_read",
                [ordinary, &format!("{}: {name}", whole(many))],
                calls,
            );
        }
    }
    let narrow = separate(MAX_CELLS as u16).with_counts(rng, 0, 255);
    let wide = separate(MAX_CELLS as u16).with_counts(rng, 256, 4_095);
    let calls = [&narrow, &wide].map(on_lists::write);
    found.add("bundle_write", ["counts to 255", "counts above 255"], calls);
}

/// All hard inputs of all calls.
pub fn all(bench: &Bench) -> Vec<Worst> {
    let mut found = Found {
        bench,
        all: Vec::new(),
    };
    checks(&mut found);
    shadings(&mut found);
    drawings(&mut found);
    large_counts(&mut found);
    layers(&mut found);
    singles(&mut found);
    sheets(&mut found);
    bundles(&mut found);
    found.all
}

fn rows<'a>(all: impl Iterator<Item = &'a Worst>) -> Vec<Vec<String>> {
    let row = |one: &Worst| {
        let [ordinary, hard] = one.micros.map(time);
        let texts = [one.call, &one.input, &hard, &one.ordinary, &ordinary];
        let mut row: Vec<String> = texts.map(str::to_string).to_vec();
        row.push(ratio(one.ratio()));
        row
    };
    all.map(row).collect()
}

const COLUMNS: [&str; 6] = [
    "call",
    "hard input",
    "time",
    "ordinary input",
    "time",
    "ratio",
];

/// All of them.
pub fn print(all: &[Worst]) {
    table("Hard inputs", &COLUMNS, &rows(all.iter()));
}

/// Ratios below this are those of ordinary inputs.
const HARD: f64 = 1.2;

/// Of each call the one with the greatest ratio, where it is above an ordinary one's.
pub fn print_worst(all: &[Worst]) {
    let is_worst = |one: &&Worst| {
        let same = all.iter().filter(|other| other.call == one.call);
        same.map(Worst::ratio).fold(HARD, f64::max) <= one.ratio()
    };
    table(
        "The worst input found",
        &COLUMNS,
        &rows(all.iter().filter(is_worst)),
    );
}
