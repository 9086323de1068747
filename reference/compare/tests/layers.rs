//! The run call and the joined call against the second implementation.

use std::collections::BTreeMap;

use compare::grids::{random_grid, spirals, with_faults};
use compare::lent::{after, answers, answers_in_all, Lent};
use compare::{calls, expected, on_stack, seed, setting};
use reference::cell::{NO_NUMBER, TRIANGLE_WORDS};
use reference::gen::{
    all_cuts, broken, broken_cuts, closed_fan, deep, layered, parted_fan, random_cuts, separate,
    Layered, Rng, Sample,
};
use reference::grid::{self, Lists, ROWS};
use reference::mesh::Mesher;
use reference::split::is_split;

/// Stands on both sides of a lent area.
const GUARD: u32 = 0x5a5a_5a5a;

const M: u32 = NO_NUMBER;

/// What is asked for: the mesh of one run, or of all joined.
#[derive(Clone, Copy, Debug)]
enum Ask {
    Run(usize),
    Joined,
}

impl Ask {
    fn expected(self, grid: Lists, cuts: &[u16], area: &mut [u32]) -> Vec<u64> {
        match self {
            Ask::Run(run) => expected::mesh_run(grid, cuts, run as u64, area),
            Ask::Joined => expected::mesh_joined(grid, cuts, area),
        }
    }

    fn call(self, grid: Lists, cuts: &[u16], area: &mut [u32], answer: &mut [u64]) -> usize {
        match self {
            Ask::Run(run) => calls::mesh_run(grid, cuts, run, area, answer),
            Ask::Joined => calls::mesh_joined(grid, cuts, area, answer),
        }
    }

    /// The bytes of stack that the header has for the call, without splits inside
    /// splits and with them.
    fn stack_bytes(self) -> [usize; 2] {
        match self {
            Ask::Run(_) => [640 * 1_024, 1_536 * 1_024],
            Ask::Joined => [768 * 1_024, 1_792 * 1_024],
        }
    }
}

/// An area before a call: words that no triangle has.
fn untouched(len: usize) -> Vec<u32> {
    (0..len)
        .map(|at| 0xa5a5_0000 | at as u32 & 0xffff)
        .collect()
}

/// The call on an area of this length: numbers answered, and the whole area with
/// its guards. The area afterwards, as it has to be.
fn compare_in(layered: &Layered, ask: Ask, len: usize) -> (Vec<u64>, Vec<u32>) {
    let Layered { whole, cuts } = layered;
    let starts = whole.starts();
    let lists = whole.lists(&starts);
    let mut area = untouched(len);
    let mut lent = Lent::new(&area, GUARD);
    let numbers = ask.expected(lists, cuts, &mut area);
    let right = answers(&numbers, |answer| {
        ask.call(lists, cuts, lent.area(), answer)
    });
    assert!(right, "{ask:?}, {len}: not {numbers:?} alone: {layered:?}");
    assert!(
        lent.is(&area, GUARD),
        "{ask:?}, {len}: other words: {layered:?}"
    );
    if numbers[0] != 0 {
        assert_eq!(area, untouched(len));
    }
    (numbers, area)
}

/// The words of the proved mesh call for these lists, which it accepts, in an area
/// with room for so many triangles.
fn meshed(grid: &Sample, triangles: usize) -> Vec<u32> {
    let mut area = vec![GUARD; TRIANGLE_WORDS * triangles];
    let mut answer = [1; 6];
    calls::mesh(grid.lists(&grid.starts()), &mut area, &mut answer);
    assert_eq!(answer[..2], [0, triangles as u64]);
    area
}

/// What was compared.
#[derive(Debug, Default)]
struct Tally {
    wholes: u64,
    runs: u64,
    one_cell: u64,
    refused_alone: u64,
    split_at_cut: u64,
    over_255: u64,
    triangles: u64,
    splits: u64,
    short: u64,
    /// Answers by their first number.
    answered: BTreeMap<u64, u64>,
}

impl Tally {
    /// Notes an answer, and gives the number of triangles of one that is no
    /// refusal.
    fn note(&mut self, numbers: &[u64]) -> Option<usize> {
        *self.answered.entry(numbers[0]).or_insert(0) += 1;
        match numbers[..] {
            [0, triangles, splits] => {
                self.triangles += triangles;
                self.splits += splits;
                Some(triangles as usize)
            }
            _ => None,
        }
    }
}

/// Compares what is asked for in an area with room and some words more, and in one
/// that is too short. The words, where nothing is refused.
fn compare(rng: &mut Rng, layered: &Layered, ask: Ask, tally: &mut Tally) -> Option<Vec<u32>> {
    let needed = match compare_in(layered, ask, 0).0[..] {
        [12, needed] => needed as usize,
        _ => 0,
    };
    let exact = TRIANGLE_WORDS * needed;
    let more = [0, rng.below(13), TRIANGLE_WORDS * rng.below(300)][rng.below(3)];
    let (numbers, mut area) = compare_in(layered, ask, exact + more);
    let triangles = tally.note(&numbers)?;
    assert_eq!(triangles, needed);
    if needed > 0 {
        let short = [exact - 1, rng.below(exact)][rng.below(2)];
        let (numbers, _) = compare_in(layered, ask, short);
        assert_eq!(numbers, [12, needed as u64]);
        tally.short += 1;
    }
    area.truncate(exact);
    Some(area)
}

/// Compares a run of a whole that is accepted; where row 9 lets the run pass by
/// itself, with the mesh of its own lists too.
fn compare_run(rng: &mut Rng, layered: &Layered, run: usize, tally: &mut Tally) {
    let words = compare(rng, layered, Ask::Run(run), tally).expect("a run that is there");
    let alone = layered.run_alone(run);
    match grid::check(alone.lists(&alone.starts())) {
        Ok(_) => assert_eq!(words, meshed(&alone, words.len() / TRIANGLE_WORDS)),
        Err(refusal) => {
            assert_eq!(refusal.number, 9);
            tally.refused_alone += 1;
        }
    }
    let counts = alone.counts_in_cells();
    tally.runs += 1;
    tally.one_cell += u64::from(counts.len() == 1);
    tally.split_at_cut += u64::from(run > 0 && is_split(counts[0]));
    tally.over_255 += u64::from(alone.counts.iter().any(|&count| count > 255));
}

/// Compares some runs of an accepted whole, the first and the last among them, and
/// all joined, which must be the mesh that is made undivided.
fn compare_all(rng: &mut Rng, layered: &Layered, runs: usize, tally: &mut Tally) {
    let last = layered.cuts.len();
    let mut asked = vec![0, last];
    asked.extend((0..runs).map(|_| rng.below(last + 1)));
    asked.sort_unstable();
    asked.dedup();
    for run in asked {
        compare_run(rng, layered, run, tally);
    }
    let words = compare(rng, layered, Ask::Joined, tally).expect("an accepted whole");
    assert_eq!(words, meshed(&layered.whole, words.len() / TRIANGLE_WORDS));
    tally.wholes += 1;
}

/// Compares with numbers and words that are known, in any answer area.
fn compare_with(numbers: &[u64], words: &[u32], layered: &Layered, ask: Ask, len: usize) {
    let (answered, area) = compare_in(layered, ask, len);
    assert_eq!(answered, numbers, "{ask:?}, {layered:?}");
    assert_eq!(area[..words.len()], *words, "{ask:?}, {layered:?}");
    let before = untouched(len);
    assert_eq!(area[words.len()..], before[words.len()..]);
    let Layered { whole, cuts } = layered;
    let starts = whole.starts();
    let right = answers_in_all(numbers, |answer| {
        let mut lent = Lent::new(&before, GUARD);
        let many = ask.call(whole.lists(&starts), cuts, lent.area(), answer);
        assert!(lent.is(after(answer, &before, &area), GUARD));
        many
    });
    assert!(right, "{ask:?}, {layered:?}");
}

/// The cells 0 1 2 3, 0 1 2 4 and 0 1 3 4 with count 2 on the edge 0 1.
fn three_cells(cuts: &[u16]) -> Layered {
    let mut whole = closed_fan(3);
    whole.counts[0] = 2;
    let cuts = cuts.to_vec();
    Layered { whole, cuts }
}

#[test]
fn examples_of_three_cells() {
    let alone = [
        [0, 0, 0, 1, M, 3, 0, M, 1, M, 0],
        [0, 0, 1, 0, M, 2, 0, M, 0, M, 1],
    ];
    let rest = [
        [1, 0, 0, 1, M, 7, 0, M, 1, M, 0],
        [1, 0, 1, 0, M, 2, 0, M, 0, M, 1],
    ];
    let whole = [
        [1, 0, 0, 1, M, 3, 0, M, 1, M, 0],
        [1, 0, 1, 0, M, 6, 0, M, 0, M, 1],
        [2, 0, 0, 1, M, 2, 0, M, 1, M, 0],
        [2, 0, 1, 0, M, 6, 0, M, 0, M, 1],
    ];
    let all = [alone.concat(), whole.concat()].concat();
    for run in 0..3 {
        let cut = three_cells(&[1, 2]);
        compare_with(&[0, 2, 0], &alone.concat(), &cut, Ask::Run(run), 30);
    }
    let last = [alone.concat(), rest.concat()].concat();
    compare_with(&[0, 4, 0], &last, &three_cells(&[1]), Ask::Run(1), 44);
    compare_with(&[12, 4], &[], &three_cells(&[1]), Ask::Run(1), 43);
    for cuts in [&[][..], &[1], &[2], &[1, 2]] {
        compare_with(&[0, 6, 0], &all, &three_cells(cuts), Ask::Joined, 66);
        compare_with(&[12, 6], &[], &three_cells(cuts), Ask::Joined, 65);
    }
    compare_with(&[0, 6, 0], &all, &three_cells(&[]), Ask::Run(0), 70);
}

/// Cuts that are refused, whatever is asked for.
#[test]
fn examples_of_refused_cuts() {
    let cases: [(&[u16], [u64; 2]); 8] = [
        (&[0], [25, 0]),
        (&[3], [25, 0]),
        (&[65_535], [25, 0]),
        (&[1, 1], [25, 1]),
        (&[2, 1], [25, 1]),
        (&[1, 2, 3], [25, 2]),
        (&[1, 3, 2], [25, 1]),
        (&[2, 0, 3], [25, 1]),
    ];
    for (cuts, numbers) in cases {
        for ask in [Ask::Run(0), Ask::Run(1), Ask::Run(9), Ask::Joined] {
            compare_with(&numbers, &[], &three_cells(cuts), ask, 0);
            compare_with(&numbers, &[], &three_cells(cuts), ask, 70);
        }
    }
}

/// Runs that are not there.
#[test]
fn examples_of_missing_runs() {
    for (cuts, run) in [(&[][..], 1), (&[1], 2), (&[1, 2], 3), (&[1], usize::MAX)] {
        let numbers = [26, run as u64];
        compare_with(&numbers, &[], &three_cells(cuts), Ask::Run(run), 0);
        compare_with(&numbers, &[], &three_cells(cuts), Ask::Run(run), 70);
    }
}

/// Row 9 of the whole, before faults of the cuts and of the run.
#[test]
fn examples_of_refused_wholes() {
    for cut in [0, 1] {
        let apart = Layered {
            whole: Sample::from_cells([[0, 1, 2, 3], [0, 1, 4, 5]]),
            cuts: vec![cut],
        };
        for ask in [Ask::Run(0), Ask::Run(5), Ask::Joined] {
            compare_with(&[9, 0], &[], &apart, ask, 0);
        }
    }
}

/// Fans of which no run passes row 9 by itself.
#[test]
fn runs_that_row_9_would_refuse() {
    let mut rng = Rng::new(seed("layers, row 9"));
    let mut tally = Tally::default();
    for pairs in 2..30 {
        let mut fan = parted_fan(pairs);
        fan.whole = fan.whole.with_counts(&mut rng, 0, 6);
        compare_all(&mut rng, &fan, 0, &mut tally);
    }
    println!("layers, row 9: {tally:?}");
    assert_eq!(tally.refused_alone, tally.runs);
}

/// A whole of any kind with random cuts.
fn any_layers(rng: &mut Rng) -> Layered {
    match rng.below(4) {
        0 => random_grid(rng).cut(rng),
        1 => spirals(rng).cut(rng),
        _ => layered(rng),
    }
}

/// Whether a whole is accepted.
fn is_accepted(whole: &Sample) -> bool {
    grid::check(whole.lists(&whole.starts())).is_ok()
}

#[test]
fn random_layers() {
    let mut rng = Rng::new(seed("layers"));
    let mut tally = Tally::default();
    let wholes = setting("CITTERNBLAZE_GRIDS", 20_000) / 10;
    while tally.wholes < wholes {
        let layered = any_layers(&mut rng);
        if is_accepted(&layered.whole) {
            compare_all(&mut rng, &layered, 3, &mut tally);
        }
    }
    println!("layers, random wholes and cuts: {tally:?}");
    if wholes >= 2_000 {
        assert!(tally.refused_alone > 500 && tally.split_at_cut > 500);
        assert!(tally.one_cell > 1_000 && tally.over_255 > 10);
    }
}

#[test]
fn cuts_between_all_cells() {
    let mut rng = Rng::new(seed("layers, all cuts"));
    let mut tally = Tally::default();
    let wholes = setting("CITTERNBLAZE_GRIDS", 20_000) / 20;
    while tally.wholes < wholes {
        let mut layered = any_layers(&mut rng);
        layered.cuts = all_cuts(layered.whole.cells.len() / 4);
        if is_accepted(&layered.whole) {
            compare_all(&mut rng, &layered, 2, &mut tally);
        }
    }
    println!("layers, cuts between all cells: {tally:?}");
    assert_eq!(tally.one_cell, tally.runs);
}

/// Wholes of 2,048 cells, with random cuts and with all.
#[test]
fn wholes_of_2048_cells() {
    let mut rng = Rng::new(seed("layers, 2,048 cells"));
    let mut tally = Tally::default();
    for _ in 0..(setting("CITTERNBLAZE_GRIDS", 20_000) / 1_000).max(1) {
        let mut layered = deep(&mut rng);
        compare_all(&mut rng, &layered, 1, &mut tally);
        layered.cuts = all_cuts(2_048);
        compare_all(&mut rng, &layered, 1, &mut tally);
    }
    println!("layers, 2,048 cells: {tally:?}");
}

/// A run to ask for: one of the first, or one that is not there.
fn any_run(rng: &mut Rng, cuts: usize) -> usize {
    match rng.below(6) {
        0 => cuts + 1,
        1 => cuts + 1 + rng.below(70_000),
        2 => usize::MAX - rng.below(3),
        _ => rng.below(cuts + 1),
    }
}

/// Faults of the whole, of the cuts and of the run asked for, together and apart:
/// the lowest row comes first.
#[test]
fn faults_of_every_kind() {
    let mut rng = Rng::new(seed("layers, faults"));
    let mut tally = Tally::default();
    let grids = setting("CITTERNBLAZE_GRIDS", 20_000) / 4;
    for turn in 0..grids {
        let mut layered = any_layers(&mut rng);
        let cells = layered.whole.cells.len() / 4;
        if rng.coin() {
            layered.cuts = broken_cuts(&mut rng, cells);
        }
        let row = ROWS[turn as usize % ROWS.len()];
        layered.whole = match rng.below(5) {
            0 => with_faults(&mut rng, layered.whole),
            1 => broken(&mut rng, &layered.whole, row).unwrap_or(layered.whole),
            _ => layered.whole,
        };
        let run = any_run(&mut rng, layered.cuts.len());
        compare(&mut rng, &layered, Ask::Run(run), &mut tally);
        compare(&mut rng, &layered, Ask::Joined, &mut tally);
    }
    println!("layers, faults: {tally:?}");
    if grids >= 5_000 {
        let rows = ROWS.iter().map(|&row| u64::from(row)).chain([0, 25, 26]);
        let answered: Vec<u64> = tally.answered.keys().copied().collect();
        assert!(rows.clone().all(|row| answered.contains(&row)), "{tally:?}");
    }
}

/// A whole of one cell: no cut, one run.
#[test]
fn a_whole_of_one_cell() {
    let mut rng = Rng::new(seed("layers, one cell"));
    let mut tally = Tally::default();
    for _ in 0..200 {
        let whole = separate(1).with_counts(&mut rng, 0, 9);
        assert!(random_cuts(&mut rng, 1).is_empty());
        let mut layered = whole.cut(&mut rng);
        compare_all(&mut rng, &layered, 0, &mut tally);
        layered.cuts = vec![rng.below(2) as u16];
        compare_with(&[25, 0], &[], &layered, Ask::Run(0), 0);
        compare_with(&[25, 0], &[], &layered, Ask::Joined, 99);
    }
}

/// What is asked for in an area with room and in one without, where the cells are
/// counted: the first number of each answer, and the splits.
fn with_and_without_room(layered: &Layered, ask: Ask) -> [[u64; 2]; 2] {
    let Layered { whole, cuts } = layered;
    let starts = whole.starts();
    let mut area = vec![0; TRIANGLE_WORDS * whole.most_triangles()];
    let mut answer = [1; 6];
    [area.len(), 0].map(|len| {
        ask.call(whole.lists(&starts), cuts, &mut area[..len], &mut answer);
        [answer[0], answer[2]]
    })
}

/// 2,048 cells, none of which is split, with few crossings and with 4,095 on an edge
/// of all; and a cell with large counts that is split once.
#[test]
fn stack_without_nested_splits() {
    let fan = |count| {
        let mut whole = closed_fan(2_048).with_counts(&mut Rng::new(1), 0, 3);
        whole.counts[0] = count;
        let cuts = vec![2_047];
        Layered { whole, cuts }
    };
    let mut whole = separate(2);
    whole.counts = [1, 1, 1, 0, 0, 0, 2_730, 1_365, 4_095, 4_095, 1_365, 2_730].to_vec();
    let cuts = vec![1];
    let once = Layered { whole, cuts };
    for (layered, run, splits) in [(fan(3), 0, 0), (fan(4_095), 0, 0), (once, 1, 1)] {
        for ask in [Ask::Run(run), Ask::Joined] {
            let layered = layered.clone();
            let call = move || with_and_without_room(&layered, ask);
            let answered = on_stack(ask.stack_bytes()[0], call);
            assert_eq!(answered, [[0, splits], [12, splits]]);
        }
    }
}

/// The most splits that a cell can have, 2,045, in a run by itself and joined to
/// another, word by word, on a thread with the stack that the header says.
#[test]
fn the_longest_spiral() {
    const TRIANGLES: usize = 16_793_556;
    let mut whole = separate(2);
    whole.counts = [1, 1, 1, 0, 0, 0, 4_092, 2, 4_094, 4_094, 2, 4_092].to_vec();
    let layered = Layered {
        whole,
        cuts: vec![1],
    };
    let asked = [
        (Ask::Run(1), layered.run_alone(1), TRIANGLES),
        (Ask::Joined, layered.whole.clone(), TRIANGLES + 1),
    ];
    for (ask, grid, triangles) in asked {
        let Layered { whole, cuts } = layered.clone();
        let call = move || {
            let starts = whole.starts();
            let mut area = vec![GUARD; TRIANGLE_WORDS * triangles];
            let numbers = [0, triangles as u64, 2_045];
            assert!(answers(&numbers, |answer| {
                ask.call(whole.lists(&starts), &cuts, &mut area, answer)
            }));
            area
        };
        let area = on_stack(ask.stack_bytes()[1], call);
        let mut words = area.chunks_exact(TRIANGLE_WORDS);
        let told = Mesher::default().each_triangle(grid.lists(&grid.starts()), |triangle| {
            assert_eq!(words.next(), Some(&triangle.words()[..]));
        });
        assert_eq!(told.map(|told| told.splits), Ok(2_045));
        assert_eq!(words.next(), None);
    }
}
