//! Times the calls of two builds of the library in one run, each in turn on the same
//! input, and compares what they write: `beside OLD.so NEW.so [MILLISECONDS [NAME]]`.
//! scripts/beside.sh makes the two shared objects of two libcapi.a.

use std::env;
use std::time::{Duration, Instant};

use citternblaze_calls::library::{of_bits, Library};
use compare::areas::any_room;
use compare::calls::lists;
use compare::grids::dealt;
use compare::lent::ANSWER_WORDS;
use compare::placing::{placing, Kind, Placing};
use compare::surfaces::surfaces;
use reference::cell::TRIANGLE_WORDS;
use reference::gen::{box_of_six, joined, separate, spiral_cell, Chain, Rng, Sample};

/// The library of a shared object that scripts/beside.sh made.
fn load(file: &str) -> Library {
    // SAFETY: the script makes it of a libcapi.a
    let library = unsafe { Library::load(file) };
    library.unwrap_or_else(|| panic!("{file} is no shared object"))
}

/// Least rounds on one grid, however long they take.
const ROUNDS: usize = 15;

/// The median time of a library's calls and the best, in microseconds.
struct Times {
    median: f64,
    best: f64,
}

/// The times of both libraries: `call(0)` and `call(1)` in turn.
fn times(patience: Duration, mut call: impl FnMut(usize)) -> [Times; 2] {
    let mut micros = [Vec::new(), Vec::new()];
    let begin = Instant::now();
    for round in 0.. {
        if round >= ROUNDS && begin.elapsed() >= patience {
            break;
        }
        for turn in 0..2 {
            let way = (turn + round) % 2;
            let start = Instant::now();
            call(way);
            micros[way].push(start.elapsed().as_secs_f64() * 1e6);
        }
    }
    micros.map(|mut all| {
        all.sort_unstable_by(f64::total_cmp);
        Times {
            median: all[all.len() / 2],
            best: all[0],
        }
    })
}

/// The two libraries, how long to measure, and the front of the names to take.
struct Beside {
    libraries: [Library; 2],
    patience: Duration,
    only: String,
}

impl Beside {
    fn line(&self, name: &str, text: &str, [old, new]: [Times; 2]) {
        println!(
            "{name:<24} {text:<18} old {:9.1} us, new {:9.1} us, ratio {:.2}; of the best {:.2}",
            old.median,
            new.median,
            new.median / old.median,
            new.best / old.best
        );
    }

    /// The mesh in an area with room for so many triangles, which both write alike.
    fn mesh(&self, name: &str, text: &str, grid: &Sample, room: usize) {
        let starts = grid.starts();
        let grid = lists(grid.lists(&starts));
        let mut areas = [(); 2].map(|()| vec![1; room * TRIANGLE_WORDS]);
        let mut answers = [[1; ANSWER_WORDS]; 2];
        let times = times(self.patience, |way| {
            self.libraries[way].mesh(grid, &mut areas[way], &mut answers[way]);
        });
        assert!(areas[0] == areas[1] && answers[0] == answers[1]);
        self.line(name, text, times);
    }

    /// How many triangles the grid's mesh has.
    fn triangles(&self, grid: &Sample) -> usize {
        let starts = grid.starts();
        let mut answer = [1; ANSWER_WORDS];
        let mut area = vec![0; grid.most_triangles() * TRIANGLE_WORDS];
        self.libraries[0].mesh(lists(grid.lists(&starts)), &mut area, &mut answer);
        assert_eq!(answer[0], 0, "the grid is refused");
        answer[1] as usize
    }

    fn check(&self, name: &str, grid: &Sample) {
        let starts = grid.starts();
        let grid = lists(grid.lists(&starts));
        let mut answers = [[1; ANSWER_WORDS]; 2];
        let times = times(self.patience, |way| {
            self.libraries[way].check(grid, &mut answers[way]);
        });
        assert_eq!(answers[0], answers[1]);
        self.line(name, "check", times);
    }

    fn places(&self, name: &str, placing: &Placing) {
        let starts = placing.grid.starts();
        let grid = lists(placing.grid.lists(&starts));
        let Placing {
            nodes, fractions, ..
        } = placing;
        let points = fractions.len() + placing.grid.most_triangles();
        let mut areas = [(); 2].map(|()| vec![1; 3 * points]);
        let mut answers = [[1; ANSWER_WORDS]; 2];
        let times = times(self.patience, |way| {
            let area = of_bits(&mut areas[way]);
            self.libraries[way].places(grid, nodes, fractions, area, &mut answers[way]);
        });
        assert!(areas[0] == areas[1] && answers[0] == answers[1] && answers[0][0] == 0);
        self.line(name, "places", times);
    }

    /// What a copy of the mesh's words takes, which no call can be below.
    fn copy(&self, name: &str, triangles: usize) {
        let words = vec![1u32; triangles * TRIANGLE_WORDS];
        let mut copies = [words.clone(), words.clone()];
        let times = times(self.patience, |way| copies[way].copy_from_slice(&words));
        self.line(name, "copy of the words", times);
    }

    /// All of these of one grid.
    fn all(&self, name: &str, placing: &Placing) {
        if !name.starts_with(&self.only) {
            return;
        }
        let triangles = self.triangles(&placing.grid);
        let grid = &placing.grid;
        println!(
            "{name}: {} cells, {} crossings, {triangles} triangles",
            grid.cells.len() / 4,
            placing.fractions.len()
        );
        self.check(name, grid);
        self.mesh(name, "mesh, any room", grid, any_room(grid));
        self.mesh(name, "mesh, exact room", grid, triangles);
        self.places(name, placing);
        self.copy(name, triangles);
    }
}

/// The surfaces as a scan gives them, and one stack of levels with nodes and cells in
/// any order.
fn level_sets(beside: &Beside) {
    let mut rng = Rng::new(1);
    for surface in surfaces() {
        beside.all(surface.name, &surface.placing());
    }
    for surface in surfaces().iter().filter(|one| one.name == "36 levels") {
        let any = dealt(&mut rng, &surface.grid());
        beside.all("shuffled, 36 levels", &placing(&mut rng, any, Kind::Any));
    }
}

/// Random counts, which are walked, few cells, and cells that are split.
fn others(beside: &Beside) {
    let mut rng = Rng::new(2);
    for (name, low, high) in [
        ("random, counts 0..3", 0, 3),
        ("random, counts 16..24", 16, 24),
    ] {
        let grid = box_of_six([6, 5, 10]).with_counts(&mut rng, low, high);
        beside.all(name, &placing(&mut rng, grid, Kind::Any));
    }
    for cells in [1, 10, 50] {
        let grid = separate(cells).with_counts(&mut rng, 0, 12);
        beside.all(
            &format!("few cells, {cells}"),
            &placing(&mut rng, grid, Kind::Any),
        );
    }
    let long = joined(&mut rng, [Chain::Row(2); 2], 0, [400, 2, 402]);
    beside.all("split, (400, 2)", &placing(&mut rng, long, Kind::Any));
    let mut apart = separate(300);
    for counts in apart.counts.chunks_mut(6) {
        counts.copy_from_slice(&spiral_cell(&mut rng, 3, 30));
    }
    beside.all("split, up to 30", &placing(&mut rng, apart, Kind::Any));
}

fn main() {
    let words: Vec<String> = env::args().skip(1).collect();
    let [old, new] = match &words[..] {
        [old, new, ..] => [old, new],
        _ => panic!("beside OLD.so NEW.so [MILLISECONDS [NAME]]"),
    };
    let millis = words
        .get(2)
        .map_or(400, |text| text.parse().expect("milliseconds"));
    let beside = Beside {
        libraries: [load(old), load(new)],
        patience: Duration::from_millis(millis),
        only: words.get(3).cloned().unwrap_or_default(),
    };
    println!("Medians of at least {ROUNDS} rounds and {millis} ms, in turn; both write the same.");
    level_sets(&beside);
    others(&beside);
}
