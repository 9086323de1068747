//! Times the calls of two builds of the library in one run, each in turn on the same
//! input, and compares what they write: `beside OLD.so NEW.so [MILLISECONDS [NAME]]`.
//! scripts/beside.sh makes the two shared objects of two libcapi.a.

use std::env;
use std::ffi::CString;
use std::mem;
use std::os::raw::{c_char, c_int, c_void};
use std::time::{Duration, Instant};

use compare::grids::dealt;
use compare::lent::ANSWER_WORDS;
use compare::placing::{placing, Kind, Placing};
use compare::surfaces::surfaces;
use reference::cell::TRIANGLE_WORDS;
use reference::gen::{closed_fan, box_of_six, joined, separate, spiral_cell, Chain, Rng, Sample};
use reference::grid::Lists;

#[link(name = "dl")]
extern "C" {
    fn dlopen(file: *const c_char, flags: c_int) -> *mut c_void;

    fn dlsym(library: *mut c_void, name: *const c_char) -> *mut c_void;
}

/// Every symbol at once, and none for other libraries.
const NOW: c_int = 2;

/// A list of 16 bits, and its length, as the calls take them.
type Shorts = *const u16;

type MeshCall = unsafe extern "C" fn(
    Shorts,
    usize,
    Shorts,
    usize,
    Shorts,
    usize,
    *const u32,
    usize,
    *mut u32,
    usize,
    *mut u64,
    usize,
) -> usize;

type PlacesCall = unsafe extern "C" fn(
    Shorts,
    usize,
    Shorts,
    usize,
    Shorts,
    usize,
    *const u32,
    usize,
    *const f64,
    usize,
    *const f64,
    usize,
    *mut u64,
    usize,
    *mut u64,
    usize,
) -> usize;

type CheckCall = unsafe extern "C" fn(
    Shorts,
    usize,
    Shorts,
    usize,
    Shorts,
    usize,
    *const u32,
    usize,
    *mut u64,
    usize,
) -> usize;

/// The calls of one build of the library.
type LoopsCall = unsafe extern "C" fn(Shorts, usize, Shorts, usize, Shorts, usize, *const u32, usize, usize, usize, *mut u64, usize) -> usize;
struct Library {
    loops: LoopsCall,
    mesh: MeshCall,
    places: PlacesCall,
    check: CheckCall,
}

/// A function of a library, by its name.
fn symbol(library: *mut c_void, name: &str) -> *mut c_void {
    let text = CString::new(name).expect("a name");
    // SAFETY: `library` is what dlopen gave, and `text` a string of C
    let found = unsafe { dlsym(library, text.as_ptr()) };
    assert!(!found.is_null(), "the library has no {name}");
    found
}

impl Library {
    fn open(path: &str) -> Library {
        let text = CString::new(path).expect("a path");
        // SAFETY: `text` is a string of C, and the library has no initializers
        let library = unsafe { dlopen(text.as_ptr(), NOW) };
        assert!(!library.is_null(), "{path} is no shared object");
        // SAFETY: the functions have the types that include/citternblaze.h gives them
        unsafe {
            Library {
                loops: mem::transmute::<*mut c_void, LoopsCall>(symbol(library, "citternblaze_loops")),
                mesh: mem::transmute::<*mut c_void, MeshCall>(symbol(library, "citternblaze_mesh")),
                places: mem::transmute::<*mut c_void, PlacesCall>(symbol(
                    library,
                    "citternblaze_places",
                )),
                check: mem::transmute::<*mut c_void, CheckCall>(symbol(
                    library,
                    "citternblaze_check",
                )),
            }
        }
    }

    fn mesh(&self, grid: Lists, area: &mut [u32], answer: &mut [u64]) -> usize {
        // SAFETY: each pointer and the length after it are those of one slice
        unsafe {
            (self.mesh)(
                grid.cells.as_ptr(),
                grid.cells.len(),
                grid.edges.as_ptr(),
                grid.edges.len(),
                grid.counts.as_ptr(),
                grid.counts.len(),
                grid.starts.as_ptr(),
                grid.starts.len(),
                area.as_mut_ptr(),
                area.len(),
                answer.as_mut_ptr(),
                answer.len(),
            )
        }
    }

    fn loops(&self, grid: Lists, cell: usize, k: usize, answer: &mut [u64]) -> usize {
        unsafe {
            (self.loops)(grid.cells.as_ptr(), grid.cells.len(), grid.edges.as_ptr(), grid.edges.len(), grid.counts.as_ptr(), grid.counts.len(), grid.starts.as_ptr(), grid.starts.len(), cell, k, answer.as_mut_ptr(), answer.len())
        }
    }

    fn check(&self, grid: Lists, answer: &mut [u64]) -> usize {
        // SAFETY: as above
        unsafe {
            (self.check)(
                grid.cells.as_ptr(),
                grid.cells.len(),
                grid.edges.as_ptr(),
                grid.edges.len(),
                grid.counts.as_ptr(),
                grid.counts.len(),
                grid.starts.as_ptr(),
                grid.starts.len(),
                answer.as_mut_ptr(),
                answer.len(),
            )
        }
    }

    fn places(&self, at: &Placing, grid: Lists, area: &mut [u64], answer: &mut [u64]) -> usize {
        // SAFETY: as above
        unsafe {
            (self.places)(
                grid.cells.as_ptr(),
                grid.cells.len(),
                grid.edges.as_ptr(),
                grid.edges.len(),
                grid.counts.as_ptr(),
                grid.counts.len(),
                grid.starts.as_ptr(),
                grid.starts.len(),
                at.nodes.as_ptr(),
                at.nodes.len(),
                at.fractions.as_ptr(),
                at.fractions.len(),
                area.as_mut_ptr(),
                area.len(),
                answer.as_mut_ptr(),
                answer.len(),
            )
        }
    }
}


#[repr(C)]
struct Ts { s: i64, n: i64 }
extern "C" { fn clock_gettime(c: c_int, t: *mut Ts) -> c_int; }
fn cpu() -> f64 { let mut t = Ts { s: 0, n: 0 }; unsafe { clock_gettime(3, &mut t); } t.s as f64 * 1e6 + t.n as f64 / 1e3 }
struct Many { libs: Vec<Library>, ms: u64, only: String }
impl Many {
    fn times(&self, name: &str, text: &str, mut call: impl FnMut(usize)) {
        let n = self.libs.len();
        let mut micros = vec![Vec::new(); n];
        let begin = Instant::now();
        let mut round = 0;
        while round < 15 || begin.elapsed() < Duration::from_millis(self.ms) {
            for turn in 0..n {
                let way = (turn + round) % n;
                let start = cpu();
                call(way);
                micros[way].push(cpu() - start);
            }
            round += 1;
        }
        print!("{name:<22} {text:<7}");
        let mut base = (0.0, 0.0);
        for (w, all) in micros.iter_mut().enumerate() {
            all.sort_unstable_by(f64::total_cmp);
            let q = all[all.len() / 8];
            if w == 0 { base = (all[0], q); print!(" | {:8.1}", all[0]); }
            else { print!(" | {:8.1} {:.2} ({:.2})", all[0], all[0] / base.0, q / base.1); }
        }
        println!();
    }
    fn all(&self, name: &str, p: &Placing) {
        if !name.starts_with(&self.only) { return; }
        let starts = p.grid.starts();
        let lists = p.grid.lists(&starts);
        let mut answers = vec![[1u64; ANSWER_WORDS]; self.libs.len()];
        let most = p.grid.most_triangles().max(p.grid.counts_in_cells().iter().map(|c| c.iter().map(|&x| x as usize).sum::<usize>()).sum::<usize>());
        let mut areas = vec![vec![0u32; (2 * most + 10) * TRIANGLE_WORDS]; self.libs.len()];
        self.times(name, "any", |w| { self.libs[w].mesh(lists, &mut areas[w], &mut answers[w]); });
        for w in 1..areas.len() { assert!(areas[w] == areas[0] && answers[w] == answers[0]); }
        let t = answers[0][1] as usize;
        let mut areas = vec![vec![0u32; t * TRIANGLE_WORDS]; self.libs.len()];
        self.times(name, "exact", |w| { self.libs[w].mesh(lists, &mut areas[w], &mut answers[w]); });
        for w in 1..areas.len() { assert!(areas[w] == areas[0] && answers[w] == answers[0]); }
        let points = p.fractions.len() + most;
        let mut areas = vec![vec![1u64; 3 * points]; self.libs.len()];
        self.times(name, "places", |w| { self.libs[w].places(p, lists, &mut areas[w], &mut answers[w]); });
        for w in 1..areas.len() { assert!(areas[w] == areas[0] && answers[w] == answers[0]); }
        let mut last = 0;
        while { self.libs[0].loops(lists, 0, last, &mut answers[0]); answers[0][0] == 0 && answers[0][2] > 0 && last < 30000 } { last += 1; if last > 8000 { break; } }
        for a in answers.iter_mut() { *a = [1; ANSWER_WORDS]; }
        self.times(name, "loops", |w| { self.libs[w].loops(lists, 0, last.max(1) - 1, &mut answers[w]); });
        for w in 1..answers.len() { assert!(answers[w] == answers[0]); }
    }
}
fn main() {
    let words: Vec<String> = env::args().skip(1).collect();
    let many = Many { ms: words[0].parse().unwrap(), only: words[1].clone(), libs: words[2..].iter().map(|f| Library::open(f)).collect() };
    let mut rng = Rng::new(1);
    let shape = box_of_six([6, 5, 10]);
    let few = shape.clone().with_counts(&mut rng, 0, 3);
    many.all("1 random 0..3", &placing(&mut rng, few, Kind::Any));
    let closed = shape.clone().with_closed_counts(&mut rng, 1);
    many.all("1 closed 0..3", &placing(&mut rng, closed, Kind::Any));
    let g = shape.clone().with_counts(&mut rng, 16, 24);
    many.all("2 random 16..24", &placing(&mut rng, g, Kind::Any));
    let g = separate(42).with_counts(&mut rng, 255, 255);
    many.all("3 separate 255", &placing(&mut rng, g, Kind::Any));
    let g = closed_fan(2048).with_counts(&mut rng, 4, 14);
    many.all("4 round 4..14", &placing(&mut rng, g, Kind::Any));
    let g = separate(2).with_counts(&mut rng, 4_095, 4_095);
    many.all("6 separate 4095", &placing(&mut rng, g, Kind::Any));
    for surface in surfaces().iter().filter(|one| one.name == "36 levels" || one.name == "one surface") {
        many.all(&format!("7 {}", surface.name), &surface.placing());
        let any = dealt(&mut rng, &surface.grid());
        many.all(&format!("8 dealt {}", surface.name), &placing(&mut rng, any, Kind::Any));
    }
    for cells in [1, 10, 50] {
        let grid = separate(cells).with_counts(&mut rng, 0, 12);
        many.all(&format!("9 few cells, {cells}"), &placing(&mut rng, grid, Kind::Any));
    }
    let mut apart = separate(300);
    for counts in apart.counts.chunks_mut(6) { counts.copy_from_slice(&spiral_cell(&mut rng, 3, 30)); }
    many.all("s split, up to 30", &placing(&mut rng, apart, Kind::Any));
    let long = joined(&mut rng, [Chain::Row(2); 2], 0, [400, 2, 402]);
    many.all("s split, (400, 2)", &placing(&mut rng, long, Kind::Any));
}
