//! The functions of include/citternblaze.h over slices: those that are linked, or those
//! of another build of the library, loaded from a shared object. Each method is the
//! function of its name: it answers at the front of `answer` and returns how many
//! numbers these are.

use std::ffi::CString;
use std::os::raw::{c_char, c_int, c_void};

/// Of the declarations in include/citternblaze.rs: the functions that are linked, and a
/// table of functions of these types.
macro_rules! functions {
    ($(pub fn $name:ident($($parameter:ident: $type:ty,)*) -> usize;)*) => {
        use std::mem;
        use std::os::raw::c_void;

        extern "C" {
            $(fn $name($($parameter: $type,)*) -> usize;)*
        }

        /// The functions of one build of the library, and none where it lacks one.
        #[allow(clippy::type_complexity)]
        pub struct Functions {
            $(pub $name: Option<unsafe extern "C" fn($($type,)*) -> usize>,)*
        }

        /// Those that are linked.
        pub const LINKED: Functions = Functions {
            $($name: Some($name),)*
        };

        /// Those that are found by their names; null means none.
        ///
        /// # Safety
        ///
        /// What is found under a name is the function that is declared so.
        pub unsafe fn found(find: impl Fn(&str) -> *mut c_void) -> Functions {
            Functions {
                // an option of a function is a pointer that may be null
                $($name: mem::transmute::<*mut c_void, Option<unsafe extern "C" fn($($type,)*) -> usize>>(
                    find(stringify!($name)),
                ),)*
            }
        }
    };
}

#[path = "../../include/citternblaze.rs"]
mod declared;

/// One build of the library.
pub struct Library(declared::Functions);

/// The library that is linked.
pub const LINKED: Library = Library(declared::LINKED);

#[link(name = "dl")]
extern "C" {
    fn dlopen(file: *const c_char, flags: c_int) -> *mut c_void;

    fn dlsym(library: *mut c_void, name: *const c_char) -> *mut c_void;
}

/// RTLD_NOW: every symbol at once, and none for other libraries.
const NOW: c_int = 2;

/// The lists of a grid, as every call on one takes them.
#[derive(Clone, Copy, Debug)]
pub struct GridLists<'a> {
    pub cells: &'a [u16],
    pub edges: &'a [u16],
    pub counts: &'a [u16],
    pub starts: &'a [u32],
}

/// Calls a function of the library `$of`. Its arguments are those of the header, in its
/// order: `value`s; lists that it may `read` and areas that it may `write`, each with
/// its length; the four lists of a `grid`.
macro_rules! call {
    ($of:ident.$name:ident: $($arguments:tt)*) => {
        call!(@ $of.0.$name.expect(concat!("the library has no ", stringify!($name))), [] $($arguments)*,)
    };
    (@ $function:expr, [$($ready:expr,)*] value $value:expr, $($more:tt)*) => {
        call!(@ $function, [$($ready,)* $value,] $($more)*)
    };
    (@ $function:expr, [$($ready:expr,)*] read $list:expr, $($more:tt)*) => {
        call!(@ $function, [$($ready,)* $list.as_ptr(), $list.len(),] $($more)*)
    };
    (@ $function:expr, [$($ready:expr,)*] write $area:expr, $($more:tt)*) => {
        call!(@ $function, [$($ready,)* $area.as_mut_ptr(), $area.len(),] $($more)*)
    };
    (@ $function:expr, [$($ready:expr,)*] grid $grid:ident, $($more:tt)*) => {
        call!(@ $function, [$($ready,)*] read $grid.cells, read $grid.edges, read $grid.counts, read $grid.starts, $($more)*)
    };
    (@ $function:expr, [$($ready:expr,)*]) => {
        // SAFETY: each pointer and the length after it are those of one slice, which is
        // lent for the length of the call; what is lent for writing is lent alone, since
        // the slices are
        unsafe { $function($($ready,)*) }
    };
}

impl Library {
    /// The functions of a shared object, which stays loaded; none where the file cannot
    /// be loaded. A function that it lacks panics when it is called.
    ///
    /// # Safety
    ///
    /// The file is a build of this library: each function that the header declares and
    /// that the file has is as the header says.
    pub unsafe fn load(file: &str) -> Option<Library> {
        let file = CString::new(file).ok()?;
        let library = dlopen(file.as_ptr(), NOW);
        let symbol = |name: &str| {
            let name = CString::new(name).expect("no name has a zero");
            // SAFETY: `library` is what dlopen gave, and `name` a string of C
            unsafe { dlsym(library, name.as_ptr()) }
        };
        (!library.is_null()).then(|| Library(declared::found(symbol)))
    }

    #[inline]
    pub fn face(&self, counts: [u16; 3], edge: u32, index: u32, answer: &mut [u64]) -> usize {
        let [ab, ac, bc] = counts;
        call!(self.citternblaze_face: value ab, value ac, value bc, value edge, value index, write answer)
    }

    #[inline]
    pub fn case(&self, counts: [u16; 6], answer: &mut [u64]) -> usize {
        let [a, b, c, d, e, f] = counts;
        call!(self.citternblaze_case: value a, value b, value c, value d, value e, value f, write answer)
    }

    #[inline]
    pub fn book(&self, counts: [u16; 6], answer: &mut [u64]) -> usize {
        let [a, b, c, d, e, f] = counts;
        call!(self.citternblaze_book: value a, value b, value c, value d, value e, value f, write answer)
    }

    #[inline]
    pub fn check(&self, grid: GridLists, answer: &mut [u64]) -> usize {
        call!(self.citternblaze_check: grid grid, write answer)
    }

    #[inline]
    pub fn open(
        &self,
        cells: &[u16],
        edges: &[u16],
        counts: &[u16],
        starts: &mut [u32],
        answer: &mut [u64],
    ) -> usize {
        call!(self.citternblaze_open: read cells, read edges, read counts, write starts, write answer)
    }

    #[inline]
    pub fn set_count(
        &self,
        (cells, edges): (&[u16], &[u16]),
        counts: &mut [u16],
        starts: &mut [u32],
        (edge, count): (usize, u16),
        answer: &mut [u64],
    ) -> usize {
        call!(self.citternblaze_set_count: read cells, read edges, write counts, write starts, value edge, value count, write answer)
    }

    #[inline]
    pub fn mesh(&self, grid: GridLists, area: &mut [u32], answer: &mut [u64]) -> usize {
        call!(self.citternblaze_mesh: grid grid, write area, write answer)
    }

    #[inline]
    pub fn mesh_run(
        &self,
        grid: GridLists,
        cuts: &[u16],
        run: usize,
        area: &mut [u32],
        answer: &mut [u64],
    ) -> usize {
        call!(self.citternblaze_mesh_run: grid grid, read cuts, value run, write area, write answer)
    }

    #[inline]
    pub fn mesh_joined(
        &self,
        grid: GridLists,
        cuts: &[u16],
        area: &mut [u32],
        answer: &mut [u64],
    ) -> usize {
        call!(self.citternblaze_mesh_joined: grid grid, read cuts, write area, write answer)
    }

    #[inline]
    pub fn loops(&self, grid: GridLists, [cell, index]: [usize; 2], answer: &mut [u64]) -> usize {
        call!(self.citternblaze_loops: grid grid, value cell, value index, write answer)
    }

    #[inline]
    pub fn places(
        &self,
        grid: GridLists,
        nodes: &[f64],
        fractions: &[f64],
        area: &mut [f64],
        answer: &mut [u64],
    ) -> usize {
        call!(self.citternblaze_places: grid grid, read nodes, read fractions, write area, write answer)
    }

    #[inline]
    pub fn shading(&self, grid: GridLists, area: &mut [u8], answer: &mut [u64]) -> usize {
        call!(self.citternblaze_shading: grid grid, write area, write answer)
    }

    #[inline]
    pub fn flat_face(&self, counts: [u16; 3], edge: u32, index: u32, answer: &mut [u64]) -> usize {
        let [ab, ac, bc] = counts;
        call!(self.citternblaze_flat_face: value ab, value ac, value bc, value edge, value index, write answer)
    }

    #[inline]
    pub fn flat_check(
        &self,
        triangles: &[u16],
        edges: &[u16],
        counts: &[u16],
        answer: &mut [u64],
    ) -> usize {
        call!(self.citternblaze_flat_check: read triangles, read edges, read counts, write answer)
    }

    #[inline]
    pub fn flat_chains(
        &self,
        triangles: &[u16],
        edges: &[u16],
        counts: &[u16],
        area: &mut [u32],
        answer: &mut [u64],
    ) -> usize {
        call!(self.citternblaze_flat_chains: read triangles, read edges, read counts, write area, write answer)
    }

    #[inline]
    pub fn record(&self, bytes: &[u8], start: usize, answer: &mut [u64]) -> usize {
        call!(self.citternblaze_record: read bytes, value start, write answer)
    }

    #[inline]
    pub fn record_body(&self, bytes: &[u8], start: usize, answer: &mut [u64]) -> usize {
        call!(self.citternblaze_record_body: read bytes, value start, write answer)
    }

    #[inline]
    pub fn bundle_read(
        &self,
        bytes: &[u8],
        nodes: &mut [u16],
        ends: &mut [u16],
        counts: &mut [u16],
        answer: &mut [u64],
    ) -> usize {
        call!(self.citternblaze_bundle_read: read bytes, write nodes, write ends, write counts, write answer)
    }

    #[inline]
    pub fn bundle_write(
        &self,
        nodes: &[u16],
        ends: &[u16],
        counts: &[u16],
        area: &mut [u8],
        answer: &mut [u64],
    ) -> usize {
        call!(self.citternblaze_bundle_write: read nodes, read ends, read counts, write area, write answer)
    }

    #[inline]
    pub fn nearest(&self, points: &[f64], [x, y, z]: [f64; 3], answer: &mut [u64]) -> usize {
        call!(self.citternblaze_nearest: read points, value x, value y, value z, write answer)
    }
}

/// The numbers whose bits these are, so that an area of a places call can be seen bit by
/// bit.
pub fn of_bits(bits: &mut [u64]) -> &mut [f64] {
    // SAFETY: both types have the same size and alignment, and any bits are a number of
    // either
    unsafe { std::slice::from_raw_parts_mut(bits.as_mut_ptr().cast(), bits.len()) }
}
