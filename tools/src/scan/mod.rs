//! From shapes to the text of a grid: every crossing of every edge of a grid with
//! every surface (docs/FORMAT.md, "Scans of shapes").

pub mod background;
pub mod bins;
pub mod edges;
pub mod lattice;
pub mod mesh_file;
pub mod obj_file;
pub mod pieces;
pub mod ply_file;
pub mod polynomial;
pub mod shapes;
pub mod sines;
pub mod spread;
pub mod stl_file;
pub mod triangles;
pub mod words;
