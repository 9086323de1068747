//! Tools for field parties: from the text of a grid to bundles, listings,
//! pictures and files for viewers. What is said of a grid or a bundle is what a
//! proved call answers (`calls`); the rest reads, draws and writes, and counts what
//! arrived of a mesh (`received`).

pub mod arguments;
pub mod box_axes;
pub mod bundle;
pub mod cell_picture;
pub mod cells;
pub mod chains;
pub mod clip;
pub mod colours;
pub mod commands;
pub mod cut_plane;
pub mod digits;
pub mod exported;
pub mod face_curves;
pub mod face_picture;
pub mod faces;
pub mod fault;
pub mod files;
pub mod film;
pub mod gltf;
pub mod joined_lines;
pub mod labels;
pub mod legend;
pub mod listing;
pub mod loops;
pub mod losses;
pub mod marks;
pub mod measures;
pub mod mesh;
pub mod mesh_picture;
pub mod mesh_shapes;
pub mod obj;
pub mod orientation;
pub mod outer_sides;
pub mod page;
pub mod paint_order;
pub mod placed;
pub mod placed_mesh;
pub mod plane;
pub mod ply;
pub mod progress;
pub mod received;
pub mod received_mesh;
pub mod refusals;
pub mod scan;
pub mod section;
pub mod section_picture;
pub mod sheet_picture;
pub mod sheet_text;
pub mod source;
pub mod space;
pub mod stl;
pub mod surface_list;
pub mod surfaces;
pub mod svg;
pub mod text;
pub mod tidy;
pub mod triangle_types;
pub mod view;
pub mod vtu;

pub use citternblaze_calls as calls;
