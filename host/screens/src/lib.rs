//! Inductance of conducting screens given as triangle panels.
//!
//! Safe Rust over a static library in which every function is proved to meet its contract: its answers are those of written
//! definitions, on every input. That the definitions are those of the triangle boundary-element part of cfsem, bit for bit, is
//! compared on millions of cases. Names, modules and the order of arguments are the original's, so
//! `cfsem::physics::boundary_element::…` becomes `screens::physics::boundary_element::…`; what the original refuses with a text
//! is a [`Refusal`] here. Units are metres, amperes and henries.
//!
//! ```
//! use screens::{QuadratureKind, TriangleMeshView, triangle_mesh_inductance_matrix, triangle_mesh_inductive_energy};
//!
//! // a square metre of two panels
//! let (x, y, z) = ([0.0, 1.0, 0.0, 1.0], [0.0, 0.0, 1.0, 1.0], [0.0; 4]);
//! let mesh = TriangleMeshView::new((&x, &y, &z), (&[0, 1], &[1, 3], &[2, 2]))?;
//!
//! let mut matrix = vec![0.0; mesh.nnode() * mesh.nnode()];
//! triangle_mesh_inductance_matrix(&mesh, QuadratureKind::Dunavant3, &mut matrix)?;
//!
//! // the energy of one ampere round node 0
//! let energy = triangle_mesh_inductive_energy(&matrix, &[1.0, 0.0, 0.0, 0.0])?;
//! assert!(energy > 0.0);
//! # Ok::<(), screens::Refusal>(())
//! ```
//!
//! # What differs from the original
//!
//! - A view of row-major columns, the map builders and the parallel version are not here.
//! - [`triangle_basis_mutual_inductance`] yields a `Result`: a corner above 2 is refused with 12 and does not stop the program.
//! - The warning about poor panels is a count, [`TriangleMeshView::poor_panels`].
//! - Below its diagonal the matrix is a copy of what stands above; the original's cells (a, b) and (b, a) can part in their last
//!   bits.
//! - Added: [`move_node`], named shapes ([`save_shape`], [`drop_shape`], [`return_shape`]), the rows, the panel file
//!   ([`read_panel_file`], [`write_panel_file`]), [`display`], and the owned [`TriangleMesh`] and [`Shapes`].
//!
//! # Stack
//!
//! Give a thread that calls the library at least 2 MB of stack, which is the default of Rust's threads: the tests run on such
//! threads, and on smaller ones a call may run out. `examples/footprint.rs` measures it.
#[allow(unsafe_code)]
mod ffi;
mod refusal;

pub mod math;
pub mod mesh;
pub mod physics;

pub use mesh::{
    Shapes, TriangleMesh, TriangleMeshView, panel_file_counts, panel_file_length, read_panel_file, shape_name,
    write_panel_file,
};
pub use physics::boundary_element::*;
pub use refusal::Refusal;

/// The magnetic constant (H/m), rounded as the original rounds it.
pub const MU_0: f64 = f64::from_bits(0x3eb5_1537_0f8e_3147);

/// The magnetic constant over 4π (H/m), rounded as the original rounds it.
pub const MU0_OVER_4PI: f64 = f64::from_bits(0x3e7a_d7f2_9aad_b25b);
