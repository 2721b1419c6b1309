//! The original Rust's functions under the timed loops. bench/run.sh builds it twice: for any x86-64, and for this
//! machine's processor.
#[path = "../../loops.rs"]
mod loops;
use cfsem::math::{cross3, dot3, norm3};
use loops::{Columns, Input, whole};
use num_traits::standin;

fn vector(x: &[f64]) -> [f64; 3] {
    [x[0], x[1], x[2]]
}

implementation! {
    #[unsafe(no_mangle)]
    rust_run:
    0 => |x| x[0],
    1 => |x| x[0].mul_add(x[1], x[2]),
    2 => |x| x[0].mul_add(x[0], x[1]),
    3 => |x| x[0].sqrt(),
    4 => |x| standin::ln(x[0]),
    5 => |x| standin::asinh(x[0]),
    6 => |x| standin::atan2(x[0], x[1]),
    7 => |x| dot3(vector(&x[..3]), vector(&x[3..])),
    8 => |x| cross3(vector(&x[..3]), vector(&x[3..])),
    9 => |x| norm3(vector(&x[..3])),
}

/// The original's fresh matrix of a mesh in columns, into `out` of nodes × nodes numbers.
///
/// # Safety
/// The columns have `nodes` and `panels` numbers.
#[unsafe(no_mangle)]
pub unsafe extern "C" fn rust_matrix(rule: u32, columns: *const Columns, out: *mut f64) -> bool {
    use cfsem::mesh::TriangleMeshView;
    use cfsem::physics::boundary_element::{QuadratureKind, triangle_mesh_inductance_matrix};
    let c = unsafe { &*columns };
    let (x, y, z, a, b, d, out) = unsafe {
        (
            std::slice::from_raw_parts(c.nodes[0], c.node_count),
            std::slice::from_raw_parts(c.nodes[1], c.node_count),
            std::slice::from_raw_parts(c.nodes[2], c.node_count),
            std::slice::from_raw_parts(c.panels[0], c.panel_count),
            std::slice::from_raw_parts(c.panels[1], c.panel_count),
            std::slice::from_raw_parts(c.panels[2], c.panel_count),
            std::slice::from_raw_parts_mut(out, c.node_count * c.node_count),
        )
    };
    let kind = match rule {
        1 => QuadratureKind::Dunavant1,
        2 => QuadratureKind::Dunavant2,
        3 => QuadratureKind::Dunavant3,
        4 => QuadratureKind::Dunavant4,
        _ => QuadratureKind::Dunavant5,
    };
    TriangleMeshView::new((x, y, z), (a, b, d))
        .and_then(|mesh| triangle_mesh_inductance_matrix(&mesh, kind, out))
        .is_ok()
}
