//! One entry for every kind of case that the crate answers.
use crate::lent::{Lent, counted, written};
use crate::{files, shapes};
use cases::{In, Mesh, Out, Triangle};
use screens::mesh::elements::tri::{mapping, tri3};
use screens::{QuadratureKind, Refusal, TriangleMeshView, UniformTriangle, math};

/// Reads a case's input, calls the crate, and appends the results in the order of oracle/FORMAT.md.
pub type Call = fn(&mut In<'_>, Out) -> Out;

/// Lent buffers of the lengths that stand next in the input.
fn lent<const N: usize>(i: &mut In<'_>) -> [Lent<f64>; N] {
    i.lengths().map(Lent::new)
}

/// The rule whose number stands next in the input; a number of more than 32 bits is no rule.
pub(crate) fn rule(i: &mut In<'_>) -> Result<QuadratureKind, Refusal> {
    let number = u32::try_from(i.word()).map_err(|_| Refusal::NoSuchChoice)?;
    QuadratureKind::try_from(number)
}

pub(crate) fn view(m: &Mesh) -> Result<TriangleMeshView<'_>, Refusal> {
    TriangleMeshView::new((&m.x, &m.y, &m.z), (&m.a, &m.b, &m.c))
}

fn panel(i: &mut In<'_>) -> UniformTriangle {
    let [a, b, c] = i.triangle();
    UniformTriangle::new(a, b, c)
}

fn value(o: Out, answer: Result<f64, Refusal>) -> Out {
    o.value(answer.map_err(Refusal::number))
}

fn record(o: Out, p: UniformTriangle) -> Out {
    o.results(p.nodes.as_flattened())
        .results(&p.normal)
        .results(p.edge_tangent.as_flattened())
        .results(p.edge_outward.as_flattened())
        .results(&p.edge_length)
        .result(p.max_edge)
}

/// A row as its offset in what the caller holds, and its length.
fn row(o: Out, whole: &[f64], answer: Result<&[f64], Refusal>) -> Out {
    let place = |part: &[f64]| {
        let offset = (part.as_ptr().addr() - whole.as_ptr().addr()) / size_of::<f64>();
        [offset as u64, part.len() as u64]
    };
    counted(o, answer.map(place), 2, &[])
}

/// Source and target of a coupling, its rule before them.
fn pair(i: &mut In<'_>) -> (Result<QuadratureKind, Refusal>, Triangle, Triangle) {
    (rule(i), i.triangle(), i.triangle())
}

/// A function of numbers.
macro_rules! number {
    ($f:path, $($x:ident)*) => {
        |i, o| {
            $(let $x = i.number();)*
            o.result($f($($x),*))
        }
    };
}

/// The entries. A kind stands here once; what is not a call of the crate is left out.
pub const CALLS: &[(&str, Call)] = &[
    // arithmetic
    ("fma", number!(math::mul_add, a b c)),
    ("square_add", number!(math::square_add, a c)),
    ("sqrt", number!(math::sqrt, x)),
    ("min", number!(math::min, a b)),
    ("max", number!(math::max, a b)),
    ("clamp", number!(math::clamp, x low high)),
    ("abs", number!(math::abs, x)),
    ("ln", number!(math::ln, x)),
    ("asinh", number!(math::asinh, x)),
    ("atan2", number!(math::atan2, y x)),
    // vectors
    ("dot3", |i, o| o.result(math::dot3(i.vector(), i.vector()))),
    ("norm3", |i, o| o.result(math::norm3(i.vector()))),
    ("cross3", |i, o| o.results(&math::cross3(i.vector(), i.vector()))),
    ("sub3", |i, o| o.results(&math::sub3(i.vector(), i.vector()))),
    ("add3", |i, o| o.results(&math::add3(i.vector(), i.vector()))),
    ("scale3", |i, o| o.results(&math::scale3(i.vector(), i.number()))),
    ("add_scaled3", |i, o| {
        o.results(&math::add_scaled3(i.vector(), i.vector(), i.number()))
    }),
    ("normalize3", |i, o| o.results(&math::normalize3(i.vector()))),
    // one panel
    ("area", |i, o| {
        let [a, b, c] = i.triangle();
        o.result(mapping::area(a, b, c))
    }),
    ("quality", |i, o| {
        let [a, b, c] = i.triangle();
        o.result(mapping::quality(a, b, c))
    }),
    ("normal", |i, o| {
        let [a, b, c] = i.triangle();
        o.results(&mapping::normal(a, b, c))
    }),
    ("map_point", |i, o| {
        let [a, b, c] = i.triangle();
        o.results(&mapping::map_point(a, b, c, [i.number(), i.number()]))
    }),
    ("closest_point", |i, o| {
        let (point, [a, b, c]) = (i.vector(), i.triangle());
        o.results(&tri3::closest_point(point, a, b, c))
    }),
    ("record", |i, o| record(o, panel(i))),
    ("potential", |i, o| o.result(panel(i).scalar_potential(i.vector()))),
    ("gradient", |i, o| {
        o.results(&panel(i).scalar_potential_gradient(i.vector()))
    }),
    ("contact", |i, o| {
        o.word(panel(i).contains_on_surface(i.vector()).into())
    }),
    ("basis_densities", |i, o| {
        let [a, b, c] = i.triangle();
        o.results(screens::triangle_basis_current_densities(a, b, c).as_flattened())
    }),
    ("panel_density", |i, o| {
        let [a, b, c] = i.triangle();
        o.results(&screens::triangle_current_density(a, b, c, i.vector()))
    }),
    ("bisect", |i, o| {
        o.results(
            screens::longest_edge_bisection(i.triangle())
                .as_flattened()
                .as_flattened(),
        )
    }),
    ("longest_edge", |i, o| {
        o.result(screens::triangle_max_edge_squared(i.triangle()))
    }),
    // two panels
    ("identical", |i, o| {
        let ([a, b, c], [d, e, f]) = (i.triangle(), i.triangle());
        o.word(screens::triangles_identical(a, b, c, d, e, f).into())
    }),
    ("box_distance", |i, o| {
        o.result(screens::triangle_aabb_distance_squared(i.triangle(), i.triangle()))
    }),
    ("panel_distance", |i, o| {
        o.result(screens::triangle_distance_squared(i.triangle(), i.triangle()))
    }),
    ("is_far", |i, o| {
        o.word(screens::is_far(i.triangle(), i.triangle()).into())
    }),
    ("coupling", |i, o| {
        let (rule, [a, b, c], [d, e, f]) = pair(i);
        value(
            o,
            rule.map(|rule| screens::triangle_geometric_coupling(a, b, c, d, e, f, rule)),
        )
    }),
    ("coupling_regular", |i, o| {
        let (rule, [a, b, c], [d, e, f]) = pair(i);
        value(
            o,
            rule.map(|rule| screens::triangle_geometric_coupling_regular(a, b, c, d, e, f, rule)),
        )
    }),
    ("block", |i, o| {
        let (rule, [a, b, c], [d, e, f]) = pair(i);
        match rule {
            Ok(rule) => {
                let block = screens::triangle_basis_mutual_inductance_block(a, b, c, d, e, f, rule);
                o.word(0).results(block.as_flattened())
            }
            Err(refusal) => o.refusal(refusal.number(), 9),
        }
    }),
    ("entry", |i, o| {
        let (rule, [a, b, c], k, [d, e, f], l) = (rule(i), i.triangle(), i.size(), i.triangle(), i.size());
        value(
            o,
            rule.and_then(|rule| screens::triangle_basis_mutual_inductance(a, b, c, k, d, e, f, l, rule)),
        )
    }),
    ("block_energy", |i, o| {
        o.result(screens::triangle_inductance_from_potential_vectors(
            i.triangle(),
            i.vector(),
            i.vector(),
        ))
    }),
    // meshes
    ("mesh_test", |i, o| {
        let m = i.mesh();
        counted(o, view(&m).map(|mesh| [mesh.poor_panels() as u64]), 1, &[])
    }),
    ("densities", |i, o| {
        let (m, s) = (i.mesh(), i.numbers());
        let [mut x, mut y, mut z] = lent(i);
        let answer =
            view(&m).and_then(|mesh| screens::triangle_mesh_current_density(&mesh, &s, (x.lend(), y.lend(), z.lend())));
        written(o, answer, &[&x, &y, &z])
    }),
    ("quadrature", |i, o| {
        let (rule, m) = (rule(i), i.mesh());
        let [mut x, mut y, mut z, mut w] = lent(i);
        let answer = rule.and_then(|rule| {
            let out = (x.lend(), y.lend(), z.lend());
            screens::triangle_mesh_quadrature_points(&view(&m)?, rule, out, w.lend())
        });
        written(o, answer, &[&x, &y, &z, &w])
    }),
    ("matrix", |i, o| {
        let (rule, m) = (rule(i), i.mesh());
        let [mut cells] = lent(i);
        let answer = rule.and_then(|rule| screens::triangle_mesh_inductance_matrix(&view(&m)?, rule, cells.lend()));
        written(o, answer, &[&cells])
    }),
    ("move", |i, o| {
        let (rule, m) = (rule(i), i.mesh());
        let [mut x, mut y, mut z] = [&m.x, &m.y, &m.z].map(|column| Lent::holding(column));
        let mut cells = Lent::holding(&i.numbers());
        let (node, place) = (i.size(), i.vector());
        let answer = rule.and_then(|rule| {
            let nodes = (x.lend(), y.lend(), z.lend());
            screens::move_node(nodes, (&m.a, &m.b, &m.c), rule, cells.lend(), node, place)
        });
        counted(o, answer.map(|count| [count as u64]), 1, &[&cells, &x, &y, &z])
    }),
    ("save_shape", shapes::save_shape),
    ("drop_shape", shapes::drop_shape),
    ("return_shape", shapes::return_shape),
    // matrices and maps
    ("energy2", |i, o| {
        let (matrix, s, t) = (i.numbers(), i.numbers(), i.numbers());
        value(
            o,
            screens::triangle_mesh_inductance_from_potential_vectors(&matrix, &s, &t),
        )
    }),
    ("energy1", |i, o| {
        let (matrix, s) = (i.numbers(), i.numbers());
        value(o, screens::triangle_mesh_inductive_energy(&matrix, &s))
    }),
    ("flux", |i, o| {
        let (map, coefficients) = (i.numbers(), i.numbers());
        let [mut out] = lent(i);
        let answer = screens::triangle_mesh_flux_linkage_from_source_coefficients(&map, &coefficients, out.lend());
        written(o, answer, &[&out])
    }),
    ("interaction", |i, o| {
        let (map, values, coefficients) = (i.numbers(), i.numbers(), i.numbers());
        value(
            o,
            screens::triangle_mesh_interaction_energy_from_source_coefficients(&map, &values, &coefficients),
        )
    }),
    ("row_matrix", |i, o| {
        // never read; the system hands out pages of zeros at their first use
        let (matrix, n, node) = (vec![0.0; i.size()], i.size(), i.size());
        row(o, &matrix, screens::triangle_mesh_matrix_row(&matrix, n, node))
    }),
    ("row_map", |i, o| {
        let (map, sources, node) = (vec![0.0; i.size()], i.size(), i.size());
        row(o, &map, screens::triangle_mesh_map_row(&map, sources, node))
    }),
    // files and display
    ("read_file", files::read_file),
    ("write_file", files::write_file),
    ("display", |i, o| {
        counted(o, screens::display(i.number()).map(|value| [value as u64]), 1, &[])
    }),
];
