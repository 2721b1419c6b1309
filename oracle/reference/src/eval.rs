//! One entry for every kind of case: input words to result words. A number is its bits, every NaN of a result is one
//! number, a slice is its length and then its elements. FORMAT.md has the table.
use crate::{calls, inner, inner::Triangle, shapes};
pub use ::cases::{In, NAMES, Out, kind, name};
use cfsem::mesh::elements::tri::{mapping, tri3};
use cfsem::mesh::probe_triangle3d::probe as mesh_probe;
use cfsem::{math, physics::boundary_element as be};
use num_traits::standin;

pub fn eval(kind: u32, words: &[u64]) -> Vec<u64> {
    let i = &mut In::new(words);
    let o = Out::default();
    match name(kind) {
        "fma" | "sqrt" | "ln" | "asinh" | "atan2" | "min" | "max" | "clamp" | "abs" | "square_add" => {
            arithmetic(kind, i, o)
        }
        "dot3" | "cross3" | "norm3" | "normalize3" | "add_scaled3" | "sub3" | "add3" | "scale3" => vectors(kind, i, o),
        "closest_point" | "area" | "quality" | "record" | "potential" | "gradient" | "contact" | "bisect"
        | "basis_densities" | "panel_density" | "map_point" | "normal" => panel(kind, i, o),
        "coupling" | "block" | "entry" | "steps" | "point_distance" | "segment_distance" | "coupling_regular"
        | "block_energy" | "identical" | "box_distance" | "panel_distance" | "longest_edge" | "is_far" => {
            pair(kind, i, o)
        }
        _ => call(kind, i, o),
    }
    .0
}

fn arithmetic(kind: u32, i: &mut In, o: Out) -> Out {
    let x = i.number();
    o.result(match name(kind) {
        "fma" => x.mul_add(i.number(), i.number()),
        "square_add" => x.mul_add(x, i.number()),
        "sqrt" => x.sqrt(),
        "ln" => standin::ln(x),
        "asinh" => standin::asinh(x),
        "atan2" => standin::atan2(x, i.number()),
        "min" => x.min(i.number()),
        "max" => x.max(i.number()),
        "clamp" => clamp(x, i.number(), i.number()),
        "abs" => x.abs(),
        _ => unreachable!(),
    })
}

/// The standard library's; where that would stop (bounds out of order or NaN), document 01's sentence.
fn clamp(x: f64, low: f64, high: f64) -> f64 {
    if low <= high {
        x.clamp(low, high)
    } else if x < low {
        low
    } else if x > high {
        high
    } else {
        x
    }
}

fn vectors(kind: u32, i: &mut In, o: Out) -> Out {
    let a = i.vector();
    match name(kind) {
        "dot3" => o.result(math::dot3(a, i.vector())),
        "norm3" => o.result(math::norm3(a)),
        "cross3" => o.results(&math::cross3(a, i.vector())),
        "sub3" => o.results(&math::sub3(a, i.vector())),
        "add3" => o.results(&math::add3(a, i.vector())),
        "scale3" => o.results(&math::scale3(a, i.number())),
        "add_scaled3" => o.results(&math::add_scaled3(a, i.vector(), i.number())),
        "normalize3" => o.results(&math::normalize3(a)),
        _ => unreachable!(),
    }
}

fn panel(kind: u32, i: &mut In, o: Out) -> Out {
    if name(kind) == "closest_point" {
        let (at, t) = (i.vector(), i.triangle());
        return o.results(&tri3::closest_point(at, t[0], t[1], t[2]));
    }
    let t = i.triangle();
    match name(kind) {
        "area" => o.result(be::calc_tri_area(t[0], t[1], t[2])),
        "quality" => o.result(mesh_probe::quality(t)),
        "record" => o.results(&inner::record(t)),
        "potential" => o.result(inner::Panel::new(t).potential(i.vector())),
        "gradient" => o.results(&inner::Panel::new(t).gradient(i.vector())),
        "contact" => o.word(inner::Panel::new(t).contact(i.vector()) as u64),
        "bisect" => o.results(inner::bisect(t).as_flattened().as_flattened()),
        "basis_densities" => o.results(be::triangle_basis_current_densities(t[0], t[1], t[2]).as_flattened()),
        "panel_density" => o.results(&be::triangle_current_density(t[0], t[1], t[2], i.vector())),
        "map_point" => {
            let uv = [i.number(), i.number()];
            o.results(&mapping::map_point(t[0], t[1], t[2], uv))
        }
        "normal" => o.results(&mapping::normal(t[0], t[1], t[2])),
        _ => unreachable!(),
    }
}

fn pair(kind: u32, i: &mut In, o: Out) -> Out {
    match name(kind) {
        "point_distance" => {
            let (at, t) = (i.vector(), i.triangle());
            o.result(inner::point_distance_squared(at, t))
        }
        "segment_distance" => {
            let (p0, p1, q0, q1) = (i.vector(), i.vector(), i.vector(), i.vector());
            o.result(inner::segment_distance_squared(p0, p1, q0, q1))
        }
        "block_energy" => {
            let (block, s, t) = (i.triangle(), i.vector(), i.vector());
            o.result(be::triangle_inductance_from_potential_vectors(block, s, t))
        }
        "longest_edge" => o.result(inner::max_edge_squared(i.triangle())),
        "identical" | "box_distance" | "panel_distance" | "is_far" => {
            let (s, t) = (i.triangle(), i.triangle());
            match name(kind) {
                "identical" => o.word(inner::identical(s, t) as u64),
                "box_distance" => o.result(inner::box_distance_squared(s, t)),
                "panel_distance" => o.result(inner::panel_distance_squared(s, t)),
                "is_far" => o.word(matches!(inner::class(s, t), 1 | 2) as u64),
                _ => unreachable!(),
            }
        }
        "entry" => {
            let (rule, s, a, t, b) = (i.word(), i.triangle(), i.word(), i.triangle(), i.word());
            o.value(calls::entry(rule, s, a, t, b))
        }
        _ => {
            let (rule, s, t) = (i.word(), i.triangle(), i.triangle());
            match name(kind) {
                "coupling" => o.value(calls::coupling(rule, s, t)),
                "coupling_regular" => o.value(calls::coupling_regular(rule, s, t)),
                "block" => match calls::block(rule, s, t) {
                    Ok(block) => o.word(0).results(block.as_flattened()),
                    Err(number) => o.refusal(number, 9),
                },
                "steps" => steps(rule, s, t, o),
                _ => unreachable!(),
            }
        }
    }
}

/// The numbers on the way to a coupling.
fn steps(rule: u64, s: Triangle, t: Triangle, o: Out) -> Out {
    let Some(kind) = inner::kind(rule) else {
        return o.refusal(12, 11);
    };
    let panel = inner::Panel::new(s);
    o.word(0)
        .word(inner::class(s, t))
        .result(inner::box_distance_squared(s, t))
        .result(inner::panel_distance_squared(s, t))
        .result(inner::max_edge_squared(s))
        .result(inner::max_edge_squared(t))
        .result(calls::coupling_regular(rule, s, t).unwrap())
        .result(calls::coupling_regular(rule, t, s).unwrap())
        .result(inner::far_symmetric(s, t, kind))
        .results(&[0, 1, 2].map(|depth| panel.near(t, depth)))
}

/// Document 01's calls on meshes, matrices, maps and files.
fn call(kind: u32, i: &mut In, o: Out) -> Out {
    let columns = |o: Out, v: &[Vec<f64>]| o.results(&v.concat());
    match name(kind) {
        "mesh_test" => match calls::mesh_test(&i.mesh()) {
            Ok(poor) => o.word(0).word(poor),
            Err(number) => o.refusal(number, 1),
        },
        "quadrature" => {
            let (rule, mesh) = (i.word(), i.mesh());
            o.buffers(calls::quadrature(rule, &mesh, i.lengths()), |o, v| columns(o, &v))
        }
        "densities" => {
            let (mesh, values) = (i.mesh(), i.numbers());
            o.buffers(calls::densities(&mesh, &values, i.lengths()), |o, v| columns(o, &v))
        }
        "matrix" => {
            let (rule, mesh) = (i.word(), i.mesh());
            o.buffers(calls::matrix(rule, &mesh, i.size()), |o, v| o.results(&v))
        }
        "energy2" => {
            let (matrix, s, t) = (i.numbers(), i.numbers(), i.numbers());
            o.value(calls::energy2(&matrix, &s, &t))
        }
        "energy1" => {
            let (matrix, s) = (i.numbers(), i.numbers());
            o.value(calls::energy1(&matrix, &s))
        }
        "flux" => {
            let (map, coefficients) = (i.numbers(), i.numbers());
            o.buffers(calls::flux(&map, &coefficients, i.size()), |o, v| o.results(&v))
        }
        "interaction" => {
            let (map, values, coefficients) = (i.numbers(), i.numbers(), i.numbers());
            o.value(calls::interaction(&map, &values, &coefficients))
        }
        "move" => {
            let (rule, mesh, matrix) = (i.word(), i.mesh(), i.numbers());
            moved(o, calls::move_node(rule, &mesh, &matrix, i.size(), i.vector()))
        }
        "save_shape" => {
            let (mesh, store) = (i.mesh(), i.store());
            o.buffers(shapes::save_shape(&mesh, &store, i.name()), |o, s| {
                columns(o.bytes(&s.marks).bytes(&s.names), &[s.x, s.y, s.z])
            })
        }
        "drop_shape" => {
            let (mesh, store) = (i.mesh(), i.store());
            o.buffers(shapes::drop_shape(&mesh, &store, i.name()), |o, marks| o.bytes(&marks))
        }
        "return_shape" => {
            let (rule, mesh, matrix, store) = (i.word(), i.mesh(), i.numbers(), i.store());
            moved(o, shapes::return_shape(rule, &mesh, &matrix, &store, i.name()))
        }
        "row_matrix" => row(o, calls::row_matrix(i.size(), i.size(), i.size())),
        "row_map" => row(o, calls::row_map(i.size(), i.size(), i.size())),
        "read_file" => {
            let bytes = i.bytes();
            o.buffers(calls::read_file(&bytes, i.lengths()), |o, mesh| o.columns(&mesh))
        }
        "write_file" => {
            let mesh = i.mesh();
            o.buffers(calls::write_file(&mesh, i.size()), |o, file| o.bytes(&file))
        }
        "density_program" => o.bytes(&calls::density_program(&i.bytes())),
        "display" => match calls::display(i.number()) {
            Ok(value) => o.word(0).word(value as u64),
            Err(number) => o.refusal(number, 1),
        },
        _ => unreachable!(),
    }
}

/// Count, matrix and columns of a move or a return.
fn moved(o: Out, answer: Result<calls::Moved, u32>) -> Out {
    match answer {
        Ok(v) => {
            let nodes = o.word(0).word(v.count).results(&v.matrix);
            nodes.results(&v.mesh.x).results(&v.mesh.y).results(&v.mesh.z)
        }
        Err(number) => o.refusal(number, 1),
    }
}

fn row(o: Out, answer: Result<(usize, usize), u32>) -> Out {
    match answer {
        Ok((offset, length)) => o.word(0).size(offset).size(length),
        Err(number) => o.refusal(number, 2),
    }
}
