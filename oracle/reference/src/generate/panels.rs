//! Points, triangles and pairs of triangles.
use super::numbers::{any_number, power_of_two, ulps};
use crate::inner::{self, Triangle};
use crate::rng::Rng;
use cfsem::mesh::probe_triangle3d::probe as mesh_probe;

/// How coordinates are drawn.
#[derive(Clone, Copy)]
pub enum Style {
    Grid,
    Half,
    Uniform,
    Tiny,
    /// Thin along the first axis.
    Sliver,
    Special,
    PowersOfTwo,
    /// Squares overflow or vanish.
    AnySize,
    /// Tenths up to a thousand: the fused cross product of equal vectors can exceed 1e-14.
    Tenths,
}

pub fn style(r: &mut Rng) -> Style {
    match r.below(14) {
        0..3 => Style::Grid,
        3..5 => Style::Half,
        5..8 => Style::Uniform,
        8 => Style::Tiny,
        9 => Style::Sliver,
        10 => Style::Special,
        11 => Style::PowersOfTwo,
        12 => Style::AnySize,
        _ => Style::Tenths,
    }
}

fn coordinate(r: &mut Rng, s: Style, axis: usize) -> f64 {
    match s {
        Style::Grid => r.range(0, 3) as f64,
        Style::Half => r.range(-3, 3) as f64 * 0.5,
        Style::Uniform => r.signed(),
        Style::Tiny => r.signed() * 3e-7,
        Style::Sliver if axis == 0 => r.unit() * 2.0,
        Style::Sliver => r.signed() * 4e-14,
        Style::Special if r.one_in(4) => any_number(r),
        Style::Special => r.range(0, 3) as f64,
        Style::PowersOfTwo => r.range(-2, 2) as f64 * power_of_two(r.range(-4, 4)),
        Style::AnySize => {
            let exponent = r.pick(&[0, 30, 200, 260, 500, 511, 512, -30, -200, -260, -500, -530]);
            r.signed() * power_of_two(exponent)
        }
        Style::Tenths => (r.signed() * 1e4).round() / 10.0,
    }
}

pub fn point(r: &mut Rng, s: Style) -> [f64; 3] {
    std::array::from_fn(|axis| coordinate(r, s, axis))
}

const UNIT: Triangle = [[0.0, 0.0, 0.0], [1.0, 0.0, 0.0], [0.0, 1.0, 0.0]];
const THREE_FOUR_FIVE: Triangle = [[0.0, 0.0, 0.0], [3.0, 0.0, 0.0], [0.0, 4.0, 0.0]];

/// Any three points; sometimes at one height, with a repeated corner, or on one line.
pub fn triangle(r: &mut Rng, s: Style) -> Triangle {
    let [a, b, c] = [point(r, s), point(r, s), point(r, s)];
    match r.below(12) {
        0 => [a, [b[0], b[1], a[2]], [c[0], c[1], a[2]]],
        1 => [a, b, a],
        2 => [a, b, std::array::from_fn(|k| 0.5 * (a[k] + b[k]))],
        3 => THREE_FOUR_FIVE,
        4 => UNIT,
        _ => [a, b, c],
    }
}

/// A point related to a triangle: corners, edges, inside, on an edge's line, in the plane, just above, or anything.
pub fn point_near(r: &mut Rng, t: Triangle, s: Style) -> [f64; 3] {
    let at = |u: f64, v: f64| std::array::from_fn(|k| t[0][k] * (1.0 - u - v) + t[1][k] * u + t[2][k] * v);
    let quarter = |r: &mut Rng| r.range(-4, 8) as f64 / 4.0;
    match r.below(10) {
        0 => t[r.index(3)],
        1 => {
            let along = quarter(r);
            let (u, v) = r.pick(&[(along, 0.0), (0.0, along), (along, 1.0 - along)]);
            at(u, v)
        }
        2 => at(quarter(r), quarter(r)),
        3 => at(r.unit(), r.unit()),
        4 => {
            let (mut p, k) = (t[r.index(3)], r.index(3));
            p[k] = ulps(p[k], r.range(-3, 3));
            p
        }
        5 => {
            let u = r.unit();
            let mut p: [f64; 3] = at(u, r.unit() * (1.0 - u));
            p[2] += r.pick(&[1e-16, 1e-15, 1e-14, 2.842170943040401e-14, 1e-12, 1e-8, -1e-14]);
            p
        }
        6 => point(r, Style::Special),
        _ => point(r, s),
    }
}

fn shift(t: Triangle, v: [f64; 3]) -> Triangle {
    t.map(|p| [p[0] + v[0], p[1] + v[1], p[2] + v[2]])
}

fn scaled(t: Triangle, factor: f64) -> Triangle {
    t.map(|p| p.map(|x| x * factor))
}

/// The numbers between two positive ones where `test` changes from true to false, by bisection over bit patterns: the
/// last true one and a few places beside it.
fn where_it_ends(r: &mut Rng, low: f64, high: f64, test: impl Fn(f64) -> bool) -> f64 {
    let (mut low, mut high) = (low.to_bits(), high.to_bits());
    while high - low > 1 {
        let middle = low + (high - low) / 2;
        if test(f64::from_bits(middle)) {
            low = middle
        } else {
            high = middle
        }
    }
    f64::from_bits(low.saturating_add_signed(r.range(-2, 3)))
}

/// A triangle whose quality lies on the limit 1e-3, or a few places beside it.
pub fn quality_edge(r: &mut Rng) -> Triangle {
    let x = r.unit();
    let with_height = |h: f64| [[0.0, 0.0, 0.0], [1.0, 0.0, 0.0], [x, h, 0.0]];
    with_height(where_it_ends(r, 1e-5, 1e-2, |h| {
        mesh_probe::quality(with_height(h)) < 1e-3
    }))
}

/// A triangle whose area lies on the limit 1e-14, or a few places beside it.
pub fn area_edge(r: &mut Rng) -> Triangle {
    let (base, x, up) = (0.25 + 4.0 * r.unit(), r.signed(), r.pick(&[0.0, 0.5, -3.0]));
    let with_height = |h: f64| [[0.0, 0.0, 0.0], [base, 0.0, 0.0], [x, h, up * h]];
    with_height(where_it_ends(r, 1e-15, 1e-12, |h| {
        mesh_probe::area(with_height(h)) < 1e-14
    }))
}

/// Two panels: identical and nearly so, sharing corners, near and far, and on the limits between them.
pub fn pair(r: &mut Rng) -> (Triangle, Triangle) {
    let s = style(r);
    let a = triangle(r, s);
    match r.below(15) {
        0 => (a, a),
        1 => {
            let order = r.pick(&[[1, 2, 0], [2, 0, 1], [0, 2, 1], [2, 1, 0], [1, 0, 2]]);
            (a, order.map(|k: usize| a[k]))
        }
        2 => {
            // around the identity tolerance
            let mut b = a;
            let d = r.pick(&[9e-13, 9.99999e-13, 1e-12, 1.00001e-12, 1.1e-12, 5e-13, 7.1e-13]);
            for p in &mut b {
                p[r.index(3)] += d;
            }
            if r.one_in(3) {
                b.swap(0, 2);
            }
            (a, b)
        }
        3 => {
            let b = triangle(r, s);
            let shared_edge = if r.one_in(2) {
                [b[0], a[2], a[1]]
            } else {
                [a[1], a[0], b[2]]
            };
            (a, shared_edge)
        }
        4 => {
            let mut shared_corner = triangle(r, s);
            shared_corner[r.index(3)] = a[r.index(3)];
            (a, shared_corner)
        }
        5 => raised_pair(r),
        6 | 7 => pair_on_the_limit(r),
        8 => {
            let flat = |t: Triangle| t.map(|p| [p[0], p[1], a[0][2]]);
            let b = flat(triangle(r, s));
            (flat(a), shift(b, [r.range(0, 3) as f64, 0.0, 0.0]))
        }
        9 => {
            let whole = std::array::from_fn(|_| r.range(-4, 4) as f64);
            (a, shift(a, whole))
        }
        10 => {
            let other = style(r);
            (a, triangle(r, other))
        }
        11 => {
            let mut b = triangle(r, s);
            b[r.index(3)][r.index(3)] = any_number(r);
            (a, b)
        }
        12 => tiny_pair(r),
        _ => {
            let away = std::array::from_fn(|_| r.signed() * 6.0);
            let b = triangle(r, s);
            (a, shift(b, away))
        }
    }
}

/// Panels smaller than the identity tolerance: the identity test decides.
fn tiny_pair(r: &mut Rng) -> (Triangle, Triangle) {
    let factor = power_of_two(r.range(-46, -39));
    let t: Triangle = r.pick(&[
        UNIT,
        [[0.0, 0.0, 0.0], [1.0, 0.0, 0.0], [0.3, 0.9, 0.4]],
        [[0.0; 3]; 3],
        [[0.0, 0.0, 0.0], [0.0, 0.0, 0.0], [0.0, 1.0, 0.0]],
    ]);
    match r.below(4) {
        0 => {
            // Identical one way only: corners on both sides of the tolerance.
            let within = r.pick(&[9e-13, 9.5e-13, 9.9e-13]);
            let beyond = r.pick(&[1.03e-12, 1.06e-12, 1.1e-12]);
            let beside = r.pick(&[1e-13, 3e-14]);
            let small = scaled(t, power_of_two(-46));
            let wide = [[within, 0.0, 0.0], [beyond, 0.0, 0.0], [within, beside, 0.0]];
            if r.one_in(2) { (small, wide) } else { (wide, small) }
        }
        1 => {
            let d = r.pick(&[1e-12, 9.999999999999998e-13, 1.0000000000000002e-12]);
            (scaled(t, factor), shift(scaled(t, factor), [d, 0.0, 0.0]))
        }
        k => {
            let other = if r.one_in(2) { t } else { triangle(r, Style::Half) };
            let mut away = [0.0; 3];
            away[r.index(3)] = r.pick(&[1.5, 2.0, 3.0, 4.0, 6.0, 8.0]);
            let (a, b) = (scaled(t, factor), scaled(shift(other, away), factor));
            if k == 2 { (a, b) } else { (b, a) }
        }
    }
}

/// A panel against itself raised by about its longest edge, which is a whole number: equal squares decide near or far.
fn raised_pair(r: &mut Rng) -> (Triangle, Triangle) {
    let base: Triangle = r.pick(&[
        THREE_FOUR_FIVE,
        [[0.0, 0.0, 0.0], [5.0, 0.0, 0.0], [0.0, 12.0, 0.0]],
        [[1.0, 1.0, 0.0], [9.0, 1.0, 0.0], [1.0, 16.0, 0.0]],
        [[0.0, 0.0, 0.0], [1.0, 0.0, 0.0], [0.0, 0.75, 0.0]],
    ]);
    let base = scaled(base, power_of_two(r.range(-18, 6)));
    let edge = inner::max_edge_squared(base).sqrt();
    let raised = shift(base, [0.0, 0.0, ulps(edge, r.range(-2, 2))]);
    let axis = r.index(3);
    let turned = |t: Triangle| {
        t.map(|mut p| {
            p.rotate_right(axis);
            p
        })
    };
    (turned(base), turned(raised))
}

/// The second panel stands where, along some direction, near turns into far.
fn pair_on_the_limit(r: &mut Rng) -> (Triangle, Triangle) {
    let s = r.pick(&[Style::Grid, Style::Half, Style::Uniform, Style::Tiny]);
    let (a, b) = (triangle(r, s), triangle(r, s));
    let direction = match r.below(3) {
        0 => r.pick(&[[1.0, 0.0, 0.0], [0.0, 1.0, 0.0], [0.0, 0.0, 1.0]]),
        1 => [r.range(-1, 1) as f64, r.range(-1, 1) as f64, 1.0],
        _ => [r.signed(), r.signed(), r.signed()],
    };
    let moved = |d: f64| shift(b, direction.map(|x| x * d));
    let near = |d: f64| matches!(inner::class(a, moved(d)), 0 | 3);
    if near(64.0) {
        return (a, moved(1.0));
    }
    (a, moved(where_it_ends(r, 0.0, 64.0, near)))
}

pub fn any_point(r: &mut Rng) -> [f64; 3] {
    let s = style(r);
    if r.one_in(4) {
        std::array::from_fn(|_| any_number(r))
    } else {
        point(r, s)
    }
}

/// Two points; the second is often the first, its negation or a neighbour, so that sums and differences cancel.
pub fn two_points(r: &mut Rng) -> ([f64; 3], [f64; 3]) {
    let a = any_point(r);
    let b = match r.below(6) {
        0 => a,
        1 => a.map(|x| -x),
        2 => a.map(|x| ulps(x, r.range(-2, 2))),
        _ => any_point(r),
    };
    (a, b)
}

pub fn factor(r: &mut Rng) -> f64 {
    match r.below(4) {
        0 => any_number(r),
        1 => r.pick(&[0.0, -0.0, 1.0, -1.0, 0.5, f64::INFINITY, f64::NAN]),
        2 => power_of_two(r.range(-1074, 1023)),
        _ => r.signed(),
    }
}

/// a, b and a scale for a + scale * b: sums that cancel up to the rounding of the product, and any.
pub fn scaled_sum(r: &mut Rng) -> ([f64; 3], [f64; 3], f64) {
    let (b, scale) = (any_point(r), factor(r));
    let a = match r.below(3) {
        0 => b.map(|x| ulps(-(scale * x), r.range(-2, 2))),
        1 => b.map(|x| scale * x * power_of_two(r.range(-60, 60))),
        _ => any_point(r),
    };
    (a, b, scale)
}

/// Any triangle, or one whose area lies around 1e-14.
pub fn thin(r: &mut Rng) -> Triangle {
    let s = style(r);
    if r.one_in(4) {
        let height = 2e-14 * (1.0 + r.range(-4, 4) as f64 * 1.2e-16);
        return [[0.0, 0.0, 0.0], [1.0, 0.0, 0.0], [r.unit(), height, 0.0]];
    }
    triangle(r, s)
}

/// Any triangle, or one whose quality lies around 1e-3.
pub fn poor(r: &mut Rng) -> Triangle {
    if r.one_in(4) { quality_edge(r) } else { thin(r) }
}

/// Any triangle, or one with two or three equal longest edges.
pub fn with_equal_edges(r: &mut Rng) -> Triangle {
    let s = style(r);
    if r.one_in(3) {
        return r.pick(&[
            [[0.0, 0.0, 0.0], [1.0, 0.0, 0.0], [0.0, 1.0, 0.0]],
            [[0.0, 0.0, 0.0], [2.0, 0.0, 0.0], [1.0, 5.0, 0.0]],
            [[1.0, 0.0, 0.0], [0.0, 1.0, 0.0], [0.0, 0.0, 1.0]],
            [[0.0, 0.0, 0.0], [1.0, 5.0, 0.0], [2.0, 0.0, 0.0]],
        ]);
    }
    triangle(r, s)
}

/// A point of the reference triangle: its corners, edges and inside, or outside.
pub fn reference_point(r: &mut Rng) -> [f64; 2] {
    match r.below(5) {
        0 => [r.pick(&[0.0, 1.0, -0.0]), r.pick(&[0.0, 1.0, -0.0])],
        1 => {
            let u = r.unit();
            [u, ulps(1.0 - u, r.range(-1, 1))]
        }
        2 => [any_number(r), any_number(r)],
        _ => [r.unit(), r.unit()],
    }
}

/// A pair for the identity test: corners within, on and beyond the tolerance, one way and both ways.
pub fn nearly_identical(r: &mut Rng) -> (Triangle, Triangle) {
    let (a, b) = pair(r);
    match r.below(3) {
        0 => (a, b),
        1 => {
            // each corner of the second stands at a distance of about 1e-12 from a corner of the first
            let from = if r.one_in(2) { [[0.0; 3]; 3] } else { a };
            let order = r.pick(&[[0, 1, 2], [1, 2, 0], [0, 0, 0], [2, 1, 1]]);
            let near = order.map(|k: usize| {
                let mut corner = from[k];
                corner[r.index(3)] += ulps(1e-12, r.range(-2, 2)) * r.pick(&[1.0, -1.0, 0.5]);
                corner
            });
            (from, near)
        }
        _ => {
            // tolerance on a diagonal
            let mut near = [[0.0; 3]; 3];
            for corner in &mut near {
                let d = ulps(1e-12 / 2f64.sqrt(), r.range(-2, 2));
                *corner = r.pick(&[[d, d, 0.0], [0.0, d, -d], [d, 0.0, d]]);
            }
            ([[0.0; 3]; 3], near)
        }
    }
}

/// Ends of two segments: crossing, parallel, collinear, of no length, and with nearest points at the ends.
pub fn segments(r: &mut Rng) -> [[f64; 3]; 4] {
    let s = style(r);
    let (p0, p1) = (point(r, s), point(r, s));
    let (q0, q1) = (point(r, s), point(r, s));
    let along = |f: f64| std::array::from_fn(|k| p0[k] + f * (p1[k] - p0[k]));
    let beside = |p: [f64; 3], d: [f64; 3]| std::array::from_fn(|k| p[k] + d[k]);
    let quarter = |r: &mut Rng| r.range(-4, 8) as f64 / 4.0;
    match r.below(10) {
        0 => [p0, p0, q0, q1],
        1 => [p0, p1, q0, q0],
        2 => [p0, p0, q0, q0],
        3 => [p0, p1, along(quarter(r)), along(quarter(r))],
        4 => [p0, p1, beside(p0, q0), beside(p1, q0)],
        5 => [p0, p1, beside(p1, q0), beside(p0, q0)],
        6 => [p0, p1, along(quarter(r)), q1],
        7 => {
            // nearly parallel: the denominator is a rounding error, of either sign
            let shift = beside(p0, [r.signed(), 0.0, 0.0]);
            let end = std::array::from_fn(|k| shift[k] + (p1[k] - p0[k]) * (1.0 + 1e-16 * k as f64));
            [p0, p1, shift, end]
        }
        8 => {
            let (k, j) = (r.index(3), r.index(3));
            let mut ends = [p0, p1, q0, q1];
            ends[r.index(4)][k] = any_number(r);
            ends[r.index(4)][j] = any_number(r);
            ends
        }
        _ => [p0, p1, q0, q1],
    }
}
