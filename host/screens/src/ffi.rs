//! The functions of the static library and the one place of this crate that is not safe Rust.
//!
//! `bind!` declares a function of the library from its parameters and makes the safe function that calls it. What each
//! parameter is in C:
//!
//! | here | in C |
//! |---|---|
//! | `number` | a `double` |
//! | `vector`, `triangle` | a pointer to three or nine `double` |
//! | `choice`, `size` | a `uint32_t`, a `size_t` |
//! | `&[T]`, `&mut [T]` | a pointer and a length |
//! | `&[T; N]`, `&mut [T; N]`, `&mut T` | a pointer to N elements, to one |

// The library's `usize` has 64 bits.
const _: () = assert!(size_of::<usize>() == 8);

macro_rules! bind {
    // One function: its parameters are taken one by one into the safe form, the C form and the arguments of the call.
    (@ $name:ident $symbol:ident $result:ty; [$($safe:tt)*] [$($raw:tt)*] [$($arg:tt)*]) => {
        #[inline]
        #[allow(clippy::too_many_arguments)]
        pub(crate) fn $name($($safe)*) -> $result {
            unsafe extern "C" {
                fn $symbol($($raw)*) -> $result;
            }
            // SAFETY: the library's functions are proved to end, and to read and write only what they are lent, on every
            // input. What they ask of the caller holds for references: pointers are aligned and not null, also those of
            // empty slices; each is good for its length; and what is written is lent to nobody else. Three rows of three
            // numbers lie in memory as nine.
            unsafe { $symbol($($arg)*) }
        }
    };
    (@ $n:ident $s:ident $r:ty; [$($safe:tt)*] [$($raw:tt)*] [$($arg:tt)*] $p:ident: number $(, $($rest:tt)*)?) => {
        bind!(@ $n $s $r; [$($safe)* $p: f64,] [$($raw)* $p: f64,] [$($arg)* $p,] $($($rest)*)?);
    };
    (@ $n:ident $s:ident $r:ty; [$($safe:tt)*] [$($raw:tt)*] [$($arg:tt)*] $p:ident: choice $(, $($rest:tt)*)?) => {
        bind!(@ $n $s $r; [$($safe)* $p: u32,] [$($raw)* $p: u32,] [$($arg)* $p,] $($($rest)*)?);
    };
    (@ $n:ident $s:ident $r:ty; [$($safe:tt)*] [$($raw:tt)*] [$($arg:tt)*] $p:ident: size $(, $($rest:tt)*)?) => {
        bind!(@ $n $s $r; [$($safe)* $p: usize,] [$($raw)* $p: usize,] [$($arg)* $p,] $($($rest)*)?);
    };
    (@ $n:ident $s:ident $r:ty; [$($safe:tt)*] [$($raw:tt)*] [$($arg:tt)*] $p:ident: vector $(, $($rest:tt)*)?) => {
        bind!(@ $n $s $r; [$($safe)* $p: [f64; 3],] [$($raw)* _: &[f64; 3],] [$($arg)* &$p,] $($($rest)*)?);
    };
    (@ $n:ident $s:ident $r:ty; [$($safe:tt)*] [$($raw:tt)*] [$($arg:tt)*] $p:ident: triangle $(, $($rest:tt)*)?) => {
        bind!(@ $n $s $r; [$($safe)* $p: [[f64; 3]; 3],] [$($raw)* _: &[[f64; 3]; 3],] [$($arg)* &$p,] $($($rest)*)?);
    };
    (@ $n:ident $s:ident $r:ty; [$($safe:tt)*] [$($raw:tt)*] [$($arg:tt)*] $p:ident: &[$t:ty; $k:literal] $(, $($rest:tt)*)?) => {
        bind!(@ $n $s $r; [$($safe)* $p: &[$t; $k],] [$($raw)* _: &[$t; $k],] [$($arg)* $p,] $($($rest)*)?);
    };
    (@ $n:ident $s:ident $r:ty; [$($safe:tt)*] [$($raw:tt)*] [$($arg:tt)*] $p:ident: &mut [$t:ty; $k:literal] $(, $($rest:tt)*)?) => {
        bind!(@ $n $s $r; [$($safe)* $p: &mut [$t; $k],] [$($raw)* _: &mut [$t; $k],] [$($arg)* $p,] $($($rest)*)?);
    };
    (@ $n:ident $s:ident $r:ty; [$($safe:tt)*] [$($raw:tt)*] [$($arg:tt)*] $p:ident: &[$t:ty] $(, $($rest:tt)*)?) => {
        bind!(@ $n $s $r; [$($safe)* $p: &[$t],] [$($raw)* _: *const $t, _: usize,]
            [$($arg)* $p.as_ptr(), $p.len(),] $($($rest)*)?);
    };
    (@ $n:ident $s:ident $r:ty; [$($safe:tt)*] [$($raw:tt)*] [$($arg:tt)*] $p:ident: &mut [$t:ty] $(, $($rest:tt)*)?) => {
        bind!(@ $n $s $r; [$($safe)* $p: &mut [$t],] [$($raw)* _: *mut $t, _: usize,]
            [$($arg)* $p.as_mut_ptr(), $p.len(),] $($($rest)*)?);
    };
    (@ $n:ident $s:ident $r:ty; [$($safe:tt)*] [$($raw:tt)*] [$($arg:tt)*] $p:ident: &mut $t:ident $(, $($rest:tt)*)?) => {
        bind!(@ $n $s $r; [$($safe)* $p: &mut $t,] [$($raw)* _: *mut $t,] [$($arg)* $p,] $($($rest)*)?);
    };
    ($($name:ident = $symbol:ident($($parameters:tt)*) -> $result:ty;)*) => {
        $(bind!(@ $name $symbol $result; [] [] [] $($parameters)*);)*
    };
}

// Arithmetic and vectors.
bind! {
    mul_add = screens_mul_add(a: number, b: number, c: number) -> f64;
    square_add = screens_square_add(a: number, c: number) -> f64;
    sqrt = screens_sqrt(x: number) -> f64;
    min = screens_min(a: number, b: number) -> f64;
    max = screens_max(a: number, b: number) -> f64;
    clamp = screens_clamp(x: number, low: number, high: number) -> f64;
    abs = screens_abs(x: number) -> f64;
    ln = screens_ln(x: number) -> f64;
    asinh = screens_asinh(x: number) -> f64;
    atan2 = screens_atan2(y: number, x: number) -> f64;
    dot3 = screens_dot3(a: vector, b: vector) -> f64;
    norm3 = screens_norm3(a: vector) -> f64;
    cross3 = screens_cross3(a: vector, b: vector, out: &mut [f64; 3]) -> ();
    sub3 = screens_sub3(a: vector, b: vector, out: &mut [f64; 3]) -> ();
    add3 = screens_add3(a: vector, b: vector, out: &mut [f64; 3]) -> ();
    scale3 = screens_scale3(a: vector, scale: number, out: &mut [f64; 3]) -> ();
    add_scaled3 = screens_add_scaled3(a: vector, b: vector, scale: number, out: &mut [f64; 3]) -> ();
    normalize3 = screens_normalize3(a: vector, out: &mut [f64; 3]) -> ();
}

// One panel.
bind! {
    area = screens_area(t: triangle) -> f64;
    quality = screens_quality(t: triangle) -> f64;
    normal = screens_normal(t: triangle, out: &mut [f64; 3]) -> ();
    map_point = screens_map_point(t: triangle, u: number, v: number, out: &mut [f64; 3]) -> ();
    closest_point = screens_closest_point(point: vector, t: triangle, out: &mut [f64; 3]) -> ();
    record = screens_record(t: triangle, out: &mut [f64; 34]) -> ();
    potential = screens_potential(t: triangle, point: vector) -> f64;
    gradient = screens_gradient(t: triangle, point: vector, out: &mut [f64; 3]) -> ();
    contact = screens_contact(t: triangle, point: vector) -> bool;
    basis_current_densities = screens_basis_current_densities(t: triangle, out: &mut [f64; 9]) -> ();
    current_density = screens_current_density(t: triangle, s: vector, out: &mut [f64; 3]) -> ();
    longest_edge_bisection = screens_longest_edge_bisection(t: triangle, out: &mut [f64; 18]) -> ();
    max_edge_squared = screens_triangle_max_edge_squared(t: triangle) -> f64;
}

// Two panels.
bind! {
    triangles_identical = screens_triangles_identical(s: triangle, t: triangle) -> bool;
    aabb_distance_squared = screens_triangle_aabb_distance_squared(s: triangle, t: triangle) -> f64;
    distance_squared = screens_triangle_distance_squared(s: triangle, t: triangle) -> f64;
    is_far = screens_is_far(s: triangle, t: triangle) -> bool;
    coupling = screens_coupling(rule: choice, s: triangle, t: triangle, value: &mut f64) -> u32;
    coupling_regular = screens_coupling_regular(rule: choice, s: triangle, t: triangle, value: &mut f64) -> u32;
    mutual_inductance_block =
        screens_mutual_inductance_block(rule: choice, s: triangle, t: triangle, out: &mut [f64; 9]) -> u32;
    mutual_inductance = screens_mutual_inductance(
        rule: choice, s: triangle, i: size, t: triangle, j: size, value: &mut f64) -> u32;
    inductance_from_potentials = screens_inductance_from_potentials(block: triangle, s: vector, t: vector) -> f64;
}

// Meshes, matrices and maps.
bind! {
    mesh_test = screens_mesh_test(
        x: &[f64], y: &[f64], z: &[f64], t0: &[usize], t1: &[usize], t2: &[usize], poor: &mut usize) -> u32;
    mesh_current_density = screens_mesh_current_density(
        x: &[f64], y: &[f64], z: &[f64], t0: &[usize], t1: &[usize], t2: &[usize],
        s: &[f64], jx: &mut [f64], jy: &mut [f64], jz: &mut [f64]) -> u32;
    mesh_quadrature_points = screens_mesh_quadrature_points(
        rule: choice, x: &[f64], y: &[f64], z: &[f64], t0: &[usize], t1: &[usize], t2: &[usize],
        px: &mut [f64], py: &mut [f64], pz: &mut [f64], weights: &mut [f64]) -> u32;
    mesh_inductance_matrix = screens_mesh_inductance_matrix(
        rule: choice, x: &[f64], y: &[f64], z: &[f64], t0: &[usize], t1: &[usize], t2: &[usize],
        out: &mut [f64]) -> u32;
    move_node = screens_move_node(
        rule: choice, x: &mut [f64], y: &mut [f64], z: &mut [f64], t0: &[usize], t1: &[usize], t2: &[usize],
        matrix: &mut [f64], node: size, px: number, py: number, pz: number, count: &mut usize) -> u32;
    save_shape = screens_save_shape(
        x: &[f64], y: &[f64], z: &[f64], t0: &[usize], t1: &[usize], t2: &[usize],
        marks: &mut [u8], names: &mut [u8], sx: &mut [f64], sy: &mut [f64], sz: &mut [f64], name: &[u8; 8]) -> u32;
    drop_shape = screens_drop_shape(
        x: &[f64], y: &[f64], z: &[f64], t0: &[usize], t1: &[usize], t2: &[usize],
        marks: &mut [u8], names: &[u8], sx: &[f64], sy: &[f64], sz: &[f64], name: &[u8; 8]) -> u32;
    return_shape = screens_return_shape(
        rule: choice, x: &mut [f64], y: &mut [f64], z: &mut [f64], t0: &[usize], t1: &[usize], t2: &[usize],
        matrix: &mut [f64], marks: &[u8], names: &[u8], sx: &[f64], sy: &[f64], sz: &[f64], name: &[u8; 8],
        count: &mut usize) -> u32;
    mesh_inductance_from_potentials = screens_mesh_inductance_from_potentials(
        matrix: &[f64], s: &[f64], t: &[f64], value: &mut f64) -> u32;
    mesh_inductive_energy = screens_mesh_inductive_energy(matrix: &[f64], s: &[f64], value: &mut f64) -> u32;
    mesh_flux_linkage = screens_mesh_flux_linkage(map: &[f64], coefficients: &[f64], out: &mut [f64]) -> u32;
    mesh_interaction_energy = screens_mesh_interaction_energy(
        map: &[f64], values: &[f64], coefficients: &[f64], value: &mut f64) -> u32;
    matrix_row = screens_matrix_row(
        matrix: &[f64], n: size, node: size, offset: &mut usize, count: &mut usize) -> u32;
    map_row = screens_map_row(
        map: &[f64], sources: size, node: size, offset: &mut usize, count: &mut usize) -> u32;
}

// Files and display.
bind! {
    read_panel_file = screens_read_panel_file(
        file: &[u8], x: &mut [f64], y: &mut [f64], z: &mut [f64],
        t0: &mut [usize], t1: &mut [usize], t2: &mut [usize]) -> u32;
    write_panel_file = screens_write_panel_file(
        x: &[f64], y: &[f64], z: &[f64], t0: &[usize], t1: &[usize], t2: &[usize], file: &mut [u8]) -> u32;
    display = screens_display(x: number, value: &mut i64) -> u32;
}
