/* Calls every function of screens.h once with a known answer, and once for each refusal that only a C caller can ask for; of
   matrix, move and return it looks at every cell of a small screen, of a written file and of a store at every byte. Prints a
   line a failed check; the exit status is 1 if there is one. */
#include "screens.h"
#include <math.h>
#include <stdio.h>
#include <string.h>

static int checks, failed;

#define CHECK(condition)                                                \
    do {                                                                \
        checks++;                                                       \
        if (!(condition)) {                                             \
            failed++;                                                   \
            printf("line %d: %s\n", __LINE__, #condition);              \
        }                                                               \
    } while (0)

#define VECTOR(x, y, z) ((const double[3]){x, y, z})

/* the panels of document 01's bench sheet */
static const double UNIT[9] = {0, 0, 0, 1, 0, 0, 0, 1, 0};
#define LARGE(z) ((const double[9]){0, 0, z, 3, 0, z, 0, 4, z})

/* a square metre of two panels */
static double x[] = {0, 1, 0, 1}, y[] = {0, 0, 1, 1}, z[] = {0, 0, 0, 0};
static const size_t t0[] = {0, 1}, t1[] = {1, 3}, t2[] = {2, 2};
#define MESH x, 4, y, 4, z, 4, t0, 2, t1, 2, t2, 2

static int is(const double *v, double a, double b, double c) {
    return v[0] == a && v[1] == b && v[2] == c;
}

static void fill(double *v, size_t n) {
    for (size_t i = 0; i < n; i++)
        v[i] = 7 + (double)i;
}

static int filled_from(const double *v, size_t from, size_t n) {
    for (size_t i = from; i < n; i++)
        if (v[i] != 7 + (double)i)
            return 0;
    return 1;
}

static int filled(const double *v, size_t n) {
    return filled_from(v, 0, n);
}

static void arithmetic(void) {
    double step = ldexp(1, -30), root;
    CHECK(screens_mul_add(1 + step, 1 - step, -1) == -ldexp(1, -60));
    CHECK(screens_square_add(3, 1) == 10);
    root = screens_sqrt(2);
    CHECK(memcmp(&root, "\xcd\x3b\x7f\x66\x9e\xa0\xf6\x3f", 8) == 0);
    CHECK(screens_sqrt(-0.0) == 0 && signbit(screens_sqrt(-0.0)));
    CHECK(screens_min(NAN, 2) == 2 && screens_max(1, NAN) == 1);
    CHECK(screens_min(1, 2) == 1 && screens_max(1, 2) == 2);
    CHECK(screens_clamp(5, 0, 1) == 1 && isnan(screens_clamp(NAN, 0, 1)));
    CHECK(screens_abs(-3) == 3);
    CHECK(screens_ln(1) == 0 && isnan(screens_ln(-1)));
    CHECK(screens_asinh(0) == 0 && screens_asinh(1) > 0.881 && screens_asinh(1) < 0.882);
    CHECK(screens_atan2(0, 1) == 0 && screens_atan2(1, 0) > 1.570 && screens_atan2(1, 0) < 1.571);
}

static void vectors(void) {
    double v[4];
    fill(v, 4);
    CHECK(screens_dot3(VECTOR(1, 2, 3), VECTOR(4, 5, 6)) == 32);
    CHECK(screens_norm3(VECTOR(0, 3, 4)) == 5);
    screens_cross3(VECTOR(1, 0, 0), VECTOR(0, 1, 0), v);
    CHECK(is(v, 0, 0, 1));
    screens_sub3(VECTOR(1, 2, 3), VECTOR(3, 2, 1), v);
    CHECK(is(v, -2, 0, 2));
    screens_add3(VECTOR(1, 2, 3), VECTOR(3, 2, 1), v);
    CHECK(is(v, 4, 4, 4));
    screens_scale3(VECTOR(1, 2, 3), 2, v);
    CHECK(is(v, 2, 4, 6));
    screens_add_scaled3(VECTOR(1, 2, 3), VECTOR(3, 2, 1), 2, v);
    CHECK(is(v, 7, 6, 5));
    screens_normalize3(VECTOR(0, 0, 2), v);
    CHECK(is(v, 0, 0, 1));
    CHECK(filled_from(v, 3, 4));
}

/* calls that write 3, 9, 18 and 34 places, in this order: none writes behind its own */
static void panels(void) {
    double v[36];
    fill(v, 36);
    CHECK(screens_area(LARGE(0)) == 6);
    CHECK(screens_quality(UNIT) > 0.8 && screens_quality(UNIT) < 0.9);
    CHECK(screens_potential(UNIT, VECTOR(0.2, 0.2, 1)) > screens_potential(UNIT, VECTOR(0.2, 0.2, 2)));
    CHECK(screens_contact(UNIT, VECTOR(0.2, 0.2, 0)) && !screens_contact(UNIT, VECTOR(0.2, 0.2, 0.1)));
    CHECK(screens_triangle_max_edge_squared(LARGE(0)) == 25);
    screens_normal(UNIT, v);
    CHECK(is(v, 0, 0, 1));
    screens_map_point(UNIT, 0.25, 0.5, v);
    CHECK(is(v, 0.25, 0.5, 0));
    screens_closest_point(VECTOR(2, -1, 5), UNIT, v);
    CHECK(is(v, 1, 0, 0));
    screens_gradient(UNIT, VECTOR(0.2, 0.2, 1), v);
    CHECK(v[2] < 0);
    screens_current_density(UNIT, VECTOR(1, 2, 4), v);
    CHECK(is(v, -3, 1, 0));
    CHECK(filled_from(v, 3, 36));
    screens_basis_current_densities(UNIT, v);
    CHECK(is(v, 1, -1, 0) && is(v + 3, 0, 1, 0) && is(v + 6, -1, 0, 0));
    CHECK(filled_from(v, 9, 36));
    screens_longest_edge_bisection(UNIT, v);
    CHECK(is(v + 3, 0.5, 0.5, 0) || is(v + 6, 0.5, 0.5, 0));
    CHECK(filled_from(v, 18, 36));
    screens_record(LARGE(0), v);
    CHECK(v[3] == 3 && v[7] == 4 && is(v + 9, 0, 0, 1) && is(v + 12, 1, 0, 0) && is(v + 21, 0, -1, 0));
    CHECK(is(v + 30, 3, 5, 4) && v[33] == 5);
    CHECK(filled_from(v, 34, 36));
}

static void pairs(void) {
    const double nine[9] = {1, 2, 3, 4, 5, 6, 7, 8, 9};
    double value, again, block[10];
    CHECK(screens_triangles_identical(UNIT, UNIT) && !screens_triangles_identical(UNIT, LARGE(0)));
    CHECK(screens_triangle_aabb_distance_squared(LARGE(0), LARGE(5)) == 25);
    CHECK(screens_triangle_distance_squared(LARGE(0), LARGE(5)) == 25);
    CHECK(!screens_is_far(LARGE(0), LARGE(5)) && screens_is_far(LARGE(0), LARGE(5.000000000000001)));
    CHECK(screens_coupling(3, UNIT, UNIT, &value) == 0 && value > 0);
    CHECK(screens_coupling_regular(3, UNIT, LARGE(9), &value) == 0 && value > 0);
    fill(block, 10);
    CHECK(screens_mutual_inductance_block(3, UNIT, LARGE(1), block) == 0 && filled_from(block, 9, 10));
    CHECK(screens_mutual_inductance(3, UNIT, 1, LARGE(1), 2, &again) == 0 && again == block[5]);
    CHECK(screens_inductance_from_potentials(nine, VECTOR(1, 0, 0), VECTOR(0, 0, 1)) == 3);
    fill(block, 10);
    for (uint32_t rule = 0; rule <= 6; rule += 6) {
        value = again = 1;
        CHECK(screens_coupling(rule, UNIT, UNIT, &value) == 12 && value == 0);
        CHECK(screens_coupling_regular(rule, UNIT, UNIT, &again) == 12 && again == 0);
        value = 1;
        CHECK(screens_mutual_inductance(rule, UNIT, 0, UNIT, 0, &value) == 12 && value == 0);
        CHECK(screens_mutual_inductance_block(rule, UNIT, UNIT, block) == 12 && filled(block, 10));
    }
    value = 1;
    CHECK(screens_mutual_inductance(3, UNIT, 0, UNIT, 3, &value) == 12 && value == 0);
}

static void meshes(void) {
    size_t poor = 9, count = 9;
    double s[] = {1, 2, 4, 8}, a[8], b[8], c[8], w[8], matrix[17], fresh[16];
    CHECK(screens_mesh_test(MESH, &poor) == 0 && poor == 0);
    poor = 9;
    CHECK(screens_mesh_test(x, 3, y, 4, z, 4, t0, 2, t1, 2, t2, 2, &poor) == 1 && poor == 0);
    CHECK(screens_mesh_test(x, 4, y, 4, z, 4, t0, 2, t1, 1, t2, 2, &poor) == 2);
    CHECK(screens_mesh_test(x, 3, y, 3, z, 3, t0, 2, t1, 2, t2, 2, &poor) == 3);
    CHECK(screens_mesh_test(x, 4, y, 4, z, 4, t0, 2, t0, 2, t2, 2, &poor) == 4);
    CHECK(screens_mesh_test(x, 0, y, 0, z, 0, t0, 0, t1, 0, t2, 0, &poor) == 0);
    CHECK(screens_mesh_current_density(MESH, s, 4, a, 2, b, 2, c, 2) == 0 && a[0] == -3 && b[0] == 1 && c[1] == 0);
    CHECK(screens_mesh_quadrature_points(3, MESH, a, 8, b, 8, c, 8, w, 8) == 0 && w[1] > 0);
    fill(a, 8);
    CHECK(screens_mesh_current_density(MESH, s, 3, a, 2, b, 2, c, 2) == 5);
    CHECK(screens_mesh_current_density(MESH, s, 4, a, 2, b, 2, c, 3) == 6);
    CHECK(screens_mesh_quadrature_points(0, MESH, a, 8, b, 8, c, 8, w, 8) == 12);
    CHECK(screens_mesh_quadrature_points(3, MESH, a, 8, b, 8, c, 8, w, 7) == 6 && filled(a, 8));
    fill(matrix, 17);
    CHECK(screens_mesh_inductance_matrix(6, MESH, matrix, 16) == 12);
    CHECK(screens_mesh_inductance_matrix(3, MESH, matrix, 17) == 6 && filled(matrix, 17));
    CHECK(screens_mesh_inductance_matrix(3, MESH, matrix, 16) == 0 && matrix[0] > 0 && matrix[16] == 23);
    CHECK(screens_move_node(0, MESH, matrix, 16, 3, 1.1, 1, 0.2, &count) == 12 && count == 0);
    CHECK(screens_move_node(3, MESH, matrix, 15, 3, 1.1, 1, 0.2, &count) == 6);
    CHECK(screens_move_node(3, MESH, matrix, 16, 4, 1.1, 1, 0.2, &count) == 13);
    CHECK(screens_move_node(3, MESH, matrix, 16, 3, 0.5, 0.5, 0, &count) == 4 && x[3] == 1 && y[3] == 1);
    CHECK(screens_move_node(3, MESH, matrix, 16, 3, 1.1, 1, 0.2, &count) == 0 && count == 15);
    CHECK(x[3] == 1.1 && y[3] == 1 && z[3] == 0.2);
    CHECK(screens_mesh_inductance_matrix(3, MESH, fresh, 16) == 0 && memcmp(matrix, fresh, sizeof fresh) == 0);
}

/* nodes (i, j, 0) for i and j below 3, node i + 3j, each square cut in two */
static double gx[9], gy[9], gz[9], cells[81], due[81];
static size_t g0[8], g1[8], g2[8];
#define GRID gx, 9, gy, 9, gz, 9, g0, 8, g1, 8, g2, 8

static void make_grid(void) {
    size_t p = 0;
    for (size_t k = 0; k < 9; k++) {
        gx[k] = (double)(k % 3);
        gy[k] = (double)(k / 3);
        gz[k] = 0;
        if (k % 3 == 2 || k / 3 == 2)
            continue;
        g0[p] = k, g1[p] = k + 1, g2[p] = k + 3, p++;
        g0[p] = k + 1, g1[p] = k + 4, g2[p] = k + 3, p++;
    }
}

static int alike(const double *a, const double *b) {
    return memcmp(a, b, sizeof *a) == 0;
}

static int symmetric(const double *m, size_t n) {
    for (size_t k = 0; k < n * n; k++)
        if (!alike(m + k, m + k % n * n + k / n))
            return 0;
    return 1;
}

/* the two cells of a shared edge */
static void mirrors(void) {
    const char *bits = "\xe8\x1f\x4d\xf4\xfc\x44\x81\xbe";
    make_grid();
    for (uint32_t rule = 1; rule <= 5; rule++) {
        CHECK(screens_mesh_inductance_matrix(rule, GRID, cells, 81) == 0 && symmetric(cells, 9));
        CHECK(memcmp(cells + 1 * 9 + 4, bits, 8) == 0 && memcmp(cells + 4 * 9 + 1, bits, 8) == 0);
    }
}

/* whether a panel of node v has node k */
static int in_ring(size_t v, size_t k) {
    for (size_t p = 0; p < 8; p++)
        if ((g0[p] == v || g1[p] == v || g2[p] == v) && (g0[p] == k || g1[p] == k || g2[p] == k))
            return 1;
    return 0;
}

static uint32_t move_grid(size_t v, double *matrix, size_t *count) {
    return screens_move_node(2, GRID, matrix, 81, v, gx[v] + 0.1, gy[v] - 0.2, gz[v] + 0.3, count);
}

/* moves on any numbers: named cells are renewed, each other keeps its own number */
static void moves_on_any_numbers(void) {
    for (size_t v = 0; v < 9; v++) {
        size_t count = 0, r = 0;
        make_grid();
        fill(cells, 81);
        for (size_t k = 0; k < 9; k++)
            r += (size_t)in_ring(v, k);
        CHECK(move_grid(v, cells, &count) == 0 && count == 2 * 9 * r - r * r);
        CHECK(screens_mesh_inductance_matrix(2, GRID, due, 81) == 0);
        for (size_t k = 0; k < 81; k++) {
            size_t a = k / 9, b = k % 9;
            if (in_ring(v, a) || in_ring(v, b))
                CHECK(alike(cells + k, due + k) && alike(cells + k, cells + b * 9 + a));
            else
                CHECK(cells[k] == 7 + (double)k);
        }
    }
}

static void moves_keep_symmetry(void) {
    size_t count;
    for (size_t v = 0; v < 9; v++) {
        make_grid();
        for (size_t k = 0; k < 81; k++)
            cells[k] = 7 + (double)(k / 9 + k % 9) + (double)(k / 9 * (k % 9));
        CHECK(move_grid(v, cells, &count) == 0 && symmetric(cells, 9));
    }
    CHECK(screens_mesh_inductance_matrix(2, GRID, cells, 81) == 0);
    for (size_t k = 0; k < 60; k++) {
        size_t v = 5 * k % 9;
        double px = gx[v] + 0.05 * (double)(k % 3) - 0.05, py = gy[v] + 0.04 * (double)(k % 5) - 0.08;
        CHECK(screens_move_node(2, GRID, cells, 81, v, px, py, gz[v] + 0.01, &count) == 0 && symmetric(cells, 9));
    }
    CHECK(screens_mesh_inductance_matrix(2, GRID, due, 81) == 0 && memcmp(cells, due, sizeof due) == 0);
}

/* the grid's store, one element longer than it is, and all that the calls are lent in one place to be compared */
typedef struct {
    double x[9], y[9], z[9], cells[82], sx[73], sy[73], sz[73];
    size_t g0[8], g1[8], g2[8];
    uint8_t marks[9], names[65];
} Lent;
static Lent now, was;
#define LENT_MESH now.x, 9, now.y, 9, now.z, 9, now.g0, 8, now.g1, 8, now.g2, 8
#define LENT_STORE now.marks, 8, now.names, 64, now.sx, 72, now.sy, 72, now.sz, 72
#define NAME(text) ((const uint8_t *)(text))

/* the grid, its matrix under rule 2, and a store of free places */
static void lend(void) {
    memset(&now, 0, sizeof now);
    make_grid();
    memcpy(now.x, gx, sizeof gx), memcpy(now.y, gy, sizeof gy), memcpy(now.z, gz, sizeof gz);
    memcpy(now.g0, g0, sizeof g0), memcpy(now.g1, g1, sizeof g1), memcpy(now.g2, g2, sizeof g2);
    CHECK(screens_mesh_inductance_matrix(2, LENT_MESH, now.cells, 81) == 0);
    fill(now.sx, 73), fill(now.sy, 73), fill(now.sz, 73);
    memset(now.names, '.', 65);
    now.marks[8] = 77, now.cells[81] = 77;
}

static int as_it_was(void) {
    return memcmp(&now, &was, sizeof now) == 0;
}

/* what a save or a return has to leave, by hand, in what was */
static void copy_shape(size_t place) {
    memcpy(was.sx + 9 * place, now.x, sizeof gx);
    memcpy(was.sy + 9 * place, now.y, sizeof gy);
    memcpy(was.sz + 9 * place, now.z, sizeof gz);
}

static void name_place(size_t place, uint8_t mark, const char *name) {
    was.marks[place] = mark;
    memcpy(was.names + 8 * place, name, 8);
}

#define SAVE(name) screens_save_shape(LENT_MESH, LENT_STORE, NAME(name))
#define DROP(name) screens_drop_shape(LENT_MESH, LENT_STORE, NAME(name))
#define RETURN(rule, name, count) screens_return_shape(rule, LENT_MESH, now.cells, 81, LENT_STORE, NAME(name), count)

/* each is in bits what the request's words give: no other byte of what is lent is written */
static void shapes_saved_and_dropped(void) {
    static const char *const names[] = {
        "as cast", "bent\0\0\0", "c\0c\0c\0c", "d      ", "e      ", "f      ", "g      ", "h      "};
    lend();
    for (size_t p = 0; p < 8; p++) {
        now.z[p] += 0.25;
        was = now;
        name_place(p, 1, names[p]), copy_shape(p);
        CHECK(SAVE(names[p]) == 0 && as_it_was());
    }
    CHECK(SAVE("ninth  ") == 18 && as_it_was());
    CHECK(DROP("ninth  ") == 17 && as_it_was());
    now.marks[2] = 7, now.marks[6] = 255;
    now.z[4] += 0.25;
    was = now;
    copy_shape(2);
    CHECK(SAVE(names[2]) == 0 && as_it_was());
    was.marks[6] = 0;
    CHECK(DROP(names[6]) == 0 && as_it_was());
    CHECK(DROP(names[6]) == 17 && as_it_was());
    name_place(6, 1, "ninth  "), copy_shape(6);
    CHECK(SAVE("ninth  ") == 0 && as_it_was());
}

/* sixty moves, and back */
static void shapes_returned_to(void) {
    size_t count = 9;
    double start[82];
    lend();
    CHECK(SAVE("as cast") == 0);
    memcpy(start, now.cells, sizeof start);
    for (size_t k = 0; k < 60; k++) {
        size_t v = 5 * k % 9;
        double px = now.x[v] + 0.05 * (double)(k % 3) - 0.05, py = now.y[v] + 0.04 * (double)(k % 5) - 0.08;
        CHECK(screens_move_node(2, LENT_MESH, now.cells, 81, v, px, py, now.z[v] + 0.01, &count) == 0);
    }
    was = now;
    memcpy(was.x, gx, sizeof gx), memcpy(was.y, gy, sizeof gy), memcpy(was.z, gz, sizeof gz);
    memcpy(was.cells, start, sizeof start);
    CHECK(!as_it_was() && RETURN(2, "as cast", &count) == 0 && count == 81 && as_it_was());
    count = 9;
    CHECK(RETURN(2, "as cast", &count) == 0 && count == 0 && as_it_was());
}

/* on any numbers: -0 for +0 in one node, then in all, renews the cells of the rings and no other */
static void returns_on_any_numbers(void) {
    for (size_t v = 0; v <= 9; v++) {
        size_t count = 0, r = 0;
        lend();
        now.marks[3] = 255;
        for (size_t k = 0; k < 9; k++) {
            now.sx[27 + k] = now.x[k], now.sy[27 + k] = now.y[k];
            now.sz[27 + k] = v == k || v == 9 ? -0.0 : 0.0;
            r += v == 9 || in_ring(v, k);
        }
        CHECK(screens_mesh_inductance_matrix(2, now.sx + 27, 9, now.sy + 27, 9, now.sz + 27, 9, g0, 8, g1, 8, g2, 8, due,
            81) == 0);
        fill(now.cells, 82);
        was = now;
        memcpy(was.z, now.sz + 27, sizeof gz);
        for (size_t k = 0; k < 81; k++)
            if (v == 9 || in_ring(v, k / 9) || in_ring(v, k % 9))
                was.cells[k] = due[k];
        CHECK(RETURN(2, "........", &count) == 0 && count == 2 * 9 * r - r * r && as_it_was());
    }
}

/* two places hold one name, and a free one has it too: the first that is held counts */
static void shapes_of_one_name(void) {
    size_t count;
    lend();
    for (size_t p = 0; p < 8; p++)
        memcpy(now.names + 8 * p, "as cast", 8);
    now.marks[2] = 7, now.marks[5] = 1;
    was = now;
    copy_shape(2), copy_shape(5);
    was.sz[22] = 0.5, was.sz[49] = 0.25;
    now = was;
    memcpy(was.z, now.sz + 18, sizeof gz);
    CHECK(RETURN(2, "as cast", &count) == 0 && count == 2 * 9 * 7 - 7 * 7 && now.z[4] == 0.5);
    CHECK(screens_mesh_inductance_matrix(2, LENT_MESH, was.cells, 81) == 0 && as_it_was());
    was.marks[2] = 0;
    CHECK(DROP("as cast") == 0 && as_it_was());
    CHECK(RETURN(2, "as cast", &count) == 0 && count == 2 * 9 * 7 - 7 * 7 && now.z[4] == 0.25);
    CHECK(screens_mesh_inductance_matrix(2, LENT_MESH, due, 81) == 0 && memcmp(now.cells, due, sizeof due) == 0);
    CHECK(DROP("as cast") == 0 && now.marks[5] == 0 && DROP("as cast") == 17);
    CHECK(RETURN(2, "as cast", &count) == 17 && count == 0 && now.z[4] == 0.25);
}

/* NaN is one number, and the bits set are the saved ones; a node on no panel has no cell: the last panel is not lent */
static void returns_without_cells(void) {
    const uint64_t nan = 0x7ff8000000000000, other = 0xfff8000000001234;
    size_t count = 9;
    lend();
    memcpy(now.z + 4, &nan, 8);
    CHECK(SAVE("as cast") == 0);
    memcpy(now.sz + 4, &other, 8);
    fill(now.cells, 82);
    was = now;
    memcpy(was.z + 4, &other, 8);
    CHECK(RETURN(2, "as cast", &count) == 0 && count == 0 && as_it_was());
    now.sx[8] = 9, count = 9;
    was = now;
    was.x[8] = 9;
    CHECK(screens_return_shape(2, now.x, 9, now.y, 9, now.z, 9, now.g0, 7, now.g1, 7, now.g2, 7, now.cells, 81, LENT_STORE,
        NAME("as cast"), &count) == 0 && count == 0 && as_it_was());
}

#define SHAPES_REFUSED(number, mesh, store, name)                                                                   \
    do {                                                                                                            \
        was = now, count = 9;                                                                                       \
        CHECK(screens_save_shape(mesh, store, NAME(name)) == (number) && as_it_was());                              \
        CHECK(screens_drop_shape(mesh, store, NAME(name)) == (number) && as_it_was());                              \
        CHECK(screens_return_shape(2, mesh, now.cells, 81, store, NAME(name), &count) == (number) && count == 0);   \
        count = 9;                                                                                                  \
        CHECK(screens_return_shape(6, mesh, now.cells, 81, store, NAME(name), &count) == 12 && count == 0);         \
        CHECK(as_it_was());                                                                                         \
    } while (0)

#define MESH_OF(nx, ny, nz, n0, n1, n2) now.x, nx, now.y, ny, now.z, nz, now.g0, n0, now.g1, n1, now.g2, n2
#define STORE_OF(m, k, nx, ny, nz) now.marks, m, now.names, k, now.sx, nx, now.sy, ny, now.sz, nz
#define SHORT_STORE STORE_OF(8, 63, 72, 72, 72)

/* of each the numbers behind it apply too: a wrong store, and a rule that is none before all */
static void shapes_refused(void) {
    size_t count;
    lend();
    now.marks[0] = 1, memcpy(now.names, "as cast", 8);
    SHAPES_REFUSED(1, MESH_OF(8, 9, 9, 8, 7, 8), SHORT_STORE, "as cast");
    SHAPES_REFUSED(1, MESH_OF(9, 9, 8, 8, 8, 8), SHORT_STORE, "unknown");
    SHAPES_REFUSED(2, MESH_OF(9, 9, 9, 8, 8, 7), SHORT_STORE, "as cast");
    SHAPES_REFUSED(3, MESH_OF(8, 8, 8, 8, 8, 8), SHORT_STORE, "unknown");
    SHAPES_REFUSED(6, LENT_MESH, STORE_OF(7, 64, 72, 72, 72), "as cast");
    SHAPES_REFUSED(6, LENT_MESH, STORE_OF(9, 64, 72, 72, 72), "unknown");
    SHAPES_REFUSED(6, LENT_MESH, STORE_OF(8, 63, 72, 72, 72), "as cast");
    SHAPES_REFUSED(6, LENT_MESH, STORE_OF(8, 65, 72, 72, 72), "unknown");
    SHAPES_REFUSED(6, LENT_MESH, STORE_OF(8, 64, 71, 72, 72), "as cast");
    SHAPES_REFUSED(6, LENT_MESH, STORE_OF(8, 64, 73, 72, 72), "unknown");
    SHAPES_REFUSED(6, LENT_MESH, STORE_OF(8, 64, 72, 71, 72), "as cast");
    SHAPES_REFUSED(6, LENT_MESH, STORE_OF(8, 64, 72, 73, 72), "unknown");
    SHAPES_REFUSED(6, LENT_MESH, STORE_OF(8, 64, 72, 72, 71), "as cast");
    SHAPES_REFUSED(6, LENT_MESH, STORE_OF(8, 64, 72, 72, 73), "unknown");
    SHAPES_REFUSED(6, LENT_MESH, STORE_OF(8, 64, 0, 0, 0), "unknown");
    memset(now.marks, 2, 8);
    SHAPES_REFUSED(6, LENT_MESH, STORE_OF(8, 64, 72, 72, 73), "unknown");
    now.g2[7] = now.g1[7];
    SHAPES_REFUSED(4, LENT_MESH, SHORT_STORE, "unknown");
    SHAPES_REFUSED(4, LENT_MESH, LENT_STORE, "unknown");
}

#define RETURN_REFUSED(number, rule, size, name)                                                                    \
    do {                                                                                                            \
        was = now, count = 9;                                                                                       \
        CHECK(screens_return_shape(rule, LENT_MESH, now.cells, size, LENT_STORE, NAME(name), &count) == (number));  \
        CHECK(count == 0 && as_it_was());                                                                           \
    } while (0)

static void returns_refused(void) {
    size_t count;
    lend();
    CHECK(SAVE("as cast") == 0);
    now.z[4] = 0.5;
    RETURN_REFUSED(12, 0, 81, "as cast");
    RETURN_REFUSED(12, UINT32_MAX, 80, "unknown");
    RETURN_REFUSED(6, 2, 80, "as cast");
    RETURN_REFUSED(6, 2, 82, "unknown");
    RETURN_REFUSED(17, 2, 81, "unknown");
    RETURN_REFUSED(17, 2, 81, "........");
    /* a shape made flat by hand */
    now.sx[0] = 1;
    RETURN_REFUSED(4, 2, 81, "as cast");
    now.sx[0] = 0;
    CHECK(RETURN(2, "as cast", &count) == 0 && count > 0 && now.z[4] == 0);
}

static void shapes_of_no_nodes(void) {
    size_t count = 9;
    lend();
    was = now;
    name_place(0, 1, "as cast");
    CHECK(screens_save_shape(MESH_OF(0, 0, 0, 0, 0, 0), STORE_OF(8, 64, 0, 0, 0), NAME("as cast")) == 0 && as_it_was());
    CHECK(screens_return_shape(2, MESH_OF(0, 0, 0, 0, 0, 0), now.cells, 0, STORE_OF(8, 64, 0, 0, 0), NAME("as cast"),
        &count) == 0 && count == 0 && as_it_was());
    was.marks[0] = 0;
    CHECK(screens_drop_shape(MESH_OF(0, 0, 0, 0, 0, 0), STORE_OF(8, 64, 0, 0, 0), NAME("as cast")) == 0 && as_it_was());
    CHECK(screens_drop_shape(MESH_OF(0, 0, 0, 0, 0, 0), STORE_OF(8, 64, 0, 0, 0), NAME("as cast")) == 17 && as_it_was());
}

static void matrices(void) {
    double identity[] = {1, 0, 0, 1}, map[] = {1, 2, 3, 4}, s[] = {3, 4}, k[] = {5, 6}, ones[] = {1, 1}, v[2], value;
    size_t offset, length;
    CHECK(screens_mesh_inductance_from_potentials(identity, 4, s, 2, ones, 2, &value) == 0 && value == 7);
    CHECK(screens_mesh_inductive_energy(identity, 4, s, 2, &value) == 0 && value == 12.5);
    CHECK(screens_mesh_inductive_energy(map, 4, ones, 2, &value) == 0 && value == 5);
    CHECK(screens_mesh_flux_linkage(map, 4, k, 2, v, 2) == 0 && v[0] == 17 && v[1] == 39);
    CHECK(screens_mesh_interaction_energy(map, 4, ones, 2, k, 2, &value) == 0 && value == 56);
    CHECK(screens_matrix_row(map, 4, 2, 1, &offset, &length) == 0 && offset == 2 && length == 2);
    CHECK(screens_map_row(map, 4, 4, 0, &offset, &length) == 0 && offset == 0 && length == 4);
    CHECK(screens_mesh_inductance_from_potentials(identity, 4, s, 2, ones, 1, &value) == 5 && value == 0);
    CHECK(screens_mesh_inductive_energy(identity, 3, s, 2, &value) == 7);
    fill(v, 2);
    CHECK(screens_mesh_flux_linkage(map, 0, k, 0, v, 1) == 8 && screens_mesh_flux_linkage(map, 3, k, 2, v, 1) == 9);
    CHECK(screens_mesh_flux_linkage(map, 4, k, 2, v, 1) == 10 && filled(v, 2));
    CHECK(screens_mesh_interaction_energy(map, 4, ones, 1, k, 2, &value) == 10 && value == 0);
    CHECK(screens_matrix_row(map, 4, 5000, 1, &offset, &length) == 11 && offset == 0 && length == 0);
    CHECK(screens_matrix_row(map, 3, 2, 1, &offset, &length) == 7);
    CHECK(screens_matrix_row(map, 4, 2, 2, &offset, &length) == 13);
    CHECK(screens_map_row(map, 4, 0, 0, &offset, &length) == 8 && screens_map_row(map, 4, 3, 0, &offset, &length) == 9);
    CHECK(screens_map_row(map, 4, 2, 2, &offset, &length) == 13);
}

static void files(void) {
    /* three nodes, one panel; the nodes' numbers are written as the machine has them, little-endian */
    uint8_t file[87] = {'P', 'N', 'L', 1, 0, 3, 0, 1, 0};
    double nodes[] = {0, 0, 0, 1, 0, 0, 0, 1, 0}, a[3], b[3], c[3];
    size_t i[1], j[1], k[1];
    int64_t value = 9;
    memcpy(file + 9, nodes, sizeof nodes);
    file[83] = 1;
    file[85] = 2;
    CHECK(screens_read_panel_file(file, 87, a, 3, b, 3, c, 3, i, 1, j, 1, k, 1) == 0);
    CHECK(is(a, 0, 1, 0) && is(b, 0, 0, 1) && is(c, 0, 0, 0) && i[0] == 0 && j[0] == 1 && k[0] == 2);
    fill(a, 3);
    CHECK(screens_read_panel_file(file, 8, a, 3, b, 3, c, 3, i, 1, j, 1, k, 1) == 14);
    CHECK(screens_read_panel_file(file, 86, a, 3, b, 3, c, 3, i, 1, j, 1, k, 1) == 15);
    CHECK(screens_read_panel_file(file, 87, a, 2, b, 3, c, 3, i, 1, j, 1, k, 1) == 6 && filled(a, 3));
    CHECK(screens_display(1.0 / 1024, &value) == 0 && value == 976562);
    CHECK(screens_display(-1.0 / 1024, &value) == 0 && value == -976562);
    CHECK(screens_display(3.0 / 1024, &value) == 0 && value == 2929688);
    CHECK(screens_display(-3.0 / 1024, &value) == 0 && value == -2929688);
    CHECK(screens_display(5.0 / 1024, &value) == 0 && value == 4882812);
    CHECK(screens_display(7.0 / 1024, &value) == 0 && value == 6835938);
    CHECK(screens_display(nextafter(1.0 / 1024, 1), &value) == 0 && value == 976563);
    CHECK(screens_display(-1.6e-9, &value) == 0 && value == -2);
    CHECK(screens_display(NAN, &value) == 16 && value == 0);
}

/* the file of a square metre of two panels, by hand: 1 is 3ff0000000000000 */
static const double sx[] = {0, 1, 0, 1}, sy[] = {0, 0, 1, 1}, sz[] = {0, 0, 0, 0};
#define SQUARE sx, 4, sy, 4, sz, 4, t0, 2, t1, 2, t2, 2
static const uint8_t square_file[117] = {'P', 'N', 'L', 1, 0, 4, 0, 2, 0, [39] = 0xf0, 0x3f, [71] = 0xf0, 0x3f,
    [87] = 0xf0, 0x3f, [95] = 0xf0, 0x3f, [105] = 0, 0, 1, 0, 2, 0, 1, 0, 3, 0, 2, 0};

/* as many bytes as the largest file has, and one behind them */
static uint8_t bytes[147466];

static void mark(void) {
    for (size_t i = 0; i < sizeof bytes; i++)
        bytes[i] = (uint8_t)(31 * i + 7);
}

static int marked_from(size_t from) {
    for (size_t i = from; i < sizeof bytes; i++)
        if (bytes[i] != (uint8_t)(31 * i + 7))
            return 0;
    return 1;
}

static void written_files(void) {
    const uint8_t empty[9] = {'P', 'N', 'L', 1, 0, 0, 0, 0, 0};
    mark();
    CHECK(screens_write_panel_file(SQUARE, bytes, 117) == 0);
    CHECK(memcmp(bytes, square_file, 117) == 0 && marked_from(117));
    mark();
    CHECK(screens_write_panel_file(sx, 0, sy, 0, sz, 0, t0, 0, t1, 0, t2, 0, bytes, 9) == 0);
    CHECK(memcmp(bytes, empty, 9) == 0 && marked_from(9));
}

/* numbers by their bits, on no panel and on one, whose area is NaN; what is due is little-endian */
static void written_numbers(size_t panels) {
    const uint64_t bits[9] = {0x8000000000000000, 1, 0x7ff0000000000000, 0xfff0000000000000, 0xffffffffffffffff,
        0x7ff0000000000001, 0x7ff8000000000000, 0xfff8000000000000, 0x7fefffffffffffff};
    const uint64_t nan = 0x7ff8000000000000;
    const size_t k0[] = {0}, k1[] = {1}, k2[] = {2}, length = 81 + 6 * panels;
    double v[9], a[3], b[3], c[3];
    size_t i[] = {7}, j[] = {7}, k[] = {7};
    memcpy(v, bits, sizeof v);
    mark();
    CHECK(screens_write_panel_file(v, 3, v + 3, 3, v + 6, 3, k0, panels, k1, panels, k2, panels, bytes, length) == 0);
    CHECK(marked_from(length));
    CHECK(screens_read_panel_file(bytes, length, a, 3, b, 3, c, 3, i, panels, j, panels, k, panels) == 0);
    CHECK(panels == 0 ? i[0] == 7 : i[0] == 0 && j[0] == 1 && k[0] == 2);
    for (size_t n = 0; n < 9; n++) {
        uint64_t word = 0, due = 4 <= n && n <= 7 ? nan : bits[n];
        double read = n < 3 ? a[n] : n < 6 ? b[n - 3] : c[n - 6];
        for (size_t byte = 8; byte-- > 0;)
            word = word << 8 | bytes[9 + 24 * (n % 3) + 8 * (n / 3) + byte];
        CHECK(word == due);
        CHECK(due == nan ? isnan(read) : memcmp(&read, &due, 8) == 0);
    }
}

/* a strip of nodes, with a panel for every three in a row, and one more of each than can be accepted */
static double lx[4097], ly[4097], lz[4097], rx[4096], ry[4096], rz[4096];
static size_t l0[8193], l1[8193], l2[8193], r0[8192], r1[8192], r2[8192];
#define STRIP(n, p) lx, n, ly, n, lz, n, l0, p, l1, p, l2, p

static void make_strip(void) {
    for (size_t i = 0; i < 4097; i++)
        lx[i] = (double)i, ly[i] = (double)(i % 2);
    for (size_t i = 0; i < 8193; i++)
        l0[i] = i % 4094, l1[i] = i % 4094 + 1, l2[i] = i % 4094 + 2;
}

static void largest_file(void) {
    make_strip();
    mark();
    CHECK(screens_write_panel_file(STRIP(4096, 8192), bytes, 147465) == 0 && marked_from(147465));
    CHECK(bytes[5] == 0 && bytes[6] == 16 && bytes[7] == 0 && bytes[8] == 32);
    CHECK(screens_read_panel_file(bytes, 147465, rx, 4096, ry, 4096, rz, 4096, r0, 8192, r1, 8192, r2, 8192) == 0);
    CHECK(memcmp(lx, rx, sizeof rx) == 0 && memcmp(ly, ry, sizeof ry) == 0 && memcmp(lz, rz, sizeof rz) == 0);
    CHECK(memcmp(l0, r0, sizeof r0) == 0 && memcmp(l1, r1, sizeof r1) == 0 && memcmp(l2, r2, sizeof r2) == 0);
}

#define REFUSED(number, ...)                                                            \
    do {                                                                                \
        mark();                                                                         \
        CHECK(screens_write_panel_file(__VA_ARGS__) == (number) && marked_from(0));     \
    } while (0)

/* of most another number applies too, which is looked for behind the one given */
static void refused_files(void) {
    const size_t wide[] = {0, 4}, huge[] = {0, SIZE_MAX}, twice[] = {1, 1};
    make_strip();
    REFUSED(1, sx, 3, sy, 4, sz, 4, t0, 2, t1, 2, t2, 2, bytes, 117);
    REFUSED(1, sx, 4, sy, 3, sz, 4, t0, 2, t1, 1, t2, 2, bytes, 117);
    REFUSED(1, sx, 4, sy, 4, sz, 3, t0, 2, t1, 2, t2, 2, bytes, 117);
    REFUSED(2, sx, 4, sy, 4, sz, 4, t0, 1, t1, 2, t2, 2, bytes, 117);
    REFUSED(2, sx, 4, sy, 4, sz, 4, t0, 2, t1, 1, t2, 2, bytes, 117);
    REFUSED(2, lx, 4097, ly, 4097, lz, 4097, t0, 2, t1, 2, t2, 1, bytes, 117);
    REFUSED(11, STRIP(4097, 2), bytes, 9 + 24 * 4097 + 6 * 2);
    REFUSED(11, STRIP(4, 8193), bytes, 9 + 24 * 4 + 6 * 8193);
    REFUSED(11, STRIP(4096, 8193), bytes, 147466);
    REFUSED(3, sx, 4, sy, 4, sz, 4, t0, 2, t1, 2, wide, 2, bytes, 117);
    REFUSED(3, sx, 4, sy, 4, sz, 4, huge, 2, t1, 2, t2, 2, bytes, 117);
    REFUSED(3, sx, 4, sy, 4, sz, 4, t0, 2, wide, 2, t2, 2, bytes, 116);
    REFUSED(3, sx, 4, sy, 4, sz, 4, t0, 2, twice, 2, wide, 2, bytes, 117);
    REFUSED(4, sx, 4, sy, 4, sz, 4, t0, 2, twice, 2, t2, 2, bytes, 117);
    REFUSED(4, sx, 4, sy, 4, sz, 4, t0, 2, twice, 2, t2, 2, bytes, 118);
    REFUSED(6, SQUARE, bytes, 116);
    REFUSED(6, SQUARE, bytes, 118);
    REFUSED(6, SQUARE, bytes, 0);
    REFUSED(6, STRIP(4096, 8192), bytes, 147464);
    REFUSED(6, STRIP(4096, 8192), bytes, 147466);
    REFUSED(6, sx, 0, sy, 0, sz, 0, t0, 0, t1, 0, t2, 0, bytes, 8);
}

int main(void) {
    arithmetic();
    vectors();
    panels();
    pairs();
    meshes();
    mirrors();
    moves_on_any_numbers();
    moves_keep_symmetry();
    shapes_saved_and_dropped();
    shapes_returned_to();
    returns_on_any_numbers();
    shapes_of_one_name();
    returns_without_cells();
    shapes_refused();
    returns_refused();
    shapes_of_no_nodes();
    matrices();
    files();
    written_files();
    written_numbers(0);
    written_numbers(1);
    largest_file();
    refused_files();
    printf("%d checks, %d failed\n", checks, failed);
    return failed != 0;
}
