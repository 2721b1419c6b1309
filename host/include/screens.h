/* screens.h: inductance of conducting screens given as triangle panels.
 *
 * The functions of libscreens.a, which `./archive.sh` writes to target/staticlib. Each is proved to meet its
 * contract for all inputs: it ends, reads and writes only what it is lent, and answers what docs/PROMISES.md says.
 *
 *   cc -std=c99 program.c -Ihost/include target/staticlib/libscreens.a -o program
 *
 * Units are metres, amperes, henries. Nodes, panels and corners are counted from 0.
 *
 * Numbers. A call that returns uint32_t returns 0 if it is done and otherwise the number of its refusal:
 *    1 node columns     the three coordinate columns differ in length
 *    2 panel columns    the three index columns differ in length
 *    3 missing node     an index is not below the node count
 *    4 zero area        a panel's area is below 1e-14
 *    5 nodal values     nodal lengths differ from the node count or each other
 *    6 output           an output length is not the one due (a store and a moved matrix too)
 *    7 matrix           a given matrix's length is not n * n
 *    8 coefficients     no sources, but map, output or nodal values are not empty
 *    9 map              the map's length is not a multiple of the source count
 *   10 flux             output or nodal length is not map length / sources
 *   11 too large        more than 4,096 nodes, 8,192 panels, or 4,096 nodal values against a matrix
 *   12 no such choice   a quadrature rule outside 1 to 5, or a corner above 2
 *   13 no such node     the named node is not below the count
 *   14 mark             a file under 9 bytes, or its mark or version is wrong
 *   15 file length      the length is not the one the counts give
 *   16 display          not finite, or rounded size above 10^15 nanohenries
 *   17 unknown name     no held place of the store has the name
 *   18 no place         the name is new, and all eight places are held
 * The numbers that a function can return stand at it in the order in which they are looked for. On a refusal every lent
 * single number (value, count, offset, length) is set to 0, and every lent array and slice is as it was.
 *
 * Arrays. A vector is three numbers, x, y, z; a triangle nine, corner after corner; a shape's name eight bytes; what is handed
 * back of a panel or a pair has the count that stands in the brackets. Such an array is one pointer, good for that many elements.
 *
 * Slices. What has no fixed size is a slice: a pointer and its length in elements, in that order. The pointer must be good for
 * that many elements; for an empty slice any pointer will do that is not null and aligned, as the address of any variable of
 * the type. A pointer to a single number must be good for one.
 *
 * No pointer may be null, and each must be aligned for its type. What is written must not overlap anything else that is lent
 * to the call: screens_add3(a, b, a) is not allowed. What is only read may overlap.
 *
 * A mesh is six columns: x, y, z of the nodes, and for each panel the nodes t0, t1, t2 of its corners; every call tests its
 * mesh itself.
 *
 * The functions keep nothing, allocate nothing and take no lock: any number of threads may call them at once. Give a thread
 * that calls them at least 2 MB of stack: they are tested on such threads, and may run out on smaller ones. size_t has 64
 * bits: the library is for x86-64.
 */
#ifndef SCREENS_H
#define SCREENS_H

#include <stdbool.h>
#include <stddef.h>
#include <stdint.h>

#ifdef __cplusplus
extern "C" {
#endif

/* ---- arithmetic: no refusals ------------------------------------------------------------------------------------- */

/* a * b + c, rounded once (IEEE 754 fusedMultiplyAdd). */
double screens_mul_add(double a, double b, double c);

/* a * a + c, rounded once. */
double screens_square_add(double a, double c);

/* The root, rounded once (IEEE 754 squareRoot). */
double screens_sqrt(double x);

/* The smaller number: the other one if one is NaN, the first of two equal ones. */
double screens_min(double a, double b);

/* The larger number: the other one if one is NaN, the first of two equal ones. */
double screens_max(double a, double b);

/* lo if x is below it, hi if x is above it, otherwise x; NaN stays NaN. */
double screens_clamp(double x, double lo, double hi);

/* The size of a number. */
double screens_abs(double x);

/* The natural logarithm, by document 01's series. */
double screens_ln(double x);

/* The inverse hyperbolic sine, by document 01's series. */
double screens_asinh(double x);

/* The angle of the point (x, y), by document 01's series. */
double screens_atan2(double y, double x);

/* ---- vectors: no refusals ---------------------------------------------------------------------------------------- */

/* The scalar product, fused. */
double screens_dot3(const double a[3], const double b[3]);

/* The length. */
double screens_norm3(const double a[3]);

/* The cross product, fused. */
void screens_cross3(const double a[3], const double b[3], double out[3]);

/* a - b. */
void screens_sub3(const double a[3], const double b[3], double out[3]);

/* a + b. */
void screens_add3(const double a[3], const double b[3], double out[3]);

/* scale * a. */
void screens_scale3(const double a[3], double scale, double out[3]);

/* a + scale * b, fused. */
void screens_add_scaled3(const double a[3], const double b[3], double scale, double out[3]);

/* a over its length. */
void screens_normalize3(const double a[3], double out[3]);

/* ---- one panel: no refusals; any triangle is taken, degenerate or not -------------------------------------------- */

/* The area (square metres). */
double screens_area(const double t[9]);

/* 1 for equal edges, towards 0 for a sliver; a panel is poor if it is below 1e-3. */
double screens_quality(const double t[9]);

/* The unit normal. */
void screens_normal(const double t[9], double out[3]);

/* The point at (u, v) of the reference triangle (metres). */
void screens_map_point(const double t[9], double u, double v, double out[3]);

/* The triangle's point closest to another (metres). */
void screens_closest_point(const double point[3], const double t[9], double out[3]);

/* The panel's record: corners 9, normal 3, edge tangents 9, outward edges 9, edge lengths 3, longest edge 1. */
void screens_record(const double t[9], double out[34]);

/* The potential (metres) of the panel at a point. */
double screens_potential(const double t[9], const double point[3]);

/* The gradient of the potential. */
void screens_gradient(const double t[9], const double point[3], double out[3]);

/* Whether a point lies on the panel, within the original's tolerance. */
bool screens_contact(const double t[9], const double point[3]);

/* The current densities (1/m) of a unit value at each corner, corner after corner. */
void screens_basis_current_densities(const double t[9], double out[9]);

/* The current density (A/m) of the values s (amperes) at the corners. */
void screens_current_density(const double t[9], const double s[3], double out[3]);

/* The two halves of the triangle, cut at its longest edge. */
void screens_longest_edge_bisection(const double t[9], double out[18]);

/* The squared length (square metres) of the longest edge. */
double screens_triangle_max_edge_squared(const double t[9]);

/* ---- two panels -------------------------------------------------------------------------------------------------- */

/* Whether each corner of the source is within 1e-12 m of some corner of the target. */
bool screens_triangles_identical(const double source[9], const double target[9]);

/* The squared distance (square metres) of the boxes around them. */
double screens_triangle_aabb_distance_squared(const double source[9], const double target[9]);

/* The squared distance (square metres) of the panels. */
double screens_triangle_distance_squared(const double source[9], const double target[9]);

/* Whether the far rule is used for the pair. */
bool screens_is_far(const double source[9], const double target[9]);

/* The geometric coupling (cubic metres), under quadrature rule 1 to 5. Refuses with 12. */
uint32_t screens_coupling(uint32_t rule, const double source[9], const double target[9], double *value);

/* The far rule's coupling (cubic metres) from source to target only. Refuses with 12. */
uint32_t screens_coupling_regular(uint32_t rule, const double source[9], const double target[9], double *value);

/* The inductance (henries) between corner i of the source and corner j of the target. Refuses with 12, also for a
   corner above 2. */
uint32_t screens_mutual_inductance(uint32_t rule, const double source[9], size_t i, const double target[9], size_t j,
    double *value);

/* The inductances (henries) between all corners, a row a source corner. Refuses with 12. */
uint32_t screens_mutual_inductance_block(uint32_t rule, const double source[9], const double target[9],
    double out[9]);

/* The sum of s * block * t (H A^2) for a block of nine numbers, row by row, and values s of the source and t of the
   target (amperes). */
double screens_inductance_from_potentials(const double block[9], const double s[3], const double t[3]);

/* ---- meshes ------------------------------------------------------------------------------------------------------ */

/* Tests a mesh; the count of poor panels goes to poor. Refuses with 1, 2, 11, 3, 4. */
uint32_t screens_mesh_test(const double *x, size_t nx, const double *y, size_t ny, const double *z, size_t nz,
    const size_t *t0, size_t nt0, const size_t *t1, size_t nt1, const size_t *t2, size_t nt2, size_t *poor);

/* The current density (A/m) of each panel for nodal values s (amperes, one a node): jx, jy, jz have one place a
   panel. Refuses with 1, 2, 11, 3, 4, 5, 6. */
uint32_t screens_mesh_current_density(const double *x, size_t nx, const double *y, size_t ny, const double *z,
    size_t nz, const size_t *t0, size_t nt0, const size_t *t1, size_t nt1, const size_t *t2, size_t nt2,
    const double *s, size_t ns, double *jx, size_t njx, double *jy, size_t njy, double *jz, size_t njz);

/* The quadrature points (metres) of each panel and their area weights (square metres): panels times 1, 3, 4, 6 or
   7 places under rule 1 to 5, panel after panel. Refuses with 12, 1, 2, 11, 3, 4, 6. */
uint32_t screens_mesh_quadrature_points(uint32_t rule, const double *x, size_t nx, const double *y, size_t ny,
    const double *z, size_t nz, const size_t *t0, size_t nt0, const size_t *t1, size_t nt1, const size_t *t2,
    size_t nt2, double *px, size_t npx, double *py, size_t npy, double *pz, size_t npz, double *pw, size_t npw);

/* The inductance matrix (henries) under rule 1 to 5, row by row: n * n places for n nodes. Cell (b, a) below the
   diagonal is a copy of cell (a, b), so the matrix is symmetric in every bit. Refuses with 12, 1, 2, 11, 3, 4, 6. */
uint32_t screens_mesh_inductance_matrix(uint32_t rule, const double *x, size_t nx, const double *y, size_t ny,
    const double *z, size_t nz, const size_t *t0, size_t nt0, const size_t *t1, size_t nt1, const size_t *t2,
    size_t nt2, double *out, size_t n);

/* Moves a node to the place (px, py, pz) (metres): writes its coordinates, renews the cells of the matrix (n * n
   places) whose row or column is of a node of its panels, and counts them. These cells become the moved mesh's and
   all others keep their numbers, so a symmetric matrix stays symmetric; a matrix that was the mesh's under this rule
   is then the moved mesh's, bit for bit. Refuses with 12, 1, 2, 11, 3, 4, 6, 13, then 4 on the moved mesh; columns
   and matrix are then as they were. */
uint32_t screens_move_node(uint32_t rule, double *x, size_t nx, double *y, size_t ny, double *z, size_t nz,
    const size_t *t0, size_t nt0, const size_t *t1, size_t nt1, const size_t *t2, size_t nt2, double *matrix,
    size_t n, size_t node, double px, double py, double pz, size_t *count);

/* ---- named shapes ------------------------------------------------------------------------------------------------ */

/* A store of eight shapes of one mesh of n nodes is five slices: marks, 8 bytes, 0 for a free place and anything else
   for a held one; names, 64 bytes, eight a place; sx, sy, sz, 8 * n numbers each (metres), n a place. A name is eight
   bytes, any. That of a free place is not looked at; where two held places have one name, the first counts. */

/* Saves the mesh's coordinates under a name. A held name keeps its place, mark and bytes; a new one takes the first
   free place, whose mark becomes 1. Nothing else is written. Refuses with 1, 2, 11, 3, 4, 6, 18. */
uint32_t screens_save_shape(const double *x, size_t nx, const double *y, size_t ny, const double *z, size_t nz,
    const size_t *t0, size_t nt0, const size_t *t1, size_t nt1, const size_t *t2, size_t nt2, uint8_t *marks,
    size_t nmarks, uint8_t *names, size_t nnames, double *sx, size_t nsx, double *sy, size_t nsy, double *sz,
    size_t nsz, const uint8_t name[8]);

/* Frees the place of a name: sets its mark to 0 and writes nothing else. Refuses with 1, 2, 11, 3, 4, 6, 17. */
uint32_t screens_drop_shape(const double *x, size_t nx, const double *y, size_t ny, const double *z, size_t nz,
    const size_t *t0, size_t nt0, const size_t *t1, size_t nt1, const size_t *t2, size_t nt2, uint8_t *marks,
    size_t nmarks, const uint8_t *names, size_t nnames, const double *sx, size_t nsx, const double *sy, size_t nsy,
    const double *sz, size_t nsz, const uint8_t name[8]);

/* Returns to the shape of a name: sets all coordinates to those saved, renews the cells of the matrix (n * n places)
   whose row or column is of a node of the panels of a node that differs, and counts them, each one time. A node differs
   if one of its numbers does; +0 and -0 differ, two NaN do not. These cells become the named shape's and all others
   keep their numbers; a matrix that was the mesh's under this rule is then the named shape's, bit for bit. The store is
   not written. Refuses with 12, 1, 2, 11, 3, 4, 6, 17, then 4 on the named shape; columns and matrix are then as they
   were. */
uint32_t screens_return_shape(uint32_t rule, double *x, size_t nx, double *y, size_t ny, double *z, size_t nz,
    const size_t *t0, size_t nt0, const size_t *t1, size_t nt1, const size_t *t2, size_t nt2, double *matrix,
    size_t n, const uint8_t *marks, size_t nmarks, const uint8_t *names, size_t nnames, const double *sx, size_t nsx,
    const double *sy, size_t nsy, const double *sz, size_t nsz, const uint8_t name[8], size_t *count);

/* ---- matrices and maps ------------------------------------------------------------------------------------------- */

/* The sum of s * matrix * t (H A^2) for nodal values s and t (amperes). Refuses with 5, 11, 7. */
uint32_t screens_mesh_inductance_from_potentials(const double *matrix, size_t nmatrix, const double *s, size_t ns,
    const double *t, size_t nt, double *value);

/* The energy (joules) of nodal values s: half of that sum with itself. Refuses with 11, 7. */
uint32_t screens_mesh_inductive_energy(const double *matrix, size_t nmatrix, const double *s, size_t ns,
    double *value);

/* The flux linkage of each node, for a map with a row a node and a coefficient a source: one place a row. Refuses
   with 8, 9, 10. */
uint32_t screens_mesh_flux_linkage(const double *map, size_t nmap, const double *coefficients, size_t ncoefficients,
    double *out, size_t nout);

/* The interaction energy of nodal values and source coefficients. Refuses with 8, 9, 10. */
uint32_t screens_mesh_interaction_energy(const double *map, size_t nmap, const double *values, size_t nvalues,
    const double *coefficients, size_t ncoefficients, double *value);

/* Where the row of a node begins in a matrix of n nodes, and how long it is. Refuses with 11, 7, 13. */
uint32_t screens_matrix_row(const double *matrix, size_t nmatrix, size_t n, size_t node, size_t *offset,
    size_t *count);

/* Where the row of a node begins in a map of so many sources, and how long it is. Refuses with 8, 9, 13. */
uint32_t screens_map_row(const double *map, size_t nmap, size_t sources, size_t node, size_t *offset, size_t *count);

/* ---- files and display ------------------------------------------------------------------------------------------- */

/* Reads a panel file of so many bytes into six columns of exactly its counts of nodes and panels, which stand in
   bytes 5, 6 and 7, 8 (16 bits, little-endian). Refuses with 14, 11, 15, 3, 4, 6. */
uint32_t screens_read_panel_file(const uint8_t *file, size_t nfile, double *x, size_t nx, double *y, size_t ny,
    double *z, size_t nz, size_t *t0, size_t nt0, size_t *t1, size_t nt1, size_t *t2, size_t nt2);

/* Writes the panel file of a mesh: 9 + 24 * nodes + 6 * panels bytes. screens_read_panel_file gives back each
   coordinate's bits, NaN counting as one number, and each index; a NaN is written as 7ff8000000000000. Refuses with 1,
   2, 11, 3, 4, 6. */
uint32_t screens_write_panel_file(const double *x, size_t nx, const double *y, size_t ny, const double *z, size_t nz,
    const size_t *t0, size_t nt0, const size_t *t1, size_t nt1, const size_t *t2, size_t nt2, uint8_t *file,
    size_t nfile);

/* The display value of an inductance (henries): whole nanohenries, rounded once, a half to the even one. Refuses
   with 16. */
uint32_t screens_display(double x, int64_t *value);

#ifdef __cplusplus
}
#endif

#endif
