//! Every row of the five rules, in bits. On the panel (0, 0, 0), (1, 0, 0), (0, 1, 0) a point is (u, v, 0) exactly, and its area
//! weight is half the row's weight. The rows are the original's, as `oracle selfcheck` prints them.
use screens::*;

const ROWS: [&[[u64; 3]]; 5] = [
    &[[0x3ff0000000000000, 0x3fd5555555555555, 0x3fd5555555555555]],
    &[
        [0x3fd5555555555555, 0x3fc5555555555555, 0x3fc5555555555555],
        [0x3fd5555555555555, 0x3fe5555555555555, 0x3fc5555555555555],
        [0x3fd5555555555555, 0x3fc5555555555555, 0x3fe5555555555555],
    ],
    &[
        [0xbfe2000000000000, 0x3fd5555555555555, 0x3fd5555555555555],
        [0x3fe0aaaaaaaaaaab, 0x3fc999999999999a, 0x3fc999999999999a],
        [0x3fe0aaaaaaaaaaab, 0x3fe3333333333333, 0x3fc999999999999a],
        [0x3fe0aaaaaaaaaaab, 0x3fc999999999999a, 0x3fe3333333333333],
    ],
    &[
        [0x3fcc97c4971907bb, 0x3fdc8a6b8a0bd0dc, 0x3fdc8a6b8a0bd0dc],
        [0x3fcc97c4971907bb, 0x3fbbaca3afa17920, 0x3fdc8a6b8a0bd0dc],
        [0x3fcc97c4971907bb, 0x3fdc8a6b8a0bd0dc, 0x3fbbaca3afa17920],
        [0x3fbc25cc272345c7, 0x3fb77189ea1db0db, 0x3fb77189ea1db0db],
        [0x3fbc25cc272345c7, 0x3fea239d857893d2, 0x3fb77189ea1db0db],
        [0x3fbc25cc272345c7, 0x3fb77189ea1db0db, 0x3fea239d857893d2],
    ],
    &[
        [0x3fcccccccccccccd, 0x3fd555555555554f, 0x3fd555555555554f],
        [0x3fc0f24aa63441e1, 0x3fde16cebd738bbf, 0x3fde16cebd738bbf],
        [0x3fc0f24aa63441e1, 0x3fae931428c74410, 0x3fde16cebd738bbf],
        [0x3fc0f24aa63441e1, 0x3fde16cebd738bbf, 0x3fae931428c74410],
        [0x3fc01ec66adccf48, 0x3fb9ede99c7af577, 0x3fb9ede99c7af577],
        [0x3fc01ec66adccf48, 0x3fe9848598e14299, 0x3fb9ede99c7af577],
        [0x3fc01ec66adccf48, 0x3fb9ede99c7af577, 0x3fe9848598e14299],
    ],
];

#[test]
fn every_row_of_every_rule() {
    let mesh = TriangleMesh::new(
        (vec![0.0, 1.0, 0.0], vec![0.0, 0.0, 1.0], vec![0.0; 3]),
        (vec![0], vec![1], vec![2]),
    )
    .unwrap();
    for (rule, due) in QuadratureKind::ALL.into_iter().zip(ROWS) {
        let n = due.len();
        let [mut px, mut py, mut pz, mut weights] = [(); 4].map(|_| vec![f64::NAN; n]);
        triangle_mesh_quadrature_points(&mesh.view(), rule, (&mut px, &mut py, &mut pz), &mut weights).unwrap();
        for (k, [weight, u, v]) in due.iter().enumerate() {
            let half = f64::from_bits(*weight) * 0.5;
            let seen = [weights[k], px[k], py[k], pz[k]].map(f64::to_bits);
            assert_eq!(seen, [half.to_bits(), *u, *v, 0], "{rule:?}, row {k}");
        }
    }
}
