//! Every refusal, and that what was lent is then as it was.
use screens::*;

const RULE: QuadratureKind = QuadratureKind::Dunavant2;

/// A square metre of two panels.
fn square() -> TriangleMesh {
    let nodes = (vec![0.0, 1.0, 0.0, 1.0], vec![0.0, 0.0, 1.0, 1.0], vec![0.0; 4]);
    TriangleMesh::new(nodes, (vec![0, 1], vec![1, 3], vec![2, 2])).unwrap()
}

/// A strip of so many nodes, and a panel for every three in a row, as many as are asked for.
fn strip(nodes: usize, panels: usize) -> Result<TriangleMesh, Refusal> {
    let x = (0..nodes).map(|i| i as f64);
    let y = (0..nodes).map(|i| (i % 2) as f64);
    let corner = |k: usize| (0..panels).map(|i| i % (nodes - 2) + k).collect();
    TriangleMesh::new(
        (x.collect(), y.collect(), vec![0.0; nodes]),
        (corner(0), corner(1), corner(2)),
    )
}

#[test]
fn meshes() {
    let test = |nodes: [&[f64]; 3], triangles: [&[usize]; 3]| {
        let [x, y, z] = nodes;
        let [a, b, c] = triangles;
        TriangleMeshView::new((x, y, z), (a, b, c)).map(|mesh| mesh.len())
    };
    let (x, y, z) = (&[0.0, 1.0, 0.0][..], &[0.0, 0.0, 1.0][..], &[0.0, 0.0, 0.0][..]);
    assert_eq!(test([x, y, &z[1..]], [&[0], &[1], &[2]]), Err(Refusal::NodeColumns));
    assert_eq!(test([x, y, z], [&[0], &[1], &[]]), Err(Refusal::PanelColumns));
    assert_eq!(test([x, y, z], [&[0, 0], &[1, 1], &[1, 3]]), Err(Refusal::MissingNode));
    assert_eq!(test([x, y, z], [&[0], &[1], &[1]]), Err(Refusal::ZeroArea));
    assert_eq!(
        test([&[], &[], &[]], [&[], &[], &[]]),
        Ok(0),
        "an empty mesh is accepted"
    );
    assert_eq!(strip(4096, 8192).map(|mesh| mesh.view().len()), Ok(8192));
    assert_eq!(strip(4097, 1).err(), Some(Refusal::TooLarge));
    assert_eq!(strip(4096, 8193).err(), Some(Refusal::TooLarge));
}

#[test]
fn densities_and_points() {
    let mesh = square();
    let [mut a, mut b, mut c] = [[7.0; 2]; 3];
    let refused = triangle_mesh_current_density(&mesh.view(), &[0.0; 3], (&mut a, &mut b, &mut c));
    assert_eq!(refused, Err(Refusal::NodalValues));
    let refused = triangle_mesh_current_density(&mesh.view(), &[0.0; 4], (&mut a, &mut b, &mut c[..1]));
    assert_eq!(refused, Err(Refusal::Output));
    let mut weights = [7.0; 6];
    let refused = triangle_mesh_quadrature_points(&mesh.view(), RULE, (&mut a, &mut b, &mut c), &mut weights);
    assert_eq!(refused, Err(Refusal::Output));
    assert_eq!((a, b, c, weights), ([7.0; 2], [7.0; 2], [7.0; 2], [7.0; 6]));
    assert_eq!(mesh.view().validate_nodal_values(&[0.0; 5]), Err(Refusal::NodalValues));
}

#[test]
fn moves() {
    let mut mesh = square();
    let mut matrix = vec![0.0; 16];
    triangle_mesh_inductance_matrix(&mesh.view(), RULE, &mut matrix).unwrap();
    let (before, cells) = (mesh.clone(), matrix.clone());
    let place = [1.5, 1.0, 0.0];
    assert_eq!(mesh.move_node(RULE, &mut matrix[..15], 3, place), Err(Refusal::Output));
    assert_eq!(mesh.move_node(RULE, &mut matrix, 4, place), Err(Refusal::NoSuchNode));
    assert_eq!(
        mesh.move_node(RULE, &mut matrix, usize::MAX, place),
        Err(Refusal::NoSuchNode)
    );
    assert_eq!(
        mesh.move_node(RULE, &mut matrix, 3, [0.5, 0.5, 0.0]),
        Err(Refusal::ZeroArea)
    );
    assert_eq!((mesh, matrix), (before, cells));
}

#[test]
fn shapes() {
    let (mut mesh, mut shapes) = (square(), Shapes::new(4));
    let mut matrix = vec![0.0; 16];
    triangle_mesh_inductance_matrix(&mesh.view(), RULE, &mut matrix).unwrap();
    (0..8).for_each(|place| shapes.save(&mesh, &[place; 8]).unwrap());
    // place 7 with its first node on its second
    let (x, y, z) = shapes.columns();
    let mut flat = (x.to_vec(), y.to_vec(), z.to_vec());
    flat.0[28] = 1.0;
    let mut shapes = Shapes::from_parts(*shapes.marks(), *shapes.name_bytes(), flat);
    mesh.move_node(RULE, &mut matrix, 3, [1.5, 1.0, 0.0]).unwrap();
    let before = (mesh.clone(), matrix.clone(), shapes.clone());
    assert_eq!(shapes.save(&mesh, b"a ninth "), Err(Refusal::NoPlace));
    assert_eq!(shapes.forget(&mesh, b"a ninth "), Err(Refusal::UnknownName));
    let mut back = |name, matrix: &mut [f64]| mesh.return_to(&shapes, name, RULE, matrix);
    assert_eq!(back(b"a ninth ", &mut matrix), Err(Refusal::UnknownName));
    assert_eq!(back(&[0; 8], &mut matrix[..15]), Err(Refusal::Output));
    assert_eq!(back(&[7; 8], &mut matrix), Err(Refusal::ZeroArea));
    let mut other = Shapes::new(5);
    assert_eq!(other.save(&mesh, &[0; 8]), Err(Refusal::Output));
    assert_eq!(other.forget(&mesh, &[0; 8]), Err(Refusal::Output));
    assert_eq!(mesh.return_to(&other, &[0; 8], RULE, &mut matrix), Err(Refusal::Output));
    assert_eq!((mesh, matrix, shapes), before);
    assert_eq!(other, Shapes::new(5));
}

#[test]
fn matrices_and_maps() {
    let matrix = [1.0, 2.0, 3.0, 4.0];
    let two = triangle_mesh_inductance_from_potential_vectors;
    assert_eq!(two(&matrix, &[1.0], &[1.0, 1.0]), Err(Refusal::NodalValues));
    assert_eq!(two(&[], &[0.0; 4097], &[0.0; 4097]), Err(Refusal::TooLarge));
    assert_eq!(two(&matrix, &[1.0], &[1.0]), Err(Refusal::Matrix));
    assert_eq!(triangle_mesh_matrix_row(&matrix, 4097, 0), Err(Refusal::TooLarge));
    assert_eq!(triangle_mesh_matrix_row(&matrix, 3, 0), Err(Refusal::Matrix));
    assert_eq!(triangle_mesh_matrix_row(&matrix, 2, 2), Err(Refusal::NoSuchNode));
    assert_eq!(triangle_mesh_map_row(&matrix, 0, 0), Err(Refusal::Coefficients));
    assert_eq!(triangle_mesh_map_row(&[], 0, 0), Err(Refusal::NoSuchNode));
    assert_eq!(triangle_mesh_map_row(&matrix, 3, 0), Err(Refusal::Map));
    assert_eq!(triangle_mesh_map_row(&matrix, 1, 4), Err(Refusal::NoSuchNode));
    assert_eq!(triangle_mesh_map_row(&matrix, 1, 3), Ok(&[4.0][..]));
    let interaction = triangle_mesh_interaction_energy_from_source_coefficients(&matrix, &[1.0], &[1.0, 2.0]);
    assert_eq!(interaction, Err(Refusal::Flux));
}

#[test]
fn files() {
    let file = square().to_panel_file();
    let read = |file: &[u8]| TriangleMesh::from_panel_file(file).map(|mesh| mesh.view().len());
    assert_eq!(read(&file), Ok(2));
    assert_eq!(read(&[]), Err(Refusal::Mark));
    assert_eq!(read(&file[..8]), Err(Refusal::Mark));
    assert_eq!(read(&file[..file.len() - 1]), Err(Refusal::FileLength));
    assert_eq!(read(&[&file[..], &[0]].concat()), Err(Refusal::FileLength));
    let changed = |at: usize, byte: u8| {
        let mut file = file.clone();
        file[at] = byte;
        read(&file)
    };
    assert_eq!(changed(0, b'p'), Err(Refusal::Mark));
    assert_eq!(changed(3, 2), Err(Refusal::Mark));
    assert_eq!(changed(6, 0xff), Err(Refusal::TooLarge));
    assert_eq!(changed(5, 3), Err(Refusal::FileLength));
    assert_eq!(changed(file.len() - 2, 4), Err(Refusal::MissingNode));
    assert_eq!(changed(file.len() - 2, 3), Err(Refusal::ZeroArea));
    let (mut x, mut y, mut z) = ([7.0; 3], [7.0; 4], [7.0; 4]);
    let [mut a, mut b, mut c] = [[7; 2]; 3];
    let refused = read_panel_file(&file, (&mut x, &mut y, &mut z), (&mut a, &mut b, &mut c));
    assert_eq!(refused, Err(Refusal::Output));
    assert_eq!(
        (x, y, z, a, b, c),
        ([7.0; 3], [7.0; 4], [7.0; 4], [7; 2], [7; 2], [7; 2])
    );
}

#[test]
fn rules_and_display() {
    for number in [0, 6, u32::MAX] {
        assert_eq!(QuadratureKind::try_from(number), Err(Refusal::NoSuchChoice));
    }
    for x in [f64::NAN, f64::INFINITY, 1e7, -1e7] {
        assert_eq!(display(x), Err(Refusal::Display));
    }
    assert_eq!((display(1e6), display(-0.0)), (Ok(1_000_000_000_000_000), Ok(0)));
}
