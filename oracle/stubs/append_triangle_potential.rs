/// Appended by build.sh: the record's fields in FORMAT.md's order.
impl UniformTriangle<f64> {
    pub(crate) fn parts(&self) -> Vec<f64> {
        let rows = |m: &[[f64; 3]; 3]| m.as_flattened().to_vec();
        [
            rows(&self.nodes),
            self.normal.to_vec(),
            rows(&self.edge_tangent),
            rows(&self.edge_outward),
            self.edge_length.to_vec(),
            vec![self.max_edge],
        ]
        .concat()
    }
}
