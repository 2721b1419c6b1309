//! A mesh as a picture.
use screens::TriangleMeshView;
use screens::mesh::elements::tri::mapping::quality;
use std::fmt::Write;

/// The picture's longer side and the room around the mesh, in pixels.
const SIDE: f64 = 800.0;
const MARGIN: f64 = 40.0;
/// Nodes are numbered if there are at most so many.
const FEW: usize = 100;
/// A panel whose quality is below this is poor.
const POOR: f64 = 1e-3;

/// A picture and what is to be said about it.
pub(crate) struct Drawing {
    pub(crate) text: String,
    /// The axis that the mesh is seen along.
    pub(crate) along: char,
    /// How many panels have a corner that is not finite.
    pub(crate) left_out: usize,
}

/// Draws a mesh.
pub(crate) fn draw(mesh: &TriangleMeshView<'_>, title: &str) -> Drawing {
    let frame = Frame::of(mesh);
    let mut body = String::new();
    let mut left_out = 0;
    for i in 0..mesh.len() {
        match panel(mesh, i, &frame) {
            Some(polygon) => body += &polygon,
            None => left_out += 1,
        }
    }
    body += &nodes(mesh, &frame);
    let heading = format!(
        "{title}: {} nodes, {} panels, {} poor, seen along {}",
        mesh.nnode(),
        mesh.len(),
        mesh.poor_panels(),
        frame.along()
    );
    Drawing {
        text: whole(&frame, &heading, &body),
        along: frame.along(),
        left_out,
    }
}

/// Two axes and how their coordinates become pixels. Everything is halved first, so that no difference overflows.
struct Frame {
    /// The axis looked along, then the axes to the right and up.
    axes: [usize; 3],
    low: [f64; 2],
    /// Halved extents.
    extent: [f64; 2],
    /// Pixels for a halved metre.
    scale: f64,
}

impl Frame {
    fn of(mesh: &TriangleMeshView<'_>) -> Self {
        let columns = mesh.nodes();
        let ranges = [columns.0, columns.1, columns.2].map(range);
        let extents = ranges.map(|(low, high)| high * 0.5 - low * 0.5);
        let mut least = 0;
        for axis in [1, 2] {
            // the last of equal ones, so that a mesh without extent is seen along z
            if extents[axis] <= extents[least] {
                least = axis;
            }
        }
        let [right, up] = [[1, 2], [0, 2], [0, 1]][least];
        let extent = [extents[right], extents[up]];
        let larger = extent[0].max(extent[1]);
        Frame {
            axes: [least, right, up],
            low: [ranges[right].0, ranges[up].0],
            extent,
            scale: if larger > 0.0 { SIDE / larger } else { 0.0 },
        }
    }

    fn along(&self) -> char {
        ['x', 'y', 'z'][self.axes[0]]
    }

    /// The pixels of a node; none if it is not finite.
    fn pixels(&self, node: [f64; 3]) -> Option<[f64; 2]> {
        let [_, right, up] = self.axes;
        let across = (node[right] * 0.5 - self.low[0] * 0.5) * self.scale;
        let above = (node[up] * 0.5 - self.low[1] * 0.5) * self.scale;
        let [_, height] = self.size();
        let place = [MARGIN + across, height - MARGIN - above];
        (node.iter().chain(&place).all(|x| x.is_finite())).then_some(place)
    }

    /// Width and height in pixels.
    fn size(&self) -> [f64; 2] {
        self.extent.map(|extent| {
            let pixels = extent * self.scale;
            2.0 * MARGIN + if pixels.is_finite() { pixels } else { 0.0 }
        })
    }
}

/// The least and the largest finite number; 0 and 0 if there is none.
fn range(column: &[f64]) -> (f64, f64) {
    let finite = || column.iter().copied().filter(|x| x.is_finite());
    finite()
        .reduce(f64::min)
        .zip(finite().reduce(f64::max))
        .unwrap_or_default()
}

fn panel(mesh: &TriangleMeshView<'_>, i: usize, frame: &Frame) -> Option<String> {
    let [a, b, c] = mesh.triangle_nodes(i);
    let corners = [frame.pixels(a)?, frame.pixels(b)?, frame.pixels(c)?];
    let class = if quality(a, b, c) < POOR { " class=\"poor\"" } else { "" };
    let points = corners.map(|[x, y]| format!("{x:.2},{y:.2}")).join(" ");
    Some(format!("<polygon{class} points=\"{points}\"/>\n"))
}

/// Numbers if there are few nodes, otherwise nothing: the corners of the panels show where they are.
fn nodes(mesh: &TriangleMeshView<'_>, frame: &Frame) -> String {
    let mut text = String::new();
    if mesh.nnode() > FEW {
        return text;
    }
    for i in 0..mesh.nnode() {
        if let Some([x, y]) = frame.pixels(mesh.node(i)) {
            // Writing to a text does not fail.
            let _ = writeln!(
                text,
                "<circle cx=\"{x:.2}\" cy=\"{y:.2}\" r=\"2\"/><text x=\"{:.2}\" y=\"{:.2}\">{i}</text>",
                x + 4.0,
                y - 4.0
            );
        }
    }
    text
}

fn whole(frame: &Frame, heading: &str, body: &str) -> String {
    let [width, height] = frame.size();
    // room for the heading, however narrow the mesh is
    let (width, height) = (width.max(SIDE * 0.75), height.max(3.0 * MARGIN));
    let heading = heading.replace('&', "&amp;").replace('<', "&lt;").replace('>', "&gt;");
    // characters that XML does not know are left out
    let heading: String = heading.chars().filter(|c| !c.is_control()).collect();
    format!(
        "<?xml version=\"1.0\" encoding=\"UTF-8\"?>\n\
         <svg xmlns=\"http://www.w3.org/2000/svg\" width=\"{width:.0}\" height=\"{height:.0}\" viewBox=\"0 0 {width:.0} {height:.0}\">\n\
         <style>polygon {{ fill: #9ecae1; fill-opacity: 0.6; stroke: #31688e; stroke-width: 0.7; stroke-linejoin: round }} \
         polygon.poor {{ fill: #d7301f; stroke: #d7301f; stroke-width: 3 }} \
         text {{ font: 11px sans-serif }} circle {{ fill: #08306b }}</style>\n\
         <rect width=\"100%\" height=\"100%\" fill=\"white\"/>\n\
         <text x=\"{MARGIN}\" y=\"22\">{heading}</text>\n\
         {body}</svg>\n"
    )
}

#[cfg(test)]
mod tests {
    use super::*;
    use screens::TriangleMesh;

    fn mesh(nodes: [[f64; 3]; 4]) -> TriangleMesh {
        let column = |axis: usize| nodes.iter().map(|node| node[axis]).collect::<Vec<f64>>();
        TriangleMesh::new((column(0), column(1), column(2)), (vec![0, 1], vec![1, 3], vec![2, 2])).unwrap()
    }

    #[test]
    fn seen_along_the_least_extent() {
        let square = |axis: usize| {
            let corners = [[0.0, 0.0], [2.0, 0.0], [0.0, 1.0], [2.0, 1.0]];
            mesh(corners.map(|[a, b]| [[0.0, a, b], [a, 0.0, b], [a, b, 0.0]][axis]))
        };
        for (axis, name) in ['x', 'y', 'z'].into_iter().enumerate() {
            let drawing = draw(&square(axis).view(), "a < b & c");
            assert_eq!((drawing.along, drawing.left_out), (name, 0));
            assert_eq!(drawing.text.matches("<polygon points=").count(), 2);
            assert_eq!(drawing.text.matches("<circle").count(), 4);
            assert!(
                drawing
                    .text
                    .contains("a &lt; b &amp; c: 4 nodes, 2 panels, 0 poor, seen along")
            );
            assert!(drawing.text.contains("width=\"880\" height=\"480\""));
        }
    }

    #[test]
    fn numbers_that_are_not_finite_or_huge() {
        let far = mesh([
            [-1.7e308, 0.0, 0.0],
            [1.7e308, 0.0, 0.0],
            [0.0, 1.7e308, 0.0],
            [1.0, 1.7e308, 0.0],
        ]);
        let drawing = draw(&far.view(), "far");
        assert_eq!((drawing.along, drawing.left_out), ('z', 0));
        let strange = mesh([
            [f64::NAN, 0.0, 0.0],
            [1.0, 0.0, 0.0],
            [0.0, f64::INFINITY, 0.0],
            [1.0, 1.0, 0.0],
        ]);
        let drawing = draw(&strange.view(), "strange");
        assert_eq!(drawing.left_out, 2);
        for text in [drawing.text, draw(&far.view(), "").text] {
            assert!(!text.contains("NaN") && !text.contains("inf"));
        }
    }

    #[test]
    fn no_node_at_all() {
        let empty = TriangleMesh::new(Default::default(), Default::default()).unwrap();
        assert!(draw(&empty.view(), "empty").text.ends_with("</svg>\n"));
    }

    #[test]
    fn poor_panels_are_marked() {
        let sliver = mesh([[0.0, 0.0, 0.0], [1.0, 0.0, 0.0], [0.5, 1e-6, 0.0], [1.0, 1.0, 0.0]]);
        assert_eq!(sliver.view().poor_panels(), 1);
        assert_eq!(
            draw(&sliver.view(), "").text.matches("<polygon class=\"poor\"").count(),
            1
        );
    }
}
