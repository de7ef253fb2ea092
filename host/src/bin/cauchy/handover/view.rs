//! How pictures look at the body: along one of three axes, in a square that holds its whole mesh.
use super::html::{Html, element, void};
use crate::figures::short;
use crate::plot::tick_step;
use cauchy::Mesh;

/// The side of a picture's square, in points of the page.
pub const SIDE: usize = 360;
/// The side, and with it the strip under the square that has the scale.
const TALL: usize = SIDE + 34;

/// A look along an axis.
#[derive(Clone, Copy)]
pub struct View {
    /// The axes that go to the right and up, by name.
    pub name: &'static str,
    /// Where it is seen from.
    pub from: &'static str,
    /// The numbers of these axes, and of the one along which it is seen.
    pub right: usize,
    pub up: usize,
    pub along: usize,
    /// 1 where that axis comes towards the eye, -1 where it leads away.
    pub toward: f64,
}

/// The three views, each with its axes turned as on paper.
pub const VIEWS: [View; 3] = [
    View { name: "xy", from: "+z", right: 0, up: 1, along: 2, toward: 1.0 },
    View { name: "xz", from: "−y", right: 0, up: 2, along: 1, toward: -1.0 },
    View { name: "yz", from: "+x", right: 1, up: 2, along: 0, toward: 1.0 },
];

impl View {
    /// The way of its axes in words.
    pub fn axes(self) -> String {
        let [right, up] = [self.right, self.up].map(|axis| ["x", "y", "z"][axis]);
        format!("{right} to the right, {up} up")
    }
}

/// The cube whose sides are the pictures' squares, in metres.
pub struct Frame {
    pub middle: [f64; 3],
    pub half: f64,
    /// How far the mesh reaches along x, y and z.
    pub extent: [f64; 3],
}

impl Frame {
    /// Around the corners of a mesh's faces, with some room; nothing where they have no finite extent.
    pub fn of(mesh: Mesh<'_>) -> Option<Frame> {
        let none = ([f64::INFINITY; 3], [f64::NEG_INFINITY; 3]);
        let corners = mesh.faces.as_flattened().iter().map(|corner| mesh.vertices[*corner as usize]);
        let (low, high) = corners.filter(is_finite).fold(none, |(low, high), point| {
            let axes = [0, 1, 2];
            (axes.map(|i: usize| low[i].min(point[i])), axes.map(|i| high[i].max(point[i])))
        });
        let extent = [0, 1, 2].map(|i| high[i] - low[i]);
        let middle = [0, 1, 2].map(|i| low[i] + extent[i] / 2.0);
        let longest = extent.into_iter().fold(0.0, f64::max);
        // beyond these nothing is a body, and squares of lengths are no numbers
        let is_body = (1e-100..1e100).contains(&longest) && middle.iter().all(|x| x.abs() < 1e100);
        is_body.then_some(Frame { middle, half: 0.55 * longest, extent })
    }

    /// Where a point is seen: to the right and down from the square's upper left, in points of the page.
    pub fn at(&self, view: View, point: [f64; 3]) -> [f64; 2] {
        let along = |axis: usize| (point[axis] - self.middle[axis]) * self.scale();
        let half_side = SIDE as f64 / 2.0;
        [half_side + along(view.right), half_side - along(view.up)]
    }

    /// Points of the page in a metre.
    pub fn scale(&self) -> f64 {
        SIDE as f64 / (2.0 * self.half)
    }

    /// The point in the plane through the origin that is seen at the middle of a point of the square.
    pub fn point(&self, view: View, row: usize, column: usize) -> [f64; 3] {
        let along = |n: usize| (n as f64 + 0.5) / self.scale() - self.half;
        let mut point = [0.0; 3];
        point[view.right] = self.middle[view.right] + along(column);
        point[view.up] = self.middle[view.up] - along(row);
        point
    }
}

fn is_finite(point: &[f64; 3]) -> bool {
    point.iter().all(|x| x.is_finite())
}

/// A picture of the square with its scale under it and words for those who do not see it.
pub fn drawing(id: &str, title: &str, frame: &Frame, square: impl Into<Html>) -> Html {
    let (side, tall) = (SIDE.to_string(), TALL.to_string());
    let title_id = format!("{id}-title");
    let size = format!("0 0 {side} {tall}");
    let shown = [("class", "picture"), ("viewBox", &size), ("role", "img"), ("aria-labelledby", &title_id)];
    let title = element("title", &[("id", &title_id)], title);
    // a drawing within the drawing: what reaches beyond the square is cut off
    let square = element("svg", &[("width", &side), ("height", &side)], square);
    element("svg", &shown, [title, square, scale_bar(frame)])
}

/// A bar of a round length, and that length in kilometres.
fn scale_bar(frame: &Frame) -> Html {
    let length = tick_step(frame.half / 2.0);
    let (from, y) = (12.0, SIDE as f64 + 14.0);
    let to = from + length * frame.scale();
    let path = format!("M{from} {0}v8m0-4H{to:.1}m0-4v8", y - 4.0);
    let label = format!("{} km", short(length / 1000.0));
    let (beside, below) = (format!("{:.1}", to + 8.0), format!("{}", y + 4.5));
    let label = element("text", &[("x", &beside), ("y", &below)], label);
    element("g", &[("class", "scale")], [void("path", &[("d", &path)]), label])
}

#[cfg(test)]
mod tests {
    use super::*;

    const VERTICES: [[f64; 3]; 5] =
        [[0.0; 3], [1000.0, 0.0, 0.0], [0.0, 600.0, 0.0], [0.0, 0.0, -400.0], [9e9; 3]];
    const FACES: [[u32; 3]; 2] = [[0, 1, 2], [0, 2, 3]];

    #[test]
    fn the_square_holds_what_faces_use() {
        let frame = Frame::of(Mesh { vertices: &VERTICES, faces: &FACES }).unwrap();
        assert_eq!((frame.middle, frame.half), ([500.0, 300.0, -200.0], 550.0));
        assert_eq!(frame.extent, [1000.0, 600.0, 400.0]);
        let [xy, xz, yz] = VIEWS.map(|view| frame.at(view, [1050.0, 850.0, 350.0]));
        assert!(
            [xy, xz, yz].iter().flatten().zip([360.0, 0.0].iter().cycle()).all(|(a, b)| (a - b).abs() < 1e-9)
        );
    }

    #[test]
    fn a_point_of_the_plane_is_seen_where_it_was_asked() {
        let frame = Frame::of(Mesh { vertices: &VERTICES, faces: &FACES }).unwrap();
        for (view, (row, column)) in VIEWS.into_iter().zip([(0, 0), (359, 100), (77, 359)]) {
            let point = frame.point(view, row, column);
            let [right, down] = frame.at(view, point);
            assert!((right - column as f64 - 0.5).abs() < 1e-9 && (down - row as f64 - 0.5).abs() < 1e-9);
            assert_eq!(point[view.along], 0.0);
        }
    }

    #[test]
    fn a_view_has_its_axes_turned_as_on_paper() {
        for view in VIEWS {
            let unit = |axis: usize| [0, 1, 2].map(|i| f64::from(u8::from(i == axis)));
            let ([a, b, c], [x, y, z]) = (unit(view.right), unit(view.up));
            let cross = [b * z - c * y, c * x - a * z, a * y - b * x];
            assert_eq!(cross[view.along], view.toward);
        }
    }

    #[test]
    fn a_mesh_without_extent_has_no_square() {
        let mesh = |vertices, faces| Mesh { vertices, faces };
        assert!(Frame::of(mesh(&VERTICES, &[])).is_none());
        assert!(Frame::of(mesh(&[[5.0; 3]; 3], &[[0, 1, 2]])).is_none());
        assert!(Frame::of(mesh(&[[f64::NAN; 3]; 3], &[[0, 1, 2]])).is_none());
        assert!(Frame::of(mesh(&[[f64::MAX; 3], [f64::MIN; 3]], &[[0, 1, 1]])).is_none());
        assert!(Frame::of(mesh(&[[0.0; 3], [f64::INFINITY; 3], [1.0; 3]], &[[0, 1, 2]])).is_some());
    }
}
