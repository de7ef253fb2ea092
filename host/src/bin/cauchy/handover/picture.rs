//! The mesh with its kernels as a picture.
use super::html::{Html, element, void};
use super::thin::Thinned;
use super::view::{Frame, SIDE, View, drawing};
use cauchy::{Held, Kernel};
use std::f64::consts::TAU;
use std::fmt::Write;

/// How many shades of grey faces have; the style sheet names their colours.
const SHADES: usize = 10;
/// Where the light comes from: from the left, from above, from the eye.
const LIGHT: [f64; 3] = [-0.43, 0.57, 0.7];
/// The radius of a place's number.
const LABEL: f64 = 9.0;

/// Draws the mesh with the kernels of these places, as an eye far away sees them. Where the mesh is closed, faces that
/// look away are hidden, and left out.
pub fn picture(view: View, frame: &Frame, body: &Thinned, held: &[(u32, Held)], closed: bool) -> Html {
    let title = format!("The mesh seen from {}, with its kernels by the numbers of their places", view.from);
    let square = [faces(view, frame, body, closed), rings(view, frame, held), marks(view, frame, held)];
    drawing(&format!("mesh-{}", view.name), &title, frame, square)
}

/// A face as it is seen.
struct Seen {
    /// How near it is to the eye.
    near: f64,
    shade: usize,
    /// Its corners, in tenths of a point of the page.
    corners: [[i64; 2]; 3],
}

/// The faces, the farthest first, so that nearer ones cover them. Neighbours in that order with one shade are one path.
fn faces(view: View, frame: &Frame, body: &Thinned, closed: bool) -> Html {
    let outwards = if volume(body) < 0.0 { -1.0 } else { 1.0 };
    let corners = |face: &[u32; 3]| face.map(|corner| body.vertices[corner as usize]);
    let seen = |face: &[u32; 3]| seen(view, frame, corners(face), outwards, closed);
    let mut faces: Vec<Seen> = body.faces.iter().filter_map(seen).collect();
    faces.sort_by(|a, b| a.near.total_cmp(&b.near));
    let path = |faces: &[Seen]| {
        let class = format!("f{}", faces.first().map_or(0, |face| face.shade));
        let way: String = faces.iter().map(way).collect();
        void("path", &[("class", &class), ("d", &way)])
    };
    let paths = faces.chunk_by(|a, b| a.shade == b.shade).map(path).collect::<Html>();
    element("g", &[("class", "faces"), ("transform", "scale(.1)")], paths)
}

/// The signed volume, to tell whether faces are turned outwards.
fn volume(body: &Thinned) -> f64 {
    let corners = |face: &[u32; 3]| face.map(|corner| body.vertices[corner as usize]);
    body.faces.iter().map(corners).map(|[a, b, c]| dot(a, cross(b, c))).sum()
}

/// A face as it is seen; nothing where it is not.
fn seen(view: View, frame: &Frame, corners: [[f64; 3]; 3], outwards: f64, closed: bool) -> Option<Seen> {
    let [a, b, c] = corners;
    let normal = cross(sub(b, a), sub(c, a)).map(|x| x * outwards);
    let towards = normal[view.along] * view.toward;
    let length = dot(normal, normal).sqrt();
    if closed && towards <= 0.0 || length == 0.0 {
        return None;
    }
    // the inside of a shell is lit as its outside is
    let side = if towards < 0.0 { -1.0 } else { 1.0 };
    let lit =
        side * (LIGHT[0] * normal[view.right] + LIGHT[1] * normal[view.up] + LIGHT[2] * towards) / length;
    let shade = (lit.max(0.0) * SHADES as f64) as usize;
    let tenths = corners.map(|corner| frame.at(view, corner).map(|x| (10.0 * x).round() as i64));
    let near = corners.iter().map(|corner| corner[view.along] * view.toward).sum::<f64>();
    let [p, q, r] = tenths;
    let is_line = (q[0] - p[0]) * (r[1] - p[1]) == (q[1] - p[1]) * (r[0] - p[0]);
    (!is_line).then_some(Seen { near, shade: shade.min(SHADES - 1), corners: tenths })
}

/// The way around a face.
fn way(face: &Seen) -> String {
    let [[x, y], b, c] = face.corners;
    let mut way = format!("M{x} {y}l");
    for ([x, y], [from_x, from_y]) in [(b, face.corners[0]), (c, b)] {
        let _ = write!(way, "{} {} ", x - from_x, y - from_y);
    }
    format!("{}z", way.trim_end())
}

/// A dashed ring around each centre where the kernel has fallen to half its weight.
fn rings(view: View, frame: &Frame, held: &[(u32, Held)]) -> Html {
    let ring = |(_, held): &(u32, Held)| {
        let radius = half_way(held.kernel)? * frame.scale();
        let [x, y] = frame.at(view, held.kernel.c).map(|x| format!("{x:.1}"));
        // much larger ones pass the square by, or are straight in it
        let is_seen = radius < 4.0 * SIDE as f64 && is_near(frame.at(view, held.kernel.c));
        let ring = void("circle", &[("cx", &x), ("cy", &y), ("r", &format!("{radius:.1}"))]);
        // a light ring under the dark dashes, so that they are seen on any ground
        is_seen.then(|| Html::from([ring.clone(), ring]))
    };
    element("g", &[("class", "rings")], held.iter().filter_map(ring).collect::<Html>())
}

/// The distance from the centre at which a kernel has half its weight, m.
fn half_way(kernel: Kernel) -> Option<f64> {
    let distance = (2_f64.powf(1.0 / kernel.alpha) - 1.0).sqrt() / kernel.sigma.abs();
    (kernel.alpha > 0.0 && distance.is_finite() && distance > 0.0).then_some(distance)
}

/// Whether a point is in the square.
fn is_near(at: [f64; 2]) -> bool {
    at.iter().all(|x| (0.0..=SIDE as f64).contains(x))
}

/// The places whose kernels have their centres outside the square.
pub fn not_shown(view: View, frame: &Frame, held: &[(u32, Held)]) -> Vec<u32> {
    let is_out = |(_, held): &&(u32, Held)| !is_near(frame.at(view, held.kernel.c));
    held.iter().filter(is_out).map(|(place, _)| *place).collect()
}

/// A dot at each centre and the number of its place, on the dot or, where another number is there, beside it on a line.
fn marks(view: View, frame: &Frame, held: &[(u32, Held)]) -> Html {
    let mut taken: Vec<[f64; 2]> = Vec::new();
    let mut mark = |(place, at): (u32, [f64; 2])| {
        let spot = free_spot(at, &taken);
        taken.push(spot);
        (pointer(at, spot), label(place, spot))
    };
    let places = held.iter().map(|(place, held)| (*place, frame.at(view, held.kernel.c)));
    let marks = places.filter(|(_, at)| is_near(*at)).map(&mut mark);
    // no dot and no line goes over a number
    let (pointers, labels): (Vec<Html>, Vec<Html>) = marks.unzip();
    element("g", &[("class", "marks")], pointers.into_iter().chain(labels).collect::<Html>())
}

/// A dot, and a line from it to the spot of its number.
fn pointer(at: [f64; 2], spot: [f64; 2]) -> Html {
    let [[x, y], [spot_x, spot_y]] = [at, spot].map(|point| point.map(|x| format!("{x:.1}")));
    let line = void("path", &[("d", &format!("M{x} {y}L{spot_x} {spot_y}"))]);
    Html::from([line, void("circle", &[("class", "dot"), ("cx", &x), ("cy", &y), ("r", "2.5")])])
}

/// The number of a place on its ground.
fn label(place: u32, spot: [f64; 2]) -> Html {
    let [x, y] = spot.map(|x| format!("{x:.1}"));
    let (radius, below) = (LABEL.to_string(), format!("{:.1}", spot[1] + 3.6));
    let ground = void("circle", &[("class", "label"), ("cx", &x), ("cy", &y), ("r", &radius)]);
    Html::from([ground, element("text", &[("x", &x), ("y", &below)], place.to_string())])
}

/// The spot for a number that is nearest to its centre and covers no other number.
fn free_spot(at: [f64; 2], taken: &[[f64; 2]]) -> [f64; 2] {
    let gap = 2.0 * LABEL + 1.0;
    let ring = |n: u32| {
        let (turns, radius) = (8 * n, gap * f64::from(n));
        (0..turns).map(move |turn| {
            let angle = TAU * f64::from(turn) / f64::from(turns);
            [at[0] + radius * angle.cos(), at[1] + radius * angle.sin()]
        })
    };
    let is_free = |spot: &[f64; 2]| {
        let apart = |other: &[f64; 2]| (spot[0] - other[0]).hypot(spot[1] - other[1]) >= gap * 0.999;
        let in_square = spot.iter().all(|x| (LABEL..=SIDE as f64 - LABEL).contains(x));
        in_square && taken.iter().all(apart)
    };
    std::iter::once(at).chain((1..16).flat_map(ring)).find(is_free).unwrap_or(at)
}

fn sub(a: [f64; 3], b: [f64; 3]) -> [f64; 3] {
    [a[0] - b[0], a[1] - b[1], a[2] - b[2]]
}

fn dot(a: [f64; 3], b: [f64; 3]) -> f64 {
    a[0] * b[0] + a[1] * b[1] + a[2] * b[2]
}

fn cross(a: [f64; 3], b: [f64; 3]) -> [f64; 3] {
    [a[1] * b[2] - a[2] * b[1], a[2] * b[0] - a[0] * b[2], a[0] * b[1] - a[1] * b[0]]
}

#[cfg(test)]
mod tests {
    use super::super::thin::thinned;
    use super::super::view::VIEWS;
    use super::*;
    use cauchy::Mesh;

    const VERTICES: [[f64; 3]; 4] = [[0.0; 3], [900.0, 0.0, 0.0], [0.0, 800.0, 0.0], [0.0, 0.0, 700.0]];
    const FACES: [[u32; 3]; 4] = [[0, 2, 1], [0, 1, 3], [0, 3, 2], [1, 2, 3]];

    fn drawn(faces: &[[u32; 3]], closed: bool) -> [String; 3] {
        let mesh = Mesh { vertices: &VERTICES, faces };
        let frame = Frame::of(mesh).unwrap();
        VIEWS.map(|view| super::faces(view, &frame, &thinned(mesh, &frame), closed).into_string())
    }

    #[test]
    fn faces_that_look_away_are_hidden() {
        // from +z and from +x only the slope is seen, from -y only the side in the plane xz
        let views = drawn(&FACES, true);
        assert!(views.iter().all(|view| view.matches('M').count() == 1), "{views:?}");
        assert!(views[1].contains(" d=\"M164 3073l3272 0 -3272 -2546z\"/>"), "{views:?}");
        // turned inside out it is the same body
        let shades = |view: String| view.split(" d=").next().map(str::to_string);
        assert_eq!(drawn(&FACES.map(|[a, b, c]| [a, c, b]), true).map(shades), views.map(shades));
        // without a face one sees into it; faces on edge are never drawn
        let open = drawn(&FACES[..3], false);
        assert_eq!(open.map(|view| view.matches('M').count()), [1, 1, 1]);
        assert!(drawn(&FACES, false).iter().all(|view| view.matches('M').count() == 2));
    }

    fn held(c: [f64; 3], sigma: f64, alpha: f64) -> Held {
        Held { kernel: Kernel { c, sigma, w: 1.0, alpha }, layer: 0, pieces: 1, error: 0.0 }
    }

    #[test]
    fn a_ring_is_where_the_kernel_has_half_its_weight() {
        let kernel = |sigma, alpha| held([0.0; 3], sigma, alpha).kernel;
        assert_eq!(half_way(kernel(0.01, 1.0)), Some(100.0));
        assert_eq!(half_way(kernel(-0.01, 1.0)), Some(100.0));
        let distance = half_way(kernel(0.002, 2.5)).unwrap();
        assert!(((1.0 + (0.002 * distance).powi(2)).powf(-2.5) - 0.5).abs() < 1e-12);
        let without =
            [(0.0, 1.0), (f64::NAN, 1.0), (0.01, f64::NAN), (0.01, 0.0), (0.01, -1.0), (0.01, f64::INFINITY)];
        assert!(without.iter().all(|(sigma, alpha)| half_way(kernel(*sigma, *alpha)).is_none()));
    }

    #[test]
    fn no_number_covers_another() {
        let mut taken: Vec<[f64; 2]> = Vec::new();
        for at in [[180.0, 180.0], [5.0, 5.0], [358.0, 182.0]].iter().cycle().take(96) {
            let spot = free_spot(*at, &taken);
            assert!(spot.iter().all(|x| (LABEL..=SIDE as f64 - LABEL).contains(x)), "{spot:?}");
            let apart = |other: &[f64; 2]| (spot[0] - other[0]).hypot(spot[1] - other[1]) > 2.0 * LABEL;
            assert!(taken.iter().all(apart), "{spot:?}");
            taken.push(spot);
        }
        assert_eq!(free_spot([100.0, 50.0], &[]), [100.0, 50.0]);
    }

    #[test]
    fn kernels_far_outside_are_named_and_not_drawn() {
        let frame = Frame::of(Mesh { vertices: &VERTICES, faces: &FACES }).unwrap();
        let places = [
            (0, held([100.0; 3], 0.01, 1.0)),
            (3, held([100.0, 100.0, 5000.0], 0.01, 1.0)),
            (9, held([f64::NAN, 0.0, 0.0], 0.01, 1.0)),
        ];
        let [xy, xz, yz] = VIEWS.map(|view| not_shown(view, &frame, &places));
        assert_eq!((xy, xz, yz), (vec![9], vec![3, 9], vec![3]));
        let [xy, xz, _] = VIEWS.map(|view| marks(view, &frame, &places).into_string());
        assert!(xy.contains(">0</text>") && xy.contains(">3</text>") && !xy.contains("NaN"));
        assert!(xz.contains(">0</text>") && !xz.contains(">3</text>"));
    }
}
