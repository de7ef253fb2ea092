//! Whether a point is inside a mesh, for meshes of any size.
//!
//! A point is inside where the mesh winds around it: where the solid angles of its faces, seen from the point and
//! with their signs, add up to more than half a sphere, one way or the other. Around a closed mesh that sum is a
//! whole number of spheres, and it is the number of faces that a ray from the point leaves through, less those that
//! it enters by: so rays are counted, through a tree over the faces (`rays`). That is exact: a point on the surface
//! itself is inside where it would be if it lay a trifle farther along x, then y, then z. An open mesh is closed by
//! caps for that, and their solid angles are what it has not (`caps`).
mod caps;
mod order;
mod orientation;
mod rays;

use caps::Caps;
use cauchy::Mesh;
use order::{corners, near_ones_together};
use rays::Tree;

/// Coordinates from here on are not judged, since products of three of them may overflow.
const REACH: f64 = 1e90;

/// The faces of a store's mesh, ready to be asked for many points.
pub struct Faces<'a> {
    /// The faces and the caps; nothing where no point is inside.
    closed: Option<(Tree<'a>, Caps<'a>)>,
}

impl<'a> Faces<'a> {
    pub fn new(mesh: Mesh<'a>) -> Faces<'a> {
        let closed = is_in_reach(mesh).then(|| {
            let over_holes = caps::over(caps::open_edges(mesh));
            let inside_out = over_holes.iter().map(|[a, b, c]| [*a, *c, *b]);
            let faces = mesh.faces.iter().copied().chain(inside_out).collect();
            let tree = Tree::new(mesh.vertices, near_ones_together(mesh.vertices, faces));
            (tree, Caps::new(mesh.vertices, over_holes))
        });
        Faces { closed }
    }

    /// Whether a point is inside. No point is inside a mesh with a corner that is not finite or is beyond all measure.
    pub fn contains(&self, point: [f64; 3]) -> bool {
        let winds = |(tree, caps): &(Tree<'_>, Caps<'_>)| caps.wind(tree.crossings(point), point);
        is_near(point) && self.closed.as_ref().is_some_and(winds)
    }
}

/// Whether a point is inside a store's mesh, by a look at every face: sooner than a tree for one point.
pub fn contains(mesh: Mesh<'_>, point: [f64; 3]) -> bool {
    is_in_reach(mesh) && is_near(point) && winds(mesh, &caps::open_edges(mesh), point)
}

fn winds(mesh: Mesh<'_>, open_edges: &[[u32; 2]], point: [f64; 3]) -> bool {
    let faces = mesh.faces.iter().map(|face| corners(mesh.vertices, *face));
    let crossings: i64 = faces.map(|face| rays::crossing(face, point)).sum();
    let edges = open_edges.iter().map(|ends| ends.map(|end| mesh.vertices[end as usize]));
    let open: f64 = edges.map(|ends| caps::spheres_below(ends, point)).sum();
    (crossings as f64 + open).abs() > 0.5
}

fn is_near(point: [f64; 3]) -> bool {
    point.iter().all(|x| x.abs() < REACH)
}

fn is_in_reach(mesh: Mesh<'_>) -> bool {
    mesh.faces.iter().all(|face| corners(mesh.vertices, *face).into_iter().all(is_near))
}

#[cfg(test)]
mod tests {
    use super::*;
    use std::f64::consts::{PI, TAU};

    struct Body {
        vertices: Vec<[f64; 3]>,
        faces: Vec<[u32; 3]>,
    }

    impl Body {
        fn mesh(&self) -> Mesh<'_> {
            Mesh { vertices: &self.vertices, faces: &self.faces }
        }

        /// A body with hills, its vertices on circles of latitude: the poles are vertices of many faces.
        fn with_hills(circles: u32, round: u32, size: f64) -> Body {
            let mut vertices = vec![[0.0, 0.0, -size], [0.0, 0.0, size]];
            for (i, j) in (1..circles).flat_map(|i| (0..round).map(move |j| (i, j))) {
                let (up, turn) =
                    (PI * f64::from(i) / f64::from(circles), TAU * f64::from(j) / f64::from(round));
                let far = size * (1.0 + 0.2 * (5.0 * turn).sin() * (3.0 * up).sin());
                vertices.push([far * up.sin() * turn.cos(), far * up.sin() * turn.sin(), -far * up.cos()]);
            }
            let at = |i: u32, j: u32| match i {
                0 => 0,
                i if i == circles => 1,
                i => 2 + (i - 1) * round + j % round,
            };
            let faces = (0..circles).flat_map(|i| (0..round).map(move |j| (i, j))).flat_map(|(i, j)| {
                let [a, b, c, d] = [at(i, j), at(i, j + 1), at(i + 1, j + 1), at(i + 1, j)];
                [[a, b, c], [a, c, d]]
            });
            let faces = faces.filter(|[a, b, c]| a != b && b != c && c != a).collect();
            Body { vertices, faces }
        }

        /// A cube of whole corners from 0 to `wide`, every side cut into squares.
        fn cube(wide: u32) -> Body {
            let mut body = Body { vertices: Vec::new(), faces: Vec::new() };
            for (axis, end) in (0..3).flat_map(|axis| [(axis, 0), (axis, wide)]) {
                body.side(axis, end, wide);
            }
            body
        }

        fn side(&mut self, axis: usize, end: u32, wide: u32) {
            for (i, j) in (0..wide).flat_map(|i| (0..wide).map(move |j| (i, j))) {
                let corner = |(i, j): (u32, u32)| {
                    let mut at = [0.0; 3];
                    (at[axis], at[(axis + 1) % 3], at[(axis + 2) % 3]) = (end.into(), i.into(), j.into());
                    at
                };
                let first = self.vertices.len() as u32;
                self.vertices.extend([(i, j), (i + 1, j), (i + 1, j + 1), (i, j + 1)].map(corner));
                let [a, b, c, d] = [first, first + 1, first + 2, first + 3];
                let square = if end > 0 { [[a, b, c], [a, c, d]] } else { [[a, c, b], [a, d, c]] };
                self.faces.extend(square);
            }
        }
    }

    /// Numbers from -1 to 1 that look like chance, and are the same each time.
    struct Chance(u64);

    impl Chance {
        fn number(&mut self) -> f64 {
            self.0 = self.0.wrapping_mul(6_364_136_223_846_793_005).wrapping_add(1_442_695_040_888_963_407);
            (self.0 >> 11) as f64 / (1_u64 << 52) as f64 - 1.0
        }

        fn point(&mut self, far: f64) -> [f64; 3] {
            std::array::from_fn(|_| far * self.number())
        }
    }

    /// How often the mesh winds around the point, by the solid angle of every face.
    fn turns(mesh: Mesh<'_>, point: [f64; 3]) -> f64 {
        let dot = |a: [f64; 3], b: [f64; 3]| a[0] * b[0] + a[1] * b[1] + a[2] * b[2];
        let half_angle = |face: &[u32; 3]| {
            let [a, b, c] = face.map(|corner| {
                let at = mesh.vertices[corner as usize];
                [at[0] - point[0], at[1] - point[1], at[2] - point[2]]
            });
            let [la, lb, lc] = [a, b, c].map(|a| dot(a, a).sqrt());
            let below = la * lb * lc + dot(a, b) * lc + dot(b, c) * la + dot(c, a) * lb;
            let cross = [b[1] * c[2] - b[2] * c[1], b[2] * c[0] - b[0] * c[2], b[0] * c[1] - b[1] * c[0]];
            dot(a, cross).atan2(below)
        };
        mesh.faces.iter().map(half_angle).sum::<f64>() / TAU
    }

    /// Holds the tree to the plain look at every face, and both to the solid angles wherever these are not in doubt.
    /// Answers how many points are inside.
    fn compared(body: &Body, points: &[[f64; 3]]) -> usize {
        let (faces, open_edges) = (Faces::new(body.mesh()), caps::open_edges(body.mesh()));
        let mut doubtful = 0;
        let mut is_inside = |point: &[f64; 3]| {
            let (told, turns) = (faces.contains(*point), turns(body.mesh(), *point));
            assert_eq!(told, winds(body.mesh(), &open_edges, *point), "{point:?}");
            let in_doubt = (turns.abs() - 0.5).abs() < 1e-9;
            assert!(in_doubt || told == (turns.abs() > 0.5), "{point:?}: {turns} turns, and {told}");
            doubtful += usize::from(in_doubt);
            told
        };
        let inside = points.iter().filter(|point| is_inside(point)).count();
        assert!(doubtful * 100 <= points.len(), "{doubtful} of {}", points.len());
        inside
    }

    /// Points about a body: anywhere, and straight above and below its vertices and the middles of its edges.
    fn points_about(body: &Body, count: usize) -> Vec<[f64; 3]> {
        let mut chance = Chance(7);
        let anywhere = (0..count).map(|_| chance.point(1300.0)).collect::<Vec<_>>();
        let heights =
            |[x, y, z]: [f64; 3]| [-1500.0, z - 70.0, z - 0.01, z + 0.01, z + 70.0].map(|z| [x, y, z]);
        let vertex = |i: usize| body.vertices[i * 131 % body.vertices.len()];
        let middle = |i: usize| {
            let [a, b, _] =
                body.faces[i * 177 % body.faces.len()].map(|corner| body.vertices[corner as usize]);
            [0, 1, 2].map(|axis| (a[axis] + b[axis]) / 2.0)
        };
        let on_edges = (0..count / 10).flat_map(|i| [vertex(i), middle(i)]).flat_map(heights);
        anywhere.into_iter().chain(on_edges).collect()
    }

    #[test]
    fn a_tree_a_look_at_every_face_and_solid_angles_agree() {
        let body = Body::with_hills(20, 24, 1000.0);
        let points = points_about(&body, 1500);
        let inside = compared(&body, &points);
        assert!(inside > 600 && points.len() - inside > 600, "{inside} of {}", points.len());
        // inside out, and every face twice, are as before
        let out = Body { faces: body.faces.iter().map(|[a, b, c]| [*a, *c, *b]).collect(), ..body };
        assert_eq!(compared(&out, &points), inside);
        let twice = Body { faces: [out.faces.clone(), out.faces].concat(), vertices: out.vertices };
        assert_eq!(compared(&twice, &points), inside);
    }

    #[test]
    fn open_meshes_are_judged_by_solid_angles_too() {
        let whole = Body::with_hills(16, 20, 1000.0);
        let points = points_about(&whole, 1000);
        let inside = compared(&whole, &points);
        let some = |every: usize, kept: std::ops::Range<usize>| {
            let faces = whole.faces.iter().enumerate().filter(|(i, _)| kept.contains(&(i % every)));
            let faces = faces.map(|(_, face)| *face).collect();
            compared(&Body { vertices: whole.vertices.clone(), faces }, &points)
        };
        let few_holes = some(50, 0..49);
        assert!(few_holes > inside * 8 / 10, "{few_holes} of {inside}");
        // less than half a body has no inside to speak of, and a half has some
        let half = some(whole.faces.len(), 0..whole.faces.len() * 6 / 10);
        assert!(half > 0 && half < inside, "{half}");
        assert!(some(7, 2..5) < inside / 4);
    }

    #[test]
    fn faces_that_share_no_vertex_close_a_body_all_the_same() {
        let body = Body::with_hills(16, 20, 1000.0);
        let points = points_about(&body, 500);
        let corners = body.faces.iter().flatten();
        let vertices: Vec<[f64; 3]> = corners.map(|corner| body.vertices[*corner as usize]).collect();
        let faces = (0..body.faces.len() as u32).map(|i| [3 * i, 3 * i + 1, 3 * i + 2]).collect();
        let apart = Body { vertices, faces };
        assert!(apart.mesh().closed().is_err() && caps::open_edges(apart.mesh()).is_empty());
        assert_eq!(compared(&apart, &points), compared(&body, &points));
    }

    /// Every ray meets edges or corners here, and a point on the surface is inside where its trifles lead inwards.
    #[test]
    fn whole_points_of_a_cube_are_inside_from_its_low_sides_to_before_its_high_ones() {
        let body = Body::cube(4);
        let faces = Faces::new(body.mesh());
        let numbers = || (-2..7).flat_map(|i| [f64::from(i), f64::from(i) + 0.5]);
        let points = numbers().flat_map(|x| numbers().flat_map(move |y| numbers().map(move |z| [x, y, z])));
        for point in points {
            let want = point.iter().all(|x| (0.0..4.0).contains(x));
            assert_eq!((faces.contains(point), contains(body.mesh(), point)), (want, want), "{point:?}");
        }
    }

    #[test]
    fn the_nearest_floats_to_a_surface_are_judged() {
        let body = Body::with_hills(6, 7, 1000.0);
        let faces = Faces::new(body.mesh());
        let [a, b, c] = corners(&body.vertices, body.faces[40]);
        let z = (a[2] + b[2] + c[2]) / 3.0;
        let point = |z: f64| [(a[0] + b[0] + c[0]) / 3.0, (a[1] + b[1] + c[1]) / 3.0, z];
        let mut heights = vec![z - 8.0 * z.abs() * f64::EPSILON];
        (0..16).for_each(|i| heights.push(heights[i].next_up()));
        let told: Vec<bool> = heights.iter().map(|z| faces.contains(point(*z))).collect();
        assert!(
            told[0] != told[16] && told.windows(2).filter(|pair| pair[0] != pair[1]).count() == 1,
            "{told:?}"
        );
    }

    #[test]
    fn nothing_is_inside_what_has_no_measure() {
        let mut body = Body::with_hills(6, 7, 1000.0);
        assert!(contains(body.mesh(), [0.0; 3]));
        for far in [f64::NAN, f64::INFINITY, 1e90] {
            assert!(!contains(body.mesh(), [0.0, far, 0.0]) && !Faces::new(body.mesh()).contains([far; 3]));
            let was = std::mem::replace(&mut body.vertices[9][1], far);
            assert!(!contains(body.mesh(), [0.0; 3]) && !Faces::new(body.mesh()).contains([0.0; 3]));
            body.vertices[9][1] = was;
        }
        let none = Mesh { vertices: &[], faces: &[] };
        assert!(!contains(none, [0.0; 3]) && !Faces::new(none).contains([0.0; 3]));
        let flat = Mesh { vertices: &[[1.0; 3]; 3], faces: &[[0, 1, 2], [2, 2, 2]] };
        assert!(!contains(flat, [1.0; 3]) && !Faces::new(flat).contains([1.0, 1.0, 0.0]));
    }
}
