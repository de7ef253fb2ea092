//! The ray straight up from a point, along z: how often it leaves through faces, less how often it enters by them.
//!
//! A ray through an edge or a corner is decided as if the point lay a trifle farther along x, a still smaller trifle
//! along y, and the smallest along z: so small that they move it across nothing that it is not on. The point so moved
//! is never on an edge, every face is crossed or not, and neighbours agree on the edge between them. The signs that
//! this hangs on are those of `orientation`, which do not round.
use super::order::corners;
use super::orientation::{in_plane, in_space};

/// Faces in a leaf of a tree, and boxes in a node.
const FAN: usize = 8;

/// 1 where the ray straight up from a point leaves through a face, -1 where it enters by it, 0 where it passes beside.
pub fn crossing(face: [[f64; 3]; 3], point: [f64; 3]) -> i64 {
    if !Bounds::of_face(face).is_met(point) {
        return 0;
    }
    let ([a, b, c], [x, y, _]) = (face.map(|[x, y, _]| [x, y]), point);
    let side = side_of(a, b, [x, y]);
    if side == 0 || side_of(b, c, [x, y]) != side || side_of(c, a, [x, y]) != side {
        return 0;
    }
    if behind(face, point) == side { i64::from(side) } else { 0 }
}

/// The side of the line from a to b on which a point lies after its trifles: 1 to the left, -1 to the right, and 0 only
/// where a is b.
pub fn side_of(a: [f64; 2], b: [f64; 2], point: [f64; 2]) -> i32 {
    let rising = |x: f64, y: f64| i32::from(x < y) - i32::from(x > y);
    match in_plane(a, b, point) {
        0 if a[1] == b[1] => rising(a[0], b[0]),
        0 => -rising(a[1], b[1]),
        side => side,
    }
}

/// Whether a point is, after its trifles, behind a face (1) or before it (-1).
fn behind(face: [[f64; 3]; 3], point: [f64; 3]) -> i32 {
    let turned = |x: usize, y: usize| {
        let [a, b, c] = face.map(|corner| [corner[x], corner[y]]);
        -in_plane(a, b, c)
    };
    match in_space(face, point) {
        0 => [turned(1, 2), turned(2, 0), turned(0, 1)].into_iter().find(|side| *side != 0).unwrap_or(0),
        side => side,
    }
}

/// How far some faces reach along x and y, and how high.
#[derive(Clone, Copy)]
struct Bounds {
    low: [f64; 2],
    high: [f64; 2],
    top: f64,
}

impl Bounds {
    const NOTHING: Bounds =
        Bounds { low: [f64::INFINITY; 2], high: [f64::NEG_INFINITY; 2], top: f64::NEG_INFINITY };

    fn of_face(face: [[f64; 3]; 3]) -> Bounds {
        let point = |[x, y, z]: [f64; 3]| Bounds { low: [x, y], high: [x, y], top: z };
        Bounds::around(face.map(point))
    }

    fn around(all: impl IntoIterator<Item = Bounds>) -> Bounds {
        all.into_iter().fold(Bounds::NOTHING, |one, other| {
            let low = |axis: usize| one.low[axis].min(other.low[axis]);
            let high = |axis: usize| one.high[axis].max(other.high[axis]);
            Bounds { low: [low(0), low(1)], high: [high(0), high(1)], top: one.top.max(other.top) }
        })
    }

    /// Whether the ray straight up from a point may meet what is within.
    fn is_met(&self, [x, y, z]: [f64; 3]) -> bool {
        self.low[0] <= x && x <= self.high[0] && self.low[1] <= y && y <= self.high[1] && z <= self.top
    }
}

/// Faces in a tree of boxes.
pub struct Tree<'a> {
    vertices: &'a [[f64; 3]],
    faces: Vec<[u32; 3]>,
    /// The boxes of the leaves, then those of the nodes above them, up to a level of at most `FAN` boxes.
    levels: Vec<Vec<Bounds>>,
}

impl<'a> Tree<'a> {
    /// The tree of faces of which near ones come together.
    pub fn new(vertices: &'a [[f64; 3]], faces: Vec<[u32; 3]>) -> Tree<'a> {
        let of_leaf = |faces: &[[u32; 3]]| {
            Bounds::around(faces.iter().map(|face| Bounds::of_face(corners(vertices, *face))))
        };
        let mut levels = vec![faces.chunks(FAN).map(of_leaf).collect::<Vec<_>>()];
        while let Some(below) = levels.last().filter(|below| below.len() > FAN) {
            levels.push(below.chunks(FAN).map(|boxes| Bounds::around(boxes.iter().copied())).collect());
        }
        Tree { vertices, faces, levels }
    }

    /// The sum over its faces of `crossing`.
    pub fn crossings(&self, point: [f64; 3]) -> i64 {
        let top = self.levels.len() - 1;
        let mut boxes: Vec<(usize, usize)> = (0..self.levels[top].len()).map(|i| (top, i)).collect();
        let mut sum = 0;
        while let Some((level, i)) = boxes.pop() {
            if !self.levels[level][i].is_met(point) {
                continue;
            }
            match level.checked_sub(1) {
                Some(below) => {
                    let end = self.levels[below].len().min(FAN * (i + 1));
                    boxes.extend((FAN * i..end).map(|i| (below, i)));
                }
                None => sum += self.leaf(i, point),
            }
        }
        sum
    }

    fn leaf(&self, i: usize, point: [f64; 3]) -> i64 {
        let faces = self.faces.chunks(FAN).nth(i).unwrap_or_default();
        faces.iter().map(|face| crossing(corners(self.vertices, *face), point)).sum()
    }
}
