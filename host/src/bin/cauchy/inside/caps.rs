//! The holes of an open mesh, and what they take from the sphere around a point.
//!
//! The edges that are not matched make loops. Caps, triangles over such a loop, close the mesh: then rays count how
//! often it winds around a point, and the solid angles of the caps are what the open mesh has not. Caps far away
//! cover little of the sphere, so many are taken together, by their area and direction, with a bound on the error of
//! that; and they are looked at closer and closer until the bound leaves no doubt on which side of half a sphere the
//! sum is.
use super::order::{corners, near_ones_together};
use super::rays::{crossing, side_of};
use crate::edges::{self, Edge};
use cauchy::Mesh;
use std::collections::BinaryHeap;
use std::f64::consts::PI;

/// Caps in a leaf of the tree, and balls in a node.
const FAN: usize = 8;
/// How far the rounding of sums is trusted not to reach.
const ROUNDING: f64 = 1e-12;
/// The way of a point's trifle, whose size does not matter.
const TRIFLE: f64 = 1e-150;

// ---- The edges that are not matched ----

/// The edges that do not occur as often one way as the other, each as often as it does more, directed as in its faces.
/// Corners in one place are one corner, by whatever numbers, so that a mesh in pieces that touch is not open there.
pub fn open_edges(mesh: Mesh<'_>) -> Vec<[u32; 2]> {
    if mesh.closed().is_ok() {
        return Vec::new();
    }
    let corner = first_in_place(mesh.vertices);
    let joined: Vec<[u32; 3]> =
        mesh.faces.iter().map(|face| face.map(|vertex| corner[vertex as usize])).collect();
    let more = |edge: Edge| {
        let ends = if edge.up > edge.down { [edge.low, edge.high] } else { [edge.high, edge.low] };
        std::iter::repeat_n(ends, edge.up.abs_diff(edge.down) as usize)
    };
    edges::uneven(Mesh { faces: &joined, ..mesh }).into_iter().flat_map(more).collect()
}

/// For each vertex the first one in its place.
fn first_in_place(vertices: &[[f64; 3]]) -> Vec<u32> {
    // 0 is added since there are two zeros
    let place = |vertex: &u32| vertices[*vertex as usize].map(|x| (x + 0.0).to_bits());
    let mut order: Vec<u32> = (0..vertices.len() as u32).collect();
    order.sort_unstable_by_key(|vertex| (place(vertex), *vertex));
    let mut first = vec![0; vertices.len()];
    for same in order.chunk_by(|one, next| place(one) == place(next)) {
        same.iter().for_each(|vertex| first[*vertex as usize] = same[0]);
    }
    first
}

/// The part of a sphere around a point that the triangle of an edge and straight down, without end, covers, with its
/// sign. Over the edges of a face these, and its crossing, make the part that the face covers. The two sides of the
/// edge differ by a whole sphere for a point straight below it, and the side is that of `crossing`.
pub fn spheres_below([a, b]: [[f64; 3]; 2], point: [f64; 3]) -> f64 {
    let side = side_of([a[0], a[1]], [b[0], b[1]], [point[0], point[1]]);
    let from_point = |end: [f64; 3]| match [end[0] - point[0], end[1] - point[1], end[2] - point[2]] {
        // an end straight above or below the point is off by the point's trifle
        [0.0, 0.0, up] => [-TRIFLE, 0.0, up],
        end => end,
    };
    let [a, b] = [a, b].map(from_point);
    let volume = (a[0] * b[1] - a[1] * b[0]).abs() * -f64::from(side);
    let below = less_its_height(a) * less_its_height(b) + a[0] * b[0] + a[1] * b[1];
    volume.atan2(below) / (2.0 * PI)
}

/// The length of a vector less its height.
fn less_its_height([x, y, z]: [f64; 3]) -> f64 {
    let flat = x * x + y * y;
    let length = (flat + z * z).sqrt();
    // the difference of two near floats would be lost in their rounding
    if z > 0.0 { flat / (length + z) } else { length - z }
}

// ---- Caps ----

/// Triangles that have these edges, directed as they are, for their rim: each loop is halved again and again.
pub fn over(edges: Vec<[u32; 2]>) -> Vec<[u32; 3]> {
    loops(edges).iter().flat_map(|corners| halved(corners)).collect()
}

fn halved(corners: &[u32]) -> Vec<[u32; 3]> {
    let is_wide = |(from, to): &(usize, usize)| to - from > 1;
    let mut caps = Vec::new();
    let mut parts: Vec<_> = Some((0, corners.len().saturating_sub(1))).filter(is_wide).into_iter().collect();
    while let Some((from, to)) = parts.pop() {
        let middle = (from + to) / 2;
        caps.push([corners[from], corners[middle], corners[to]]);
        parts.extend([(from, middle), (middle, to)].into_iter().filter(is_wide));
    }
    caps
}

/// The loops that edges make, each through different vertices. As many edges lead from every vertex as to it.
fn loops(mut edges: Vec<[u32; 2]>) -> Vec<Vec<u32>> {
    edges.sort_unstable();
    let vertices = edges.iter().flatten().max().map_or(0, |last| *last as usize + 1);
    let mut next = vec![0; vertices];
    for (i, [from, _]) in edges.iter().enumerate().rev() {
        next[*from as usize] = i;
    }
    let mut walk = Walk { edges: &edges, next, step: vec![None; vertices], path: Vec::new() };
    edges.chunk_by(|one, next| one[0] == next[0]).flat_map(|same| walk.loops_from(same[0][0])).collect()
}

/// A walk along edges that takes each of them once.
struct Walk<'a> {
    /// The edges, by the vertex that they lead from.
    edges: &'a [[u32; 2]],
    /// For each vertex the first edge from it that is not taken yet.
    next: Vec<usize>,
    /// For each vertex on the path how many come before it.
    step: Vec<Option<usize>>,
    path: Vec<u32>,
}

impl Walk<'_> {
    fn loops_from(&mut self, from: u32) -> Vec<Vec<u32>> {
        self.go_to(from);
        let loops = std::iter::from_fn(|| self.next_loop()).collect();
        self.go_back(0);
        loops
    }

    /// Walks on until it comes to a vertex of its path, and goes back to where it came there first.
    fn next_loop(&mut self) -> Option<Vec<u32>> {
        while let Some(to) = self.path.last().and_then(|at| self.edge_from(*at)) {
            self.next[self.path[self.path.len() - 1] as usize] += 1;
            if let Some(start) = self.step[to as usize] {
                let found = self.path[start..].to_vec();
                self.go_back(start + 1);
                return Some(found);
            }
            self.go_to(to);
        }
        None
    }

    fn edge_from(&self, from: u32) -> Option<u32> {
        let edge = self.edges.get(self.next[from as usize])?;
        (edge[0] == from).then_some(edge[1])
    }

    fn go_to(&mut self, vertex: u32) {
        self.step[vertex as usize] = Some(self.path.len());
        self.path.push(vertex);
    }

    fn go_back(&mut self, steps: usize) {
        self.path.drain(steps..).for_each(|vertex| self.step[vertex as usize] = None);
    }
}

// ---- Their solid angles ----

/// Caps in a tree of balls.
pub struct Caps<'a> {
    vertices: &'a [[f64; 3]],
    faces: Vec<[u32; 3]>,
    /// The balls of the leaves, then those of the nodes above them, up to a level of at most `FAN` balls.
    levels: Vec<Vec<Ball>>,
}

/// Some caps, as they look from far away.
#[derive(Clone, Copy, Default)]
struct Ball {
    caps: f64,
    centre: [f64; 3],
    radius: f64,
    area: f64,
    /// The sum of their areas along their directions.
    directed: [f64; 3],
}

impl Ball {
    fn of_cap([a, b, c]: [[f64; 3]; 3]) -> Ball {
        let centre = [0, 1, 2].map(|axis| (a[axis] + b[axis] + c[axis]) / 3.0);
        let radius = [a, b, c].map(|corner| length(sub(corner, centre))).into_iter().fold(0.0, f64::max);
        let ([ux, uy, uz], [vx, vy, vz]) = (sub(b, a), sub(c, a));
        let directed = [uy * vz - uz * vy, uz * vx - ux * vz, ux * vy - uy * vx].map(|x| x / 2.0);
        Ball { caps: 1.0, centre, radius, area: length(directed), directed }
    }

    fn around(all: &[Ball]) -> Ball {
        let mean = |axis: usize| all.iter().map(|ball| ball.centre[axis]).sum::<f64>() / all.len() as f64;
        let centre = [0, 1, 2].map(mean);
        let reach = |ball: &Ball| length(sub(ball.centre, centre)) + ball.radius;
        Ball {
            caps: all.iter().map(|ball| ball.caps).sum(),
            centre,
            radius: all.iter().map(reach).fold(0.0, f64::max),
            area: all.iter().map(|ball| ball.area).sum(),
            directed: [0, 1, 2].map(|axis| all.iter().map(|ball| ball.directed[axis]).sum()),
        }
    }

    /// The part of the sphere around a point that the caps cover, about, and how far that may be off. A solid angle is
    /// the integral of direction · r / |r|³ over the area, whose integrand changes by at most 2 / |r|³ a metre. A
    /// cap covers at most half a sphere.
    fn spheres(&self, point: [f64; 3]) -> (f64, f64) {
        let r = sub(self.centre, point);
        let (far, near) = (length(r), length(r) - self.radius);
        let off = 2.0 * self.area * self.radius / (near * near * near) / (4.0 * PI);
        if near > 0.0 && off < self.caps / 2.0 {
            let [x, y, z] = self.directed;
            ((x * r[0] + y * r[1] + z * r[2]) / (far * far * far) / (4.0 * PI), off)
        } else {
            (0.0, self.caps / 2.0)
        }
    }
}

impl<'a> Caps<'a> {
    pub fn new(vertices: &'a [[f64; 3]], caps: Vec<[u32; 3]>) -> Caps<'a> {
        let faces = near_ones_together(vertices, caps);
        let caps: Vec<Ball> = faces.iter().map(|face| Ball::of_cap(corners(vertices, *face))).collect();
        let mut levels = vec![caps];
        while let Some(below) = levels.last().filter(|below| below.len() > FAN) {
            levels.push(below.chunks(FAN).map(Ball::around).collect());
        }
        Caps { vertices, faces, levels }
    }

    /// Whether crossings of the closed mesh and the caps make more than half a sphere. What is most in doubt is
    /// looked at closer, until no doubt is left.
    pub fn wind(&self, crossings: i64, point: [f64; 3]) -> bool {
        let top = self.levels.len() - 1;
        let mut sum = Sum { spheres: crossings as f64, off: 0.0, rough: BinaryHeap::new() };
        (0..self.levels[top].len()).for_each(|i| sum.add((top, i), self.levels[top][i].spheres(point)));
        while let Some((level, i)) = sum.most_in_doubt() {
            sum.take(self.levels[level][i].spheres(point));
            match level.checked_sub(1) {
                Some(below) => {
                    let balls = self.levels[below].iter().enumerate().skip(FAN * i).take(FAN);
                    balls.for_each(|(i, ball)| sum.add((below, i), ball.spheres(point)));
                }
                None => sum.spheres += self.covered(i, point),
            }
        }
        sum.spheres.abs() > 0.5
    }

    /// The part of the sphere around a point that a cap covers.
    fn covered(&self, cap: usize, point: [f64; 3]) -> f64 {
        let [a, b, c] = corners(self.vertices, self.faces[cap]);
        let sides: f64 = [[a, b], [b, c], [c, a]].map(|side| spheres_below(side, point)).iter().sum();
        crossing([a, b, c], point) as f64 + sides
    }
}

/// A sum of parts of a sphere, some of them rough.
struct Sum {
    spheres: f64,
    /// How far it may be off.
    off: f64,
    /// The rough ones by how far each may be off, as bits, which order as the numbers do that are not below 0.
    rough: BinaryHeap<(u64, (usize, usize))>,
}

impl Sum {
    fn add(&mut self, which: (usize, usize), (spheres, off): (f64, f64)) {
        self.spheres += spheres;
        self.off += off;
        self.rough.push((off.to_bits(), which));
    }

    fn take(&mut self, (spheres, off): (f64, f64)) {
        self.spheres -= spheres;
        self.off -= off;
    }

    /// The one that may be off most, where the sum may be on either side of half a sphere.
    fn most_in_doubt(&mut self) -> Option<(usize, usize)> {
        let is_clear = (self.spheres.abs() - 0.5).abs() > self.off * (1.0 + ROUNDING) + ROUNDING;
        if is_clear { None } else { self.rough.pop().map(|(_, which)| which) }
    }
}

fn sub(a: [f64; 3], b: [f64; 3]) -> [f64; 3] {
    [a[0] - b[0], a[1] - b[1], a[2] - b[2]]
}

fn length([x, y, z]: [f64; 3]) -> f64 {
    (x * x + y * y + z * z).sqrt()
}

#[cfg(test)]
mod tests {
    use super::*;

    fn sorted(mut edges: Vec<[u32; 2]>) -> Vec<[u32; 2]> {
        edges.sort_unstable();
        edges
    }

    /// The edges of caps that are not matched.
    fn rim(caps: &[[u32; 3]]) -> Vec<[u32; 2]> {
        let sides: Vec<_> = caps.iter().flat_map(|[a, b, c]| [[*a, *b], [*b, *c], [*c, *a]]).collect();
        let back = |side: &[u32; 2]| !sides.contains(&[side[1], side[0]]);
        sorted(sides.iter().copied().filter(back).collect())
    }

    #[test]
    fn loops_are_found_and_capped() {
        let around = |corners: &[u32]| -> Vec<[u32; 2]> {
            let next = corners.iter().cycle().skip(1);
            corners.iter().zip(next).map(|(from, to)| [*from, *to]).collect()
        };
        for corners in [vec![0, 1, 2], vec![5, 3, 9, 7], (0..100).collect()] {
            let edges = around(&corners);
            let found = loops(edges.clone());
            assert!(found.len() == 1 && sorted(around(&found[0])) == sorted(edges.clone()), "{found:?}");
            let caps = over(edges.clone());
            assert_eq!((caps.len(), rim(&caps)), (corners.len() - 2, sorted(edges)));
        }
        // two loops through one vertex, one within the other's walk, and one apart
        let edges = [around(&[0, 4, 1, 2]), around(&[4, 7, 8]), around(&[3, 6, 5])].concat();
        let mut found: Vec<_> = loops(edges.clone()).iter().map(|found| sorted(around(found))).collect();
        found.sort_unstable();
        let want = [around(&[0, 4, 1, 2]), around(&[3, 6, 5]), around(&[4, 7, 8])];
        assert_eq!(found, want.map(sorted));
        assert_eq!(rim(&over(edges.clone())), sorted(edges));
        assert_eq!(loops(Vec::new()), [[0; 0]; 0]);
    }

    #[test]
    fn a_rough_solid_angle_is_off_by_no_more_than_it_says() {
        let vertices = [[0.0; 3], [30.0, 2.0, 1.0], [5.0, 25.0, -4.0], [28.0, 30.0, 9.0], [60.0, 5.0, 3.0]];
        let faces = [[0, 1, 2], [1, 3, 2], [1, 4, 3]];
        let caps = Caps::new(&vertices, faces.to_vec());
        let all = Ball::around(&caps.levels[0]);
        let mut looked_at = 0;
        for i in 0..4000_i32 {
            let [x, y, z] = [i % 10, i / 10 % 20, i / 200].map(|step| f64::from(step * 23 - 190));
            let exact: f64 = (0..3).map(|cap| caps.covered(cap, [x, y, z])).sum();
            let (about, off) = all.spheres([x, y, z]);
            assert!((about - exact).abs() <= off + ROUNDING, "{x} {y} {z}: {about} for {exact}, off {off}");
            looked_at += u32::from(off < 0.1);
        }
        assert!(looked_at > 3000, "{looked_at}");
    }
}
