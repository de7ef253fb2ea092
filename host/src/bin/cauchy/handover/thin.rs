//! A mesh with few faces in place of many, for a picture of it.
use super::view::Frame;
use cauchy::Mesh;
use std::collections::HashSet;

/// The most faces that are drawn as they are.
pub const MOST: usize = 4000;
/// The cells, along a side of the cube around the mesh, that are tried one after the other.
const CELLS: [usize; 5] = [32, 26, 20, 14, 8];

/// A mesh of its own.
pub struct Thinned {
    pub vertices: Vec<[f64; 3]>,
    pub faces: Vec<[u32; 3]>,
}

/// The mesh itself where it has few faces; otherwise the vertices of each cell of a grid are drawn together into their
/// mean, with the faces that are left between three cells. Corners that are not finite belong to no face.
pub fn thinned(mesh: Mesh<'_>, frame: &Frame) -> Thinned {
    let is_finite = |corner: &u32| mesh.vertices[*corner as usize].iter().all(|x| x.is_finite());
    let faces = mesh.faces.iter().filter(|face| face.iter().all(is_finite));
    if mesh.faces.len() <= MOST {
        return Thinned { vertices: mesh.vertices.to_vec(), faces: faces.copied().collect() };
    }
    let mut tried = CELLS.into_iter().map(|cells| drawn_together(mesh, faces.clone(), frame, cells));
    let last = |thin: &Thinned| thin.faces.len() <= MOST;
    // where even the coarsest grid leaves more, some of its faces are enough to see the body by
    tried.find(last).unwrap_or_else(|| {
        let mut coarsest = drawn_together(mesh, faces, frame, CELLS[CELLS.len() - 1]);
        coarsest.faces.truncate(MOST);
        coarsest
    })
}

fn drawn_together<'a>(
    mesh: Mesh<'_>,
    faces: impl Iterator<Item = &'a [u32; 3]>,
    frame: &Frame,
    cells: usize,
) -> Thinned {
    let cell = |vertex: &[f64; 3]| {
        let along = |axis: usize| {
            let part = (vertex[axis] - frame.middle[axis]) / (2.0 * frame.half) + 0.5;
            ((part * cells as f64) as usize).min(cells - 1)
        };
        (along(0) * cells + along(1)) * cells + along(2)
    };
    let cell_of: Vec<u32> = mesh.vertices.iter().map(|vertex| cell(vertex) as u32).collect();
    let mut seen = HashSet::new();
    let is_new = |face: &[u32; 3]| {
        let [a, b, c] = *face;
        a != b && b != c && c != a && seen.insert(from_least(*face))
    };
    let faces = faces.map(|face| face.map(|corner| cell_of[corner as usize])).filter(is_new).collect();
    Thinned { vertices: means(mesh.vertices, &cell_of, cells * cells * cells), faces }
}

/// A face from its least corner on, turned as it was.
fn from_least([a, b, c]: [u32; 3]) -> [u32; 3] {
    if a < b && a < c {
        [a, b, c]
    } else if b < c {
        [b, c, a]
    } else {
        [c, a, b]
    }
}

/// The mean of the vertices of each cell; zeros where it has none.
fn means(vertices: &[[f64; 3]], cell_of: &[u32], cells: usize) -> Vec<[f64; 3]> {
    let mut sums = vec![([0.0; 3], 0.0); cells];
    for (vertex, cell) in
        vertices.iter().zip(cell_of).filter(|(vertex, _)| vertex.iter().all(|x| x.is_finite()))
    {
        let (sum, count) = &mut sums[*cell as usize];
        *sum = [sum[0] + vertex[0], sum[1] + vertex[1], sum[2] + vertex[2]];
        *count += 1.0;
    }
    sums.into_iter().map(|(sum, count)| if count > 0.0 { sum.map(|x| x / count) } else { sum }).collect()
}

#[cfg(test)]
mod tests {
    use super::*;

    /// A ball of this radius with so many rings and twice as many faces in each.
    fn ball(rings: u32, radius: f64) -> (Vec<[f64; 3]>, Vec<[u32; 3]>) {
        let point = |ring: u32, turn: u32| {
            let (polar, around) = (f64::from(ring) / f64::from(rings), f64::from(turn) / f64::from(rings));
            let (polar, around) = (polar * std::f64::consts::PI, around * std::f64::consts::TAU);
            [polar.sin() * around.cos(), polar.sin() * around.sin(), polar.cos()].map(|x| x * radius)
        };
        let vertices = (0..=rings).flat_map(|ring| (0..rings).map(move |turn| point(ring, turn))).collect();
        let at = |ring: u32, turn: u32| ring * rings + turn % rings;
        let square = |ring, turn| {
            let (a, b, c, d) =
                (at(ring, turn), at(ring + 1, turn), at(ring + 1, turn + 1), at(ring, turn + 1));
            [[a, b, c], [a, c, d]]
        };
        let faces = (0..rings).flat_map(|ring| (0..rings).flat_map(move |turn| square(ring, turn))).collect();
        (vertices, faces)
    }

    #[test]
    fn a_large_mesh_keeps_its_shape_with_few_faces() {
        let (vertices, faces) = ball(300, 500.0);
        let mesh = Mesh { vertices: &vertices, faces: &faces };
        let thin = thinned(mesh, &Frame::of(mesh).unwrap());
        assert!((1000..=MOST).contains(&thin.faces.len()), "{}", thin.faces.len());
        let few = Mesh { vertices: &thin.vertices, faces: &thin.faces };
        let part = few.volume().unwrap() / mesh.volume().unwrap();
        assert!((0.95..1.05).contains(&part), "{part}");
    }

    #[test]
    fn a_small_mesh_stays() {
        let (mut vertices, faces) = ball(20, 500.0);
        vertices.push([f64::NAN; 3]);
        let mesh = Mesh { vertices: &vertices, faces: &faces };
        let thin = thinned(mesh, &Frame::of(mesh).unwrap());
        assert_eq!(thin.faces, faces);
        let broken = [faces[0], [0, 1, vertices.len() as u32 - 1]];
        let mesh = Mesh { vertices: &vertices, faces: &broken };
        assert_eq!(thinned(mesh, &Frame::of(mesh).unwrap()).faces, faces[..1]);
    }

    #[test]
    fn a_heap_of_faces_is_cut() {
        let mut noise = 1_u32;
        let mut random = || {
            noise = noise.wrapping_mul(1_664_525).wrapping_add(1_013_904_223);
            f64::from(noise >> 8)
        };
        let vertices: Vec<[f64; 3]> = (0..90_000).map(|_| [random(), random(), random()]).collect();
        let faces: Vec<[u32; 3]> = (0..30_000).map(|i| [3 * i, 3 * i + 1, 3 * i + 2]).collect();
        let mesh = Mesh { vertices: &vertices, faces: &faces };
        assert_eq!(thinned(mesh, &Frame::of(mesh).unwrap()).faces.len(), MOST);
    }

    #[test]
    fn a_face_is_turned_and_not_mirrored() {
        let turns = [[1, 2, 3], [2, 3, 1], [3, 1, 2]].map(from_least);
        assert_eq!(turns, [[1, 2, 3]; 3]);
        assert_eq!([[1, 3, 2], [3, 2, 1], [2, 1, 3]].map(from_least), [[1, 3, 2]; 3]);
    }
}
