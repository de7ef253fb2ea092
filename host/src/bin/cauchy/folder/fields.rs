//! The words of a store's two runs by name, and in which of them two stores differ.
use crate::figures::whole;
use cauchy::{FLOATS_BEFORE_MESH, WORDS_BEFORE_MESH};

const KERNELS_AT: usize = 1;
const KERNEL: [&str; 7] = [
    "x of the centre",
    "y of the centre",
    "z of the centre",
    "sigma",
    "weight",
    "exponent",
    "error of the fit",
];
const PIECES_AT: usize = 225;
const PIECES: usize = 16;
const PIECE: [&str; 3] = ["scale", "coefficient", "volume so far"];
const STATES_AT: usize = 2;
const STATE: [&str; 4] = ["status", "pieces finished", "faces done", "layer"];
const AXES: [&str; 3] = ["x", "y", "z"];

/// A store's two runs.
pub type Runs<'a> = (&'a [f64], &'a [u32]);

/// What a float of a store is.
pub fn float(at: usize) -> String {
    if at < KERNELS_AT {
        return "radius".to_string();
    }
    if at < PIECES_AT {
        let (place, field) = parts(at - KERNELS_AT, KERNEL.len());
        return format!("place {place}, {}", KERNEL[field]);
    }
    if at < FLOATS_BEFORE_MESH {
        let (piece, field) = parts(at - PIECES_AT, PIECE.len());
        let (place, piece) = parts(piece, PIECES);
        return format!("place {place}, piece {piece}, {}", PIECE[field]);
    }
    let (vertex, axis) = parts(at - FLOATS_BEFORE_MESH, AXES.len());
    format!("vertex {vertex}, {}", AXES[axis])
}

/// What a word of a store is.
pub fn word(at: usize) -> String {
    match at {
        0 => "count of vertices".to_string(),
        1 => "count of faces".to_string(),
        _ if at < WORDS_BEFORE_MESH => {
            let (place, field) = parts(at - STATES_AT, STATE.len());
            format!("place {place}, {}", STATE[field])
        }
        _ => {
            let (face, corner) = parts(at - WORDS_BEFORE_MESH, 3);
            format!("face {face}, corner {}", corner + 1)
        }
    }
}

fn parts(at: usize, size: usize) -> (usize, usize) {
    (at / size, at % size)
}

/// The words in which two stores differ, floats first, each as a line; every NaN counts as one.
pub fn differences<'a>(kept: Runs<'a>, made: Runs<'a>) -> impl Iterator<Item = String> + 'a {
    let same = |a: f64, b: f64| a.to_bits() == b.to_bits() || (a.is_nan() && b.is_nan());
    let floats = kept.0.iter().zip(made.0).enumerate().filter(move |(_, (a, b))| !same(**a, **b));
    let words = kept.1.iter().zip(made.1).enumerate().filter(|(_, (a, b))| a != b);
    let floats = floats.map(|(at, (a, b))| {
        let [a, b] = [a, b].map(|x| format!("{} ({:016X})", whole(*x), x.to_bits()));
        difference(&float(at), &a, &b)
    });
    floats.chain(words.map(|(at, (a, b))| difference(&word(at), &a.to_string(), &b.to_string())))
}

/// A line on one of them.
pub fn difference(field: &str, kept: &str, made: &str) -> String {
    format!("{field}: the folder has {kept}, the log makes {made}")
}

#[cfg(test)]
mod tests {
    use super::*;
    use cauchy::{Kernel, Mesh, Store};

    #[test]
    fn words_are_named_by_the_layout() {
        let floats = [0, 1, 7, 8, 224, 225, 227, 228, 273, 1760, 1761, 1766].map(float);
        let wanted = [
            "radius",
            "place 0, x of the centre",
            "place 0, error of the fit",
            "place 1, x of the centre",
            "place 31, error of the fit",
            "place 0, piece 0, scale",
            "place 0, piece 0, volume so far",
            "place 0, piece 1, scale",
            "place 1, piece 0, scale",
            "place 31, piece 15, volume so far",
            "vertex 0, x",
            "vertex 1, z",
        ];
        assert_eq!(floats, wanted);
        let words = [0, 1, 2, 5, 6, 129, 130, 135].map(word);
        let wanted = [
            "count of vertices",
            "count of faces",
            "place 0, status",
            "place 0, layer",
            "place 1, status",
            "place 31, layer",
            "face 0, corner 1",
            "face 1, corner 3",
        ];
        assert_eq!(words, wanted);
    }

    #[test]
    fn a_store_has_its_fields_where_they_are_named() {
        let mesh = Mesh { vertices: &[[1.0, 2.0, 3.0]; 3], faces: &[[0, 1, 2]; 2] };
        let mut store = Store::open(500.0, mesh).unwrap();
        let kernel = Kernel { c: [11.0, 12.0, 13.0], sigma: 0.5, w: 15.0, alpha: 2.0 };
        store.put_in(3, kernel, 9).unwrap();
        let (floats, words) = store.runs();
        let at = |name: &str| (0..floats.len()).find(|at| float(*at) == name).unwrap();
        let found = KERNEL.map(|field| floats[at(&format!("place 3, {field}"))]);
        assert_eq!(found[..6], [11.0, 12.0, 13.0, 0.5, 15.0, 2.0]);
        assert_eq!(found[6], store.held(3).unwrap().error);
        let state = |field: &str| {
            words[(0..words.len()).find(|at| word(*at) == format!("place 3, {field}")).unwrap()]
        };
        assert_eq!(STATE.map(state), [14, 0, 0, 9]);
        let before = store.clone();
        store.advance(3).unwrap();
        let told: Vec<_> = differences(before.runs(), store.runs()).collect();
        let names: Vec<_> = told.iter().filter_map(|line| line.split(':').next()).collect();
        // one piece of two faces is finished, and the next has one
        let done = ["pieces finished", "faces done"].map(|field| format!("place 3, {field}"));
        assert!(names.ends_with(&[done[0].as_str(), done[1].as_str()]), "{told:?}");
        let nan = |payload: u64| f64::from_bits(0x7ff8_0000_0000_0000 + payload);
        assert_eq!(differences((&[nan(1), 0.0], &[]), (&[nan(2), -0.0], &[])).count(), 1);
    }
}
