//! A store's lines: written and read again, and refused where they are damaged.
use cauchy::{Kernel, LAYERS, Mesh, OpenError, PLACES, Refusal, Store};

const VERTICES: [[f64; 3]; 5] =
    [[0.0; 3], [900.0, 0.0, -0.0], [0.0, 800.0, 0.0], [0.0, 0.0, 700.0], [1.0, f64::INFINITY, 2.0]];
const FACES: [[u32; 3]; 4] = [[0, 2, 1], [0, 1, 3], [0, 3, 2], [1, 2, 3]];

fn kernel(i: u32, alpha: f64) -> Kernel {
    let at = f64::from(i);
    Kernel { c: [at, -at, at / 3.0], sigma: 0.001 * (at + 1.0), w: 500.0 - 40.0 * at, alpha }
}

fn store() -> Store {
    let mut store = Store::open(900.0, Mesh { vertices: &VERTICES, faces: &FACES }).unwrap();
    for (place, alpha, layer) in [(31, 2.5, 15), (0, 1.0, 0), (10, f64::NAN, 9), (9, 1.7, 10)] {
        store.put_in(place, kernel(place, alpha), layer).unwrap();
    }
    store
}

fn h(x: f64) -> String {
    let bits = if x.is_nan() { 0x7FF8_0000_0000_0000 } else { x.to_bits() };
    format!("{bits:016X}")
}

/// The lines as the forms say them.
fn written(store: &Store) -> String {
    let mesh = store.mesh();
    let (vertices, faces) = (mesh.vertices.len(), mesh.faces.len());
    let mut text = format!("(open (radius {}) (verts {vertices}) (faces {faces}))\n", h(store.radius()));
    for vertex in mesh.vertices {
        text += &format!("(vert {})\n", vertex.map(h).join(" "));
    }
    for [a, b, c] in mesh.faces {
        text += &format!("(face {a} {b} {c})\n");
    }
    for (place, held) in (0..PLACES).filter_map(|place| Some((place, store.held(place)?))) {
        let Kernel { c, sigma, w, alpha } = held.kernel;
        let (c, sigma, w, alpha) = (c.map(h).join(" "), h(sigma), h(w), h(alpha));
        let layer = held.layer;
        text += &format!("(put {place} (c {c}) (sigma {sigma}) (w {w}) (alpha {alpha}) (layer {layer}))\n");
    }
    text
}

fn refusal(lines: impl AsRef<[u8]>) -> Refusal {
    match Store::from_lines(lines.as_ref()) {
        Err(OpenError::Refused(refusal)) => refusal,
        other => panic!("{other:?}"),
    }
}

#[test]
fn a_store_is_written_and_read_again() {
    let mut store = store();
    store.reweigh(31, -7.25).unwrap();
    store.advance(9).unwrap();
    let lines = store.to_lines().unwrap();
    assert_eq!(String::from_utf8(lines.clone()).unwrap(), written(&store));
    let mut again = Store::from_lines(&lines).unwrap();
    assert_eq!(again.to_lines().unwrap(), lines);
    assert_eq!((again.mesh(), again.radius()), (store.mesh(), store.radius()));
    for place in 0..PLACES {
        // the NaN of an exponent is one
        assert_eq!(format!("{:?}", again.held(place)), format!("{:?}", store.held(place)), "{place}");
    }
    assert!(store.left().unwrap() > 0);
    assert_eq!(again.left(), Ok(store.left().unwrap() + 9));
    // it is the store of the same opening and puts, word for word
    let mut fresh = Store::open(900.0, Mesh { vertices: &VERTICES, faces: &FACES }).unwrap();
    for place in [9, 31, 10, 0] {
        let held = store.held(place).unwrap();
        fresh.put_in(place, held.kernel, held.layer).unwrap();
    }
    assert_eq!(again.to_bytes(), fresh.to_bytes());
}

#[test]
fn lines_of_a_squeezed_store_are_of_what_is_left() {
    let mut store = store();
    assert_eq!(store.squeeze(), Ok(3));
    let lines = store.to_lines().unwrap();
    assert_eq!(String::from_utf8(lines.clone()).unwrap(), written(&store));
    let again = Store::from_lines(&lines).unwrap();
    assert_eq!((again.vertices(), again.to_lines().unwrap()), (4, lines));
}

#[test]
fn there_is_always_room() {
    // 1 to 4 digits of a corner, and the longest puts
    for vertices in [0, 1, 2, 10, 11, 100, 101, 1001] {
        let points = vec![[1.0; 3]; vertices];
        let faces: Vec<_> =
            (0..if vertices > 0 { 12 } else { 0 }).map(|_| [vertices as u32 - 1; 3]).collect();
        let mut store = Store::open(1.0, Mesh { vertices: &points, faces: &faces }).unwrap();
        let room = store.lines_room();
        assert!(store.to_lines().unwrap().len() < room);
        for place in 0..PLACES {
            store.put_in(place, kernel(place, 1.0), LAYERS - 1).unwrap();
        }
        assert_eq!((store.to_lines().unwrap().len(), store.lines_room()), (room, room), "{vertices}");
    }
}

#[test]
fn bytes_that_are_too_few_are_refused_and_stay() {
    let store = store();
    let lines = store.to_lines().unwrap();
    for room in 0..lines.len() {
        let mut bytes = vec![b'#'; room];
        assert_eq!(store.lines_into(&mut bytes), Err(Refusal::ShortText));
        assert!(bytes.iter().all(|byte| *byte == b'#'));
    }
    let mut bytes = vec![b'#'; lines.len() + 3];
    assert_eq!(store.lines_into(&mut bytes), Ok(lines.len()));
    assert_eq!(bytes, [&lines[..], b"###"].concat());
}

#[test]
fn puts_come_in_any_order_and_the_later_one_stands() {
    let store = store();
    let lines = String::from_utf8(store.to_lines().unwrap()).unwrap();
    let (mesh, puts) = lines.split_at(lines.find("(put").unwrap());
    let mut turned: Vec<_> = puts.split_inclusive('\n').collect();
    turned.reverse();
    let again = Store::from_lines((mesh.to_string() + &turned.concat()).as_bytes()).unwrap();
    assert_eq!(again.to_lines().unwrap(), lines.as_bytes());
    let other = turned[3].replace(&h(500.0), &h(7.0));
    assert_eq!(
        Store::from_lines((lines.clone() + &other).as_bytes()).unwrap().held(0).unwrap().kernel.w,
        7.0
    );
    let twice = mesh.to_string() + puts + &other + &turned.concat();
    assert_eq!(Store::from_lines(twice.as_bytes()).unwrap().to_lines().unwrap(), lines.as_bytes());
    // without a layer it is layer 0
    let bare = lines.replace(" (layer 15))", ")").replace(" (layer 9))", ")");
    let bare = Store::from_lines(bare.as_bytes()).unwrap();
    assert_eq!([0, 9, 10, 31].map(|place| bare.held(place).unwrap().layer), [0, 10, 0, 0]);
    assert_eq!(Store::from_lines(mesh.as_bytes()).unwrap().held(0), None);
}

#[test]
fn damaged_lines_are_refused() {
    let lines = String::from_utf8(store().to_lines().unwrap()).unwrap();
    let ends: Vec<_> = lines.match_indices('\n').map(|(at, _)| at + 1).collect();
    for cut in 0..lines.len() {
        // after the opening and with each put the lines are whole again
        match ends[..].iter().position(|end| *end == cut) {
            Some(line) if line >= 9 => assert!(Store::from_lines(&lines.as_bytes()[..cut]).is_ok()),
            _ => assert_eq!(refusal(&lines[..cut]), Refusal::BadLine, "{cut}"),
        }
    }
    for (old, new, no) in [
        ("(face 0 2 1)", "(face 0 2 5)", Refusal::LooseCorner),
        ("(face 0 2 1)", "(face 0 2 4294967295)", Refusal::LooseCorner),
        ("(face 0 2 1)", "(face 0 2 4294967296)", Refusal::BadLine),
        ("(face 0 2 1)", "(face 0 02 1)", Refusal::BadLine),
        ("(face 0 2 1)", "(face 0  2 1)", Refusal::BadLine),
        ("(face 0 2 1)", "(face 0 2 1)\r", Refusal::BadLine),
        ("(face 0 2 1)", "(face 0 2 1)\n", Refusal::BadLine),
        ("(verts 5)", "(verts 4)", Refusal::BadLine),
        ("(verts 5)", "(verts 6)", Refusal::BadLine),
        ("(verts 5)", "(verts 1048577)", Refusal::BadLine),
        ("(verts 5)", "(verts 4294967295)", Refusal::BadLine),
        ("(put 31", "(put 32", Refusal::NoPlace),
        ("(put 31", "(put 4294967295", Refusal::NoPlace),
        ("(layer 15)", "(layer 16)", Refusal::NoLayer),
        ("(put 31", "(PUT 31", Refusal::BadLine),
        ("408C200000000000", "408c200000000000", Refusal::BadLine),
    ] {
        assert!(lines.contains(old), "{old}");
        assert_eq!(refusal(lines.replacen(old, new, 1)), no, "{new}");
    }
    // the first of 13, 3, 6 and 16 that any line has, wherever it stands
    let loose = lines.replace("(face 0 2 1)", "(face 0 2 5)");
    let placeless = loose.replace("(put 0 ", "(put 32 ").replace("(layer 15)", "(layer 16)");
    assert_eq!(refusal(&placeless), Refusal::LooseCorner);
    assert_eq!(refusal(placeless.replace("(face 0 2 5)", "(face 0 2 1)")), Refusal::NoPlace);
    assert_eq!(refusal(placeless + "(put"), Refusal::BadLine);
    assert_eq!(refusal(""), Refusal::BadLine);
    assert_eq!(refusal("\n"), Refusal::BadLine);
}

#[test]
fn counts_above_the_limits_are_refused() {
    let opening = |verts: u32, faces: u32| {
        format!("(open (radius 3FF0000000000000) (verts {verts}) (faces {faces}))\n")
    };
    let faces = "(face 0 0 0)\n".repeat(2_097_153);
    assert_eq!(refusal(opening(0, 2_097_153) + &faces), Refusal::Oversize);
    assert_eq!(refusal(opening(0, 2_097_153) + &faces[13..]), Refusal::BadLine);
    let vert = format!("(vert {0} {0} {0})\n", h(1.0));
    let most = opening(1, 2_097_152) + &vert + &faces[13..];
    assert_eq!(Store::from_lines(most.as_bytes()).unwrap().to_lines().unwrap(), most.as_bytes());
    let vertices = opening(1_048_577, 0) + &vert.repeat(1_048_577);
    assert_eq!(refusal(vertices), Refusal::Oversize);
}
