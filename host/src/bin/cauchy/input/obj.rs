//! Wavefront OBJ: its `v` and `f` lines.
use super::source::{Remembered, Source};
use super::words::{Read, Word, Words, point, whole};
use super::{Fan, MeshFile};
use crate::failure::Result;

/// The words that begin a line of an OBJ file which is passed over.
const PASSED_OVER: [&[u8]; 11] =
    [b"vn", b"vt", b"vp", b"g", b"o", b"s", b"mg", b"l", b"p", b"usemtl", b"mtllib"];

/// Whether a word begins a line of an OBJ file.
pub fn begins_line(word: &[u8]) -> bool {
    word == b"v" || word == b"f" || PASSED_OVER.contains(&word)
}

/// A corner that is named before its vertex.
struct Early {
    corner: u32,
    at: usize,
}

/// The mesh of an OBJ file.
pub fn read(source: &mut Source<'_>) -> Result<MeshFile> {
    let mut mesh = MeshFile::default();
    let mut highest: Option<u32> = None;
    let mut line = Remembered::default();
    while let Some(text) = source.line()? {
        let told = read_line(text, &mut mesh);
        let early = told.map_err(|fault| source.fault(fault))?;
        if let Some(early) = early.filter(|early| highest < Some(early.corner)) {
            highest = Some(early.corner);
            source.remember(early.at, &mut line);
        }
    }
    match highest.map(|corner| corner as usize) {
        Some(corner) if corner >= mesh.vertices.len() => {
            let what = format!("corner {} of {} vertices", corner + 1, mesh.vertices.len());
            Err(source.fault_of(&line, what))
        }
        _ => Ok(mesh),
    }
}

/// Takes a line into a mesh. Gives the highest corner that it names before its vertex.
fn read_line(text: &[u8], mesh: &mut MeshFile) -> Read<Option<Early>> {
    let mut words = Words::of(text);
    let Some(first) = words.next() else { return Ok(None) };
    match first.text {
        b"v" => first.told(mesh.add_vertex(vertex(words)?)).map(|()| None),
        b"f" => polygon(words, mesh),
        word if begins_line(word) => Ok(None),
        _ => Err(first.fault(format!("`{}` begins no line of an OBJ file", first.shown()))),
    }
}

/// Three coordinates; a weight or a colour after them is not read.
fn vertex(words: Words<'_>) -> Read<[f64; 3]> {
    let (coordinates, n) = words.ahead();
    match n {
        3 | 4 | 6 | 7 => point(&coordinates),
        _ => {
            let most = if n > 7 { 7 } else { 4 };
            Err(words.miscounted(most, format!("a vertex has three coordinates, here are {n}")))
        }
    }
}

fn polygon(words: Words<'_>, mesh: &mut MeshFile) -> Read<Option<Early>> {
    let mut fan = Fan::default();
    let mut early: Option<Early> = None;
    for word in words {
        let corner = corner(word, mesh.vertices.len())?;
        word.told(fan.add(corner, mesh))?;
        let is_early = corner as usize >= mesh.vertices.len();
        if is_early && early.as_ref().is_none_or(|early| early.corner < corner) {
            early = Some(Early { corner, at: word.at });
        }
    }
    fan.end().map(|()| early).map_err(|what| words.miscounted(3, what))
}

/// A corner, from 0. In the file they count from 1, or back from the vertex before the line.
fn corner(word: Word<'_>, vertices: usize) -> Read<u32> {
    // what stands behind a slash is not read
    let index = word.text.split(|byte| *byte == b'/').next().unwrap_or_default();
    let from_zero = match index {
        [b'-', digits @ ..] => {
            whole(digits).filter(|n| *n > 0).and_then(|n| (vertices as u64).checked_sub(n))
        }
        [b'+', digits @ ..] | digits => whole(digits).and_then(|n| n.checked_sub(1)),
    };
    let corner = from_zero.and_then(|corner| u32::try_from(corner).ok());
    corner.ok_or_else(|| word.fault(format!("`{}` is not a corner", word.shown())))
}

#[cfg(test)]
mod tests {
    use crate::input::tests::{mesh_once, mesh_read, mesh_refused, said};

    #[test]
    fn a_mesh_is_read_in_its_unit() {
        let text = "\u{feff}# body\r\no body\r\nv 0 0 0\nv 1e-3 0 0 # right\nv 0 2 0 1\nv\t0 0 -3 1 1 1\n\n\
                    f 1 2 3 4\nf -1/7 -2//3 -3/1/2\nf +1 2 3";
        let mesh = mesh_read("a.obj", text).unwrap();
        assert_eq!(mesh.vertices[1..], [[1.0, 0.0, 0.0], [0.0, 2000.0, 0.0], [0.0, 0.0, -3000.0]]);
        assert_eq!(mesh.faces, [[0, 1, 2], [0, 2, 3], [3, 2, 1], [0, 1, 2]]);
        // a corner may be named before its vertex
        let early = mesh_read("a.obj", "f 3 1 2\nv 0 0 0\nv 1 0 0\nv 0 1 0\n").unwrap();
        assert_eq!((early.faces, early.vertices.len()), (vec![[2, 0, 1]], 3));
    }

    #[test]
    fn a_bad_mesh_is_named_by_its_place() {
        let face = |line: &str, wanted: &str| {
            mesh_refused("a.obj", format!("v 0 0 0\nv 1 0 0\nv 0 1 0\n{line}\n"), wanted);
        };
        face("f 1 2 4", ", line 4, column 7: corner 4 of 3 vertices\n  f 1 2 4\n        ^");
        face("f 1 2 9 7\nf 1 2 8\nf 1 9 2", ", line 4, column 7: corner 9 of 3 vertices\n");
        face("f 1 2", ", line 4, column 6: a face has at least three corners, here are 2\n");
        for corner in ["x", "0", "-4", "-0", "1.5", "/1", "5000000000", "-9223372036854775808", "1-"] {
            face(&format!("f 1 2 {corner}"), &format!(", line 4, column 7: `{corner}` is not a corner\n"));
        }
        face("v 0 0", ", line 4, column 6: a vertex has three coordinates, here are 2\n");
        face("v 0 0 0 1 5 # x", ", line 4, column 11: a vertex has three coordinates, here are 5\n");
        face("v 0 0 nan", ", line 4, column 7: `nan` is not a number from -1e100 to 1e100\n");
        face("v 0 1e101 0", ", line 4, column 5: `1e101` is not a number from -1e100 to 1e100\n");
        face("face 1 2 3", ", line 4, column 1: `face` begins no line of an OBJ file\n");
        face("v 0 0 1\0", ", line 4, column 7: `1\\0` is not a number ");
        face("", ": has no face");
        mesh_refused("a.obj", "", ": has no face");
        mesh_refused("a.obj", "f 1 2 4294967296", ", line 1, column 7: corner 4294967296 of 0 vertices\n");
    }

    #[test]
    fn the_first_that_is_too_many_is_named() {
        let body = "v 0 0 0\nv 1 0 0\nv 0 1 0\nv 0 0 1\n";
        let vertices = "v 0 0 0\n".repeat(1_048_577);
        let wanted = "a.obj, line 1048577, column 1: a mesh has at most 1,048,576 vertices\n";
        assert!(said(mesh_once("a.obj", &vertices)).starts_with(wanted));
        // a polygon of 403 corners makes 401 triangles, and each of the others two
        let faces = format!("{body}f 1 2 3{}\n", " 1 2 3 4".repeat(100)) + &"f 1 2 3 4\n".repeat(1_048_376);
        let wanted = "a.obj, line 1048381, column 9: a mesh has at most 2,097,152 triangles\n";
        assert!(said(mesh_once("a.obj", &faces)).starts_with(wanted));
    }
}
