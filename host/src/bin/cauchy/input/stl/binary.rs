//! Binary STL: a head of 84 bytes, then 50 bytes a triangle, the lowest byte of a number first.
use super::joining::Joining;
use crate::failure::{Failure, Result};
use crate::figures::{counted, short};
use crate::input::source::Source;
use crate::input::words::{NO_NUMBER, in_range};
use crate::input::{MAX_TRIANGLES, MeshFile, Told, too_many_triangles};

/// The bytes of the head: a text of no meaning, and behind it the number of triangles.
const HEAD: usize = 84;
const TEXT: usize = 80;

/// The bytes of a triangle: its normal, its three corners, and two bytes of no meaning.
const TRIANGLE: usize = 50;
const CORNERS: std::ops::Range<usize> = 12..48;

/// The bytes of the head and of the first triangle. A count that is taken has a zero among them, and text has none.
pub const TWO_PARTS: usize = HEAD + TRIANGLE;

/// The bytes of a whole file that begins like this.
pub fn size(head: &[u8]) -> Option<u64> {
    let count = head.get(TEXT..HEAD)?.try_into().ok()?;
    Some(HEAD as u64 + TRIANGLE as u64 * u64::from(u32::from_le_bytes(count)))
}

/// The mesh of a binary file.
pub fn read(source: &mut Source<'_>) -> Result<MeshFile> {
    let path = source.path();
    let triangles = triangles(source)?;
    let mut joining = Joining::new();
    for i in 1..=triangles {
        let at = source.given();
        let Some(bytes) = source.take(TRIANGLE)? else {
            let what = format!("the file ends, and triangle {i} of {triangles} is due");
            return Err(Failure::of_byte(path, at, what));
        };
        let told = corners(&bytes[CORNERS]).and_then(|corners| joining.add_triangle(corners));
        told.map_err(|what| Failure::of_byte(path, at, format!("triangle {i}: {what}")))?;
    }
    let at = source.given();
    match source.take(1)? {
        None => Ok(joining.mesh()),
        Some(_) => Err(Failure::of_byte(path, at, "the triangles have ended, and the file has not")),
    }
}

/// The number of triangles, which goes with the bytes of the file where these are known.
fn triangles(source: &mut Source<'_>) -> Result<u64> {
    let (path, size_of_file) = (source.path(), source.size());
    let wanted = match source.take(HEAD)?.and_then(size) {
        Some(wanted) => wanted,
        None => {
            return Err(Failure::of_file(
                path,
                format!("a binary STL begins with {HEAD} bytes, here are fewer"),
            ));
        }
    };
    let triangles = (wanted - HEAD as u64) / TRIANGLE as u64;
    let told = format!("a binary STL of {}", counted(triangles, "triangle"));
    let what = match size_of_file {
        _ if triangles > MAX_TRIANGLES as u64 => format!("{told}: {}", too_many_triangles()),
        Some(size) if size != wanted => {
            format!("{told} has {}, and this file has {}", counted(wanted, "byte"), counted(size, "byte"))
        }
        _ => return Ok(triangles),
    };
    Err(Failure::of_byte(path, TEXT as u64, what))
}

fn corners(bytes: &[u8]) -> Told<[[f64; 3]; 3]> {
    let mut corners = [[0.0; 3]; 3];
    for (x, bytes) in corners.as_flattened_mut().iter_mut().zip(bytes.as_chunks().0) {
        *x = f64::from(f32::from_le_bytes(*bytes));
        if !in_range(*x) {
            return Err(format!("a coordinate, {}, {NO_NUMBER}", short(*x)));
        }
    }
    Ok(corners)
}

#[cfg(test)]
mod tests {
    use super::*;
    use crate::input::tests::{mesh_once, mesh_read, mesh_refused, said};
    use std::path::Path;

    /// A file of these triangles, in the units of the file.
    fn file(text: &str, triangles: &[[[f32; 3]; 3]]) -> Vec<u8> {
        let mut bytes = text.as_bytes().to_vec();
        bytes.resize(TEXT, 0);
        bytes.extend((triangles.len() as u32).to_le_bytes());
        for triangle in triangles {
            let normal = [0, 0, 0x7fc0_0000_u32].map(u32::to_le_bytes).concat();
            let corners = triangle.as_flattened().iter().flat_map(|x| x.to_le_bytes());
            bytes.extend(normal.into_iter().chain(corners).chain([7, 7]));
        }
        bytes
    }

    const A: [f32; 3] = [0.0, 0.0, 0.0];
    const B: [f32; 3] = [0.1, 0.0, 0.0];
    const C: [f32; 3] = [0.0, 1.5, 0.0];
    const D: [f32; 3] = [0.0, 0.0, 2.0];

    #[test]
    fn corners_are_joined_to_vertices() {
        for (name, text) in [("a.stl", "made"), ("a", "solid body"), ("a.obj", "\u{feff}solid")] {
            let mesh = mesh_read(name, file(text, &[[A, C, B], [A, B, D], [A, D, C], [B, C, D]])).unwrap();
            assert_eq!(mesh.faces, [[0, 1, 2], [0, 2, 3], [0, 3, 1], [2, 1, 3]]);
            let km = [A, C, B, D].map(|corner| corner.map(|x| f64::from(x) * 1000.0));
            assert_eq!(mesh.vertices, km);
        }
    }

    #[test]
    fn a_bad_file_is_named_by_its_byte() {
        let whole = file("x", &[[A, B, C], [A, B, D]]);
        let sizes = "a binary STL of 2 triangles has 184 bytes, and this file has";
        for size in [84, 134, 183] {
            mesh_refused("a.stl", &whole[..size], &format!(", byte 80: {sizes} {size} bytes"));
        }
        mesh_refused("a.stl", [&whole[..], b"\n"].concat(), &format!(", byte 80: {sizes} 185 bytes"));
        mesh_refused("a.stl", &whole[..83], ": a binary STL begins with 84 bytes, here are fewer");
        for (bad, shown) in [(f32::NAN, "NaN"), (f32::NEG_INFINITY, "-inf")] {
            let bytes = file("x", &[[A, B, C], [A, [0.0, bad, 0.0], D]]);
            let wanted = format!(", byte 134: triangle 2: a coordinate, {shown}, is not a number from ");
            mesh_refused("a.stl", bytes, &wanted);
        }
        mesh_refused("a.stl", file("x", &[]), ": has no face");
    }

    #[test]
    fn a_stream_is_counted_to_its_end() {
        let whole = file("x", &[[A, B, C], [A, B, D]]);
        let stream = |bytes: &[u8]| read(&mut Source::of_stream(Path::new("-"), bytes, 60));
        assert_eq!(stream(&whole).unwrap().faces.len(), 2);
        let wanted = "standard input, byte 134: the file ends, and triangle 2 of 2 is due";
        assert_eq!(said(stream(&whole[..183])), wanted);
        let more = [&whole[..], b"\n"].concat();
        let wanted = "standard input, byte 184: the triangles have ended, and the file has not";
        assert_eq!(said(stream(&more)), wanted);
    }

    #[test]
    fn limits_are_found_before_the_triangles() {
        let mut bytes = file("x", &[[A, B, C]]);
        bytes[TEXT..HEAD].copy_from_slice(&2_097_153_u32.to_le_bytes());
        let wanted = ", byte 80: a binary STL of 2,097,153 triangles: a mesh has at most 2,097,152 triangles";
        mesh_refused("a.stl", &bytes, wanted);
        // each triangle has three vertices of its own
        let corner = |i: u32| [i as f32, 0.0, 0.0];
        let many: Vec<_> =
            (0..349_526).map(|i| [corner(3 * i), corner(3 * i + 1), corner(3 * i + 2)]).collect();
        let wanted = "a.stl, byte 17476334: triangle 349526: a mesh has at most 1,048,576 vertices";
        assert_eq!(said(mesh_once("a.stl", file("x", &many))), wanted);
    }
}
