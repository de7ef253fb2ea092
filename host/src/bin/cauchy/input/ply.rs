//! PLY, as text and in bytes: a header, and the elements that it tells of.
mod binary;
mod header;
mod text;

use super::source::Source;
use super::{Fan, MeshFile};
use crate::failure::{Failure, Result};
use header::{Element, Encoding, Header, Property, Role, Scalar};

/// The values of elements, in the order of their properties.
trait Values {
    /// Goes to an element, counted from 1.
    fn begin(&mut self, element: &Element, number: u64) -> Result<()>;
    fn number(&mut self, scalar: Scalar) -> Result<f64>;
    /// A whole number that is not below 0.
    fn whole(&mut self, scalar: Scalar) -> Result<u64>;
    /// Passes over so many values.
    fn pass(&mut self, scalar: Scalar, values: u64) -> Result<()>;
    /// Looks that the element has no more values.
    fn end(&mut self) -> Result<()>;
    /// Looks that the file has no more elements.
    fn end_of_file(&mut self) -> Result<()>;
    /// A fault of the value that was given last.
    fn fault(&self, what: String) -> Failure;
}

/// A mesh, as far as it is read.
struct Reading<V> {
    values: V,
    /// How many vertices the file has, before or behind its faces.
    vertices: u64,
    mesh: MeshFile,
    vertex: [f64; 3],
    face: Fan,
}

/// The mesh of a PLY file.
pub fn read(source: &mut Source<'_>) -> Result<MeshFile> {
    let header = Header::read(source)?;
    match header.encoding {
        Encoding::Text => read_elements(&header, text::Text::new(source)),
        Encoding::Binary(order) => read_elements(&header, binary::Binary::new(source, order)),
    }
}

fn read_elements(header: &Header, values: impl Values) -> Result<MeshFile> {
    let mesh = MeshFile::default();
    let mut reading =
        Reading { values, vertices: header.vertices, mesh, vertex: [0.0; 3], face: Fan::default() };
    for element in &header.elements {
        reading.elements(element)?;
    }
    reading.values.end_of_file()?;
    Ok(reading.mesh)
}

impl<V: Values> Reading<V> {
    /// Reads all elements of a name.
    fn elements(&mut self, element: &Element) -> Result<()> {
        for number in 1..=element.count {
            self.values.begin(element, number)?;
            self.face = Fan::default();
            self.properties(element)?;
            let told = match element.role {
                Role::Vertex => self.mesh.add_vertex(self.vertex),
                Role::Face => self.face.end(),
                Role::Other => Ok(()),
            };
            told.map_err(|what| self.values.fault(what))?;
            self.values.end()?;
        }
        Ok(())
    }

    fn properties(&mut self, element: &Element) -> Result<()> {
        for property in &element.properties {
            match *property {
                Property::Coordinate(axis, scalar) => self.vertex[axis] = self.values.number(scalar)?,
                Property::Corners(count, scalar) => {
                    let corners = self.values.whole(count)?;
                    self.corners(corners, scalar)?;
                }
                Property::Value(scalar) => self.values.pass(scalar, 1)?,
                Property::List(count, scalar) => {
                    let values = self.values.whole(count)?;
                    self.values.pass(scalar, values)?;
                }
            }
        }
        Ok(())
    }

    fn corners(&mut self, corners: u64, scalar: Scalar) -> Result<()> {
        for _ in 0..corners {
            let corner = self.values.whole(scalar)?;
            let told = match u32::try_from(corner) {
                Ok(corner) if u64::from(corner) < self.vertices => self.face.add(corner, &mut self.mesh),
                _ => Err(format!("corner {corner} of {} vertices, which count from 0", self.vertices)),
            };
            told.map_err(|what| self.values.fault(what))?;
        }
        Ok(())
    }
}

#[cfg(test)]
mod tests {
    use super::header::Order;
    use crate::input::tests::{mesh_read, mesh_refused};

    const ELEMENTS: &str = "comment made # by hand\nobj_info none\nelement vertex 4\nproperty float x\n\
                            property double y\nproperty short z\nproperty uchar red\nproperty list uchar float more\n\
                            element face 2\nproperty int flag\nproperty list uchar int vertex_indices\nelement edge 1\n\
                            property int vertex1\nproperty int vertex2\nend_header\n";

    fn header(format: &str) -> String {
        format!("ply\nformat {format} 1.0\n{ELEMENTS}")
    }

    const TEXT: &str =
        "0 0 0 9 0\n1.5 0 0 9 1 7\n0 0.1 0 9 2 7 8\n-0.25 0 3 9 0\n5 4 0 1 2 3\n5 3 3 2 1\n0 1\n";

    /// The same in bytes.
    fn binary(order: Order) -> Vec<u8> {
        let mut bytes = Vec::new();
        let mut put = |value: &[u8]| match order {
            Order::LowestFirst => bytes.extend(value),
            Order::HighestFirst => bytes.extend(value.iter().rev()),
        };
        for (x, y, z, more) in [(0.0, 0.0, 0, 0), (1.5, 0.0, 0, 1), (0.0, 0.1, 0, 2), (-0.25, 0.0, 3, 0)] {
            put(&f32::to_le_bytes(x));
            put(&f64::to_le_bytes(y));
            put(&i16::to_le_bytes(z));
            put(&[9]);
            put(&[more]);
            (0..more).for_each(|_| put(&7_f32.to_le_bytes()));
        }
        for face in [&[0, 1, 2, 3][..], &[3, 2, 1]] {
            put(&5_i32.to_le_bytes());
            put(&[face.len() as u8]);
            face.iter().for_each(|corner| put(&i32::to_le_bytes(*corner)));
        }
        put(&0_i32.to_le_bytes());
        put(&1_i32.to_le_bytes());
        bytes
    }

    fn file(format: &str, values: &[u8]) -> Vec<u8> {
        [header(format).as_bytes(), values].concat()
    }

    #[test]
    fn text_and_bytes_are_the_same_mesh() {
        let mesh = mesh_read("a.ply", file("ascii", TEXT.as_bytes())).unwrap();
        let vertices = [[0.0, 0.0, 0.0], [1500.0, 0.0, 0.0], [0.0, 100.0, 0.0], [-250.0, 0.0, 3000.0]];
        assert_eq!(mesh.vertices, vertices);
        assert_eq!(mesh.faces, [[0, 1, 2], [0, 2, 3], [3, 2, 1]]);
        let returns = String::from_utf8(file("ascii", TEXT.as_bytes())).unwrap().replace('\n', "\r\n");
        for bytes in [
            file("binary_little_endian", &binary(Order::LowestFirst)),
            file("binary_big_endian", &binary(Order::HighestFirst)),
            [header("binary_big_endian").replace('\n', "\r\n").as_bytes(), &binary(Order::HighestFirst)]
                .concat(),
            returns.into_bytes(),
            file("ascii", TEXT.replace('\n', "\n\n").trim_end().as_bytes()),
        ] {
            for name in ["a.ply", "a", "a.stl"] {
                assert_eq!(mesh_read(name, &bytes).unwrap(), mesh);
            }
        }
    }

    #[test]
    fn every_type_is_read() {
        let types = [
            ("char", "int8", &(-1_i8).to_le_bytes()[..], -1.0),
            ("uchar", "uint8", &[200], 200.0),
            ("short", "int16", &(-300_i16).to_le_bytes(), -300.0),
            ("ushort", "uint16", &60_000_u16.to_le_bytes(), 60_000.0),
            ("int", "int32", &(-70_000_i32).to_le_bytes(), -70_000.0),
            ("uint", "uint32", &4_000_000_000_u32.to_le_bytes(), 4e9),
            ("float", "float32", &0.5_f32.to_le_bytes(), 0.5),
            ("double", "float64", &(-1e30_f64).to_le_bytes(), -1e30),
        ];
        for (old, new, value, x) in types {
            for name in [old, new] {
                let head = format!(
                    "ply\nformat binary_little_endian 1.0\nelement vertex 1\nproperty {name} z\nproperty {name} x\n\
                     property {name} y\nelement face 1\nproperty list ushort uint vertex_index\nend_header\n"
                );
                let face = [&3_u16.to_le_bytes()[..], &[0; 12]].concat();
                let mesh = mesh_read("a.ply", [head.as_bytes(), &value.repeat(3), &face].concat()).unwrap();
                assert_eq!(mesh.vertices, [[x * 1000.0; 3]], "{name}");
            }
        }
    }

    #[test]
    fn faces_may_come_first() {
        let head = "ply\nformat ascii 1.0\nelement face 1\nproperty list uchar int vertex_indices\n\
                    element vertex 3\nproperty float x\nproperty float y\nproperty float z\nend_header\n";
        let mesh = mesh_read("a", format!("{head}3 0 2 1\n0 0 0\n1 0 0\n0 1 0\n")).unwrap();
        assert_eq!((mesh.faces, mesh.vertices.len()), (vec![[0, 2, 1]], 3));
        mesh_refused(
            "a",
            format!("{head}3 0 3 1\n"),
            ", line 10, column 5: corner 3 of 3 vertices, which count from 0\n",
        );
    }

    #[test]
    fn bad_text_is_named_by_its_place() {
        change("1.5 0", "1.5e101 0", "19, column 1: `1.5e101` is not a number from ");
        change("9 1 7\n", "9 1\n", "19, column 12: a number is missing here\n");
        change("9 1 7\n", "9 1 7 7\n", "19, column 15: the element has no more numbers than those before\n");
        change("9 1 7\n", "9 -1 7\n", "19, column 11: `-1` is not a whole number from 0\n");
        change("4 0 1 2 3", "4 0 1 2 4", "22, column 11: corner 4 of 4 vertices, which count from 0\n");
        change("4 0 1 2 3", "4 0 1 2 9999999999", "22, column 11: corner 9999999999 of 4 vertices");
        change("4 0 1 2 3", "2 0 1", "22, column 7: a face has at least three corners, here are 2\n");
        change("4 0 1 2 3", "4 0 1 2.5 3", "22, column 9: `2.5` is not a whole number from 0\n");
        change("0 1\n", "0 1\n\n7\n", "26, column 1: the elements have ended, and the file has not\n");
        let whole = header("ascii") + TEXT;
        let (head, _) = whole.split_once("5 3 3").unwrap();
        mesh_refused("a.ply", head, ", line 23: the file ends, and face 2 of 2 is due");
        mesh_refused("a.ply", header("ascii"), ", line 18: the file ends, and vertex 1 of 4 is due");
    }

    #[test]
    fn bad_bytes_are_named_by_their_place() {
        let head = header("binary_little_endian").len();
        let whole = file("binary_little_endian", &binary(Order::LowestFirst));
        for cut in head..whole.len() {
            mesh_refused("a.ply", &whole[..cut], ", byte ");
        }
        mesh_refused(
            "a.ply",
            &whole[..head + 70],
            &format!(", byte {}: vertex 4: the file ends in it", head + 64),
        );
        let set = |at: usize, value: &[u8], wanted: &str| {
            let mut bytes = whole.clone();
            bytes[head + at..][..value.len()].copy_from_slice(value);
            mesh_refused("a.ply", bytes, &format!(", byte {}: {wanted}", head + at));
        };
        set(0, &f32::NAN.to_le_bytes(), "vertex 1: a coordinate, NaN, is not a number from ");
        set(4, &1e101_f64.to_le_bytes(), "vertex 1: a coordinate, 1");
        set(81, &4_i32.to_le_bytes(), "face 1: corner 4 of 4 vertices, which count from 0");
        set(81, &(-1_i32).to_le_bytes(), "face 1: -1 is not a whole number from 0");
        let more = [&whole[..], &[0]].concat();
        mesh_refused(
            "a.ply",
            more,
            &format!(", byte {}: the elements have ended, and the file has not", whole.len()),
        );
    }

    /// Looks that a file in text of which a part is replaced is refused.
    fn change(old: &str, new: &str, wanted: &str) {
        let whole = header("ascii") + TEXT;
        assert!(whole.contains(old), "{old}");
        mesh_refused("a.ply", whole.replacen(old, new, 1), &format!(", line {wanted}"));
    }

    #[test]
    fn a_bad_header_is_named_by_its_line() {
        let no_line = "this is no line of a PLY header\n";
        change("ply\n", "PLY\n", "1, column 1: a PLY file begins with the line `ply`\n");
        change(
            "ascii",
            "text",
            "2, column 8: the formats are ascii, binary_little_endian and binary_big_endian\n",
        );
        change("1.0", "2.0", "2, column 14: version `2.0` of PLY is not read, only 1.0\n");
        change("format ascii 1.0\n", "", "16, column 1: the header has no `format`\n");
        change("comment made", "format ascii 1.0\ncomment made", &format!("3, column 1: {no_line}"));
        change("end_header\n", "", &format!("17, column 1: {no_line}"));
        let whole = header("ascii") + TEXT;
        let (head, _) = whole.split_once("end_header").unwrap();
        mesh_refused("a.ply", head, ", line 17: the file ends, and `end_header` of a PLY file is due");
        let many = whole.replace("property int vertex1\n", &"property int a\n".repeat(1000));
        mesh_refused("a.ply", many, ", line 1005, column 14: more than 1000 elements and properties\n");
    }

    #[test]
    fn a_bad_element_is_named_by_its_line() {
        change("vertex 4", "vertex 4000000000", "5, column 16: a mesh has at most 1,048,576 vertices\n");
        change("face 2", "face 2097153", "11, column 14: a mesh has at most 2,097,152 triangles\n");
        change("element face 2", "element vertex 2", "11, column 9: a second `element vertex`\n");
        let missing = "17, column 1: the header has no `element vertex` or no `element face`\n";
        change("element face 2", "element faces 2", missing);
        change("edge", "tristrips", "14, column 9: faces in strips, `tristrips`, are not read\n");
        change("edge 1", "edge -1", "14, column 14: `-1` is not a count\n");
        let properties = "property int vertex1\nproperty int vertex2\n";
        change(properties, "", "15, column 1: `element edge` has no property\n");
    }

    #[test]
    fn a_bad_property_is_named_by_its_line() {
        change("float x", "half x", "6, column 10: `half` is no type of PLY\n");
        change("float x", "float y", "7, column 17: a second `y`\n");
        change("float x", "float u", "17, column 1: the header has no `x`, `y` or `z` of a vertex\n");
        change("float x", "list uchar float x", "6, column 27: `x` is of no type that is read\n");
        change("uchar int vertex", "float int vertex", "13, column 15: `float` counts no list: ");
        change(
            "int vertex_i",
            "float vertex_i",
            "13, column 27: `vertex_indices` is of no type that is read\n",
        );
        change("vertex_indices", "corners", "17, column 1: the header has no `vertex_indices` of a face\n");
        change("element vertex 4\n", "", "5, column 16: a property before the first element\n");
    }

    #[test]
    fn a_count_of_elements_that_are_passed_over_may_be_anything() {
        let whole = header("ascii").replace("element edge 1", "element edge 9999999999999999999") + TEXT;
        mesh_refused(
            "a.ply",
            whole,
            ", line 25: the file ends, and edge 2 of 9,999,999,999,999,999,999 is due",
        );
    }
}
