//! The header of a PLY file.
use crate::failure::Result;
use crate::input::source::Source;
use crate::input::words::{Fault, Read, Word, Words};
use crate::input::{Told, count_of_triangles, count_of_vertices};

/// The most elements and properties that a header may tell of.
const MAX_PROPERTIES: usize = 1000;

/// Which byte of a number comes first.
#[derive(Clone, Copy, Debug, PartialEq)]
pub enum Order {
    LowestFirst,
    HighestFirst,
}

#[derive(Clone, Copy, Debug, PartialEq)]
pub enum Encoding {
    Text,
    Binary(Order),
}

/// The types of numbers.
#[derive(Clone, Copy, Debug, PartialEq)]
pub enum Scalar {
    I8,
    U8,
    I16,
    U16,
    I32,
    U32,
    F32,
    F64,
}

/// What an element is to a mesh.
#[derive(Clone, Copy, Debug, PartialEq)]
pub enum Role {
    Vertex,
    Face,
    Other,
}

/// What comes of a property. A list has the type of its count, then that of its values.
#[derive(Clone, Copy, Debug, PartialEq)]
pub enum Property {
    /// A coordinate of a vertex: 0 for x, 1 for y, 2 for z.
    Coordinate(usize, Scalar),
    /// The corners of a face.
    Corners(Scalar, Scalar),
    /// A value that is passed over.
    Value(Scalar),
    /// A list that is passed over.
    List(Scalar, Scalar),
}

#[derive(Debug)]
pub struct Element {
    pub name: String,
    pub role: Role,
    pub count: u64,
    pub properties: Vec<Property>,
}

pub struct Header {
    pub encoding: Encoding,
    pub vertices: u64,
    pub elements: Vec<Element>,
}

/// A header, as far as it is read.
#[derive(Default)]
struct Draft {
    has_begun: bool,
    encoding: Option<Encoding>,
    elements: Vec<Element>,
    /// How many elements and properties there are.
    told: usize,
    has_ended: bool,
}

impl Header {
    /// The header, up to its last line.
    pub fn read(source: &mut Source<'_>) -> Result<Header> {
        let mut draft = Draft::default();
        while !draft.has_ended {
            match source.line()? {
                Some(line) => draft.line(Words::from(line, 0)).map_err(|fault| source.fault(fault))?,
                None => return Err(source.ends("`end_header` of a PLY file is due")),
            }
        }
        draft.header().map_err(|what| source.fault(Fault { at: 0, what }))
    }
}

impl Draft {
    fn line(&mut self, words: Words<'_>) -> Read<()> {
        let (words_ahead, n): ([Word<'_>; 5], usize) = words.ahead();
        let [first, second, third, ..] = words_ahead;
        match (first.text, n) {
            (b"ply", 1) if !self.has_begun => self.has_begun = true,
            _ if !self.has_begun => return Err(first.fault("a PLY file begins with the line `ply`")),
            (b"comment" | b"obj_info", _) => {}
            (b"format", 3) if self.encoding.is_none() => self.encoding = Some(encoding(second, third)?),
            (b"element", 3) => self.element(second, third)?,
            (b"property", 3) => self.property(third, Form::Value(scalar(second)?))?,
            (b"property", 5) if second.is("list") => {
                let [.., values, name] = words_ahead;
                self.property(name, Form::List(whole(third)?, scalar(values)?))?;
            }
            (b"end_header", 1) => self.has_ended = true,
            _ => return Err(words.miscounted(0, "this is no line of a PLY header".to_string())),
        }
        Ok(())
    }

    fn element(&mut self, name: Word<'_>, count: Word<'_>) -> Read<()> {
        self.count(name)?;
        let (role, count) = match name.text {
            b"vertex" => (Role::Vertex, count_of_vertices(count)? as u64),
            b"face" => (Role::Face, count_of_triangles(count)? as u64),
            b"tristrips" => return Err(name.fault("faces in strips, `tristrips`, are not read")),
            _ => {
                let no_count = || count.fault(format!("`{}` is not a count", count.shown()));
                (Role::Other, count.whole().ok_or_else(no_count)?)
            }
        };
        if role != Role::Other && self.elements.iter().any(|element| element.role == role) {
            return Err(name.fault(format!("a second `element {}`", name.shown())));
        }
        self.elements.push(Element { name: name.shown(), role, count, properties: vec![] });
        Ok(())
    }

    fn property(&mut self, name: Word<'_>, form: Form) -> Read<()> {
        self.count(name)?;
        let Some(element) = self.elements.last_mut() else {
            return Err(name.fault("a property before the first element"));
        };
        let property = match (element.role, name.text, form) {
            (Role::Vertex, b"x", Form::Value(scalar)) => Property::Coordinate(0, scalar),
            (Role::Vertex, b"y", Form::Value(scalar)) => Property::Coordinate(1, scalar),
            (Role::Vertex, b"z", Form::Value(scalar)) => Property::Coordinate(2, scalar),
            (Role::Face, b"vertex_indices" | b"vertex_index", Form::List(count, scalar))
                if scalar.is_whole() =>
            {
                Property::Corners(count, scalar)
            }
            (Role::Vertex, b"x" | b"y" | b"z", _) | (Role::Face, b"vertex_indices" | b"vertex_index", _) => {
                return Err(name.fault(format!("`{}` is of no type that is read", name.shown())));
            }
            (_, _, Form::Value(scalar)) => Property::Value(scalar),
            (_, _, Form::List(count, scalar)) => Property::List(count, scalar),
        };
        if element.properties.iter().any(|other| other.is_same(property)) {
            return Err(name.fault(format!("a second `{}`", name.shown())));
        }
        element.properties.push(property);
        Ok(())
    }

    /// Counts an element or a property.
    fn count(&mut self, word: Word<'_>) -> Read<()> {
        self.told += 1;
        match self.told {
            0..=MAX_PROPERTIES => Ok(()),
            _ => Err(word.fault(format!("more than {MAX_PROPERTIES} elements and properties"))),
        }
    }

    fn header(self) -> Told<Header> {
        let of = |role| self.elements.iter().find(|element| element.role == role);
        let used =
            |element: &Element| element.properties.iter().filter(|property| property.is_used()).count();
        let (Some(vertices), Some(faces)) = (of(Role::Vertex), of(Role::Face)) else {
            return Err("the header has no `element vertex` or no `element face`".to_string());
        };
        if used(vertices) < 3 {
            return Err("the header has no `x`, `y` or `z` of a vertex".to_string());
        }
        if used(faces) < 1 {
            return Err("the header has no `vertex_indices` of a face".to_string());
        }
        if let Some(element) = self.elements.iter().find(|element| element.properties.is_empty()) {
            return Err(format!("`element {}` has no property", element.name));
        }
        let encoding = self.encoding.ok_or("the header has no `format`")?;
        Ok(Header { encoding, vertices: vertices.count, elements: self.elements })
    }
}

/// How a property is given: a value, or a list with the types of its count and its values.
enum Form {
    Value(Scalar),
    List(Scalar, Scalar),
}

impl Property {
    /// Whether a mesh takes it.
    fn is_used(&self) -> bool {
        matches!(self, Property::Coordinate(..) | Property::Corners(..))
    }

    /// Whether both are the same coordinate, or both corners.
    fn is_same(&self, other: Property) -> bool {
        match (self, other) {
            (Property::Coordinate(axis, _), Property::Coordinate(other, _)) => *axis == other,
            (Property::Corners(..), Property::Corners(..)) => true,
            _ => false,
        }
    }
}

impl Scalar {
    /// Its bytes.
    pub fn size(self) -> usize {
        match self {
            Scalar::I8 | Scalar::U8 => 1,
            Scalar::I16 | Scalar::U16 => 2,
            Scalar::I32 | Scalar::U32 | Scalar::F32 => 4,
            Scalar::F64 => 8,
        }
    }

    fn is_whole(self) -> bool {
        !matches!(self, Scalar::F32 | Scalar::F64)
    }
}

fn encoding(word: Word<'_>, version: Word<'_>) -> Read<Encoding> {
    if !version.is("1.0") {
        return Err(version.fault(format!("version `{}` of PLY is not read, only 1.0", version.shown())));
    }
    match word.text {
        b"ascii" => Ok(Encoding::Text),
        b"binary_little_endian" => Ok(Encoding::Binary(Order::LowestFirst)),
        b"binary_big_endian" => Ok(Encoding::Binary(Order::HighestFirst)),
        _ => Err(word.fault("the formats are ascii, binary_little_endian and binary_big_endian")),
    }
}

fn scalar(word: Word<'_>) -> Read<Scalar> {
    Ok(match word.text {
        b"char" | b"int8" => Scalar::I8,
        b"uchar" | b"uint8" => Scalar::U8,
        b"short" | b"int16" => Scalar::I16,
        b"ushort" | b"uint16" => Scalar::U16,
        b"int" | b"int32" => Scalar::I32,
        b"uint" | b"uint32" => Scalar::U32,
        b"float" | b"float32" => Scalar::F32,
        b"double" | b"float64" => Scalar::F64,
        _ => return Err(word.fault(format!("`{}` is no type of PLY", word.shown()))),
    })
}

/// The type of a list's count.
fn whole(word: Word<'_>) -> Read<Scalar> {
    match scalar(word)? {
        scalar if scalar.is_whole() => Ok(scalar),
        _ => Err(word.fault(format!("`{}` counts no list: it is no type of whole numbers", word.shown()))),
    }
}
