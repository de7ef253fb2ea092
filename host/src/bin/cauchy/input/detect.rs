//! What a mesh file is: by its content, and where that does not tell, by its name's ending.
use super::obj;
use super::source::{self, Source};
use super::stl;
use super::words::Words;
use crate::failure::{Failure, Result};
use std::path::Path;

/// The kinds of mesh files.
#[derive(Clone, Copy, Debug, PartialEq)]
pub enum Kind {
    Obj,
    Ply,
    StlText,
    StlBinary,
    Tab,
}

impl Kind {
    fn name(self) -> &'static str {
        match self {
            Kind::Obj => "OBJ",
            Kind::Ply => "PLY",
            Kind::StlText => "STL",
            Kind::StlBinary => "binary STL",
            Kind::Tab => "plate model (.tab)",
        }
    }

    fn ending(self) -> &'static str {
        match self {
            Kind::Obj => "obj",
            Kind::Ply => "ply",
            Kind::StlText | Kind::StlBinary => "stl",
            Kind::Tab => "tab",
        }
    }
}

/// What is told by the first bytes of a file.
struct Look {
    /// The kind of text that its first words fit.
    text: Option<Kind>,
    /// The bytes of the whole file, were it a binary STL.
    binary_size: Option<u64>,
    /// Whether a zero is among the first bytes, and they are no text in UTF-16, which has zeros.
    has_nul: bool,
    is_blank: bool,
}

/// The kind of a mesh file. Where two fit, its name decides; where that tells nothing, the file is refused.
pub fn kind(source: &mut Source<'_>) -> Result<Kind> {
    let look = Look::at(source.head()?);
    let is_binary = look.binary_size.is_some() && look.binary_size == source.size();
    let path = source.path();
    match look.text {
        // that both begin with `solid` is known: the size tells them apart
        None | Some(Kind::StlText) if is_binary => Ok(Kind::StlBinary),
        Some(Kind::StlText) if look.has_nul => Ok(Kind::StlBinary),
        Some(kind) if !is_binary || is_named(path, kind) => Ok(kind),
        Some(_) if is_named(path, Kind::StlBinary) => Ok(Kind::StlBinary),
        Some(kind) => {
            let (name, ending) = (kind.name(), kind.ending());
            let what = format!("may be {name} or binary STL: let its name end in .{ending} or .stl");
            Err(Failure::of_file(path, what))
        }
        None => by_name(source, &look),
    }
}

fn by_name(source: &mut Source<'_>, look: &Look) -> Result<Kind> {
    let stl = if look.has_nul { Kind::StlBinary } else { Kind::StlText };
    let named =
        [Kind::Obj, Kind::Ply, stl, Kind::Tab].into_iter().find(|kind| is_named(source.path(), *kind));
    match named {
        Some(kind) => Ok(kind),
        // bytes that are no text, from a stream, whose size only its end tells
        None if look.has_nul && source.size().is_none() => Ok(Kind::StlBinary),
        None if look.is_blank => Err(Failure::of_file(source.path(), "has no face")),
        None => {
            source.begin_text()?;
            source.content()?;
            let what = "no mesh begins like this: OBJ, PLY, STL and plate models (.tab) are read";
            Err(source.fault(source.words().miscounted(0, what.to_string())))
        }
    }
}

fn is_named(path: &Path, kind: Kind) -> bool {
    path.extension().is_some_and(|ending| ending.eq_ignore_ascii_case(kind.ending()))
}

impl Look {
    fn at(head: &[u8]) -> Look {
        let text = head.strip_prefix(source::MARK).unwrap_or(head);
        let mut lines = text.split(|byte| *byte == b'\n').map(Words::of);
        let words = lines.find(Words::is_content);
        Look {
            text: words.and_then(kind_of_text),
            binary_size: stl::binary_size(head),
            has_nul: !source::is_wide(head) && head.iter().take(stl::TWO_PARTS).any(|byte| *byte == 0),
            is_blank: words.is_none(),
        }
    }
}

/// The kind of text whose first words are these.
fn kind_of_text(words: Words<'_>) -> Option<Kind> {
    let ([first, second], n) = words.ahead();
    let is_count = |at: usize| n <= at || [first, second][at].whole().is_some();
    match first.text {
        b"ply" if n == 1 => Some(Kind::Ply),
        word if stl::is_keyword(word, "solid") => Some(Kind::StlText),
        word if obj::begins_line(word) => Some(Kind::Obj),
        _ if n <= 2 && is_count(0) && is_count(1) => Some(Kind::Tab),
        _ => None,
    }
}

#[cfg(test)]
mod tests {
    use super::*;
    use crate::input::tests::{mesh_refused, said};

    fn kind_of(name: &str, bytes: impl AsRef<[u8]>) -> Result<Kind> {
        kind(&mut Source::of_bytes(Path::new(name), bytes.as_ref()))
    }

    /// A binary STL with a text in its head, and so many triangles in its count and in its bytes.
    fn binary(text: &str, told: u32, there: usize) -> Vec<u8> {
        let mut bytes = text.as_bytes().to_vec();
        bytes.resize(80, b' ');
        bytes.extend(told.to_le_bytes());
        bytes.resize(84 + 50 * there, 0);
        bytes
    }

    #[test]
    fn content_tells_whatever_the_name_is() {
        for name in ["a", "a.obj", "a.ply", "a.stl", "a.tab", "a.txt", "-"] {
            for (text, kind) in [
                ("# note\n\n v 0 0 0\n", Kind::Obj),
                ("\u{feff}mtllib x\r\n", Kind::Obj),
                ("ply\r\nformat", Kind::Ply),
                ("solid\n", Kind::StlText),
                ("  SOLID a\n", Kind::StlText),
                ("4\n", Kind::Tab),
                ("# note\n  4   12 \n", Kind::Tab),
            ] {
                assert_eq!(kind_of(name, text), Ok(kind), "{name} {text:?}");
            }
            assert_eq!(kind_of(name, binary("exported", 2, 2)), Ok(Kind::StlBinary), "{name}");
            // by the size, though the head begins with `solid`; where that does not fit either, it is no text
            assert_eq!(kind_of(name, binary("solid a", 2, 2)), Ok(Kind::StlBinary), "{name}");
            assert_eq!(kind_of(name, binary("solid a", 2, 1)), Ok(Kind::StlBinary), "{name}");
        }
    }

    #[test]
    fn a_name_tells_where_content_does_not() {
        for text in ["", "# note\n", "vertices\n", "1.5\n", "1 2 3\n", "-1\n", "ply 1\n"] {
            assert_eq!(kind_of("a.OBJ", text), Ok(Kind::Obj), "{text}");
            assert_eq!(kind_of("b.a.Ply", text), Ok(Kind::Ply), "{text}");
            assert_eq!(kind_of("a.tab", text), Ok(Kind::Tab), "{text}");
            assert_eq!(kind_of("a.stl", text), Ok(Kind::StlText), "{text}");
        }
        assert_eq!(kind_of("a.stl", binary("x", 2, 1)), Ok(Kind::StlBinary));
        let begins = ", column 1: no mesh begins like this: OBJ, PLY, STL and plate models (.tab) are read\n";
        assert_eq!(said(kind_of("a", "\nhello\n")), format!("a, line 2{begins}  hello\n  ^"));
        assert!(
            said(kind_of("a.txt", b"\0\xFF\n")).starts_with(&format!("a.txt, line 1{begins}  \\0\\xFF\n"))
        );
        assert_eq!(said(kind_of("a", " \n# note")), "a: has no face");
        assert_eq!(said(kind_of("a", b"\xFF\xFEv\0 \0")), "a: is text in UTF-16; save it as UTF-8");
        for name in ["a.obj", "a.ply", "a.stl", "a.tab"] {
            mesh_refused(name, b"\xFF\xFEs\0o\0l\0i\0d\0\n\0", ": is text in UTF-16; save it as UTF-8");
        }
    }

    #[test]
    fn where_two_fit_the_name_decides() {
        for (text, name, kind) in [("o body", "OBJ", Kind::Obj), ("12\n", "plate model (.tab)", Kind::Tab)] {
            let bytes = binary(text, 3, 3);
            assert_eq!(kind_of("a.stl", &bytes), Ok(Kind::StlBinary));
            assert_eq!(kind_of(&format!("a.{}", kind.ending()), &bytes), Ok(kind));
            let ending = kind.ending();
            let wanted = format!("may be {name} or binary STL: let its name end in .{ending} or .stl");
            assert_eq!(said(kind_of("a", &bytes)), format!("a: {wanted}"));
            assert_eq!(said(kind_of("-", &bytes)), format!("standard input: {wanted}"));
        }
    }

    #[test]
    fn a_stream_of_bytes_is_binary() {
        let bytes = binary("x", 6000, 6000);
        let stream = |step| kind(&mut Source::of_stream(Path::new("-"), &bytes, step));
        assert_eq!(stream(1 << 16), Ok(Kind::StlBinary));
        // one that has ended has a size
        let short = &bytes[..1000];
        let told = kind(&mut Source::of_stream(Path::new("-"), short, 1 << 16));
        assert!(said(told).starts_with("standard input, line 1, column 1: no mesh begins like this"));
    }
}
