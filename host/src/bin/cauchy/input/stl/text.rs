//! STL as text: `solid`, facets of three `vertex` lines each, `endsolid`.
use super::joining::Joining;
use crate::failure::Result;
use crate::input::MeshFile;
use crate::input::source::Source;
use crate::input::words::{Read, Word, Words, point};

/// What the next line is to be.
#[derive(Clone, Copy, PartialEq)]
enum Due {
    Solid,
    FacetOrEnd,
    Loop,
    Vertex(usize),
    EndLoop,
    EndFacet,
}

struct Facets {
    due: Due,
    corners: [[f64; 3]; 3],
    joining: Joining,
}

/// Whether a word is a keyword, in small or capital letters.
pub fn is_keyword(word: &[u8], keyword: &str) -> bool {
    word.eq_ignore_ascii_case(keyword.as_bytes())
}

/// The mesh of a text file, of one solid or several.
pub fn read(source: &mut Source<'_>) -> Result<MeshFile> {
    let mut facets = Facets { due: Due::Solid, corners: [[0.0; 3]; 3], joining: Joining::new() };
    while source.content()? {
        facets.line(source.words()).map_err(|fault| source.fault(fault))?;
    }
    match facets.due {
        Due::Solid => Ok(facets.joining.mesh()),
        due => Err(source.ends(&format!("{} is due", due.said()))),
    }
}

impl Facets {
    fn line(&mut self, words: Words<'_>) -> Read<()> {
        let (first, n): ([Word<'_>; 5], usize) = words.ahead();
        let is = |at: usize, keyword: &str| is_keyword(first[at].text, keyword);
        self.due = match self.due {
            // a name may stand behind these two
            Due::Solid if is(0, "solid") => Due::FacetOrEnd,
            Due::FacetOrEnd if is(0, "endsolid") => Due::Solid,
            // the normal is not read
            Due::FacetOrEnd if n == 5 && is(0, "facet") && is(1, "normal") => Due::Loop,
            Due::Loop if n == 2 && is(0, "outer") && is(1, "loop") => Due::Vertex(0),
            Due::Vertex(corner) if n == 4 && is(0, "vertex") => {
                self.corners[corner] = point(&[first[1], first[2], first[3]])?;
                if corner == 2 { Due::EndLoop } else { Due::Vertex(corner + 1) }
            }
            Due::EndLoop if n == 1 && is(0, "endloop") => Due::EndFacet,
            Due::EndFacet if n == 1 && is(0, "endfacet") => {
                first[0].told(self.joining.add_triangle(self.corners))?;
                Due::FacetOrEnd
            }
            due => return Err(first[0].fault(format!("{} is due", due.said()))),
        };
        Ok(())
    }
}

impl Due {
    fn said(self) -> &'static str {
        match self {
            Due::Solid => "`solid`",
            Due::FacetOrEnd => "`facet normal` with three numbers, or `endsolid`,",
            Due::Loop => "`outer loop`",
            Due::Vertex(_) => "`vertex` with three numbers",
            Due::EndLoop => "`endloop`",
            Due::EndFacet => "`endfacet`",
        }
    }
}

#[cfg(test)]
mod tests {
    use crate::input::tests::{mesh_read, mesh_refused};

    const FACET: &str = "  facet normal 0 0 nan\n    outer loop\n      vertex 0 0 0\n      vertex 0.1 0 0\n      \
                         vertex 0 1.5 0\n    endloop\n  endfacet\n";

    fn solid(facets: &str) -> String {
        format!("solid body # 1\n{facets}endsolid body\n")
    }

    #[test]
    fn corners_are_joined_to_vertices() {
        let other = FACET.replace("vertex 0.1 0 0", "VERTEX 0 0 2.5e0");
        let mesh = mesh_read("a.stl", solid(&(FACET.to_string() + &other))).unwrap();
        assert_eq!(
            mesh.vertices,
            [[0.0, 0.0, 0.0], [100.0, 0.0, 0.0], [0.0, 1500.0, 0.0], [0.0, 0.0, 2500.0]]
        );
        assert_eq!(mesh.faces, [[0, 1, 2], [0, 3, 2]]);
        let two = (solid(FACET) + &solid(&other)).replace('\n', "\r\n").to_uppercase();
        assert_eq!(mesh_read("a", two).unwrap(), mesh);
    }

    #[test]
    fn what_is_not_due_is_named() {
        let whole = solid(FACET);
        let change = |old: &str, new: &str, wanted: &str| {
            assert!(whole.contains(old), "{old}");
            mesh_refused("a.stl", whole.replacen(old, new, 1), wanted);
        };
        let facet = ", line 2, column 3: `facet normal` with three numbers, or `endsolid`, is due\n";
        change("normal 0 0 nan", "normal 0 0", facet);
        change("facet normal", "facets normal", facet);
        change("outer loop", "outer", ", line 3, column 5: `outer loop` is due\n");
        change("vertex 0.1 0 0", "vertex 0.1 0", ", line 5, column 7: `vertex` with three numbers is due\n");
        change("vertex 0.1 0 0", "vertex 0.1 x 0", ", line 5, column 18: `x` is not a number from ");
        change("      vertex 0.1 0 0\n", "", ", line 6, column 5: `vertex` with three numbers is due\n");
        change("endloop", "vertex 1 1 1", ", line 7, column 5: `endloop` is due\n");
        change("endfacet", "endfacet 1", ", line 8, column 3: `endfacet` is due\n");
        change(
            "endsolid body",
            "end",
            ", line 9, column 1: `facet normal` with three numbers, or `endsolid`, is due\n",
        );
        change(
            "endsolid body\n",
            "",
            ", line 9: the file ends, and `facet normal` with three numbers, or `endsolid`, is due",
        );
        change("endsolid body\n", "endsolid\nx\n", ", line 10, column 1: `solid` is due\n");
        change(
            "    endloop\n  endfacet\nendsolid body\n",
            "",
            ", line 7: the file ends, and `endloop` is due",
        );
        mesh_refused("a.stl", "", ": has no face");
        mesh_refused("a.stl", solid(""), ": has no face");
        mesh_refused("a.stl", "hello", ", line 1, column 1: `solid` is due\n");
    }
}
