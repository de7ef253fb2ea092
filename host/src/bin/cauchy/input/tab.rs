//! Plate models, as Gaskell's and the Planetary Data System's `.tab` files have them: a count line, the vertices, a
//! count line, the triangles.
use super::source::Source;
use super::words::{Read, Word, Words, point};
use super::{MeshFile, count_of_triangles, count_of_vertices};
use crate::failure::Result;
use crate::figures::count;

/// What a plate model is, as far as it is read.
#[derive(Default)]
struct Plates {
    mesh: MeshFile,
    vertices: Option<usize>,
    triangles: Option<usize>,
    /// Whether the line between vertices and triangles, or a triangle, was read.
    is_past_vertices: bool,
    vertex_lines: Numbering,
    triangle_lines: Numbering,
}

/// Whether the lines of a kind begin with their own numbers: all do or none does.
#[derive(Default)]
struct Numbering(Option<bool>);

/// The mesh of a plate model.
pub fn read(source: &mut Source<'_>) -> Result<MeshFile> {
    let mut plates = Plates::default();
    while source.content()? {
        plates.line(source.words()).map_err(|fault| source.fault(fault))?;
    }
    match plates.missing() {
        None => Ok(plates.mesh),
        Some(what) => Err(source.ends(&format!("{what} is due"))),
    }
}

impl Plates {
    fn line(&mut self, words: Words<'_>) -> Read<()> {
        match (self.vertices, self.triangles) {
            (None, _) => self.counts(words),
            (Some(n), _) if self.mesh.vertices.len() < n => self.vertex(words),
            (_, told) if !self.is_past_vertices => {
                self.is_past_vertices = true;
                if let ([word], 1) = words.ahead() {
                    self.second_count(word, told)
                } else {
                    self.triangle(words)
                }
            }
            _ => self.triangle(words),
        }
    }

    /// The first line: the number of vertices, and perhaps that of triangles.
    fn counts(&mut self, words: Words<'_>) -> Read<()> {
        let ([vertices, triangles], n) = words.ahead();
        if n > 2 {
            let what = format!("a plate model begins with one or two counts, here are {n} words");
            return Err(words.miscounted(2, what));
        }
        self.vertices = Some(count_of_vertices(vertices)?);
        self.triangles = if n == 2 { Some(count_of_triangles(triangles)?) } else { None };
        Ok(())
    }

    /// The number of triangles before the first of them, which may have been told in the first line.
    fn second_count(&mut self, word: Word<'_>, told: Option<usize>) -> Read<()> {
        let triangles = count_of_triangles(word)?;
        match told {
            Some(told) if told != triangles => {
                let [told, here] = [told, triangles].map(|n| count(n as u64));
                Err(word.fault(format!("{here} triangles, and the first line tells {told}")))
            }
            _ => {
                self.triangles = Some(triangles);
                Ok(())
            }
        }
    }

    fn vertex(&mut self, words: Words<'_>) -> Read<()> {
        let due = self.mesh.vertices.len() + 1;
        let coordinates = self.vertex_lines.three(words, "vertex", due)?;
        coordinates[0].told(self.mesh.add_vertex(point(&coordinates)?))
    }

    fn triangle(&mut self, words: Words<'_>) -> Read<()> {
        let due = self.mesh.faces.len() + 1;
        match self.triangles {
            None => return Err(words.miscounted(0, "the number of triangles is due here".to_string())),
            Some(n) if n < due => return Err(words.miscounted(0, "the triangles have ended".to_string())),
            Some(_) => {}
        }
        // behind vertices without numbers, four words would be the corners of a plate as well
        if self.vertex_lines.0 == Some(false) {
            self.triangle_lines.0 = Some(false);
        }
        let corners = self.triangle_lines.three(words, "triangle", due)?;
        let vertices = self.mesh.vertices.len();
        let corner = |word: Word<'_>| corner(word, vertices);
        let [a, b, c] = corners;
        corners[0].told(self.mesh.add_triangle([corner(a)?, corner(b)?, corner(c)?]))
    }

    /// What the file should still have.
    fn missing(&self) -> Option<String> {
        let (read, plates) = (self.mesh.vertices.len(), self.mesh.faces.len());
        match (self.vertices, self.triangles) {
            (None, _) => Some("a count".to_string()),
            (Some(n), _) if read < n => {
                Some(format!("vertex {} of {}", count(read as u64 + 1), count(n as u64)))
            }
            (_, None) => Some("the number of triangles".to_string()),
            (_, Some(n)) if plates < n => {
                Some(format!("triangle {} of {}", count(plates as u64 + 1), count(n as u64)))
            }
            _ => None,
        }
    }
}

impl Numbering {
    /// The three words of a line, behind its own number where such lines have one.
    fn three<'a>(&mut self, words: Words<'a>, what: &str, due: usize) -> Read<[Word<'a>; 3]> {
        let ([a, b, c, d], n) = words.ahead();
        let is_numbered = *self.0.get_or_insert(n == 4);
        match (is_numbered, n) {
            (true, 4) if a.whole() == Some(due as u64) => Ok([b, c, d]),
            (true, 4) => Err(a.fault(format!("`{}` stands where {what} {due} is due", a.shown()))),
            (false, 3) => Ok([a, b, c]),
            _ => {
                let form = if is_numbered { "its number and three more" } else { "three numbers" };
                let most = if is_numbered { 4 } else { 3 };
                Err(words.miscounted(most, format!("{what} {due} is due, {form}; here are {n}")))
            }
        }
    }
}

/// A corner, from 0. In the file they count from 1.
fn corner(word: Word<'_>, vertices: usize) -> Read<u32> {
    match word.whole() {
        Some(n @ 1..) if n <= vertices as u64 => Ok(n as u32 - 1),
        Some(n) => Err(word.fault(format!("corner {n} of {vertices} vertices, which count from 1"))),
        None => Err(word.fault(format!("`{}` is not a corner", word.shown()))),
    }
}

#[cfg(test)]
mod tests {
    use crate::input::tests::{mesh_read, mesh_refused};

    const VERTICES: &str = "1 0 0 0\n2 1 0 0\n3 0 2 0\n4 0 0 3\n";
    const TRIANGLES: &str = "1 1 3 2\n2 1 2 4\n3 1 4 3\n4 2 3 4\n";

    /// Lines without their numbers.
    fn bare(lines: &str) -> String {
        lines.lines().map(|line| format!("{}\n", &line[2..])).collect()
    }

    #[test]
    fn all_variants_are_the_same_mesh() {
        let mesh = mesh_read("a.tab", format!("4\n{VERTICES}4\n{TRIANGLES}")).unwrap();
        assert_eq!(
            mesh.vertices,
            [[0.0, 0.0, 0.0], [1000.0, 0.0, 0.0], [0.0, 2000.0, 0.0], [0.0, 0.0, 3000.0]]
        );
        assert_eq!(mesh.faces, [[0, 2, 1], [0, 1, 3], [0, 3, 2], [1, 2, 3]]);
        let (vertices, triangles) = (bare(VERTICES), bare(TRIANGLES));
        for text in [
            format!("4 4\n{VERTICES}{TRIANGLES}"),
            format!("4 4\n{VERTICES}4\n{TRIANGLES}"),
            format!("4\n{vertices}4\n{triangles}"),
            format!("  4\r\n{VERTICES}\r\n 4 \r\n{triangles}"),
            format!("# of a survey\n4 4 # counts\n{vertices}{}", triangles.trim_end()),
        ] {
            for name in ["a.tab", "a", "a.txt"] {
                assert_eq!(mesh_read(name, &text).unwrap(), mesh, "{text}");
            }
        }
    }

    /// Looks that a file of which a part is replaced is refused.
    fn change(old: &str, new: &str, wanted: &str) {
        let whole = format!("4\n{VERTICES}4\n{TRIANGLES}");
        assert!(whole.contains(old), "{old}");
        mesh_refused("a.tab", whole.replacen(old, new, 1), &format!(", line {wanted}"));
    }

    #[test]
    fn what_is_not_due_is_named() {
        change("3 0 2 0", "2 0 2 0", "4, column 1: `2` stands where vertex 3 is due\n");
        let numbered = "vertex 3 is due, its number and three more; here are";
        change("3 0 2 0", "0 2 0", &format!("4, column 6: {numbered} 3\n"));
        change("3 0 2 0", "3 0 2 0 7", &format!("4, column 9: {numbered} 5\n"));
        change("1 0 0 0", "0 0 0", "3, column 7: vertex 2 is due, three numbers; here are 4\n");
        change("3 0 2 0", "3 0 x 0", "4, column 5: `x` is not a number from ");
        change("\n4\n1", "\n1", "6, column 1: the number of triangles is due here\n");
        change("\n4\n1", "\n-4\n1", "6, column 1: `-4` is not a count\n");
        change("1 1 3 2", "1 0 3 2", "7, column 3: corner 0 of 4 vertices, which count from 1\n");
        change("1 1 3 2", "1 1 5 2", "7, column 5: corner 5 of 4 vertices, which count from 1\n");
        change("1 1 3 2", "1 1 3.0 2", "7, column 5: `3.0` is not a corner\n");
        change("2 1 2 4", "3 1 2 4", "8, column 1: `3` stands where triangle 2 is due\n");
        change("4 2 3 4\n", "", "10: the file ends, and triangle 4 of 4 is due");
        change("\n4\n1", "\n3\n1", "10, column 1: the triangles have ended\n");
    }

    #[test]
    fn what_is_missing_or_too_much_is_named() {
        let refused = |text: &str, wanted: &str| mesh_refused("a.tab", text, wanted);
        refused(&format!("4\n{VERTICES}"), ", line 6: the file ends, and the number of triangles is due");
        refused(&format!("4 4\n{VERTICES}"), ", line 6: the file ends, and triangle 1 of 4 is due");
        let four = ", line 7, column 7: triangle 1 is due, three numbers; here are 4\n";
        refused(&format!("4\n{}4\n{TRIANGLES}", bare(VERTICES)), four);
        refused("9 4\n1 0 0 0\n", ", line 3: the file ends, and vertex 2 of 9 is due");
        refused(
            &format!("4 4\n{VERTICES}5\n"),
            ", line 6, column 1: 5 triangles, and the first line tells 4\n",
        );
        refused(
            "4 4 4\n",
            ", line 1, column 5: a plate model begins with one or two counts, here are 3 words\n",
        );
        refused("x\n", ", line 1, column 1: `x` is not a count\n");
        refused("", ", line 1: the file ends, and a count is due");
        refused(&format!("4 0\n{VERTICES}"), ": has no face");
        refused("1048577\n", ", line 1, column 1: a mesh has at most 1,048,576 vertices\n");
        refused("3 2097153\n", ", line 1, column 3: a mesh has at most 2,097,152 triangles\n");
        refused("99999999999999999999 1\n", ", line 1, column 1: `99999999999999999999` is not a count");
    }
}
