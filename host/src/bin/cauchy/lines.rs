//! A store as lines of text, for other tools: written from a folder or a snapshot, and read in place of a mesh and a
//! kernel list. The archive writes and reads them by its proved calls. On which line a file is refused is found here,
//! one line at a time, and is not proved.
use crate::failure::{Failure, Result, name};
use crate::figures::counted;
use crate::form::misfit;
use crate::opening::{self, Opening};
use crate::options::Origin;
use crate::output::{self, Output, give, say};
use crate::{input, page};
use cauchy::{OpenError, PLACES, Refusal, Store};
use std::path::Path;

/// Writes the lines of the store of a folder or a snapshot to a file, or to standard output.
pub fn export(from: &Path, to: Option<&Path>, overwrite: bool) -> Result<()> {
    let output = to.map(|path| prepared(path, from, overwrite)).transpose()?;
    let store = opening::kept(from)?;
    let bytes = store.to_lines().map_err(|refusal| Failure::of_file(from, refusal))?;
    let done = all_steps(&store) - (0..PLACES).map(|place| store.left_at(place)).sum::<u64>();
    if done > 0 {
        let steps = counted(done, "step");
        eprintln!("cauchy: {}: note: the work that is done, {steps}, is not in the lines", name(from));
    }
    match output {
        None => give(&bytes),
        Some(output) => {
            output.write(&bytes)?;
            let count = bytes.iter().filter(|byte| **byte == b'\n').count() as u64;
            let size = format!("{}, {}", counted(count, "line"), counted(bytes.len() as u64, "byte"));
            say(&page::entry("written", &[output.name(), size]))
        }
    }
}

/// Makes a snapshot of a store's lines, with all steps to do.
pub fn import(lines: &Path, snapshot: &Path, overwrite: bool) -> Result<()> {
    let output = prepared(snapshot, lines, overwrite)?;
    let Opening { store, head, .. } = opening::open(&Origin::Lines(lines.to_path_buf()), false)?;
    say(&head)?;
    output.write(&store.to_bytes())?;
    say(&page::entry("written", &[output.name()]))?;
    say(&format!("The work: cauchy resume {} ..\n", output.path().display()))
}

fn prepared(path: &Path, input: &Path, overwrite: bool) -> Result<Output> {
    output::check_apart(&[path], &[input])?;
    Output::prepare(path, overwrite)
}

/// The steps of all places, done or not.
fn all_steps(store: &Store) -> u64 {
    let pieces = (0..PLACES).filter_map(|place| store.held(place)).map(|held| u64::from(held.pieces));
    pieces.sum::<u64>() * u64::from(store.faces())
}

/// The store of a file of lines.
pub fn read(path: &Path) -> Result<Store> {
    store_of(path, &input::bytes(path)?)
}

/// The store of the bytes of a file of lines.
pub fn store_of(path: &Path, bytes: &[u8]) -> Result<Store> {
    Store::from_lines(bytes).map_err(|fault| match fault {
        OpenError::Refused(refusal) => refused(path, bytes, refusal),
        OpenError::FloatState(_) => Failure::of_file(path, fault),
    })
}

/// What is due at a line after the opening.
#[derive(Clone, Copy, Debug, PartialEq)]
enum Due {
    Vertex(u32),
    Face(u32),
    Put,
}

impl Due {
    /// At a line, counted from 1 after the opening.
    fn at(line: u64, vertices: u32, faces: u32) -> Due {
        let (vertices, faces) = (u64::from(vertices), u64::from(faces));
        match line {
            _ if line <= vertices => Due::Vertex(line as u32),
            _ if line <= vertices + faces => Due::Face((line - vertices) as u32),
            _ => Due::Put,
        }
    }

    fn said(self) -> String {
        match self {
            Due::Vertex(n) => format!("vertex {n}, (vert H H H), is due"),
            Due::Face(n) => format!("face {n}, (face N N N), is due"),
            Due::Put => format!("not {PUT}"),
        }
    }

    /// The byte of a line for which it is refused.
    fn fault_at(self, line: &[u8], refusal: Refusal, vertices: u32) -> usize {
        match (refusal, self) {
            (Refusal::LooseCorner, _) => loose(line, vertices).unwrap_or(0),
            (Refusal::NoPlace, _) => misfit(BEFORE_PLACE, line),
            (Refusal::NoLayer, _) => misfit(BEFORE_LAYER, line),
            (_, Due::Vertex(_)) => misfit("(vert H H H)", line),
            (_, Due::Face(_)) => misfit("(face N N N)", line),
            (_, Due::Put) => misfit(PUT, line).max(misfit(PUT_WITHOUT_LAYER, line)),
        }
    }

    /// Why the archive refuses a line that stands alone behind an opening which counts it.
    fn trial(self, line: &[u8]) -> Option<Refusal> {
        let (vertices, faces) = match self {
            Due::Vertex(_) => (1, 0),
            Due::Face(_) => (0, 1),
            Due::Put => (0, 0),
        };
        let opening = format!("(open (radius 0000000000000000) (verts {vertices}) (faces {faces}))\n");
        match Store::from_lines(&[opening.as_bytes(), line].concat()) {
            Err(OpenError::Refused(refusal)) => Some(refusal),
            _ => None,
        }
    }
}

const OPENING: &str = "(open (radius H) (verts N) (faces N))";
const PUT: &str = "(put N (c H H H) (sigma H) (w H) (alpha H) (layer N))";
const PUT_WITHOUT_LAYER: &str = "(put N (c H H H) (sigma H) (w H) (alpha H))";
const BEFORE_PLACE: &str = "(put ";
const BEFORE_LAYER: &str = "(put N (c H H H) (sigma H) (w H) (alpha H) (layer ";

/// Why a file was refused, with the first line for which it was.
fn refused(path: &Path, bytes: &[u8], refusal: Refusal) -> Failure {
    let mut lines = bytes.split_inclusive(|byte| *byte == b'\n');
    let opening = lines.next().unwrap_or_default();
    let Some((vertices, faces)) = counts(opening) else {
        let what = format!("not {OPENING}: {refusal}");
        return Failure::of_text(path, 1, bare(opening), misfit(OPENING, opening), what);
    };
    if refusal == Refusal::Oversize {
        return Failure::of_text(path, 1, bare(opening), 0, refusal);
    }
    let mut last = 1;
    for line in lines {
        let due = Due::at(last, vertices, faces);
        last += 1;
        let trial = due.trial(line);
        let is_first = match refusal {
            Refusal::LooseCorner => matches!(due, Due::Face(_)) && loose(line, vertices).is_some(),
            _ => trial == Some(refusal),
        };
        if is_first {
            let what = match refusal {
                Refusal::BadLine => format!("{}{}: {refusal}", due.said(), unseen(due, line)),
                _ => refusal.to_string(),
            };
            let at = due.fault_at(line, refusal, vertices);
            return Failure::of_text(path, last as usize, bare(line), at, what);
        }
    }
    match Due::at(last, vertices, faces) {
        Due::Put => Failure::of_file(path, refusal),
        due => {
            Failure::of_line(path, last as usize + 1, format!("the file ends, and {}: {refusal}", due.said()))
        }
    }
}

/// A line without its newline.
fn bare(line: &[u8]) -> &[u8] {
    line.strip_suffix(b"\n").unwrap_or(line)
}

/// The counts in a line that is an opening.
fn counts(line: &[u8]) -> Option<(u32, u32)> {
    let text = std::str::from_utf8(line).ok()?;
    let (head, rest) = text.split_once(") (verts ")?;
    let (vertices, faces) = rest.strip_suffix("))\n")?.split_once(") (faces ")?;
    // the same opening of an empty mesh tells whether the rest of it is right
    let empty = format!("{head}) (verts 0) (faces 0))\n");
    let number = |text: &str| text.parse::<u32>().ok().filter(|n| n.to_string() == text);
    Store::from_lines(empty.as_bytes()).ok()?;
    Some((number(vertices)?, number(faces)?))
}

/// Where a face names a vertex that is not there.
fn loose(line: &[u8], vertices: u32) -> Option<usize> {
    let is_digit = |at: usize| line[at].is_ascii_digit();
    let corner = |at: usize| {
        let digits = line[at..].split(|byte| !byte.is_ascii_digit()).next()?;
        std::str::from_utf8(digits).ok()?.parse::<u32>().ok()
    };
    let mut starts = (0..line.len()).filter(|at| is_digit(*at) && (*at == 0 || !is_digit(at - 1)));
    starts.find(|at| corner(*at).is_some_and(|corner| corner >= vertices))
}

/// What is wrong with a line that looks right in an editor.
fn unseen(due: Due, line: &[u8]) -> &'static str {
    let text = line.strip_suffix(b"\n").unwrap_or(line);
    let bare = text.strip_suffix(b"\r").unwrap_or(text);
    let is_good = due.trial(&[bare, b"\n"].concat()) != Some(Refusal::BadLine);
    match (is_good, bare.len() < text.len()) {
        (false, _) => "",
        (true, true) => ", and a carriage return stands at its end",
        (true, false) => ", and the newline at its end is missing",
    }
}

#[cfg(test)]
mod tests {
    use super::*;

    const ONE: &str = "3FF0000000000000";

    fn text(verts: &str, faces: &str) -> String {
        format!("(open (radius {ONE}) (verts {verts}) (faces {faces}))\n")
    }

    fn vert() -> String {
        format!("(vert {ONE} {ONE} {ONE})\n")
    }

    fn put(place: &str, layer: &str) -> String {
        format!("(put {place} (c {ONE} {ONE} {ONE}) (sigma {ONE}) (w {ONE}) (alpha {ONE}){layer})\n")
    }

    /// The first row of what is said; the others show the line.
    fn said(text: impl AsRef<[u8]>) -> String {
        let said = input::tests::said(store_of(Path::new("s.lines"), text.as_ref()));
        said.lines().next().unwrap().to_string()
    }

    #[test]
    fn the_first_line_that_is_not_due_is_named() {
        let bad = "bad line: the bytes are not one whole opening and then puts (no 13)";
        let no_opening = |text: &str, column: usize| {
            let form = "not (open (radius H) (verts N) (faces N))";
            assert_eq!(said(text), format!("s.lines, line 1, column {column}: {form}: {bad}"), "{text:?}");
        };
        ["", "\n", "hello\n"].iter().for_each(|text| no_opening(text, 1));
        no_opening(&vert(), 2);
        no_opening(&text("01", "0"), 41);
        ["4294967296", "-1"].iter().for_each(|count| no_opening(&text(count, "0"), 40));
        no_opening(&text("0", "0").replace(ONE, "3ff0000000000000"), 16);
        no_opening(text("0", "0").trim_end(), 53);
        let mesh = text("2", "1") + &vert() + &vert() + "(face 0 1 1)\n";
        assert!(store_of(Path::new("s"), mesh.as_bytes()).is_ok());
        let no_put = "not (put N (c H H H) (sigma H) (w H) (alpha H) (layer N))";
        for (text, place, what) in [
            (text("2", "1") + &vert() + "(face 0 1 1)\n", "3, column 2", "vertex 2, (vert H H H), is due"),
            (text("2", "1") + &vert() + &vert() + &vert(), "4, column 2", "face 1, (face N N N), is due"),
            (mesh.clone() + &vert(), "5, column 2", no_put),
            (mesh.clone() + &put("3", "") + "\n", "6, column 1", no_put),
            (mesh.clone() + &put("3", " (layer 01)"), "5, column 142", no_put),
            (text("2", "1") + &vert(), "3", "the file ends, and vertex 2, (vert H H H), is due"),
            (text("2", "1") + &vert() + &vert(), "4", "the file ends, and face 1, (face N N N), is due"),
            (mesh.replace("0 1 1)", "0 1 01)"), "4, column 12", "face 1, (face N N N), is due"),
        ] {
            assert_eq!(said(text), format!("s.lines, line {place}: {what}: {bad}"));
        }
        let returned = said(mesh.replace("1 1)\n", "1 1)\r\n"));
        let wanted =
            "s.lines, line 4, column 13: face 1, (face N N N), is due, and a carriage return stands ";
        assert!(returned.starts_with(wanted), "{returned}");
        let cut = said((mesh.clone() + &put("3", " (layer 2)")).trim_end());
        assert!(cut.starts_with("s.lines, line 5, column 144: not (put "), "{cut}");
        assert!(cut.contains("and the newline at its end is missing"), "{cut}");
    }

    #[test]
    fn the_first_line_that_is_refused_is_named() {
        let mesh = text("2", "1") + &vert() + &vert();
        let loose = "loose corner: a face names a vertex that is not there (no 3)";
        let whole = mesh.clone() + "(face 0 1 2)\n" + &put("32", "");
        let shown = input::tests::said(store_of(Path::new("s.lines"), whole.as_bytes()));
        assert_eq!(shown, format!("s.lines, line 4, column 11: {loose}\n  (face 0 1 2)\n            ^"));
        let good = mesh + "(face 0 1 1)\n" + &put("31", "") + &put("0", " (layer 16)");
        assert_eq!(said(&good), "s.lines, line 6, column 141: no layer: the layers are 0 to 15 (no 16)");
        let place = said(good + &put("31", " (layer 15)") + &put("32", " (layer 16)"));
        assert_eq!(place, "s.lines, line 8, column 6: no place: the places are 0 to 31 (no 6)");
        let many = text("0", "2097153") + &"(face 0 0 0)\n".repeat(2_097_153);
        assert!(said(many).starts_with("s.lines, line 1, column 1: oversize: more than 1,048,576 vertices"));
    }

    #[test]
    fn the_steps_of_all_places_are_counted() {
        let mut store =
            store_of(Path::new("s"), (text("1", "1") + &vert() + "(face 0 0 0)\n").as_bytes()).unwrap();
        assert_eq!(all_steps(&store), 0);
        let kernel = cauchy::Kernel { c: [0.0; 3], sigma: 1.0, w: 1.0, alpha: 2.0 };
        store.put(3, kernel).unwrap();
        assert_eq!(all_steps(&store), 13);
        store.advance(5).unwrap();
        assert_eq!((all_steps(&store), store.left()), (13, Ok(8)));
    }
}
