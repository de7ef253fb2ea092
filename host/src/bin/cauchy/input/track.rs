//! The points of a track.
use super::METRES_IN_KM;
use super::source::Source;
use super::words::{Read, Words, point};
use crate::failure::{Failure, Result};

/// The points of a track, in metres.
pub fn read(source: &mut Source<'_>) -> Result<Vec<[f64; 3]>> {
    source.begin_text()?;
    let mut points = Vec::new();
    while source.content()? {
        points.push(line(source.words()).map_err(|fault| source.fault(fault))?);
    }
    if points.is_empty() {
        return Err(Failure::of_file(source.path(), "has no point"));
    }
    Ok(points)
}

fn line(words: Words<'_>) -> Read<[f64; 3]> {
    match words.ahead() {
        (coordinates, 3) => Ok(point(&coordinates)?.map(|x| x * METRES_IN_KM)),
        (_, n) => Err(words.miscounted(3, format!("a point has three numbers: x y z; here are {n}"))),
    }
}

#[cfg(test)]
mod tests {
    use super::*;
    use crate::input::tests::said;
    use std::path::Path;

    fn track(text: &str) -> Result<Vec<[f64; 3]>> {
        let whole = read(&mut Source::of_bytes(Path::new("t.txt"), text.as_bytes()));
        assert_eq!(read(&mut Source::of_stream(Path::new("t.txt"), text.as_bytes(), 3)), whole);
        whole
    }

    #[test]
    fn a_track_is_read_in_kilometres() {
        let text = "\u{feff}# pass\r\n0.5 0 -1\r\n\n 1 2 3 # end";
        assert_eq!(track(text), Ok(vec![[500.0, 0.0, -1000.0], [1000.0, 2000.0, 3000.0]]));
    }

    #[test]
    fn a_bad_track_is_named_by_its_place() {
        let form = "a point has three numbers: x y z; here are";
        assert_eq!(said(track("0 0 0\n1 2")), format!("t.txt, line 2, column 4: {form} 2\n  1 2\n     ^"));
        assert_eq!(said(track("0,0,0")), format!("t.txt, line 1, column 6: {form} 1\n  0,0,0\n       ^"));
        assert!(said(track("0 0 0 0")).starts_with(&format!("t.txt, line 1, column 7: {form} 4\n")));
        assert!(said(track("0 0 inf")).starts_with("t.txt, line 1, column 5: `inf` is not a number "));
        assert_eq!(said(track("")), "t.txt: has no point");
        let wide = read(&mut Source::of_bytes(Path::new("t.txt"), b"\xFF\xFE0\0"));
        assert_eq!(said(wide), "t.txt: is text in UTF-16; save it as UTF-8");
    }
}
