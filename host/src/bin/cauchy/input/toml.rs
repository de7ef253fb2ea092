//! The original's kernel files, which are TOML: top-level keys, then a table `[[kernels]]` for each kernel. They are
//! read by hand, since no crate comes from a registry here and the files need few of TOML's forms: keys with a number,
//! an array of three or a string, comments and these tables. Other forms are refused, and so is a key of another name,
//! which the original passes over without a word: a misspelt `alpha` would become the default.
mod number;
mod parser;

use super::too_many;
use super::words::{Fault, Read};
use crate::excerpt;
use crate::failure::{Failure, Result};
use crate::figures::short;
use cauchy::{FileKernel, PLACES};
use parser::{Key, Parser};
use std::path::Path;

/// The files' types that the original takes.
const TYPES: [&[u8]; 3] = [b"cauchy_kernels", b"arbitrary_density", b"arbitrary_density_cauchy_mixture"];

/// The keys of a file that speak of a reading's convention, which the program takes from its command line.
const OF_READINGS: [&[u8]; 3] = [b"bulk_density_ref", b"total_mass_target", b"mean_density"];

/// A kernel file, in kilometres.
#[derive(Debug, Default, PartialEq)]
pub struct TomlFile {
    /// The default exponent, `alpha_default`, where the file gives one.
    pub default: Option<f64>,
    pub kernels: Vec<FileKernel>,
    /// The byte at which each kernel's exponent stands, or its table where it has none.
    places: Vec<usize>,
    /// The keys that speak of a reading's convention, each with its number.
    pub of_readings: Vec<String>,
}

/// The kernels of a file.
pub fn read(path: &Path, bytes: &[u8]) -> Result<TomlFile> {
    let told = match std::str::from_utf8(bytes) {
        Ok(_) => read_text(bytes),
        Err(fault) => Err(Fault { at: fault.valid_up_to(), what: "this is no UTF-8 text".to_string() }),
    };
    match told {
        Ok(file) if file.kernels.is_empty() => Err(Failure::of_file(path, "has no kernel")),
        told => told.map_err(|fault| fault_at(path, bytes, fault)),
    }
}

impl TomlFile {
    /// A fault of a kernel's exponent.
    pub fn fault(&self, path: &Path, bytes: &[u8], kernel: usize, what: String) -> Failure {
        let at = self.places.get(kernel).copied().unwrap_or(0);
        fault_at(path, bytes, Fault { at, what })
    }
}

/// A fault at a byte of a file.
fn fault_at(path: &Path, bytes: &[u8], fault: Fault) -> Failure {
    let before = &bytes[..fault.at.min(bytes.len())];
    let start = before.iter().rposition(|byte| *byte == b'\n').map_or(0, |newline| newline + 1);
    let number = 1 + before.iter().filter(|byte| **byte == b'\n').count();
    let line = bytes[start..].split(|byte| *byte == b'\n').next().unwrap_or_default();
    let line = line.strip_suffix(b"\r").unwrap_or(line);
    Failure::of_text(path, number, line, fault.at - start, fault.what)
}

/// A file, as far as it is read.
#[derive(Default)]
struct Draft {
    file: TomlFile,
    /// The top-level keys that were read.
    keys: Vec<Vec<u8>>,
    kernel: Option<Table>,
}

/// A kernel, as far as it is read.
#[derive(Default)]
struct Table {
    at: usize,
    c: Option<[f64; 3]>,
    sigma: Option<f64>,
    w: Option<f64>,
    /// With the byte at which it stands.
    alpha: Option<(usize, f64)>,
}

fn read_text(text: &[u8]) -> Read<TomlFile> {
    let mut parser = Parser::new(text);
    let mut draft = Draft::default();
    while parser.next_statement()? {
        draft.statement(&mut parser)?;
        parser.end_of_line()?;
    }
    draft.end_kernel()?;
    Ok(draft.file)
}

impl Draft {
    fn statement(&mut self, parser: &mut Parser<'_>) -> Read<()> {
        if let Some(table) = parser.table()? {
            return self.begin_kernel(table);
        }
        let key = parser.key()?;
        match &mut self.kernel {
            Some(kernel) => kernel.value(key, parser),
            None => self.value(key, parser),
        }
    }

    fn begin_kernel(&mut self, table: Key<'_>) -> Read<()> {
        self.end_kernel()?;
        match table.name {
            b"kernels" if self.file.kernels.len() == PLACES as usize => Err(table.fault(too_many())),
            b"kernels" => {
                self.kernel = Some(Table { at: table.at, ..Table::default() });
                Ok(())
            }
            _ => Err(table.fault(format!("`{}` is no table that is read: [[kernels]] is", table.shown()))),
        }
    }

    fn end_kernel(&mut self) -> Read<()> {
        let Some(table) = self.kernel.take() else { return Ok(()) };
        let missing = |name| Fault { at: table.at, what: format!("this kernel has no `{name}`") };
        self.file.kernels.push(FileKernel {
            c: table.c.ok_or_else(|| missing("c"))?,
            sigma: table.sigma.ok_or_else(|| missing("sigma"))?,
            w: table.w.ok_or_else(|| missing("w"))?,
            alpha: table.alpha.map(|(_, alpha)| alpha),
        });
        self.file.places.push(table.alpha.map_or(table.at, |(at, _)| at));
        Ok(())
    }

    /// Reads the value of a top-level key.
    fn value(&mut self, key: Key<'_>, parser: &mut Parser<'_>) -> Read<()> {
        if self.keys.iter().any(|name| name == key.name) {
            return Err(key.twice());
        }
        match key.name {
            b"alpha_default" => self.file.default = Some(parser.number()?),
            b"type" => {
                let (at, name) = parser.string()?;
                if !TYPES.contains(&name) {
                    let what =
                        format!("type `{}` is none that is read: arbitrary_density is", excerpt::word(name));
                    return Err(Fault { at, what });
                }
            }
            name if OF_READINGS.contains(&name) => {
                let number = parser.number()?;
                self.file.of_readings.push(format!("{} {}", key.shown(), short(number)));
            }
            b"kernels" => return Err(key.fault("kernels are read as tables, [[kernels]]")),
            _ => return Err(key.fault(format!("`{}` is no key that is read", key.shown()))),
        }
        self.keys.push(key.name.to_vec());
        Ok(())
    }
}

impl Table {
    /// Reads the value of a key of a kernel.
    fn value(&mut self, key: Key<'_>, parser: &mut Parser<'_>) -> Read<()> {
        match key.name {
            b"c" => once(&key, &mut self.c, parser.three()?),
            b"sigma" => once(&key, &mut self.sigma, parser.number()?),
            b"w" => once(&key, &mut self.w, parser.number()?),
            b"alpha" => {
                let at = parser.at();
                once(&key, &mut self.alpha, (at, parser.number()?))
            }
            _ => {
                Err(key.fault(format!("`{}` is no key of a kernel: c, sigma, w and alpha are", key.shown())))
            }
        }
    }
}

fn once<T>(key: &Key<'_>, slot: &mut Option<T>, value: T) -> Read<()> {
    match slot.replace(value) {
        None => Ok(()),
        Some(_) => Err(key.twice()),
    }
}

#[cfg(test)]
mod tests {
    use super::*;
    use crate::input::tests::said;

    fn read_of(text: &str) -> Result<TomlFile> {
        read(Path::new("k.toml"), text.as_bytes())
    }

    const ORIGINAL: &str = r#"# Ryugu
type = "arbitrary_density"   # of three
bulk_density_ref = 1190
alpha_default = 1.5
"total_mass_target" = 4.5e11

[[kernels]] # core
c = [0.0, -0.25, 1e-1]
sigma = 4
w = 1_250.0
alpha = 2.5

[[ kernels ]]
c = [
    1, # km
    2.0,

    +3.0, # and a comma behind
]
sigma = 0.9
w = -inf
'alpha' = -0.0
[[kernels]]
w = 0x10
c = [0,0,0]
sigma = 1.0"#;

    #[test]
    fn a_file_of_the_original_is_read() {
        for text in [ORIGINAL.to_string(), ORIGINAL.replace('\n', "\r\n"), format!("{ORIGINAL}\n\n# end")] {
            let file = read_of(&text).unwrap();
            assert_eq!(file.default, Some(1.5));
            assert_eq!(file.of_readings, ["bulk_density_ref 1190", "total_mass_target 4.5e11"]);
            let [first, second, third] = file.kernels.try_into().unwrap();
            assert_eq!(first, FileKernel { c: [0.0, -0.25, 0.1], sigma: 4.0, w: 1250.0, alpha: Some(2.5) });
            let w = f64::NEG_INFINITY;
            assert_eq!(second, FileKernel { c: [1.0, 2.0, 3.0], sigma: 0.9, w, alpha: Some(-0.0) });
            assert!(second.alpha.is_some_and(f64::is_sign_negative));
            assert_eq!(third, FileKernel { c: [0.0; 3], sigma: 1.0, w: 16.0, alpha: None });
        }
        assert_eq!(read_of("[[kernels]]\nc=[0,0,0]\nsigma=1\nw=1").unwrap().default, None);
    }

    #[test]
    fn the_place_of_an_exponent_is_known() {
        let file = read_of(ORIGINAL).unwrap();
        let place = |kernel| match file.fault(Path::new("k"), ORIGINAL.as_bytes(), kernel, "x".to_string()) {
            Failure::Work(text) => text.split(": ").next().unwrap().to_string(),
            other => panic!("{other:?}"),
        };
        assert_eq!(
            [0, 1, 2].map(place),
            ["k, line 11, column 9", "k, line 22, column 11", "k, line 23, column 3"]
        );
    }

    const KERNEL: &str = "[[kernels]]\nc = [0, 0, 0]\nsigma = 1.0\nw = 2.0\nalpha = 1.0\n";

    /// Looks that a kernel of which a part is replaced is refused.
    fn change(old: &str, new: &str, wanted: &str) {
        assert!(KERNEL.contains(old), "{old}");
        let said = said(read_of(&KERNEL.replacen(old, new, 1)));
        assert!(said.starts_with(&format!("k.toml, {wanted}")), "{said}");
    }

    #[test]
    fn keys_that_are_not_read_are_named_by_their_places() {
        change(
            "alpha",
            "alhpa",
            "line 5, column 1: `alhpa` is no key of a kernel: c, sigma, w and alpha are\n",
        );
        change("alpha", "alpha_default", "line 5, column 1: `alpha_default` is no key of a kernel: ");
        change("alpha", "w", "line 5, column 1: `w` is given twice\n");
        change("sigma = 1.0\n", "", "line 1, column 3: this kernel has no `sigma`\n");
        change("w = 2.0\n", "", "line 1, column 3: this kernel has no `w`\n");
        change("c = [0, 0, 0]\n", "", "line 1, column 3: this kernel has no `c`\n");
        change("w =", "w", "line 4, column 3: `=` is due here\n");
        change("w =", "w.x =", "line 4, column 2: `=` is due here\n");
        change("w =", "=", "line 4, column 1: a key is due here\n");
        change("w =", "\"w =", "line 4, column 1: this text does not end in its line\n");
    }

    #[test]
    fn tables_that_are_not_read_are_named_by_their_places() {
        let begin = |new: &str, wanted: &str| change("[[kernels]]", new, wanted);
        begin("[kernels]", "line 1, column 1: no table is read but [[kernels]]\n");
        begin("[[kernels]", "line 1, column 10: `]]` is due here\n");
        begin("[[other]]", "line 1, column 3: `other` is no table that is read: [[kernels]] is\n");
        begin("units = 1\n[[kernels]]", "line 1, column 1: `units` is no key that is read\n");
        begin("kernels = []", "line 1, column 1: kernels are read as tables, [[kernels]]\n");
        begin("type = \"x\"\n[[kernels]]", "line 1, column 8: type `x` is none that is read: ");
        begin("type = 1\n[[kernels]]", "line 1, column 8: a text between quotes is due here\n");
        let default = "alpha_default = 1\n";
        begin(&format!("{default}{default}[[kernels]]"), "line 2, column 1: `alpha_default` is given twice");
        assert_eq!(said(read_of(default)), "k.toml: has no kernel");
    }

    #[test]
    fn values_that_are_not_read_are_named_by_their_places() {
        change("2.0", "\"2\"", "line 4, column 5: a number is due here\n");
        change("2.0", "", "line 4, column 5: a number is due here\n");
        change("2.0", "2.", "line 4, column 5: `2.` is not a number of TOML\n");
        change("2.0", "2.0 3", "line 4, column 9: the line should end here\n");
        change("2.0", "2.0\r1", "line 4, column 8: the line should end here\n");
        change("2.0", "2,0", "line 4, column 6: the line should end here\n");
        let centre = "a centre has three numbers, [x, y, z]\n";
        change("[0, 0, 0]", "[0, 0]", &format!("line 2, column 10: {centre}"));
        change("[0, 0, 0]", "[0, 0, 0, 0]", &format!("line 2, column 15: {centre}"));
        change("[0, 0, 0]", "[0 0 0]", &format!("line 2, column 8: {centre}"));
        change("[0, 0, 0]", "0", &format!("line 2, column 5: {centre}"));
        change("[0, 0, 0]", "[0, 0, ", "line 3, column 1: `sigma` is not a number of TOML\n");
    }
}
