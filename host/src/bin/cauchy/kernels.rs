//! The kernels of a file: a list of numbers, which is the program's own form, bracket lines, which teams exchange, or
//! TOML, which the original reads. Of the last two a loader makes kernels. Whether bytes are such lines, and whether
//! the loaders agree on them, the archive tells by its proved call; the kernels of TOML are written as such lines for
//! it. On which line the loaders do not agree is found here, one line at a time, and is not proved.
use crate::failure::{Failure, Result, name};
use crate::figures::short;
use crate::form::misfit;
use crate::input::{self, KernelFile, Source, toml};
use cauchy::{FileKernel, Kernel, Loader, PLACES, Refusal, convert};
use std::path::Path;

/// How bracket lines and TOML are loaded, as far as that is said.
#[derive(Clone, Copy, Debug, Default, PartialEq)]
pub struct Loading {
    pub loader: Option<Loader>,
    /// The default exponent.
    pub alpha: Option<f64>,
}

/// The kernels of a file.
#[derive(Debug, PartialEq)]
pub struct Kernels {
    /// In metres.
    pub kernels: Vec<Kernel>,
    /// The layer of each.
    pub layers: Vec<u32>,
    /// What is said of them.
    pub said: Vec<String>,
}

const DEFAULT_ALPHA: f64 = 1.0;

/// The most bytes of a kernel file.
const MAX_BYTES: u64 = 1 << 22;

/// The forms of kernel files.
#[derive(Clone, Copy, PartialEq)]
enum Form {
    List,
    Lines,
    Toml,
}

/// The kernels of a file of any form.
pub fn read(path: &Path, loading: Loading) -> Result<Kernels> {
    kernels_of(path, &Source::open(path)?.rest(MAX_BYTES)?, loading)
}

/// The kernels of the bytes of a file.
pub fn kernels_of(path: &Path, bytes: &[u8], loading: Loading) -> Result<Kernels> {
    let mut source = Source::of_bytes(path, bytes);
    source.begin_text()?;
    let text = &bytes[source.given() as usize..];
    let form = if source.content()? { form_of(source.text()) } else { Form::List };
    let fault = |what: &str| Err(source.fault(source.words().miscounted(0, what.to_string())));
    match form {
        // a mark before the first line is no part of it
        Form::Lines => of_lines(path, bytes, loading),
        Form::Toml if loading.alpha.is_some() => {
            fault("--alpha goes with bracket lines, (kernel ..): TOML has its alpha_default")
        }
        Form::Toml => of_toml(path, text, loading),
        Form::List if loading != Loading::default() && source.words().next().is_some() => fault(
            "--loader and --alpha go with bracket lines, (kernel ..), --loader with TOML too: this is neither",
        ),
        Form::List => Ok(of_list(path, &input::kernels_of(path, text)?)),
    }
}

/// The form of a file, by its first line that has words.
fn form_of(line: &[u8]) -> Form {
    let content = line.trim_ascii_start().split(|byte| *byte == b'#').next().unwrap_or_default();
    match content {
        [b'(', ..] => Form::Lines,
        [b'[', ..] => Form::Toml,
        _ if content.contains(&b'=') => Form::Toml,
        _ => Form::List,
    }
}

// ---- A list of numbers ----

fn of_list(path: &Path, list: &KernelFile) -> Kernels {
    let alpha = list.default.unwrap_or(DEFAULT_ALPHA);
    let mut said = vec![format!("{}, default exponent {}", name(path), short(alpha))];
    let given = list.kernels.iter().enumerate().filter_map(|(place, kernel)| Some((place, kernel.alpha?)));
    let low = given.filter(|(_, alpha)| *alpha <= 0.0);
    said.extend(low.map(|(place, alpha)| replaced(place, alpha)));
    let kernels = list.kernels.iter().map(|kernel| kernel.to_metres(alpha)).collect();
    Kernels { kernels, layers: list.layers.clone(), said }
}

/// What is said of an exponent that was given and gave way to the default.
pub fn replaced(place: usize, alpha: f64) -> String {
    format!("place {place}: exponent {} is not above 0, the default is taken", short(alpha))
}

// ---- Bracket lines ----

fn of_lines(path: &Path, bytes: &[u8], loading: Loading) -> Result<Kernels> {
    let loader = loading.loader.unwrap_or(Loader::Strict);
    let alpha = loading.alpha.unwrap_or(DEFAULT_ALPHA);
    let kernels = convert(bytes, alpha, loader).map_err(|refusal| refused(path, bytes, alpha, refusal))?;
    if kernels.len() > PLACES as usize {
        let line = split(bytes).nth(PLACES as usize).unwrap_or_default();
        return Err(Failure::of_text(path, PLACES as usize + 1, bare(line), 0, input::too_many()));
    }
    // bracket lines name no layer
    Ok(Kernels { layers: vec![0; kernels.len()], kernels, said: said_of(path, bytes, alpha, loader) })
}

/// What is said of lines that a loader took.
fn said_of(path: &Path, lines: &[u8], alpha: f64, loader: Loader) -> Vec<String> {
    let (file, default) = (name(path), short(alpha));
    let mut said = vec![format!("{file}, by the loader {}, default exponent {default}", loader.name())];
    said.extend(differences(lines, alpha).map(|difference| match loader {
        Loader::Source => {
            let exponent = short(difference.source);
            format!("place {}: exponent {exponent} is not above 0, and is kept", difference.line)
        }
        _ => replaced(difference.line, difference.source),
    }));
    said
}

/// A line, from 0, of which the loaders make different kernels, and their exponents.
#[derive(Debug, PartialEq)]
struct Difference {
    line: usize,
    native: f64,
    source: f64,
}

/// The lines on which the loaders differ: those that are refused for it alone.
fn differences(bytes: &[u8], alpha: f64) -> impl Iterator<Item = Difference> {
    let exponent = move |line: &[u8], loader| Some(convert(line, alpha, loader).ok()?.first()?.alpha);
    let differ = move |line: &[u8]| convert(line, alpha, Loader::Strict) == Err(Refusal::LoadersDiffer);
    let lines = split(bytes).enumerate().filter(move |(_, bytes)| differ(bytes));
    lines.filter_map(move |(line, bytes)| {
        let [native, source] = [Loader::Native, Loader::Source].map(|loader| exponent(bytes, loader));
        Some(Difference { line, native: native?, source: source? })
    })
}

/// The lines of a file, each with its newline where it has one.
fn split(bytes: &[u8]) -> impl Iterator<Item = &[u8]> {
    bytes.split_inclusive(|byte| *byte == b'\n')
}

/// What is said of the first line on which the loaders differ.
fn differ(first: &Difference) -> String {
    let [native, source] = [first.native, first.source].map(short);
    let what = format!("the exponent is {native} by native and {source} by source");
    let how = format!("--loader names one of them (no {})", Refusal::LoadersDiffer.number());
    format!("loaders differ: {what}; {how}")
}

/// Why a file was refused, with the first line for which it was.
fn refused(path: &Path, bytes: &[u8], alpha: f64, refusal: Refusal) -> Failure {
    let is_bad = |line: &[u8]| convert(line, alpha, Loader::Native) == Err(Refusal::BadKernelLine);
    let first = match refusal {
        Refusal::BadKernelLine => {
            let bad = split(bytes).enumerate().find(|(_, text)| is_bad(text));
            bad.map(|(line, text)| (line, misfit_of(text), format!("{refusal}{}", unseen(text))))
        }
        Refusal::LoadersDiffer => {
            // all lines have their exponents at the same byte
            let at = misfit(BEFORE_ALPHA, bytes);
            differences(bytes, alpha).next().map(|first| (first.line, at, differ(&first)))
        }
        _ => None,
    };
    match first {
        Some((line, at, what)) => {
            let text = split(bytes).nth(line).unwrap_or_default();
            Failure::of_text(path, line + 1, bare(text), at, what)
        }
        None => Failure::of_file(path, refusal),
    }
}

const KERNEL: &str = "(kernel (c H H H) (sigma H) (w H) (alpha H))";
const KERNEL_WITHOUT_ALPHA: &str = "(kernel (c H H H) (sigma H) (w H) (alpha none))";

const BEFORE_ALPHA: &str = "(kernel (c H H H) (sigma H) (w H) (alpha ";

/// The first byte at which a line is no kernel line.
fn misfit_of(line: &[u8]) -> usize {
    misfit(KERNEL, line).max(misfit(KERNEL_WITHOUT_ALPHA, line))
}

/// A line without its newline.
fn bare(line: &[u8]) -> &[u8] {
    line.strip_suffix(b"\n").unwrap_or(line)
}

/// What is wrong with a line that looks right in an editor.
fn unseen(line: &[u8]) -> &'static str {
    let bare = bare(line);
    let is_good = |line: &[u8]| convert(&[line, b"\n"].concat(), DEFAULT_ALPHA, Loader::Native).is_ok();
    let [mark, end] = [bare.strip_prefix(input::MARK), bare.strip_suffix(b"\r")];
    match (mark, end) {
        _ if is_good(bare) => ": the newline at its end is missing",
        (_, Some(line)) if is_good(line) => ": a carriage return stands at its end",
        (Some(line), _) if is_good(line.strip_suffix(b"\r").unwrap_or(line)) => {
            ": a byte order mark stands before it"
        }
        _ => "",
    }
}

// ---- TOML ----

fn of_toml(path: &Path, text: &[u8], loading: Loading) -> Result<Kernels> {
    let file = toml::read(path, text)?;
    let loader = loading.loader.unwrap_or(Loader::Strict);
    let alpha = file.default.unwrap_or(DEFAULT_ALPHA);
    let lines = file.kernels.iter().map(line_of).collect::<String>().into_bytes();
    let refused = |refusal| match differences(&lines, alpha).next() {
        Some(first) if refusal == Refusal::LoadersDiffer => {
            file.fault(path, text, first.line, differ(&first))
        }
        _ => Failure::of_file(path, refusal),
    };
    let kernels = convert(&lines, alpha, loader).map_err(refused)?;
    let mut said = said_of(path, &lines, alpha, loader);
    if !file.of_readings.is_empty() {
        said.push(format!("not taken: {}; a reading names its convention", file.of_readings.join(", ")));
    }
    Ok(Kernels { layers: vec![0; kernels.len()], kernels, said })
}

/// A kernel as a bracket line.
fn line_of(kernel: &FileKernel) -> String {
    let hex = |x: f64| format!("{:016X}", x.to_bits());
    let [x, y, z] = kernel.c.map(hex);
    let alpha = kernel.alpha.map_or("none".to_string(), hex);
    format!("(kernel (c {x} {y} {z}) (sigma {}) (w {}) (alpha {alpha}))\n", hex(kernel.sigma), hex(kernel.w))
}

#[cfg(test)]
mod tests {
    use super::*;

    const NATIVE: Loading = Loading { loader: Some(Loader::Native), alpha: None };
    const SOURCE: Loading = Loading { loader: Some(Loader::Source), alpha: Some(1.5) };
    const UNSAID: Loading = Loading { loader: None, alpha: None };

    /// A kernel line; the centre at the origin, sigma 4 per km, the weight 500.
    fn line(alpha: &str) -> String {
        let zero = "0000000000000000";
        let (sigma, w) = ("4010000000000000", "407F400000000000");
        format!("(kernel (c {zero} {zero} {zero}) (sigma {sigma}) (w {w}) (alpha {alpha}))\n")
    }

    fn given(alpha: f64) -> String {
        line(&format!("{:016X}", alpha.to_bits()))
    }

    fn read_of(text: &str, loading: Loading) -> Kernels {
        kernels_of(Path::new("k.txt"), text.as_bytes(), loading).unwrap()
    }

    fn said(text: impl AsRef<[u8]>, loading: Loading) -> String {
        input::tests::said(kernels_of(Path::new("k.txt"), text.as_ref(), loading))
    }

    /// Looks that a file is refused, with a first row like this behind its name.
    fn refused(text: impl AsRef<[u8]>, loading: Loading, wanted: &str) {
        let said = said(&text, loading);
        let row = said.lines().next().unwrap();
        assert_eq!(row, format!("k.txt, {wanted}"), "{:?}", String::from_utf8_lossy(text.as_ref()));
    }

    #[test]
    fn all_forms_are_read() {
        let list = read_of("0 0 0 4 500 2\n0 0 0 4 500 -\n", UNSAID);
        let lines = read_of(&(given(2.0) + &line("none")), UNSAID);
        let toml = read_of(
            "# TOML\n\n[[kernels]]\nc = [0, 0, 0]\nsigma = 4\nw = 500.0\nalpha = 2\n\
             [[kernels]]\nc=[0.0,0.0,0.0]\nsigma=4.0\nw=5e2\n",
            UNSAID,
        );
        assert_eq!((&lines.kernels, &toml.kernels), (&list.kernels, &list.kernels));
        assert_eq!((lines.layers, toml.layers), (vec![0, 0], vec![0, 0]));
        assert_eq!(list.said, ["k.txt, default exponent 1"]);
        assert_eq!(lines.said, ["k.txt, by the loader strict, default exponent 1"]);
        assert_eq!(toml.said, lines.said);
        let marked = read_of("\u{feff}0 0 0 4 500 2 # w = 500\r\n0 0 0 4 500 -\r\n", UNSAID);
        assert_eq!(marked.kernels, list.kernels);
    }

    #[test]
    fn a_loader_does_what_it_is_named_for() {
        let text = given(2.0) + &given(-1.0) + &line("none") + &given(f64::NAN) + &given(-0.0);
        let alphas = |kernels: &[Kernel]| kernels.iter().map(|kernel| kernel.alpha).collect::<Vec<_>>();
        let native = read_of(&text, NATIVE);
        assert_eq!(alphas(&native.kernels), [2.0, 1.0, 1.0, 1.0, 1.0]);
        let taken =
            |place, alpha| format!("place {place}: exponent {alpha} is not above 0, the default is taken");
        assert_eq!(native.said[1..], [taken(1, "-1"), taken(3, "NaN"), taken(4, "-0")]);
        let source = read_of(&text, SOURCE);
        assert_eq!(source.said[0], "k.txt, by the loader source, default exponent 1.5");
        let kept = |place, alpha| format!("place {place}: exponent {alpha} is not above 0, and is kept");
        assert_eq!(source.said[1..], [kept(1, "-1"), kept(3, "NaN"), kept(4, "-0")]);
        let [two, below, default, nan, zero] = alphas(&source.kernels).try_into().unwrap();
        assert_eq!(([two, below, default], nan.is_nan()), ([2.0, -1.0, 1.5], true));
        assert!(zero == 0.0 && zero.is_sign_negative());
    }

    /// A file of TOML with these exponents.
    fn toml(alphas: &[&str]) -> String {
        let table =
            |alpha: &&str| format!("[[kernels]]\nc = [0.0, 0.0, 0.0]\nsigma = 4.0\nw = 500.0\n{alpha}\n");
        "total_mass_target = 4.5e11\nalpha_default = 1.5\n".to_string()
            + &alphas.iter().map(table).collect::<String>()
    }

    #[test]
    fn a_loader_goes_with_toml() {
        let text = toml(&["", "alpha = -1.0", "alpha = nan"]);
        let differ = "loaders differ: the exponent is 1.5 by native and -1 by source; \
                      --loader names one of them (no 21)";
        let wanted = format!("k.txt, line 12, column 9: {differ}\n  alpha = -1.0\n          ^");
        assert_eq!(said(&text, UNSAID), wanted);
        let native = read_of(&text, NATIVE);
        assert!(native.kernels.iter().all(|kernel| kernel.alpha == 1.5));
        assert_eq!(
            native.said,
            [
                "k.txt, by the loader native, default exponent 1.5",
                "place 1: exponent -1 is not above 0, the default is taken",
                "place 2: exponent NaN is not above 0, the default is taken",
                "not taken: total_mass_target 4.5e11; a reading names its convention",
            ]
        );
        let source = read_of(&text, Loading { loader: Some(Loader::Source), alpha: None });
        assert!(source.kernels[1].alpha == -1.0 && source.kernels[2].alpha.is_nan());
        let what =
            "line 1, column 1: --alpha goes with bracket lines, (kernel ..): TOML has its alpha_default";
        refused(&text, Loading { loader: None, alpha: Some(2.0) }, what);
    }

    #[test]
    fn the_first_line_on_which_the_loaders_differ_is_named() {
        let text = given(2.0) + &line("none") + &given(-1.0) + &given(0.0);
        let strict = Loading { loader: Some(Loader::Strict), alpha: Some(1.5) };
        let wanted = "line 3, column 117: loaders differ: the exponent is 1.5 by native and -1 by source; \
                      --loader names one of them (no 21)";
        refused(&text, strict, wanted);
        refused(&text, UNSAID, &wanted.replace("1.5", "1"));
        assert!(
            said(&text, UNSAID)
                .ends_with(" (alpha BFF0000000000000))\n                                            ^")
        );
    }

    #[test]
    fn the_first_line_that_is_not_of_the_form_is_named() {
        let form = "bad kernel line: not (kernel (c h h h) (sigma h) (w h) (alpha h or none)) (no 20)";
        let good = line("none");
        for loading in [UNSAID, NATIVE, SOURCE] {
            // also behind a line on which the loaders differ, and before others that are bad
            let bad = |text: &str, column: usize| {
                let text = given(-1.0) + &good + text + "hello\n";
                refused(text, loading, &format!("line 3, column {column}: {form}"));
            };
            bad(&good.replace("407F", "407f"), 95);
            bad(&good.replace(" (w", "  (w"), 89);
            bad(&good.replace("))\n", ")\n"), 122);
            for text in ["\n", "# comment\n", "\0\n", " \n"] {
                bad(text, 1);
            }
            let no_newline = format!("line 2, column 123: {form}: the newline at its end is missing");
            refused(good.clone() + good.trim_end(), loading, &no_newline);
            let returns = format!("line 1, column 123: {form}: a carriage return stands at its end");
            refused((good.clone() + &good).replace('\n', "\r\n"), loading, &returns);
            refused(format!("# mine\n{good}"), loading, &format!("line 1, column 1: {form}"));
            refused(format!("  {good}"), loading, &format!("line 1, column 1: {form}"));
            let mark = format!("line 1, column 1: {form}: a byte order mark stands before it");
            refused(format!("\u{feff}{good}"), loading, &mark);
            refused(format!("\u{feff}{good}").replace('\n', "\r\n"), loading, &mark);
        }
    }

    #[test]
    fn a_store_has_places_for_so_many() {
        assert_eq!(read_of(&line("none").repeat(32), UNSAID).kernels.len(), 32);
        let many = "one kernel too many: a store has 32 places";
        refused(line("none").repeat(33), UNSAID, &format!("line 33, column 1: {many}"));
        assert_eq!(read_of(&toml(&["alpha = 1.0"; 32]), UNSAID).kernels.len(), 32);
        refused(toml(&["alpha = 1.0"; 33]), UNSAID, &format!("line 163, column 3: {many}"));
    }

    #[test]
    fn a_loader_goes_not_with_a_list() {
        let what = "--loader and --alpha go with bracket lines, (kernel ..), --loader with TOML too: this is neither";
        let alpha = Loading { loader: None, alpha: Some(2.0) };
        for loading in [NATIVE, SOURCE, alpha] {
            refused("# mine\n 0 0 0 4 500 2\n", loading, &format!("line 2, column 2: {what}"));
            refused("hello\n", loading, &format!("line 1, column 1: {what}"));
            assert_eq!(said("", loading), "k.txt: has no kernel");
        }
    }

    #[test]
    fn bytes_that_are_no_text_are_refused() {
        assert!(
            said([0, 40, 10, 255], UNSAID).starts_with("k.txt, line 1, column 3: a kernel has six numbers")
        );
        assert_eq!(said(b"\xFF\xFE0\0", UNSAID), "k.txt: is text in UTF-16; save it as UTF-8");
        assert_eq!(
            said(b"[[kernels]]\nw = \xFF\n", UNSAID).lines().next(),
            Some("k.txt, line 2, column 5: this is no UTF-8 text")
        );
    }
}
