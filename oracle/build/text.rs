//! Takes the original's functions from its own files, for the comparison with its text. The files lie in the folder that
//! CAUCHY_RUST_SRC names, or in ../../shared/docs/src; no copy of them is kept here. Written to OUT_DIR, for src/original.rs:
//!
//! | file | from | with |
//! |---|---|---|
//! | native.rs, source.rs | the items below | the changes below |
//! | native_platform.rs, source_platform.rs | the same items | no change: the platform's functions |
//!
//! Cut, and why:
//! - `use` lines: the items of a folder stand in one module here, where `mass` names that module;
//! - doc comments: no code;
//! - `derive` lines with `Deserialize`, and the `serde` lines of fields: serde is not at hand, and no file is read;
//! - of `from_toml_impl` all but the map of one kernel to metres: the rest reads a file and wraps the functions compared one by one;
//! - of `impl Density` all but `homogeneous`, of `impl Mesh` all but counts, `vertex` and `face`: loaders, modes' names,
//!   `scale_vs_rho0`, normals and observation points are left out by 01 or give no result of it;
//! - `uv_sphere`, `ball_kernel_volume`: the original's own tests;
//! - of `parse_density_text` the line that reads TOML: it is given the file's entries;
//! - of the source folder the other loaders and `make_triangle`, whose one product beside the corners is a normal that nothing here reads.
//!
//! Every change is counted: a source that no longer has the text as often as it says stops the build.
use std::{env, fs, path::Path};

/// A file of the original, as the items are taken from it.
struct Source {
    name: &'static str,
    text: String,
}

/// A change of the text: what, into what, how often. The platform's functions become those of 01, which the module that includes the
/// text brings along, a sum starts at +0, as 01 says, and the elimination hands over its pivots.
type Change = (&'static str, &'static str, usize);

const NATIVE_CHANGES: [Change; 9] = [
    // 01: "`powi(2)` is a product"
    (".powi(", ".powi(", 1),
    (".powi(2)", ".powi(2)", 1),
    ("10.0_f64.powf(", "ten(", 3),
    (".powf(", ".power(", 3),
    (".log10()", ".log_ten()", 2),
    (".atan()", ".arc()", 1),
    (".sqrt()", ".root()", 1),
    (".sum::<f64>()", ".fold(0.0, |sum, x| sum + x)", 1),
    // 02's L4: each column's pivot is handed over
    ("if value <= 1e-18 {", "crate::recorder::met(col, value);\n        if value <= 1e-18 {", 1),
];

const SOURCE_CHANGES: [Change; 4] =
    [(".powf(", ".power(", 1), (".atan()", ".arc()", 1), (".sqrt()", ".root()", 2), (".sum();", ".fold(0.0, |sum, x| sum + x);", 1)];

/// What no changed text may hold: functions that a platform works out, or a sum that might start at -0.
const PLATFORM: [&str; 18] = [
    ".sqrt(",
    ".powf(",
    ".log10(",
    ".log2(",
    ".ln",
    ".log(",
    ".exp(",
    ".exp2(",
    ".exp_m1(",
    ".atan",
    ".asin",
    ".acos",
    ".sin",
    ".cos",
    ".tan",
    ".cbrt(",
    ".mul_add(",
    ".sum",
];

/// Writes the modules, and sets the cfg `original`; does neither where the folder is missing.
pub fn write(here: &Path) -> Result<(), String> {
    println!("cargo::rustc-check-cfg=cfg(original)");
    println!("cargo::rerun-if-env-changed=CAUCHY_RUST_SRC");
    let dir = env::var("CAUCHY_RUST_SRC").map_or_else(|_| here.join("../../shared/docs/src"), Into::into);
    println!("cargo::rustc-env=CAUCHY_RUST_SRC_USED={}", dir.display());
    println!("cargo::rerun-if-changed={}", dir.display());
    if !dir.is_dir() {
        return Ok(());
    }
    let out = env::var("OUT_DIR").map_err(|e| e.to_string())?;
    for (name, text, changes) in [("native", native(&dir)?, &NATIVE_CHANGES[..]), ("source", source(&dir)?, &SOURCE_CHANGES)] {
        put(&out, &format!("{name}_platform.rs"), &text)?;
        put(&out, &format!("{name}.rs"), &changed(name, text, changes)?)?;
    }
    println!("cargo::rustc-cfg=original");
    Ok(())
}

fn put(dir: &str, name: &str, text: &str) -> Result<(), String> {
    fs::write(Path::new(dir).join(name), text).map_err(|e| format!("{name}: {e}"))
}

/// The text with the changes made, each as often as it must be.
fn changed(name: &str, mut text: String, changes: &[Change]) -> Result<String, String> {
    for (from, to, times) in changes {
        let found = text.matches(from).count();
        if found != *times {
            return Err(format!("the original has changed: {name} has `{from}` {found} times, {times} are known"));
        }
        text = text.replace(from, to);
    }
    match PLATFORM.iter().find(|f| text.contains(**f)) {
        Some(left) => Err(format!("the original has changed: {name} has `{left}`, of which no change is known")),
        None => Ok(text),
    }
}

/// The native files' items, in one module; `mass::` is a name of their own module.
fn native(dir: &Path) -> Result<String, String> {
    let [mesh, mass, density] = ["native--mesh", "native--mass", "native--density"].map(|n| Source::read(dir, n));
    let (mesh, mass, density) = (mesh?, mass?, density?);
    let mut mesh_items = vec![mesh.item("pub struct Mesh")?];
    let methods = ["vertex_count", "face_count", "vertex", "face"].map(|f| mesh.item(&format!("pub fn {f}(")));
    mesh_items.push(block("impl Mesh", all(methods)?));
    let mass_items = [
        "const DUNANT7",
        "pub fn radial_g(",
        "fn radial_g_series(",
        "pub fn kernel_volume(",
        "pub fn body_volume(",
        "pub fn volume_centroid(",
        "pub fn kernel_field_mass(",
        "fn sub(",
        "fn dot(",
        "fn cross(",
        "fn norm(",
    ];
    let density_items = [
        "pub enum Normalization",
        "pub struct MassReport",
        "pub struct KernelSi",
        "pub struct Density",
        "pub struct DecompositionReport",
        "pub fn densitize(",
        "fn adaptive_cauchy_decompose(",
        "fn solve_linear_system(",
    ];
    let mut density_text = all(density_items.map(|i| density.item(i)))?;
    density_text.push(without(density.item("pub struct CauchyKernel")?, "#[serde(default)]", 1)?);
    density_text.push(block("impl Density", vec![density.item("pub fn homogeneous(")?]));
    density_text.push(carried(&density)?);
    density_text.push(fit_size(&density)?);
    let mass_text = all(mass_items.map(|i| mass.item(i)))?;
    let alias = "mod mass {\n    pub use super::body_volume;\n}".into();
    Ok([mesh_items, mass_text, density_text, vec![alias]].concat().join("\n\n"))
}

/// The map of one file kernel to metres, out of `from_toml_impl`.
fn carried(density: &Source) -> Result<String, String> {
    let map = density.after(".map(|k| KernelSi {")?;
    Ok(block("fn carried(k: &CauchyKernel, alpha_default: f64) -> KernelSi", vec![format!("[k].into_iter(){map}.next().unwrap()")]))
}

/// The counts of terms and samples, out of `adaptive_cauchy_decompose`.
fn fit_size(density: &Source) -> Result<String, String> {
    let lines = [density.line("let terms = ")?, density.line("let samples = ")?, "(terms, samples)".into()];
    Ok(block("fn fit_size(delta: f64) -> (usize, usize)", lines.into()))
}

/// The source folder's module: model and density, which that folder includes into one.
fn source(dir: &Path) -> Result<String, String> {
    let [module, model, density] = ["source--mod", "source--model", "source--density"].map(|n| Source::read(dir, n));
    let (module, model, density) = (module?, model?, density?);
    let model_items = ["type Vec3", "fn sub(", "fn cross(", "fn dot(", "fn norm(", "struct Triangle"].map(|i| model.item(i));
    let density_items = [
        "pub(crate) struct ParsedDensity",
        "fn density_at(",
        "fn radial_g(",
        "const DUNANT7",
        "fn triangle_point(",
        "fn kernel_volume(",
        "fn normalize_kernels(",
        "fn mesh_enclosed_volume(",
        "fn calibrate_kernels(",
    ];
    let mut items = all(model_items)?;
    items.push(module.item("const KM_TO_M")?);
    items.push(format!("#[derive(Clone, Copy)]\n{}", density.item("pub(crate) struct Kernel ")?));
    items.extend(all(density_items.map(|i| density.item(i)))?);
    items.extend(parsed(&density)?);
    Ok(items.join("\n\n"))
}

/// `parse_density_text` past the line that reads TOML, and the file's entries that it then has.
fn parsed(density: &Source) -> Result<[String; 3], String> {
    let file = without(density.item("struct DensityFile")?, "#[serde(default = \"one\")]", 1)?;
    let text = density.item("pub(crate) fn parse_density_text(")?;
    let text = replaced(text, "pub(crate) fn parse_density_text(text: &str, label: &str)", "fn parsed(file: DensityFile)", 1)?;
    let toml = r#"let file: DensityFile = toml::from_str(text).map_err(|error| format!("{label}: {error}"))?;"#;
    Ok([
        without(file, "#[serde(default)]", 3)?,
        without(density.item("struct KernelEntry")?, "#[serde(default)]", 1)?,
        without(text, toml, 1)?,
    ])
}

fn all<const N: usize>(items: [Result<String, String>; N]) -> Result<Vec<String>, String> {
    items.into_iter().collect()
}

fn block(head: &str, items: Vec<String>) -> String {
    format!("{head} {{\n{}\n}}\n", items.join("\n\n"))
}

/// The text without a piece that it must have so many times.
fn without(text: String, piece: &str, times: usize) -> Result<String, String> {
    replaced(text, piece, "", times)
}

/// The text with another piece in place of one that it must have so many times.
fn replaced(text: String, piece: &str, other: &str, times: usize) -> Result<String, String> {
    if text.matches(piece).count() != times {
        return Err(format!("the original has changed: `{piece}` is not {times} times in: {text}"));
    }
    Ok(text.replace(piece, other))
}

impl Source {
    fn read(dir: &Path, name: &'static str) -> Result<Source, String> {
        let path = dir.join(format!("src--src--rust--compute--{name}.rs.txt"));
        println!("cargo::rerun-if-changed={}", path.display());
        let text = fs::read_to_string(&path).map_err(|e| format!("{}: {e}", path.display()))?;
        Ok(Source { name, text })
    }

    /// The line that starts by these words, which must be one: where it begins.
    fn find(&self, head: &str) -> Result<usize, String> {
        let mut at = 0;
        let mut found = Vec::new();
        for line in self.text.split_inclusive('\n') {
            if line.trim_start().starts_with(head) {
                found.push(at);
            }
            at += line.len();
        }
        match found[..] {
            [one] => Ok(one),
            _ => Err(format!("the original has changed: {} lines of {} start by `{head}`, one is known", found.len(), self.name)),
        }
    }

    /// An item with the attributes above it, those that need serde left out.
    fn item(&self, head: &str) -> Result<String, String> {
        let start = self.find(head)?;
        let above: Vec<&str> = self.text[..start].lines().rev().take_while(|l| l.trim_start().starts_with("#[")).collect();
        let attributes = above.into_iter().rev().filter(|l| !l.contains("Deserialize")).map(|l| format!("{l}\n"));
        Ok(attributes.collect::<String>() + &self.text[start..start + self.length(start)?])
    }

    /// The text from these words, of which there must be one, to the end of the bracket that they open first.
    fn after(&self, words: &str) -> Result<String, String> {
        let start = self.find(words)?;
        let open = self.text[start..].find('(').map_or(start, |i| start + i);
        let end = self.closing(open)?;
        Ok(self.text[start..=end].to_string())
    }

    /// The line that starts by these words.
    fn line(&self, head: &str) -> Result<String, String> {
        let start = self.find(head)?;
        Ok(self.text[start..].lines().next().unwrap_or("").to_string())
    }

    /// How long the item is that starts here: to its closing brace, or to a semicolon outside all brackets.
    fn length(&self, start: usize) -> Result<usize, String> {
        let mut at = start;
        while let Some((i, c)) = next_sign(&self.text, at) {
            match c {
                b';' => return Ok(i + 1 - start),
                b'{' => return Ok(self.closing(i)? + 1 - start),
                b'(' | b'[' => at = self.closing(i)? + 1,
                _ => at = i + 1,
            }
        }
        Err(format!("an item of {} does not end", self.name))
    }

    /// Where the bracket closes that opens here.
    fn closing(&self, open: usize) -> Result<usize, String> {
        let (mut at, mut depth) = (open, 0);
        while let Some((i, c)) = next_sign(&self.text, at) {
            match c {
                b'(' | b'[' | b'{' => depth += 1,
                b')' | b']' | b'}' => depth -= 1,
                _ => {}
            }
            if depth == 0 {
                return Ok(i);
            }
            at = i + 1;
        }
        Err(format!("a bracket of {} does not close", self.name))
    }
}

/// The next bracket or semicolon that stands neither in a comment nor in a text.
fn next_sign(text: &str, from: usize) -> Option<(usize, u8)> {
    let bytes = text.as_bytes();
    let mut at = from;
    while at < bytes.len() {
        match bytes[at] {
            b'/' if bytes.get(at + 1) == Some(&b'/') => at += bytes[at..].iter().position(|b| *b == b'\n')?,
            b'"' => {
                at += 1;
                while *bytes.get(at)? != b'"' {
                    at += if bytes[at] == b'\\' { 2 } else { 1 };
                }
                at += 1;
            }
            c @ (b'(' | b')' | b'[' | b']' | b'{' | b'}' | b';') => return Some((at, c)),
            _ => at += 1,
        }
    }
    None
}
