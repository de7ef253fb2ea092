//! Every function over a mesh or a list of kernels: each mesh with each kernel's place and width, bulk density and list, each list at each
//! point. Then the radial factor, and Dunavant's rule: its figures beside the printed decimals, and its moments beside the exact ones.
use crate::tables::{INF, NAN, filled, hex, run, table};
use oracle::meshes::{self, Mesh};
use oracle::original::native_steps as native;
use oracle::original::source_steps as source;
use oracle::step;

/// The words of a run that the program lends to be written.
const ROOM: usize = 12;

/// A line for each call: its name, the numbers of its table rows, 01's number of a refusal or 0, and the bits of its values.
pub fn answers() -> String {
    let (meshes, lists, points, values) = (meshes(), lists(), points(), values());
    let mut out = String::new();
    for (m, (mesh, _)) in meshes.iter().enumerate() {
        let no = meshes::refusal(mesh);
        let text = native::Mesh { xyz: mesh.xyz.clone(), faces: mesh.faces.clone() };
        let (xyz, faces) = (&mesh.xyz[..], &mesh.faces[..]);
        out += &line(&format!("body {m}"), no, || vec![native::body_volume(&text)]);
        out += &line(&format!("centroid {m}"), no, || native::volume_centroid(&text).to_vec());
        out += &line(&format!("source-enclosed {m}"), no, || vec![source::enclosed(xyz, faces)]);
        for (p, &(c, sigma)) in points.iter().enumerate() {
            out += &line(&format!("volume {m} {p}"), no, || vec![native::kernel_volume(&text, c, sigma)]);
            out += &line(&format!("source-volume {m} {p}"), no, || vec![source::volume(xyz, faces, c, sigma)]);
        }
        for (b, &bulk) in values.iter().enumerate() {
            out += &line(&format!("homogeneous {m} {b}"), no, || fields(native::Density::homogeneous(bulk, &text).mass));
        }
        for (k, (list, _)) in lists.iter().enumerate() {
            let bad = if no == 0 && list.len() % 6 != 0 { 9 } else { no };
            out += &line(&format!("mass {m} {k}"), bad, || vec![native::kernel_field_mass(&text, &kernels(list))]);
            let short = if bad == 0 && list.len() > ROOM { 9 } else { bad };
            let [a, b, c] = [m + k, m + 2 * k, m + 3 * k].map(|i| values[i % values.len()]);
            out += &written(&format!("source-normalize {m} {k}"), short, || source::normalize(xyz, faces, list, a));
            let mean = ((m + k) % 2 == 1).then_some(c);
            out += &written(&format!("source-calibrate {m} {k}"), short, || source::calibrate(xyz, faces, list, b, mean));
        }
    }
    for (k, (list, _)) in lists.iter().enumerate() {
        let no = if list.len() % 6 == 0 { 0 } else { 9 };
        for (p, &(x, _)) in points.iter().enumerate() {
            out += &line(&format!("density {k} {p}"), no, || vec![native::densitize(&kernels(list), &x)]);
            out += &line(&format!("source-density {k} {p}"), no, || vec![source::density(list, x)]);
        }
    }
    out += &radii().into_iter().map(|(t, _)| format!("radial{}\n", hex(&[t, native::radial_g(t)]))).collect::<String>();
    out + &dunavant()
}

fn line(head: &str, no: u32, values: impl FnOnce() -> Vec<f64>) -> String {
    let values = if no == 0 { values() } else { Vec::new() };
    format!("{head} {no}{}\n", hex(&values))
}

/// A call that writes kernels: how many, and all words of the run, of which those past the kernels stay 7.
fn written(head: &str, no: u32, text: impl FnOnce() -> Option<Vec<f64>>) -> String {
    match (no, if no == 0 { text() } else { None }) {
        (0, None) => format!("{head} 12\n"),
        (0, Some(list)) => {
            format!("{head} 0{}\n", run(&list, ROOM))
        }
        _ => format!("{head} {no}\n"),
    }
}

fn kernels(list: &[f64]) -> Vec<native::KernelSi> {
    list.chunks_exact(6).map(|k| native::KernelSi { c: [k[0], k[1], k[2]], sigma: k[3], w: k[4], alpha: k[5] }).collect()
}

fn fields(m: native::MassReport) -> Vec<f64> {
    vec![m.raw_mass, m.rho0_scale, m.rho0_mass, m.applied_scale, m.applied_mass, m.target_mass, m.volume]
}

/// The rule's figures, in units of the 15th decimal off the printed ones, and its moments up to degree 5.
fn dunavant() -> String {
    let rule = native::rule();
    let [middle, inner, outer] = [rule[0], rule[1], rule[4]];
    let figures = [
        ("middle-weight", middle.1, 225000000000000.0),
        ("inner-weight", inner.1, 132394152788506.0),
        ("outer-weight", outer.1, 125939180544827.0),
        ("third", middle.0[0], 333333333333333.0),
        ("inner-one", inner.0[0], 59715871789770.0),
        ("inner-two", inner.0[1], 470142064105115.0),
        ("outer-one", outer.0[0], 797426985353087.0),
        ("outer-two", outer.0[1], 101286507323456.0),
    ];
    let mut out: String = figures
        .into_iter()
        .map(|(name, x, printed): (&str, f64, f64)| {
            let off = x * 1e15 - printed;
            format!("dunavant {name}{}{}\n", hex(&[x, off]), verdict(off, 0.5))
        })
        .collect();
    for degree in 0..6 {
        for i in 0..=degree {
            let j = degree - i;
            let sum = rule.iter().fold(0.0, |sum, (share, w)| sum + w * (raised(share[1], i) * raised(share[2], j)));
            let exact = 2.0 * factorial(i) * factorial(j) / factorial(degree + 2);
            out += &format!("moment {i} {j}{}{}\n", hex(&[sum, exact]), verdict(sum - exact, 1e-15));
        }
    }
    out
}

fn verdict(off: f64, most: f64) -> &'static str {
    if off.abs() <= most { " ok" } else { " off" }
}

fn raised(x: f64, n: u32) -> f64 {
    (0..n).fold(1.0, |y, _| y * x)
}

fn factorial(n: u32) -> f64 {
    (1..=n).fold(1.0, |y, k| y * f64::from(k))
}

/// The program's tables.
pub fn tables() -> String {
    let (meshes, lists, points, values) = (meshes(), lists(), points(), values());
    let mut out = String::from("// The arguments of the stored calls, as oracle/ writes them.\n\n");
    out += "// How many coordinates and corners each mesh has.\n";
    out += &table("SIZES", "usize", meshes.iter().map(|(m, what)| (vec![m.xyz.len().to_string(), m.faces.len().to_string()], *what)));
    out += "// The bits of 24 coordinates a mesh.\n";
    out += &table("COORDINATES", "u64", meshes.iter().map(|(m, what)| (filled(&m.xyz, 24), *what)));
    out += "// 36 corners a mesh.\n";
    let corners = |m: &Mesh| (0..36).map(|i| m.faces.get(i).copied().unwrap_or(0).to_string()).collect();
    out += &table("CORNERS", "u32", meshes.iter().map(|(m, what)| (corners(m), *what)));
    out += "// How many floats each list of kernels has.\n";
    out += &table("LENGTHS", "usize", lists.iter().map(|(k, what)| (vec![k.len().to_string()], *what)));
    out += "// The bits of 18 floats a list: centre, sigma, w, alpha of each kernel.\n";
    out += &table("KERNELS", "u64", lists.iter().map(|(k, what)| (filled(k, 18), *what)));
    out += "// The bits of a place and a width.\n";
    out += &table("POINTS", "u64", points.iter().map(|&([x, y, z], s)| (filled(&[x, y, z, s], 4), "")));
    out += "// The bits of bulk densities, targets and means.\n";
    out += &table("VALUES", "u64", values.iter().map(|&v| (filled(&[v], 1), "")));
    out += "// The bits of radii in units of a kernel's width.\n";
    out += &table("RADII", "u64", radii().into_iter().map(|(t, what)| (filled(&[t], 1), format!("{t:?}{what}"))));
    out.trim_end().to_string() + "\n"
}

const TETRAHEDRON: [u32; 12] = [0, 2, 1, 0, 1, 3, 1, 2, 3, 2, 0, 3];
const BOX: [u32; 36] = [0, 2, 3, 0, 3, 1, 4, 5, 7, 4, 7, 6, 0, 1, 5, 0, 5, 4, 2, 6, 7, 2, 7, 3, 0, 4, 6, 0, 6, 2, 1, 3, 7, 1, 7, 5];

fn cuboid(x: f64, y: f64, z: f64) -> Vec<f64> {
    (0..8).flat_map(|i| [if i & 1 == 0 { -x } else { x }, if i & 2 == 0 { -y } else { y }, if i & 4 == 0 { -z } else { z }]).collect()
}

fn corner(x: f64) -> Vec<f64> {
    vec![0.0, 0.0, 0.0, x, 0.0, 0.0, 0.0, x, 0.0, 0.0, 0.0, x]
}

/// A mesh, and what it is there for.
fn meshes() -> Vec<(Mesh, &'static str)> {
    let octahedron = vec![500.0, 0.0, 0.0, -480.0, 0.0, 0.0, 0.0, 510.0, 0.0, 0.0, -490.0, 0.0, 0.0, 0.0, 450.0, 0.0, 0.0, -470.0];
    let eight = vec![0, 2, 4, 2, 1, 4, 1, 3, 4, 3, 0, 4, 2, 0, 5, 1, 2, 5, 3, 1, 5, 0, 3, 5];
    let inside_out = BOX.chunks(3).flat_map(|f| [f[0], f[2], f[1]]).collect();
    let mut not_a_number = corner(100.0);
    not_a_number[4] = NAN;
    let mut infinite = corner(100.0);
    infinite[3] = INF;
    let four = TETRAHEDRON.to_vec();
    let list: [(Vec<f64>, Vec<u32>, &str); 18] = [
        (corner(1.0), four.clone(), "a tetrahedron"),
        (vec![-310.5, 20.25, 11.0, 420.0, -95.0, 30.0, 60.0, 380.5, -45.0, 12.0, 33.0, 505.0], four.clone(), "one of some hundred metres"),
        (cuboid(1.0, 1.0, 1.0), BOX.to_vec(), "a cube"),
        (cuboid(300.0, 200.0, 250.0), BOX.to_vec(), "a box"),
        (cuboid(300.0, 200.0, 250.0), inside_out, "turned inside out"),
        (cuboid(300.0, 200.0, 250.0), BOX[..33].to_vec(), "open: one face is missing"),
        (corner(1.0)[..9].to_vec(), vec![0, 1, 2], "one face"),
        (octahedron, eight, "an octahedron"),
        (Vec::new(), Vec::new(), "nothing"),
        (vec![1.0, 2.0, 3.0], Vec::new(), "no faces"),
        (corner(0.0), four.clone(), "all in one point"),
        (not_a_number, four.clone(), "a NaN"),
        (infinite, four.clone(), "an infinity"),
        (corner(1e120), four.clone(), "too large for its volume"),
        (corner(1e-10), four.clone(), "a volume of at most 1e-30"),
        (corner(10.0), four.clone(), "a reach of 10"),
        (corner(1.0)[..10].to_vec(), four.clone(), "ragged"),
        (corner(1.0)[..9].to_vec(), four, "a loose corner"),
    ];
    list.into_iter().map(|(xyz, faces, what)| (Mesh { xyz, faces }, what)).collect()
}

/// A list of kernels, and what it is there for.
fn lists() -> Vec<(Vec<f64>, &'static str)> {
    vec![
        (vec![], "none"),
        (vec![0.0, 0.0, 0.0, 1.0, 2.0, 1.0], "01's row"),
        (vec![10.0, -20.0, 30.0, 0.004, 1190.0, 1.0000000005], "passes as 1"),
        (vec![0.25, 0.25, 0.25, 0.5, 3.0, 1.0, 100.0, 50.0, -60.0, 0.01, -700.0, 1.0], "two, one below 0"),
        (vec![0.0, 0.0, 0.0, 0.004, 1190.0, 1.7], "a general exponent"),
        (vec![1.0, 2.0, 3.0, 0.02, 5.0, 1.000000001], "just not 1"),
        (vec![1.0, 2.0, 3.0, 0.02, 5.0, NAN], "an exponent of NaN"),
        (vec![1.0, 2.0, 3.0, 0.02, 5.0, 0.0, 1.0, 2.0, 3.0, -0.02, 5.0, -2.5], "exponents 0 and below"),
        (vec![0.0, 0.0, 0.0, 0.004, INF, 1.0], "an infinite weight"),
        (vec![0.0, 0.0, 0.0, 0.004, 0.0, 1.0], "no weight"),
        (vec![1.0; 7], "seven floats"),
        ([0.5, 0.25, -0.5, 0.1, 10.0, 1.0].repeat(3), "three, for which the run has no room"),
    ]
}

/// A place and a width.
fn points() -> Vec<([f64; 3], f64)> {
    vec![
        ([0.0; 3], 0.0),
        ([0.0; 3], 1.0),
        ([0.25, 0.25, -1.0], 1.0),
        ([10.0, -20.0, 30.0], 0.004),
        ([100.0, 100.0, 100.0], 1e-4),
        ([1.0, 0.0, 0.0], -0.004),
        ([NAN, 0.0, 0.0], 0.004),
        ([0.0, 0.5, 0.0], NAN),
        ([0.0, 0.0, 1e200], INF),
        ([-1.5, 2.5, 1e-3], 1e-160),
    ]
}

/// Bulk densities, targets and means.
fn values() -> Vec<f64> {
    vec![1190.0, 4.5e11, 0.0, -1.0, NAN, INF, 5e-324, -0.0, 1e300]
}

/// Radii of the radial factor, each of both signs, with what one is there for.
fn radii() -> Vec<(f64, &'static str)> {
    let list = [
        (0.0, ""),
        (f64::from_bits(1), ": the smallest"),
        (1e-200, ": its square vanishes"),
        (1e-160, ": its square is subnormal"),
        (1e-9, ""),
        (0.05, ""),
        (step(0.1, -1), ": by the series, the last"),
        (0.1, ": by the quotient, the first"),
        (step(0.1, 1), ""),
        (0.25, ""),
        (step(1.0, -1), ""),
        (1.0, ""),
        (step(1.0, 1), ": inverted in the arc, the first"),
        (3.0, ""),
        (1000.0, ""),
        (1e8, ": the arc is far below a unit of the last place"),
        (1e102, ""),
        (1e103, ": its cube is infinite"),
        (f64::MAX, ""),
        (INF, ": an infinity over an infinity"),
    ];
    list.into_iter().flat_map(|(t, what)| [(t, what), (-t, "")]).chain([(NAN, "")]).collect()
}
