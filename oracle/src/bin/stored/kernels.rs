//! File kernels, and pieces written as kernels: of one kernel and of a list, into runs with room and without.
use crate::tables::{INF, NAN, filled, hex, run, table};
use oracle::original::native_steps::{CauchyKernel, KernelSi, carry, decompose};
use oracle::recorder::{Fit, watched};
use oracle::step;

/// The centre of every kernel whose pieces are written.
const CENTRE: [f64; 3] = [1.0, -2.0, 3.0];
/// The most floats of a list.
const LIST: usize = 18;

/// Lines `file row ..` with the kernel's six floats; lines `into row 6 room no pieces error end ..` and `list row floats room no
/// kernels pieces error ..` with all words of the run lent.
pub fn answers() -> String {
    let files = files().into_iter().enumerate().map(|(i, (floats, given, _))| format!("file {i}{}\n", hex(&carried(floats, given))));
    let one = into().into_iter().enumerate().map(|(i, (k, room, _))| {
        let [sigma, w, alpha, radius] = k;
        let ((pieces, error), pivots) = watched(|| decompose(&[KernelSi { c: CENTRE, sigma, w, alpha }], radius));
        let told = format!("{}{}{}", pieces.len(), hex(&[error]), Fit::of(alpha, &pivots).text());
        format!("into {i} 6 {room} {}\n", written(&pieces, room, true, &told))
    });
    let many = lists().into_iter().enumerate().map(|(i, (list, radius, room, _))| {
        let kernels: Vec<KernelSi> = list.chunks_exact(6).map(kernel).collect();
        let (pieces, error) = decompose(&kernels, radius);
        let told = format!("{} {}{}", kernels.len(), pieces.len(), hex(&[error]));
        format!("list {i} {} {room} {}\n", list.len(), written(&pieces, room, list.len() % 6 == 0, &told))
    });
    files.chain(one).chain(many).collect()
}

/// 01's number, what is told where it is 0, and all words of the run.
fn written(pieces: &[KernelSi], room: usize, sixes: bool, told: &str) -> String {
    let floats: Vec<f64> = pieces.iter().flat_map(|p| [p.c[0], p.c[1], p.c[2], p.sigma, p.w, p.alpha]).collect();
    if sixes && floats.len() <= room { format!("0 {told}{}", run(&floats, room)) } else { format!("9{}", run(&[], room)) }
}

fn kernel(k: &[f64]) -> KernelSi {
    KernelSi { c: [k[0], k[1], k[2]], sigma: k[3], w: k[4], alpha: k[5] }
}

/// c, sigma, w, alpha and the default exponent, in metres.
fn carried([x, y, z, sigma, w, alpha, default]: [f64; 7], given: bool) -> [f64; 6] {
    let k = carry(&CauchyKernel { c: [x, y, z], sigma, w, alpha: given.then_some(alpha) }, default);
    [k.c[0], k.c[1], k.c[2], k.sigma, k.w, k.alpha]
}

/// The program's tables.
pub fn tables() -> String {
    let mut out = String::from("// The bits of file kernels: c, sigma, w, alpha, and the file's default exponent.\n");
    out += &table("FILES", "u64", files().into_iter().map(|(floats, _, what)| (filled(&floats, 7), what)));
    out += "// Whether its exponent is given.\n";
    out += &table("GIVEN", "bool", files().into_iter().map(|(_, given, what)| (vec![given.to_string()], what)));
    out += "// The bits of a kernel's sigma, w and alpha, and of the radius.\n";
    out += &table("INTO", "u64", into().into_iter().map(|(k, _, what)| (filled(&k, 4), what)));
    out += "// The room for its pieces.\n";
    out += &table("INTO_ROOM", "usize", into().into_iter().map(|(_, room, what)| (vec![room.to_string()], what)));
    out += "// How many floats a list has, and the room for its pieces.\n";
    let sizes = |list: Vec<f64>, room: usize| vec![list.len().to_string(), room.to_string()];
    out += &table("LIST_SIZES", "usize", lists().into_iter().map(|(list, _, room, what)| (sizes(list, room), what)));
    out += "// The bits of 18 floats a list, c, sigma, w, alpha of each kernel, and of the radius.\n";
    let words = |list: &[f64], radius: f64| [filled(list, LIST), filled(&[radius], 1)].concat();
    out + &table("LISTS", "u64", lists().into_iter().map(|(list, radius, _, what)| (words(&list, radius), what)))
}

/// A file kernel, whether its exponent is given, and what it is there for.
fn files() -> Vec<([f64; 7], bool, &'static str)> {
    let usual = |alpha, default| [0.1, -0.25, 0.3, 5.0, 1190.0, alpha, default];
    vec![
        (usual(1.5, 2.0), true, "its own exponent"),
        (usual(1.5, 2.0), false, "missing"),
        (usual(0.0, 2.0), true, "0 is not above 0"),
        (usual(-0.0, 2.0), true, ""),
        (usual(-1.5, 2.0), true, ""),
        (usual(5e-324, 2.0), true, "the smallest is"),
        (usual(NAN, 2.0), true, ""),
        (usual(INF, 2.0), true, ""),
        (usual(0.0, 0.0), true, "the default is taken as it is"),
        (usual(0.0, -1.5), true, ""),
        (usual(NAN, NAN), false, ""),
        ([0.0, -0.0, 1e306, 0.0, -0.0, 1.0, 1.0], true, "zeros keep their signs; 1e306 km overflow"),
        ([NAN, INF, -INF, NAN, INF, 1.0, 1.0], true, ""),
        ([5e-324, -5e-324, f64::MAX, 5e-324, 5e-324, 1.0, 1.0], true, "a subnormal sigma vanishes, a centre does not"),
        ([0.0015, 1.0 / 3.0, -2e-5, -0.0, NAN, 1.0, 1.0], true, ""),
    ]
}

/// sigma, w, alpha and radius, the room, and what a row is there for.
fn into() -> Vec<([f64; 4], usize, &'static str)> {
    vec![
        ([0.004, -1190.0, 1.0, 500.0], 6, "stays, in room for it alone"),
        ([0.004, -1190.0, 1.0, 500.0], 5, "a word too few"),
        ([0.004, -1190.0, 1.0000000005, 500.0], 8, "keeps its exponent; words past it stay"),
        ([0.004, 1190.0, NAN, 500.0], 0, "no piece needs no room"),
        ([0.004, 1190.0, NAN, 500.0], 3, ""),
        ([0.004, 1190.0, 1.7, 500.0], 78, "13 pieces"),
        ([0.004, 1190.0, 1.7, 500.0], 77, ""),
        ([0.05, -3.5, 2.5, 500.0], 98, "16 pieces"),
        ([0.05, -3.5, 2.5, 500.0], 95, ""),
        ([0.004, 0.0, f64::NEG_INFINITY, 500.0], 2, "fitted, and none is kept"),
        ([0.05, NAN, 1.7, NAN], 78, "a NaN weight"),
        ([0.05, INF, step(2.0, 1), -1.0], 96, "an infinite one"),
    ]
}

/// A list, a radius, the room, and what a row is there for.
fn lists() -> Vec<(Vec<f64>, f64, usize, &'static str)> {
    let stays = [10.0, -20.0, 30.0, 0.004, 1190.0, 1.0];
    let near = [1.0, 2.0, 3.0, 0.02, -5.0, 0.9999999995];
    let fitted = [-7.0, 0.5, 0.0, 0.05, 700.0, 1.7];
    let wide = [0.0, 0.0, 1.0, 0.05, -3.5, 2.5];
    let none = [0.0, 0.0, 0.0, 0.004, 1190.0, NAN];
    vec![
        (vec![], 500.0, 0, "no kernels"),
        (vec![], 500.0, 2, ""),
        (vec![1.0; 7], 500.0, 12, "seven floats"),
        (stays[..5].to_vec(), 500.0, 12, "five"),
        ([stays, near].concat(), 500.0, 12, "two that stay"),
        ([stays, near].concat(), 500.0, 11, "room for one: nothing is written"),
        ([fitted, stays].concat(), 500.0, 84, "13 pieces, then 1"),
        ([stays, fitted].concat(), 500.0, 86, "1, then 13: the list's order"),
        ([stays, fitted].concat(), 500.0, 83, ""),
        ([fitted, none, stays].concat(), 500.0, 84, "none of the second; its error of 1 is the greatest"),
        ([wide, fitted].concat(), 1e4, 192, "room for 16 each: counted without a fit"),
        ([wide, fitted].concat(), 1e4, 174, "room for their pieces alone"),
        ([none, none, none].concat(), NAN, 0, "no piece needs no room"),
    ]
}
