//! The vectors of the Rattle program `test_powers` (crates/test_powers). `vectors` writes its expected output by the second transcription of
//! 01's steps, a line for each: the function, the bits of its arguments, the bits of its answer. `vectors --tables` writes the
//! program's two tables of arguments. The archive is not asked.
use oracle::{pattern, step, steps};

type Unary = (&'static str, fn(f64) -> f64);

const UNARY: [Unary; 6] =
    [("root", steps::root), ("arc", steps::arc), ("log", steps::log), ("exp", steps::exp), ("ten", steps::ten), ("log10", steps::log10)];

fn main() {
    let words: Vec<String> = std::env::args().skip(1).collect();
    match words.iter().map(String::as_str).collect::<Vec<_>>()[..] {
        [] => answers(),
        ["--tables"] => tables(),
        _ => {
            eprintln!("usage: vectors [--tables]");
            std::process::exit(2);
        }
    }
}

fn answers() {
    for (x, _) in arguments() {
        for (name, f) in UNARY {
            println!("{name} {:016x} {:016x}", x.to_bits(), pattern(f(x)));
        }
    }
    for (b, y) in pairs() {
        println!("power {:016x} {:016x} {:016x}", b.to_bits(), y.to_bits(), pattern(steps::power(b, y)));
    }
}

fn tables() {
    let arguments = arguments();
    println!("const ARGUMENTS: [u64; {}] = [", arguments.len());
    for (x, what) in arguments {
        let what = if what.is_empty() { format!("{x:?}") } else { what };
        println!("    {}, // {what}", literal(x));
    }
    println!("];\n");
    let pairs = pairs();
    println!("const PAIRS: [u64; {}] = [", 2 * pairs.len());
    for (b, y) in pairs {
        println!("    {},\n    {}, // {b:?}, {y:?}", literal(b), literal(y));
    }
    println!("];");
}

/// A float's bits as a Rattle literal.
fn literal(x: f64) -> String {
    let digits = format!("{:016x}", x.to_bits());
    format!("0x{}_{}_{}_{}", &digits[..4], &digits[4..8], &digits[8..12], &digits[12..])
}

const SMALLEST: f64 = f64::from_bits(1);
const ROOT_TWO: f64 = 1.4142135623730951;

/// The arguments of the functions of one argument, with what each is there for; nothing if it is a plain number.
fn arguments() -> Vec<(f64, String)> {
    let mut list = Vec::new();
    let mut add = |x: f64, what: &str| list.push((x, what.to_string()));
    add(0.0, "+0");
    add(-0.0, "-0");
    add(f64::from_bits(0x7ff8_0000_0000_0000), "a NaN");
    add(f64::from_bits(0xfff0_0000_0000_0001), "a NaN of another pattern");
    add(f64::INFINITY, "+inf");
    add(f64::NEG_INFINITY, "-inf");
    add(f64::MAX, "the largest finite");
    add(f64::MIN, "minus the largest finite");
    add(SMALLEST, "the smallest subnormal");
    add(-SMALLEST, "minus the smallest subnormal");
    add(f64::from_bits(2), "");
    add(f64::from_bits(3), "");
    add(f64::from_bits(0x7_ffff_ffff_ffff), "");
    add(f64::from_bits(0x8_0000_0000_0000), "");
    add(f64::from_bits(0xb_504f_333f_9de6), "2^-1023 root 2");
    add(f64::from_bits(0xb_504f_333f_9de7), "the next");
    add(f64::from_bits(0xf_ffff_ffff_ffff), "the largest subnormal");
    add(f64::MIN_POSITIVE, "the smallest normal");
    add(-f64::MIN_POSITIVE, "minus the smallest normal");
    let mut both_sides = |x: f64, what: &str| {
        list.push((step(x, -1), format!("below {what}")));
        list.push((x, what.to_string()));
        list.push((step(x, 1), format!("above {what}")));
    };
    both_sides(1.0, "1, the arc's bound");
    both_sides(-1.0, "-1");
    both_sides(4.0, "4, an exact square");
    both_sides(9.0, "9, an exact square");
    both_sides(ROOT_TWO, "root 2, the log's bound");
    both_sides(ROOT_TWO / 2.0, "root 2 / 2");
    both_sides(ROOT_TWO * 1024.0, "1024 root 2");
    both_sides(0.5, "0.5");
    both_sides(-0.5, "-0.5");
    both_sides(1.5, "1.5");
    both_sides(-2.5, "-2.5");
    both_sides(1024.0, "1024, the exp's upper bound");
    both_sides(1023.5, "1023.5, where n is 1024");
    both_sides(-1022.0, "-1022");
    both_sides(-1022.5, "-1022.5");
    both_sides(-1074.0, "-1074");
    both_sides(-1074.5, "-1074.5");
    both_sides(-1075.0, "-1075, half the smallest subnormal");
    both_sides(-1080.0, "-1080, the exp's lower bound");
    both_sides(308.25471555991675, "log10 of the largest finite");
    both_sides(22.0, "22, the last of ten's whole arguments");
    both_sides(-22.0, "-22, the first of ten's whole arguments");
    let mut plain = |what: &str, values: &[f64]| list.extend(values.iter().map(|&x| (x, what.to_string())));
    plain("beside the square of a middle", &[1.828242970224758, 2.715490852226126, 1.1680200140908301, 1.1460784549969931]);
    // (a·2^-1022)·2^(n+1022) answers another float here: a·2^-1022 is rounded already
    plain("exp rounds once", &[-1024.0132936474483, -1025.2960394532133, -1026.1973479777973, -1027.4671447711962]);
    plain("exp to a subnormal", &[-1021.3, -1030.3, -1040.0, -1040.7, -1057.25, -1073.3, -1074.3]);
    plain("ten to a subnormal and below", &[-307.7, -308.0, -315.4, -323.0, -323.3, -323.6, -324.0, -325.2]);
    plain("", &[2.0, 3.0, -3.0, 10.0, 0.1, -0.1, 0.25, 0.3, 100.0, 1000.0, 1e-3, 1e20, -1e-20, 1e300, 1e-300, -4.0, 308.0, 1023.0]);
    // every whole argument of ten's table, and the first on each side of it
    for whole in -23..=23 {
        let x = f64::from(whole);
        if list.iter().all(|&(y, _)| y != x) {
            list.push((x, String::new()));
        }
    }
    list
}

/// The power's arguments.
fn pairs() -> Vec<(f64, f64)> {
    const INF: f64 = f64::INFINITY;
    const NAN: f64 = f64::from_bits(0x7ff8_0000_0000_0000);
    let (below, above) = (step(1.0, -1), step(1.0, 1));
    let mut list = vec![
        (1.0, NAN),
        (1.0, INF),
        (1.0, -INF),
        (1.0, 5.5),
        (NAN, 0.0),
        (NAN, -0.0),
        (NAN, 1.0),
        (NAN, NAN),
        (2.0, NAN),
        (0.0, NAN),
        (-1.0, 0.0),
        (-1.0, 1.0),
        (-1.0, 2.0),
        (-1.0, INF),
        (-2.0, 3.0),
        (-2.0, -0.0),
        (-2.5, 0.5),
        (-SMALLEST, 2.0),
        (-INF, 0.0),
        (-INF, 1.0),
        (-INF, -1.0),
        (0.0, 0.0),
        (0.0, -0.0),
        (0.0, 1.0),
        (0.0, -1.0),
        (0.0, INF),
        (0.0, -INF),
        (-0.0, 0.0),
        (-0.0, 1.0),
        (-0.0, -1.0),
        (-0.0, 3.0),
        (-0.0, -3.0),
        (INF, 0.0),
        (INF, 1.0),
        (INF, -1.0),
        (INF, SMALLEST),
        (INF, INF),
        (INF, -INF),
        (0.5, INF),
        (0.5, -INF),
        (2.0, INF),
        (2.0, -INF),
        (below, INF),
        (above, -INF),
        (below, 1e18),
        (above, 1e18),
        (below, -1e18),
        (above, -1e18),
        (above, 4503599627370496.0),
        (below, 1.0),
        (above, 1.0),
        (f64::MAX, 1.0),
        (f64::MAX, -1.0),
        (f64::MAX, 1.0000000000000002),
        (f64::MAX, SMALLEST),
        (f64::MAX, f64::MAX),
        (SMALLEST, 1.0),
        (SMALLEST, -1.0),
        (SMALLEST, 0.5),
        (SMALLEST, 1.0009),
        (f64::MIN_POSITIVE, 1.0),
        (f64::MIN_POSITIVE, -1.0),
        (2.0, 0.5),
        (2.0, 10.0),
        (2.0, 1023.0),
        (2.0, 1024.0),
        (2.0, -1074.0),
        (2.0, -1075.0),
        (2.0, -1080.0),
        (2.0, -1081.0),
        (0.5, 1074.0),
        (0.5, 1075.0),
        (0.5, -1023.0),
        (0.5, -1024.0),
        (4.0, 511.75),
        (4.0, 512.0),
        (10.0, 1.0),
        (10.0, 308.0),
        (10.0, 309.0),
        (10.0, -308.0),
        (10.0, -323.0),
        (10.0, -325.0),
        (3.0, 2.0),
        (9.0, 0.5),
        (7.0, -1.0),
        (2.5, -1.5),
        (0.1, 7.0),
        (1e-300, 0.01),
        (1e300, -0.01),
        (5.0, SMALLEST),
    ];
    // the fit's: 1 + u·u to minus alpha
    list.extend([1e-8, 1e-3, 0.5, 3.0, 1e4].map(|u| (1.0 + u * u, -1.7)));
    list
}
