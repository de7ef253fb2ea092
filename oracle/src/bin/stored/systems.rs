//! Systems of equations: those at 01's limits, refused ones, and one of each size.
use crate::tables::{INF, NAN, filled, run, table};
use oracle::original::native_steps::solve;
use oracle::recorder::{smallest, watched};
use oracle::{pattern, step};

/// The most cells of a row of the table.
const CELLS: usize = 12;
/// The most words that the program lends for an answer, and the most rows of a system that grows.
const ROOM: usize = 17;

/// A system: its n, its cells, the room for its answer, and what it is there for.
type System = (usize, Vec<f64>, usize, &'static str);

/// Lines `solve row cells room n no ..` with all words lent for the answer; in lines `grown ..` n stands in the row's place too.
pub fn answers() -> String {
    let stored = systems().into_iter().enumerate();
    let lines = stored.map(|(i, (n, cells, room, _))| format!("solve {i} {} {room} {n} {}\n", cells.len(), solved(n, &cells, room)));
    let grown = (0..=ROOM).map(|n| format!("grown {n} {} {ROOM} {n} {}\n", n * (n + 1), solved(n, &grown(n), ROOM)));
    lines.chain(grown).collect()
}

/// 01's number, with the smallest accepted pivot beside 0 and the column of the flat one beside 11, and all words of the room.
fn solved(n: usize, cells: &[f64], room: usize) -> String {
    let bad = n > 16 || cells.len() != n * (n + 1) || room < n;
    let rows = || cells.chunks(n + 1).map(<[f64]>::to_vec).collect::<Vec<_>>();
    let (answer, pivots) = if bad { (None, vec![]) } else { watched(|| solve(&mut rows())) };
    let no = match (bad, &answer) {
        (true, _) => "10".into(),
        (_, None) => format!("11 {}", pivots.len() - 1),
        _ => format!("0 {:016x}", pattern(smallest(&pivots))),
    };
    format!("{no}{}", run(&answer.unwrap_or_default(), room))
}

/// n rows of n + 1 cells, which are 1, 1/2, 1/3 and so on.
fn grown(n: usize) -> Vec<f64> {
    (1..=n * (n + 1)).map(|k| 1.0 / k as f64).collect()
}

/// The program's tables.
pub fn tables() -> String {
    let sizes = |(n, cells, room, what): System| (vec![n.to_string(), cells.len().to_string(), room.to_string()], what);
    let mut out = String::from("// Each system's n, how many cells it has, and the room for its answer.\n");
    out += &table("SYSTEM_SIZES", "usize", systems().into_iter().map(sizes));
    out += "// The bits of 12 cells a system.\n";
    out + &table("SYSTEM_CELLS", "u64", systems().into_iter().map(|(_, cells, _, what)| (filled(&cells, CELLS), what)))
}

fn systems() -> Vec<System> {
    let (above, below) = (|x: f64| step(x, 1), |x: f64| step(x, -1));
    let (flat, skip) = (1e-18, 1e-30);
    // the second row's first cell is the factor, which weighs as much as the cells that it meets
    let factor = |x: f64| vec![1.0, 1e30, 1e30, x, 5.0, 7.0];
    let mut list: Vec<System> = Vec::new();
    let mut add = |n: usize, cells: Vec<f64>, what| list.push((n, cells, n, what));
    add(1, vec![2.0, 4.0], "01's rows");
    add(1, vec![flat, 1.0], "");
    add(2, vec![1.0, 1.0, 3.0, 1.0, 2.0, 5.0], "");
    add(1, vec![0.0, 1.0], "flat");
    add(2, vec![2.0, 1.0, 3.0, 1.0, 3.0, 5.0], "no tie");
    add(2, vec![1.0, 1.0, 2.0, 1.0, 1.0, 2.0], "flat in the second column");
    add(2, vec![1.0, 1.0 / 3.0, 1.0, -1.0, 0.7, 0.1], "a tie: the later row");
    add(2, vec![3.0, 1.0, 1.0, 3.0, 0.1, 0.3], "");
    add(3, vec![2.0, 1.0, 1.0, 1.0, -2.0, 0.3, 1.0, 2.0, 2.0, 0.7, 0.1, 3.0], "a tie of three");
    add(2, vec![1e308, 1e308, 1.0, 1e308, -1e308, 1.0], "");
    add(2, vec![NAN, 1.0, 2.0, 0.0, 4.0, 5.0], "a NaN gives way to the next, which is flat");
    add(2, vec![0.0, 1.0, 2.0, NAN, 4.0, 5.0], "a NaN is taken, and is not flat");
    add(3, vec![1.0, 2.0, 3.0, 4.0, NAN, 5.0, 6.0, 7.0, 0.0, 1.0, 1.0, 3.0], "taken, then it gives way");
    add(3, vec![NAN, 2.0, 3.0, 4.0, 1.0, 5.0, 6.0, 7.0, 0.0, 1.0, 1.0, 3.0], "gives way to one that stays");
    add(2, vec![1.0, NAN, 2.0, 0.0, 1.0, 3.0], "a NaN off the pivots");
    add(2, vec![1.0, 2.0, NAN, 3.0, 4.0, 5.0], "");
    add(1, vec![-flat, 1.0], "-1e-18 is flat, as 1e-18");
    add(1, vec![above(flat), 1.0], "the float above it is not");
    add(1, vec![below(flat), 1.0], "");
    add(2, vec![1.0, 1.0, 1.0, 0.0, flat, 1.0], "in the second column");
    add(2, vec![1.0, 1.0, 1.0, 0.0, above(flat), 1.0], "");
    add(1, vec![-0.0, 1.0], "");
    add(1, vec![5e-324, 1.0], "");
    add(2, factor(skip), "1e-30 is skipped");
    add(2, factor(-skip), "");
    add(2, factor(above(skip)), "the float above it is not");
    add(2, factor(below(skip)), "");
    add(2, vec![1.0, skip, 2.0, 0.0, 1.0, 1e30], "above the pivot's row");
    add(2, vec![1.0, above(skip), 2.0, 0.0, 1.0, 1e30], "");
    add(2, vec![INF, 1.0, 1.0, 1.0, 1.0, 1.0], "an infinity is a pivot");
    add(2, vec![1.0, 1.0, INF, 1.0, 2.0, 1.0], "");
    add(1, vec![1e-17, 1e300], "solved by an infinity");
    add(1, vec![-4.0, 0.0], "solved by -0");
    add(0, vec![], "no rows");
    list.push((0, vec![], 2, "no rows, and nothing is written"));
    list.push((2, vec![2.0, 1.0, 3.0, 1.0, 3.0, 5.0], 4, "words past n stay"));
    list.push((1, vec![0.0, 1.0], 3, "so do all at a flat pivot"));
    list.push((2, vec![0.0; 5], 2, "a cell too few, before a flat pivot"));
    list.push((2, vec![1.0; 7], 2, "a cell too many"));
    list.push((2, vec![1.0; 6], 1, "a word too few for the answer"));
    list.push((17, vec![], ROOM, "17 rows"));
    list.push((usize::MAX, vec![], 3, ""));
    list
}
