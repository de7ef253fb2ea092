//! The tables of arguments as the programs have them, and a line's floats.
use oracle::pattern;

pub const NAN: f64 = f64::from_bits(0x7ff8_0000_0000_0000);
pub const INF: f64 = f64::INFINITY;

/// A table of rows, each with what it is there for.
pub fn table<S: AsRef<str>>(name: &str, of: &str, rows: impl Iterator<Item = (Vec<String>, S)>) -> String {
    let rows: Vec<_> = rows.collect();
    let count: usize = rows.iter().map(|(row, _)| row.len()).sum();
    let lines = rows.iter().map(|(row, what)| {
        let what = if what.as_ref().is_empty() { String::new() } else { format!(" // {}", what.as_ref()) };
        let head: String = row[..row.len() - 1].iter().map(|w| format!("    {w},\n")).collect();
        format!("{head}    {},{what}\n", row[row.len() - 1])
    });
    format!("pub const {name}: [{of}; {count}] = [\n{}];\n\n", lines.collect::<String>())
}

/// Floats' bits as Rattle literals, and zeros behind them.
pub fn filled(xs: &[f64], len: usize) -> Vec<String> {
    let literal = |x: f64| {
        let digits = format!("{:016x}", x.to_bits());
        format!("0x{}_{}_{}_{}", &digits[..4], &digits[4..8], &digits[8..12], &digits[12..])
    };
    (0..len).map(|i| literal(xs.get(i).copied().unwrap_or(0.0))).collect()
}

/// Floats as a line has them.
pub fn hex(values: &[f64]) -> String {
    values.iter().map(|x| format!(" {:016x}", pattern(*x))).collect()
}

/// All words of a run that was lent full of sevens, of which these were written.
pub fn run(written: &[f64], room: usize) -> String {
    hex(&(0..room).map(|i| written.get(i).copied().unwrap_or(7.0)).collect::<Vec<_>>())
}
