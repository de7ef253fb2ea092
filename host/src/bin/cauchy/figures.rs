//! Numbers as people read them.

/// Six significant digits, without zeros at the end.
pub fn short(x: f64) -> String {
    rounded(x, 6)
}

/// So many significant digits, without zeros at the end.
pub fn rounded(x: f64, digits: usize) -> String {
    if x == 0.0 || !x.is_finite() {
        return format!("{x}");
    }
    let after_first = digits.saturating_sub(1);
    let exact = format!("{x:.after_first$e}");
    let (mantissa, exponent) = exact.split_once('e').unwrap_or((&exact, "0"));
    let exponent: i32 = exponent.parse().unwrap_or(0);
    if !(-4..7).contains(&exponent) {
        return format!("{}e{exponent}", trimmed(mantissa));
    }
    let decimals = usize::try_from(after_first as i32 - exponent).unwrap_or(0);
    trimmed(&format!("{x:.decimals$}")).to_string()
}

/// All digits that tell the float from its neighbours.
pub fn whole(x: f64) -> String {
    if x != 0.0 && !(1e-4..1e7).contains(&x.abs()) { format!("{x:e}") } else { format!("{x}") }
}

fn trimmed(digits: &str) -> &str {
    if digits.contains('.') { digits.trim_end_matches('0').trim_end_matches('.') } else { digits }
}

/// A count with a comma before each three digits.
pub fn count(n: u64) -> String {
    let digits = n.to_string();
    let mut text = String::new();
    for (i, digit) in digits.chars().enumerate() {
        if i > 0 && (digits.len() - i).is_multiple_of(3) {
            text.push(',');
        }
        text.push(digit);
    }
    text
}

/// A count and its noun: "1 piece", "13 pieces".
pub fn counted(n: u64, one: &str) -> String {
    let plural = match one.strip_suffix("ex") {
        Some(stem) => format!("{stem}ices"),
        None => format!("{one}s"),
    };
    if n == 1 { format!("1 {one}") } else { format!("{} {plural}", count(n)) }
}

#[cfg(test)]
mod tests {
    use super::*;

    #[test]
    fn figures_are_short() {
        let said =
            [0.0, 1.0, -0.5, 1234.5678, 999999.96, 1e7, 4.5e11, 0.00012345678, 1e-5, f64::NAN].map(short);
        let want = ["0", "1", "-0.5", "1234.57", "1000000", "1e7", "4.5e11", "0.000123457", "1e-5", "NaN"];
        assert_eq!(said, want);
        assert_eq!([1548.94, 0.0000017069].map(|x| rounded(x, 2)), ["1549", "1.7e-6"]);
    }

    #[test]
    fn figures_are_whole() {
        assert_eq!([0.1 + 0.2, 1e22, -2.5e-7].map(whole), ["0.30000000000000004", "1e22", "-2.5e-7"]);
    }

    #[test]
    fn counts_have_commas_and_nouns() {
        assert_eq!([0, 999, 1000, 2_097_152].map(count), ["0", "999", "1,000", "2,097,152"]);
        assert_eq!(counted(1, "piece"), "1 piece");
        assert_eq!(counted(1300, "vertex"), "1,300 vertices");
    }
}
