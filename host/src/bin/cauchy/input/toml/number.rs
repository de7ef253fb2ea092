//! The numbers of TOML.
use crate::excerpt;
use crate::input::Told;

/// A number. A whole one stands for the float that is nearest, as in the original, and must go into 64 bits.
pub fn number(word: &[u8]) -> Told<f64> {
    let no_number = || format!("`{}` is not a number of TOML", excerpt::word(word));
    let text = std::str::from_utf8(word).map_err(|_| no_number())?;
    let (sign, unsigned) = match text.strip_prefix('-') {
        Some(rest) => (-1.0, rest),
        None => (1.0, text.strip_prefix('+').unwrap_or(text)),
    };
    let radix = ["0x", "0o", "0b"].iter().zip([16, 8, 2]);
    let based = radix.filter_map(|(prefix, radix)| Some((text.strip_prefix(prefix)?, radix))).next();
    match (unsigned, based) {
        ("inf", _) => Ok(sign * f64::INFINITY),
        ("nan", _) => Ok(f64::NAN),
        (_, Some((digits, radix))) if is_digits(digits, radix) => whole(digits, radix),
        _ if is_whole(unsigned) => whole(text, 10),
        _ if is_float(unsigned) => float(text),
        _ => Err(no_number()),
    }
}

/// A number that is whole, its digits known to be such.
fn whole(text: &str, radix: u32) -> Told<f64> {
    let whole = i64::from_str_radix(&text.replace('_', ""), radix);
    whole.map(|n| n as f64).map_err(|_| {
        let shown = excerpt::word(text.as_bytes());
        format!("`{shown}` goes beyond 64 bits: a number with a point or an exponent may be as large")
    })
}

/// A number with a point or an exponent, its form known to be such.
fn float(text: &str) -> Told<f64> {
    match text.replace('_', "").parse() {
        Ok(x) if f64::is_finite(x) => Ok(x),
        _ => Err(format!("`{}` is too large", excerpt::word(text.as_bytes()))),
    }
}

/// Digits, with single underscores between some of them.
fn is_digits(text: &str, radix: u32) -> bool {
    text.split('_').all(|part| !part.is_empty() && part.chars().all(|c| c.is_digit(radix)))
}

/// Decimal digits without a zero before others.
fn is_whole(text: &str) -> bool {
    is_digits(text, 10) && (text == "0" || !text.starts_with('0'))
}

/// A whole number with a point and digits, an exponent, or both behind it.
fn is_float(text: &str) -> bool {
    let (mantissa, exponent) = match text.split_once(['e', 'E']) {
        Some((mantissa, exponent)) => (mantissa, Some(exponent.strip_prefix(['+', '-']).unwrap_or(exponent))),
        None => (text, None),
    };
    let (before, behind) = match mantissa.split_once('.') {
        Some((before, behind)) => (before, Some(behind)),
        None => (mantissa, None),
    };
    let fits = |digits: Option<&str>| digits.is_none_or(|digits| is_digits(digits, 10));
    is_whole(before) && fits(behind) && fits(exponent)
}

#[cfg(test)]
mod tests {
    use super::*;

    #[test]
    fn numbers_are_those_of_toml() {
        for (text, x) in [
            ("0", 0.0),
            ("-0.0", -0.0),
            ("+99", 99.0),
            ("1_000", 1000.0),
            ("3.25", 3.25),
            ("-0.01", -0.01),
            ("5e+22", 5e22),
            ("1e06", 1e6),
            ("6.626E-3_4", 6.626e-34),
            ("224_617.445_991_228", 224_617.445_991_228),
            ("9223372036854775807", 9_223_372_036_854_775_807.0),
            ("-9223372036854775808", -9_223_372_036_854_775_808.0),
            ("0xDEAD_beef", 3_735_928_559.0),
            ("0o755", 493.0),
            ("0b1101", 13.0),
            ("inf", f64::INFINITY),
            ("-inf", f64::NEG_INFINITY),
        ] {
            assert_eq!(number(text.as_bytes()).map(f64::to_bits), Ok(f64::to_bits(x)), "{text}");
        }
        assert!(["nan", "+nan", "-nan"].iter().all(|text| number(text.as_bytes()).unwrap().is_nan()));
    }

    #[test]
    fn other_numbers_are_refused() {
        let words = "+ - _ 1_ _1 1__0 01 -01 00.5 .7 7. 3.e+20 1e 1e+ 1e1.5 1e_5 1._5 1_.5 Inf NaN infinity +0x1 0x \
                     0x_1 0b2 0xg --1 1-1 1.2.3 1979-05-27 true 1f";
        for word in words.split(' ').chain([""]) {
            assert_eq!(number(word.as_bytes()), Err(format!("`{word}` is not a number of TOML")));
        }
        let told = number(b"9223372036854775808").unwrap_err();
        assert!(told.starts_with("`9223372036854775808` goes beyond 64 bits"), "{told}");
        assert_eq!(number(b"-1e999"), Err("`-1e999` is too large".to_string()));
    }
}
