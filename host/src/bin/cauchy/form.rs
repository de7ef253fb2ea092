//! Where a bracket line stops to be of its form.

/// The first byte at which a line is not of a form, or the form's end. In a form, H stands for the 16 digits of a
/// float's bits and N for a whole number; other characters stand for themselves.
pub fn misfit(form: &str, line: &[u8]) -> usize {
    let mut at = 0;
    for sign in form.bytes() {
        let rest = &line[at..];
        let (fitting, is_whole) = match sign {
            b'H' => digits(rest),
            b'N' => decimals(rest),
            _ if rest.first() == Some(&sign) => (1, true),
            _ => (0, false),
        };
        at += fitting;
        if !is_whole {
            return at;
        }
    }
    at
}

/// How many digits of a float's bits come next, and whether they are all.
fn digits(rest: &[u8]) -> (usize, bool) {
    let is_digit = |byte: &&u8| matches!(byte, b'0'..=b'9' | b'A'..=b'F');
    let digits = rest.iter().take(16).take_while(is_digit).count();
    (digits, digits == 16)
}

/// How many digits of a whole number come next, and whether it is one. Behind a zero there are none, and it goes into
/// 32 bits.
fn decimals(rest: &[u8]) -> (usize, bool) {
    let digits = rest.iter().take_while(|byte| byte.is_ascii_digit()).count();
    let number = std::str::from_utf8(&rest[..digits]).ok().and_then(|digits| digits.parse::<u32>().ok());
    match number {
        Some(_) if rest.starts_with(b"0") => (1, true),
        Some(_) => (digits, true),
        None => (0, false),
    }
}

#[cfg(test)]
mod tests {
    use super::*;

    #[test]
    fn the_first_byte_that_does_not_fit_is_found() {
        let form = "(a H N)";
        for (line, at) in [
            ("(a 0123456789ABCDEF 10)", 23),
            ("(a 0123456789ABCDEF 10) ", 23),
            ("(a 0123456789ABCDEF 10", 22),
            ("(a 0123456789ABCDEF 010)", 21),
            ("(a 0123456789ABCDEF x)", 20),
            ("(a 0123456789ABCDEF 4294967295)", 31),
            ("(a 0123456789ABCDEF 4294967296)", 20),
            ("(a 0123456789ABCDEFF 1)", 19),
            ("(a 0123456789abcdef 1)", 13),
            ("(a  0", 3),
            ("", 0),
        ] {
            assert_eq!(misfit(form, line.as_bytes()), at, "{line}");
        }
    }
}
