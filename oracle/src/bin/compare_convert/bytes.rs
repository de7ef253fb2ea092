//! Each byte of two lines, one of either form: changed into every other, every byte put in before it, taken out, and the end cut off there.
use crate::judge::Case;
use oracle::convert::{NATIVE, STRICT, line};
use oracle::inputs::Rng;
use oracle::original::native::CauchyKernel;
use oracle::tally::Tally;

/// How many digits the two lines have: six floats and five.
const DIGITS: u64 = 16 * 11;

pub fn each(mut r: Rng) -> Tally {
    let mut tally = Tally::new();
    let lines = [Some(1.5), None].map(|alpha| line(&CauchyKernel { c: [0.25, -0.5, 0.75], sigma: 4.0, w: 1190.0, alpha }));
    let whole = lines.concat().into_bytes();
    let all = whole.len() as u64;
    let mut count = |name: &str, good: u64, inputs: &mut dyn Iterator<Item = Vec<u8>>| {
        let (mut part, mut taken) = (Tally::new(), 0);
        for (i, bytes) in inputs.enumerate() {
            let case = Case { lines: &bytes, default: 2.0, loader: [NATIVE, STRICT][i % 2], room: 12 + i % 3 };
            let asked = case.asked();
            taken += u64::from(asked != Err(20));
            let difference = case.differs(&mut r, &asked);
            part.count(difference.is_some(), || difference.unwrap());
        }
        part.count(taken != good, || format!("{taken} are taken, not {good}"));
        part.line("convert", &format!("two lines, {name}"), &format!("{taken} still lines"));
        tally.add(part);
    };
    let any = || (0..whole.len()).flat_map(|at| (0..=255).map(move |b| (at, b)));
    // a digit into any other, and each byte into itself
    count("each byte to every byte", 15 * DIGITS + all, &mut any().map(|(at, b)| [&whole[..at], &[b], &whole[at + 1..]].concat()));
    count("every byte before each", 0, &mut any().map(|(at, b)| [&whole[..at], &[b], &whole[at..]].concat()));
    count("every byte behind them", 0, &mut (0..=255).map(|b| [&whole[..], &[b]].concat()));
    count("each byte taken out", 0, &mut (0..whole.len()).map(|at| [&whole[..at], &whole[at + 1..]].concat()));
    // no line, one, both
    count("each end cut off", 3, &mut (0..=whole.len()).map(|at| whole[..at].to_vec()));
    tally
}
