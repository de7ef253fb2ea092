//! Inputs of 01's program `bench` and what it must print, by 01's machine over the original's text with the second transcription of 01's
//! powers: nothing of the proved code is asked.
//!   scripts SEED                      an input, mixed of good lines, other lines, hostile bytes, long lines and broken openings
//!   scripts --answers                 what is printed for the input on standard input
//!   scripts --cases [BENCH]           whether the machine, and the program BENCH, print what cases.txt says
//!   scripts --held INPUT ANSWERS      whether the machine prints for the one file what stands in the other
//!   scripts --stdin                   all those cases as one input
//!   scripts --compare BENCH N SEED    runs the program BENCH on the inputs of N seeds and counts the lines that differ
//!   scripts --long N                  N short lines, for timing
#[cfg(original)]
mod cases;
#[cfg(original)]
mod draw;
#[cfg(original)]
mod run;

fn main() {
    oracle::by_original!(work());
}

#[cfg(original)]
fn work() {
    use std::io::{Read, Write};
    let words: Vec<String> = std::env::args().skip(1).collect();
    let words: Vec<&str> = words.iter().map(String::as_str).collect();
    let number = |word: &str| word.parse::<u64>().unwrap_or_else(|_| usage());
    let written = match words[..] {
        ["--answers"] => {
            let mut input = Vec::new();
            std::io::stdin().read_to_end(&mut input).expect("standard input");
            oracle::program::answers(&input).into_bytes()
        }
        ["--cases"] => return run::cases(None),
        ["--cases", bench] => return run::cases(Some(bench)),
        ["--held", input, answers] => return run::held(input, answers),
        ["--stdin"] => cases::as_one(),
        ["--compare", bench, n, seed] => return run::compare(bench, number(n), number(seed)),
        ["--long", n] => oracle::program::long(number(n)),
        [seed] => draw::script(number(seed)).input,
        _ => usage(),
    };
    // a reader that has had enough is no fault
    let _ = std::io::stdout().write_all(&written);
}

#[cfg(original)]
fn usage() -> ! {
    eprintln!("usage: scripts SEED | --answers | --cases [BENCH] | --held INPUT ANSWERS | --stdin | --compare BENCH N SEED | --long N");
    std::process::exit(2);
}
