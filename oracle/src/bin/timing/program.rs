//! 01's program `bench` on a long input of short lines, in processor time of its process.
use crate::clock;
use crate::table::{Row, Timings, Way};
use oracle::program::long;
use std::io::Write;
use std::process::{Command, Stdio};

const LINES: usize = 200_000;

pub fn rows(timings: &mut Timings, path: String) {
    let input = long(LINES as u64);
    let way = Way::new(LINES, move || run(&path, &input)).by(clock::children).seldom(true);
    let ours = timings.way(way);
    timings.row(Row::new("the program bench, a line of 200,000", ours));
}

fn run(path: &str, input: &[u8]) {
    let mut child = Command::new(path).stdin(Stdio::piped()).stdout(Stdio::null()).spawn().unwrap_or_else(|e| panic!("{path}: {e}"));
    child.stdin.take().expect("its standard input").write_all(input).expect("all read");
    assert!(child.wait().expect("its end").success(), "{path} failed");
}
