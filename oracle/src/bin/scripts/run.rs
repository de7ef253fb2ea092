//! Runs the program on inputs and holds what it prints to what the machine does.
use crate::{cases, draw};
use oracle::program;
use oracle::tally::Tally;
use std::io::{Read, Write};
use std::os::fd::OwnedFd;
use std::os::unix::net::UnixStream;
use std::process::{Command, Stdio};
use std::time::Duration;

/// The two ends of what the program reads or writes: ours, and its own, which it waits for, or which it must ask again and again.
fn ends(waits: bool) -> (UnixStream, Stdio) {
    let (ours, its) = UnixStream::pair().expect("a pair of sockets");
    its.set_nonblocking(!waits).expect("a mode of a socket");
    (ours, OwnedFd::from(its).into())
}

/// All that the program at this path prints for an input, of which it gets a half after a pause and is read late.
fn printed(bench: &str, input: &[u8], waits: bool) -> Vec<u8> {
    let ((mut to, stdin), (mut from, stdout)) = (ends(waits), ends(waits));
    let mut child = Command::new(bench).stdin(stdin).stdout(stdout).spawn().unwrap_or_else(|e| {
        eprintln!("{bench}: {e}");
        std::process::exit(2);
    });
    let pause = Duration::from_millis(if waits { 0 } else { 2 });
    let mut told = Vec::new();
    std::thread::scope(|s| {
        s.spawn(move || {
            let (first, second) = input.split_at(input.len() / 2);
            // a program that ends early shows in what it printed
            for half in [first, second] {
                std::thread::sleep(pause);
                let _ = to.write_all(half);
            }
        });
        std::thread::sleep(3 * pause);
        from.read_to_end(&mut told).expect("its standard output");
    });
    let status = child.wait().expect("its end");
    if !status.success() {
        told.extend(format!("[{status}]\n").bytes());
    }
    told
}

/// Each line of both, one after the other, and whether there is a line more.
fn hold(tally: &mut Tally, name: &str, told: &[u8], want: &[u8]) {
    let (mut told, mut want) = (told.split_inclusive(|b| *b == b'\n'), want.split_inclusive(|b| *b == b'\n'));
    for n in 1.. {
        let (is, asked) = (told.next(), want.next());
        if (is, asked) == (None, None) {
            return;
        }
        tally.count(is != asked, || format!("{name}, printed line {n}: {}, not {}", shown(is), shown(asked)));
    }
}

fn shown(line: Option<&[u8]>) -> String {
    line.map_or("no line".into(), |line| line[..line.len().min(300)].escape_ascii().to_string())
}

/// The cases: the machine, and the program if there is one, also on an input and an output that do not wait; and there a long input,
/// whose answers are more than is taken at once.
pub fn cases(bench: Option<&str>) {
    let mut machine = Tally::new();
    for case in cases::all() {
        hold(&mut machine, &case.name, program::answers(&case.input).as_bytes(), case.printed.as_bytes());
    }
    machine.line("bench", "cases, by the machine", "");
    for (waits, name) in [(true, "cases, by the program"), (false, "the same, nothing waited for")] {
        let Some(bench) = bench else { continue };
        let mut tally = Tally::new();
        for case in cases::all() {
            hold(&mut tally, &case.name, &printed(bench, &case.input, waits), case.printed.as_bytes());
        }
        if !waits {
            let input = program::long(40_000);
            hold(&mut tally, "a long input", &printed(bench, &input, waits), program::answers(&input).as_bytes());
        }
        tally.line("bench", name, "");
        machine.add(tally);
    }
    machine.end();
}

/// A stored input and its answers.
pub fn held(input: &str, answers: &str) {
    let read = |path: &str| std::fs::read(path).unwrap_or_else(|told| panic!("{path}: {told}"));
    let mut tally = Tally::new();
    hold(&mut tally, input, program::answers(&read(input)).as_bytes(), &read(answers));
    tally.line("bench", "stored answers, by the machine", "");
    tally.end();
}

/// The inputs of the seeds from `seed` on.
pub fn compare(bench: &str, count: u64, seed: u64) {
    let mut tally = Tally::new();
    let (mut bytes, mut lines) = (0, 0);
    for seed in seed..seed + count {
        let script = draw::script(seed);
        bytes += script.input.len();
        lines += program::lines(&script.input).count();
        hold(&mut tally, &format!("seed {seed}"), &printed(bench, &script.input, true), script.printed.as_bytes());
    }
    tally.line("bench", &format!("{count} scripts"), &format!("{lines} lines of input, {bytes} bytes"));
    tally.end();
}
