//! What the library's work costs: beside the Rust with the platform's functions, and beside 01's steps with the machine's square root.
//! One table; each time is the least of several rounds, all ways in turn within each, in processor time of this thread.
//!   timing             all but the program
//!   timing PROGRAM     with 01's program `bench` at this path
#[cfg(original)]
mod adoptions;
#[cfg(original)]
mod bills;
#[cfg(original)]
mod clock;
#[cfg(original)]
mod closed;
#[cfg(original)]
mod convert;
#[cfg(original)]
mod fits;
#[cfg(original)]
mod largest;
#[cfg(original)]
mod lent;
#[cfg(original)]
mod lines;
#[cfg(original)]
mod powers;
#[cfg(original)]
mod program;
#[cfg(original)]
mod readings;
#[cfg(original)]
mod squeezes;
#[cfg(original)]
mod table;
#[cfg(original)]
mod tracks;
#[cfg(original)]
mod volumes;

fn main() {
    oracle::by_original!(work());
}

#[cfg(original)]
fn work() {
    println!("{}{}", oracle::platform(), processor());
    println!("processor time, {}\n", table::how());
    let mut timings = table::Timings::default();
    powers::rows(&mut timings);
    fits::rows(&mut timings);
    bills::rows(&mut timings);
    volumes::rows(&mut timings);
    largest::rows(&mut timings);
    squeezes::rows(&mut timings);
    adoptions::rows(&mut timings);
    closed::rows(&mut timings);
    convert::rows(&mut timings);
    lines::rows(&mut timings);
    readings::rows(&mut timings);
    tracks::rows(&mut timings);
    if let Some(path) = std::env::args().nth(1) {
        program::rows(&mut timings, path);
    }
    timings.run();
    timings.print();
}

/// The processor's name, where Linux tells it.
#[cfg(original)]
fn processor() -> String {
    let told = std::fs::read_to_string("/proc/cpuinfo").unwrap_or_default();
    told.lines().find_map(|l| l.strip_prefix("model name")).map_or(String::new(), |l| format!(", {}", l.trim_matches([' ', '\t', ':'])))
}
