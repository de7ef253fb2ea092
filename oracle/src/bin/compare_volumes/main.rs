//! Compares the archive's volumes, centroid, masses, densities, reports and source functions with the original's own text, which works
//! with 01's roots and powers by the archive's C functions: bit for bit, every NaN as one, and every word that must stay as it was.
//! `compare_volumes` takes a few seconds; `compare_volumes --long` calls each of the eleven functions on 44,000 meshes and kernel lists,
//! and 12,000 more times where a call may be refused. `--seed N` draws others. The last line counts what differs; the exit status is 1 if
//! anything does.
#[cfg(original)]
mod judge;

fn main() {
    oracle::by_original!(judge::run());
}
