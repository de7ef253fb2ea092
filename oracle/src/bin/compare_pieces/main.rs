//! Compares the archive's solve, file kernels and pieces with the original's own text, which works with 01's roots and powers by the
//! archive's C functions: bit for bit, every NaN as one, and every word that must stay as it was. `compare_pieces` takes a few seconds;
//! `compare_pieces --long` compares above a million systems, 100,000 decompositions, 20,000 lists and 2 million file kernels. `--seed N`
//! draws others.
//! The last line counts what differs; the exit status is 1 if anything does.
#[cfg(original)]
mod judge;
#[cfg(original)]
mod lists;

fn main() {
    oracle::by_original!(judge::run());
}
