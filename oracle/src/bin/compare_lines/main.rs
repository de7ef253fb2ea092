//! Compares the archive's writer and reader of a store's lines with 02's words in plain Rust: stores of random histories written, read and
//! written again; stores that nobody opened; damaged texts; too few bytes at every length; and counts above the limits with all their
//! lines. The answer, every byte of the lent run and of what lies around it, and every word of both runs are compared. `compare_lines`
//! takes some seconds, `compare_lines --long` 5,000 histories and 200,000 damaged texts; `--seed N` draws others. Each kind of store, of
//! damage and of answer must have been met. The last line counts what differs; the exit status is 1 if anything does.
#[cfg(original)]
mod damage;
#[cfg(original)]
mod damaged;
#[cfg(original)]
mod judge;
#[cfg(original)]
mod limits;
#[cfg(original)]
mod rooms;
#[cfg(original)]
mod seen;
#[cfg(original)]
mod stores;

fn main() {
    oracle::by_original!(work());
}

#[cfg(original)]
fn work() {
    let plan = oracle::tally::Plan::read("compare_lines");
    let mut total = oracle::tally::Tally::new();
    total.add(stores::histories(plan.count(500, 5_000), plan.rng(0)));
    total.add(stores::unopened(plan.count(2_000, 40_000), plan.rng(1)));
    total.add(damaged::texts(plan.count(20_000, 200_000), plan.rng(2)));
    total.add(rooms::each(plan.count(20, 200), plan.rng(3)));
    total.add(limits::counts(plan.count(1, 8), plan.rng(4)));
    total.end();
}
