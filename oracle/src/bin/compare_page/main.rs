//! Compares the archive's wall page with 02's words in plain Rust: pages of random stores, their masses brought to halves and beside them,
//! to 10^15 and beside it, to zero, NaN and the infinities; and pages written by hand. A store is opened and filled by the archive's
//! calls, with 01's machine beside it that gives pieces and masses afresh; or nobody opened it, and its fields give them. The answer,
//! every byte of the lent page and of what lies around it, and every word of the store are compared. `compare_page` takes about two
//! seconds, `compare_page --long` twenty times as many pages; `--seed N` draws others. Each kind of page must have been met often.
//! The last line counts what differs; the exit status is 1 if anything does.
#[cfg(original)]
mod by_hand;
#[cfg(original)]
mod held;
#[cfg(original)]
mod judge;
#[cfg(original)]
mod opened;
#[cfg(original)]
mod seen;
#[cfg(original)]
mod targets;

fn main() {
    oracle::by_original!(work());
}

#[cfg(original)]
fn work() {
    let plan = oracle::tally::Plan::read("compare_page");
    let (mut total, mut seen) = (oracle::tally::Tally::new(), seen::Seen::default());
    let count = plan.count(10_000, 200_000);
    total.add(opened::pages(count, plan.rng(0), &mut seen));
    total.add(held::pages(count, plan.rng(1), &mut seen));
    total.add(seen.all_met(2 * count));
    total.add(by_hand::pages(plan.rng(2)));
    total.end();
}
