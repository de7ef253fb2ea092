//! Compares the archive's converter of kernel files with 02's words over the original's own text of both loaders: random lists, whole or
//! with a byte changed, put in, taken out or the end cut off; each byte of a list changed into every other, put in, taken out; and cases
//! written by hand. The answer and every word of the lent run and of what lies around it are compared. `compare_convert` takes about two
//! seconds, `compare_convert --long` twenty times as many lists; `--seed N` draws others. Each kind of answer must have been met often.
//! The last line counts what differs; the exit status is 1 if anything does.
#[cfg(original)]
mod by_hand;
#[cfg(original)]
mod bytes;
#[cfg(original)]
mod judge;
#[cfg(original)]
mod lists;
#[cfg(original)]
mod seen;

fn main() {
    oracle::by_original!(work());
}

#[cfg(original)]
fn work() {
    let plan = oracle::tally::Plan::read("compare_convert");
    let mut total = oracle::tally::Tally::new();
    total.add(lists::random(plan.count(100_000, 2_000_000), plan.rng(0)));
    total.add(bytes::each(plan.rng(1)));
    total.add(by_hand::cases(plan.rng(2)));
    total.end();
}
