//! Compares the archive's store with 01's machine, written from 01's sentences over the original's own text: random histories on small
//! meshes, every word of both runs and of a lent run or page after every call, every answer, at the end done + left + dropped = charged.
//! Beside each history a second store gets all its calls but the squeezes, and answers the same; each word of a track is also held to
//! the archive's single reading at that point.
//! Then openings, stores that nobody opened, wild runs, runs one word short, and every damage of one word: the number that a soundness
//! check written from 01 expects, and what a sound store's fields ask for.
//! Then carries of stores of the form before layers: random histories of one, with the powers of 02's L2 or with 01's alone, carried over
//! at any moment and gone on with beside the machine; stores that nobody opened; runs too short and every damage of one word. Each kind
//! of carry must have been met.
//! Then adoptions: histories of three stores on bodies that are the same or differ in one thing, places taken from one into another at
//! any moment, each store beside its machine; the work of a store done by many hands, in any split and order; stores that nobody opened,
//! runs too short, every damage of one word of either store, and the largest body. Each kind of adoption must have been met.
//! Then 02's L14: beside a store one whose mesh has its vertices numbered anew, and one whose kernels that stay have the negative of sigma:
//! the same calls answer, write and leave the same on all three, squeezes among them. Each call must have been met with each answer.
//! Last, histories of 50 calls with every call in them: any of these in one list, with lines written and read back at any moment. Each call must have
//! been met with each answer that it can have in a history.
//! `compare_store` takes some seconds, `compare_store --long` 10,000 histories, and 10,000 of every call; `compare_store --every-call` is
//! the latter alone. `--seed N` draws others.
//! The last line counts what differs; the exit status is 1 if anything does.
#[cfg(original)]
mod adoption_kinds;
#[cfg(original)]
mod adoptions;
#[cfg(original)]
mod carries;
#[cfg(original)]
mod carry_kinds;
#[cfg(original)]
mod damage;
#[cfg(original)]
mod every_call;
#[cfg(original)]
mod every_call_kinds;
#[cfg(original)]
mod judge;
#[cfg(original)]
mod openings;
#[cfg(original)]
mod squeezes;
#[cfg(original)]
mod tracks;
#[cfg(original)]
mod unseen;

#[cfg(original)]
use oracle::tally::{Kinds, Plan, Tally};

fn main() {
    oracle::by_original!(work());
}

#[cfg(original)]
fn work() {
    let plan = Plan::read_with("compare_store", Some("--every-call"));
    let mut total = Tally::new();
    if !plan.alone {
        parts(&plan, &mut total);
    }
    let mut kinds = Kinds::default();
    total.add(every_call::histories(plan.count(200, 10_000), plan.rng(21), &mut kinds));
    total.add(kinds.all_met("every call", "calls", &every_call_kinds::in_any(), plan.count(1, 20)));
    if plan.count(0, 1) > 0 {
        every_call_kinds::print(&kinds);
        total.add(kinds.all_met("every call", "calls and beginnings", &every_call_kinds::in_many(), 20));
    }
    total.end();
}

/// Calls, carries and adoptions, each for itself.
#[cfg(original)]
fn parts(plan: &Plan, total: &mut Tally) {
    total.add(judge::histories(plan.count(60, 10_000), plan.rng(0)));
    total.add(judge::long_histories(plan.count(1, 20), plan.rng(1)));
    total.add(judge::unopened(plan.count(40, 2_000), plan.rng(2)));
    total.add(squeezes::largest(plan.count(1, 8), plan.rng(7)));
    total.add(openings::small(plan.count(2_000, 50_000), plan.rng(3)));
    total.add(openings::at_the_limits(plan.count(5, 53)));
    total.add(damage::wild(plan.count(2_000, 100_000), plan.rng(4)));
    total.add(damage::short(plan.count(40, 1_000), plan.rng(5)));
    total.add(damage::every_word(plan.count(2, 60), plan.rng(6)));
    let mut kinds = Kinds::default();
    total.add(carries::received(plan.count(60, 4_000), plan.rng(8), &mut kinds));
    total.add(carries::begun(plan.count(30, 2_000), plan.rng(9), &mut kinds));
    total.add(carries::fitted_before(plan.count(100, 6_000), plan.rng(10), &mut kinds));
    total.add(carries::unopened(plan.count(60, 3_000), plan.rng(11)));
    total.add(carries::short(plan.count(400, 20_000), plan.rng(12), &mut kinds));
    total.add(carries::every_word(plan.count(2, 60), plan.rng(13), &mut kinds));
    total.add(carries::at_the_limits(plan.rng(14)));
    total.add(kinds.all_met("carry", "carries", &carry_kinds::all(), plan.count(1, 20)));
    let mut kinds = Kinds::default();
    total.add(adoptions::histories(plan.count(60, 6_000), plan.rng(15), &mut kinds));
    total.add(adoptions::many_hands(plan.count(60, 4_000), plan.rng(16), &mut kinds));
    total.add(adoptions::unopened(plan.count(200, 10_000), plan.rng(17)));
    total.add(adoptions::damaged(plan.count(600, 30_000), plan.rng(18), &mut kinds));
    total.add(adoptions::every_word(plan.count(1, 30), plan.rng(19)));
    total.add(adoptions::largest(plan.rng(20), &mut kinds));
    total.add(kinds.all_met("adopt", "adoptions", &adoption_kinds::ALL, plan.count(1, 20)));
    let mut kinds = Kinds::default();
    total.add(unseen::histories(plan.count(60, 6_000), plan.rng(22), &mut kinds));
    total.add(kinds.all_met("unseen", "calls and meshes", &unseen::all(), plan.count(1, 20)));
}
