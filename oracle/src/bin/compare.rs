//! Compares the archive with the machine's square root and with the second transcription of 01's steps, bit for bit, every NaN as one.
//! `compare` takes some seconds; `compare --long` compares at least 50 million roots and 5 million results of each other function.
//! `--seed N` draws other inputs. The last line counts what differs; the exit status is 1 if anything does.
use oracle::inputs::{self, Family, Rng};
use oracle::{cauchy_arc, cauchy_exp, cauchy_log, cauchy_log10, cauchy_power, cauchy_root, cauchy_ten, pattern, steps};

/// How many results were compared, how many differ, and an input that shows it.
struct Tally<T> {
    compared: u64,
    differ: u64,
    shown: Option<T>,
}

/// How much to compare, from which seed.
struct Plan {
    roots: u64,
    others: u64,
    seed: u64,
}

fn main() {
    let plan = plan();
    let unary = |name, families: &[Family<f64>], archive, reference| over(name, families, plan.others, plan.seed, archive, reference);
    let totals = [
        over("root", &inputs::ROOT, plan.roots, plan.seed, |x| cauchy_root(x), |x| x.sqrt()),
        unary("arc", &inputs::ARC, |t| cauchy_arc(t), steps::arc),
        unary("log", &inputs::LOG, |b| cauchy_log(b), steps::log),
        unary("exp", &inputs::EXP, |y| cauchy_exp(y), steps::exp),
        over("power", &inputs::POWER, plan.others, plan.seed, |(b, y)| cauchy_power(b, y), |(b, y)| steps::power(b, y)),
        unary("ten", &inputs::TEN, |y| cauchy_ten(y), steps::ten),
        unary("log10", &inputs::LOG, |b| cauchy_log10(b), steps::log10),
    ];
    let compared: u64 = totals.iter().map(|t| t.0).sum();
    let differ: u64 = totals.iter().map(|t| t.1).sum();
    println!("{compared} compared, {differ} differ");
    if differ > 0 {
        std::process::exit(1);
    }
}

/// What the command line asks for.
fn plan() -> Plan {
    let mut plan = Plan { roots: 4_000_000, others: 400_000, seed: 1 };
    let mut words = std::env::args().skip(1);
    while let Some(word) = words.next() {
        match word.as_str() {
            "--long" => (plan.roots, plan.others) = (60_000_000, 6_000_000),
            "--seed" => plan.seed = words.next().and_then(|n| n.parse().ok()).unwrap_or_else(|| usage()),
            _ => usage(),
        }
    }
    plan
}

fn usage() -> ! {
    eprintln!("usage: compare [--long] [--seed N]");
    std::process::exit(2);
}

/// A function over all its families: how many results were compared and how many differ.
fn over<T: Copy + Send + Bits>(
    name: &str,
    families: &[Family<T>],
    count: u64,
    seed: u64,
    archive: fn(T) -> f64,
    reference: fn(T) -> f64,
) -> (u64, u64) {
    let mut total = (0, 0);
    for (i, family) in families.iter().enumerate() {
        let share = count * family.share / 100;
        let tally = halves(family, share, seed << 8 | i as u64, archive, reference);
        println!("{name:6} {:28} {:>10} compared, {} differ", family.name, tally.compared, tally.differ);
        if let Some(input) = tally.shown {
            println!("       at {}: archive {:016x}, reference {:016x}", input.bits(), pattern(archive(input)), pattern(reference(input)));
        }
        total = (total.0 + tally.compared, total.1 + tally.differ);
    }
    total
}

/// One family, half of it in a second thread.
fn halves<T: Copy + Send>(family: &Family<T>, count: u64, seed: u64, archive: fn(T) -> f64, reference: fn(T) -> f64) -> Tally<T> {
    let draw = family.draw;
    std::thread::scope(|s| {
        let other = s.spawn(move || run(draw, count / 2, !seed, archive, reference));
        let own = run(draw, count - count / 2, seed, archive, reference);
        let other = other.join().expect("a thread that only compares");
        Tally { compared: own.compared + other.compared, differ: own.differ + other.differ, shown: own.shown.or(other.shown) }
    })
}

fn run<T: Copy>(draw: fn(&mut Rng) -> T, count: u64, seed: u64, archive: fn(T) -> f64, reference: fn(T) -> f64) -> Tally<T> {
    let mut rng = Rng(seed.wrapping_mul(0xd134_2543_de82_ef95));
    let mut tally = Tally { compared: 0, differ: 0, shown: None };
    for _ in 0..count {
        let input = draw(&mut rng);
        tally.compared += 1;
        if pattern(archive(input)) != pattern(reference(input)) {
            tally.differ += 1;
            tally.shown.get_or_insert(input);
        }
    }
    tally
}

/// Arguments as their bits, to repeat a difference.
trait Bits {
    fn bits(&self) -> String;
}

impl Bits for f64 {
    fn bits(&self) -> String {
        format!("{:016x}", self.to_bits())
    }
}

impl Bits for (f64, f64) {
    fn bits(&self) -> String {
        format!("{:016x} {:016x}", self.0.to_bits(), self.1.to_bits())
    }
}
