//! The planner's program: a store of kernels inside a mesh, in one run from files or in a folder that lasts.
#[cfg(test)]
mod damage;
#[cfg(test)]
mod damaged;
mod edges;
mod excerpt;
mod failure;
mod figures;
mod folder;
mod form;
mod handover;
mod holes;
mod input;
mod inside;
mod interrupt;
mod json;
mod kernels;
#[cfg(test)]
mod large;
mod lines;
mod notes;
mod opening;
mod options;
mod output;
mod outputs;
mod page;
mod plot;
mod reading;
mod readings;
mod work;

use failure::{Failure, Result};
use opening::Opening;
use options::{Command, Options, Reading};
use output::say;
use outputs::Outputs;
use std::path::Path;
use std::process::ExitCode;

/// The exit status after an interrupt, as shells have it.
const INTERRUPTED: u8 = 130;

fn main() -> ExitCode {
    let told = options::parse(std::env::args_os().skip(1)).and_then(follow);
    match told {
        Ok(()) => ExitCode::SUCCESS,
        Err(Failure::Usage(what)) => {
            eprintln!("cauchy: {what}\n{}", options::hint(std::env::args_os().nth(1)));
            ExitCode::from(2)
        }
        Err(Failure::Interrupted) => ExitCode::from(INTERRUPTED),
        Err(Failure::Work(what)) => {
            eprintln!("cauchy: {what}");
            ExitCode::FAILURE
        }
    }
}

/// Does what is asked.
fn follow(command: Command) -> Result<()> {
    match command {
        Command::Help(subject) => say(&options::help(subject)),
        Command::Version => say(concat!("cauchy ", env!("CARGO_PKG_VERSION"), "\n")),
        Command::Man => say(&options::man()),
        Command::Completions(shell) => say(&options::completions(shell)),
        Command::Work(options) => run(&options),
        Command::Bill { files, json } => readings::print_bill(&files, json),
        Command::Read { from, at, reading, json } => read(&from, at, &reading, json),
        Command::Init { dir, mesh, unit, radius } => folder::init(&dir, &mesh, unit, radius),
        Command::Put { dir, place, kernel, alpha, layer } => folder::put(&dir, place, kernel, alpha, layer),
        Command::PutList { dir, kernels, loading } => folder::put_list(&dir, &kernels, loading),
        Command::Clear { dir, place } => folder::clear(&dir, place),
        Command::Reweigh { dir, place, weight } => folder::reweigh(&dir, place, weight),
        Command::Advance { dir, steps, jobs } => folder::advance(&dir, steps, jobs),
        Command::WorkOn { dir, places, out, overwrite } => folder::work(&dir, &places, &out, overwrite),
        Command::Adopt { dir, parts } => folder::adopt(&dir, &parts),
        Command::Edit { dir, lines } => folder::play(&dir, &lines),
        Command::Squeeze { dir } => folder::squeeze(&dir),
        Command::Log { dir, json } => folder::log(&dir, json),
        Command::Verify { dir, json } => folder::verify(&dir, json),
        Command::Handover { dir, html, conventions, overwrite } => {
            handover::write(&dir, &html, &conventions, overwrite)
        }
        Command::Export { from, lines, overwrite } => lines::export(&from, lines.as_deref(), overwrite),
        Command::Import { lines, snapshot, overwrite } => lines::import(&lines, &snapshot, overwrite),
        Command::ImportDir { lines, dir } => folder::import(&lines, &dir),
    }
}

/// A reading of a store in a folder, or in a snapshot or lines.
fn read(from: &Path, at: Option<u64>, reading: &Reading, json: bool) -> Result<()> {
    if at.is_none() && !from.is_dir() {
        return readings::print_file(from, reading, json);
    }
    folder::read(from, at, reading, json)
}

/// Reads all inputs and prepares all outputs before the first step, so that a fault in one costs nothing. A track that
/// needs no work is read before the work.
fn run(options: &Options) -> Result<()> {
    let outputs = Outputs::prepare(options)?;
    let points = options.track.as_deref().map(input::track).transpose()?.unwrap_or_default();
    let Opening { mut store, head } = opening::open(&options.origin, options.squeeze)?;
    say(&head)?;
    let mut waiting = Some(points);
    if let Some(points) = waiting.take_if(|_| reading::needs_no_work(options)) {
        reading::track(&store, options, &outputs, points)?;
        say("\n")?;
    }
    interrupt::watch();
    let steps = work::work(&mut store, options.steps, outputs.snapshot.as_ref())?;
    say(&page::entry("work", &[page::steps(steps.done, steps.left)]))?;
    if steps.left > 0 {
        return stop(&store, options, &outputs);
    }
    reading::read(&store, options, &outputs)?;
    if let Some(points) = waiting {
        reading::track(&store, options, &outputs, points)?;
    }
    reading::written(&outputs.names())
}

/// Tells what is to be told where work is left.
fn stop(store: &cauchy::Store, options: &Options, outputs: &Outputs) -> Result<()> {
    if options.so_far || interrupt::asked() {
        reading::so_far(store, options)?;
    }
    if reading::needs_no_work(options) {
        reading::written(&outputs.names_of_track())?;
    }
    if let Some(snapshot) = &outputs.snapshot {
        say(&format!("The rest: cauchy resume {} ..\n", snapshot.path().display()))?;
    }
    if interrupt::asked() { Err(Failure::Interrupted) } else { Ok(()) }
}
