//! The readings of a run: report, wall page, list, track.
use crate::failure::{Failure, Result};
use crate::options::Options;
use crate::output::say;
use crate::outputs::Outputs;
use crate::readings::{self, Told};
use crate::{page, plot};
use cauchy::{Convention, Refusal, Store};

/// The readings of a store whose work is done.
pub fn read(store: &Store, options: &Options, outputs: &Outputs) -> Result<()> {
    let (by, layers) = (options.convention, options.layers);
    let report = readings::report(store, &[by], layers, options.by_layer).map_err(refused("report"))?;
    say(&report.text())?;
    let wall = readings::page(store);
    say(&match &wall {
        Ok(wall) => wall.shown(),
        Err(refusal) => format!("\nWall page: {refusal}\n"),
    })?;
    let list = readings::list(store, by, layers).map_err(refused("list"))?;
    say(&list.first_rows())?;
    if let Some(output) = &outputs.list {
        output.write(list.csv().as_bytes())?;
    }
    // last, since a page may be refused where the others are not
    if let Some(output) = &outputs.page {
        output.write(wall.map_err(refused("page"))?.text().as_bytes())?;
    }
    Ok(())
}

/// Whether a track is read before the work, since it needs none.
pub fn needs_no_work(options: &Options) -> bool {
    options.track.is_some() && !matches!(options.convention, Convention::Mass { .. })
}

/// The density along the points of a track.
pub fn track(store: &Store, options: &Options, outputs: &Outputs, points: Vec<[f64; 3]>) -> Result<()> {
    let Some(file) = &options.track else { return Ok(()) };
    let track = readings::track(store, options.convention, options.layers, file, points);
    let track = track.map_err(refused("track"))?;
    say(&track.text())?;
    if let Some(output) = &outputs.csv {
        output.write(track.csv().as_bytes())?;
    }
    match &outputs.svg {
        Some(output) => output.write(plot::picture(&track).as_bytes()),
        None => Ok(()),
    }
}

/// The report of what is finished, and what it passed over, place by place.
pub fn so_far(store: &Store, options: &Options) -> Result<()> {
    let told =
        readings::finished(store, &[options.convention], options.layers).map_err(refused("finished"))?;
    say(&told.text())
}

/// Tells the files that were written.
pub fn written(names: &[String]) -> Result<()> {
    if names.is_empty() { Ok(()) } else { say(&format!("\n{}", page::entry("written", names))) }
}

fn refused(what: &'static str) -> impl Fn(Refusal) -> Failure {
    move |refusal| Failure::Work(format!("{what}: {refusal}"))
}
