//! What each form of a command asks for, of what is given to it.
use super::Shell;
use super::command::{Command, Files, Options, Origin, Reading};
use super::given::Given;
use super::rows::*;
use super::values::{self, METRES_IN_KM};
use crate::failure::{Failure, Result, is_standard};
use crate::kernels::Loading;
use cauchy::{Convention, FileKernel, Layers};
use std::path::PathBuf;

/// The bulk density of a convention that names none, in kg/m³.
const DEFAULT_BULK: f64 = 1190.0;
/// The exponent of a kernel that has none.
const DEFAULT_ALPHA: f64 = 1.0;

// ---- From files, in one run ----

pub fn run(given: &mut Given) -> Result<Command> {
    let files = mesh_and_kernels(given)?;
    let radius = radius(given)?;
    work(given, Origin::Files(files, radius))
}

pub fn run_lines(given: &mut Given) -> Result<Command> {
    let lines = given.operand(values::file)?;
    work(given, Origin::Lines(lines))
}

pub fn resume(given: &mut Given) -> Result<Command> {
    let snapshot = given.operand(values::file)?;
    work(given, Origin::Snapshot(snapshot))
}

pub fn bill(given: &mut Given) -> Result<Command> {
    Ok(Command::Bill { files: mesh_and_kernels(given)?, json: given.flag(&JSON) })
}

fn mesh_and_kernels(given: &mut Given) -> Result<Files> {
    let (mesh, kernels) = (given.operand(values::file)?, given.operand(values::file)?);
    one_input(&[&mesh, &kernels])?;
    Ok(Files { mesh, unit: unit(given)?, kernels, loading: loading(given)? })
}

fn loading(given: &mut Given) -> Result<Loading> {
    Ok(Loading { loader: given.value(&LOADER, values::loader)?, alpha: alpha(given)? })
}

fn alpha(given: &mut Given) -> Result<Option<f64>> {
    given.value(&ALPHA, values::above_zero)
}

/// The metres in the mesh's unit.
fn unit(given: &mut Given) -> Result<f64> {
    Ok(given.value(&MESH_UNIT, values::unit)?.unwrap_or(METRES_IN_KM))
}

/// The radius in metres.
fn radius(given: &mut Given) -> Result<Option<f64>> {
    Ok(given.value(&RADIUS, values::above_zero)?.map(|km| km * METRES_IN_KM))
}

fn work(given: &mut Given, origin: Origin) -> Result<Command> {
    let options = Options {
        origin,
        convention: convention(given)?,
        layers: layers(given)?,
        by_layer: given.flag(&BY_LAYER),
        so_far: given.flag(&SO_FAR),
        track: given.file(&TRACK)?,
        csv: given.file(&TRACK_CSV)?,
        svg: given.file(&TRACK_SVG)?,
        list: given.file(&LIST)?,
        page: given.file(&PAGE)?,
        snapshot: given.file(&SNAPSHOT)?,
        steps: given.value(&STEPS, values::whole)?,
        squeeze: given.flag(&SQUEEZE),
        overwrite: given.flag(&OVERWRITE),
    };
    check_work(&options)?;
    Ok(Command::Work(Box::new(options)))
}

/// Whether the options go together.
fn check_work(options: &Options) -> Result<()> {
    let mut inputs: Vec<&PathBuf> = options.track.iter().collect();
    match &options.origin {
        Origin::Files(files, _) => inputs.extend([&files.mesh, &files.kernels]),
        Origin::Lines(path) | Origin::Snapshot(path) => inputs.push(path),
    }
    one_input(&inputs)?;
    if options.track.is_none() && (options.csv.is_some() || options.svg.is_some()) {
        return Failure::usage("--csv and --svg are of a track: give --track FILE too");
    }
    if options.steps.is_some() && options.snapshot.is_none() && !options.so_far {
        return Failure::usage("--steps may stop before the end: give --snapshot FILE or --so-far too");
    }
    if options.snapshot.as_deref().is_some_and(is_standard) {
        return Failure::usage(
            "--snapshot: it is written more than once, so it needs a file and not a stream",
        );
    }
    Ok(())
}

// ---- Conventions and layers ----

fn layers(given: &mut Given) -> Result<Layers> {
    Ok(given.value(&LAYERS, values::layers)?.unwrap_or_default())
}

/// The one convention of a reading.
fn convention(given: &mut Given) -> Result<Convention> {
    match conventions(given)?.as_slice() {
        [convention] => Ok(*convention),
        _ => Failure::usage("one convention at a time: --raw, --rho0 or --mass TARGET"),
    }
}

/// The conventions of a reading, at least one.
fn conventions(given: &mut Given) -> Result<Vec<Convention>> {
    let is_raw = given.flag(&RAW);
    let is_rho0 = given.flag(&RHO0);
    let mass = given.value(&MASS, values::above_zero)?;
    let bulk = given.value(&BULK, values::above_zero)?;
    if is_raw && !is_rho0 && mass.is_none() && bulk.is_some() {
        return Failure::usage("--bulk goes with --rho0 or --mass: raw leaves the weights as entered");
    }
    let bulk = bulk.unwrap_or(DEFAULT_BULK);
    let raw = is_raw.then_some(Convention::Raw);
    let rho0 = is_rho0.then_some(Convention::Rho0 { bulk });
    let mass = mass.map(|target| Convention::Mass { target, bulk });
    let conventions: Vec<Convention> = [raw, rho0, mass].into_iter().flatten().collect();
    match conventions.is_empty() {
        true => Failure::usage("name a convention: --raw, --rho0 or --mass TARGET"),
        false => Ok(conventions),
    }
}

// ---- A store that lasts ----

pub fn init(given: &mut Given) -> Result<Command> {
    let (dir, mesh) = (given.operand(values::folder)?, given.operand(values::file)?);
    Ok(Command::Init { dir, mesh, unit: unit(given)?, radius: radius(given)? })
}

pub fn put(given: &mut Given) -> Result<Command> {
    let (dir, place) = (given.operand(values::folder)?, given.operand(values::place)?);
    let mut number = || given.operand(values::number);
    let (c, sigma, w) = ([number()?, number()?, number()?], number()?, number()?);
    let kernel = FileKernel { c, sigma, w, alpha: given.operand(values::exponent)? };
    let layer = given.optional(values::layer)?.unwrap_or(0);
    let alpha = match (kernel.alpha, alpha(given)?) {
        (Some(_), Some(_)) => {
            return Failure::usage("--alpha is the exponent for `-`, and this kernel has one of its own");
        }
        (_, alpha) => alpha.unwrap_or(DEFAULT_ALPHA),
    };
    Ok(Command::Put { dir, place, kernel, alpha, layer })
}

pub fn put_list(given: &mut Given) -> Result<Command> {
    let (dir, kernels) = (given.operand(values::folder)?, given.operand(values::file)?);
    Ok(Command::PutList { dir, kernels, loading: loading(given)? })
}

pub fn clear(given: &mut Given) -> Result<Command> {
    Ok(Command::Clear { dir: given.operand(values::folder)?, place: given.operand(values::place)? })
}

pub fn reweigh(given: &mut Given) -> Result<Command> {
    let (dir, place) = (given.operand(values::folder)?, given.operand(values::place)?);
    Ok(Command::Reweigh { dir, place, weight: given.operand(values::number)? })
}

pub fn advance(given: &mut Given) -> Result<Command> {
    let dir = given.operand(values::folder)?;
    let (steps, jobs) = (given.value(&STEPS_OF_STORE, values::whole)?, given.value(&JOBS, values::jobs)?);
    Ok(Command::Advance { dir, steps, jobs })
}

pub fn work_on(given: &mut Given) -> Result<Command> {
    let dir = given.operand(values::folder)?;
    let (Some(places), Some(out)) = (given.value(&PLACES, values::places)?, given.file(&OUT)?) else {
        return Failure::usage("give --places N,N,.. and --out PART too");
    };
    Ok(Command::WorkOn { dir, places, out, overwrite: given.flag(&OVERWRITE) })
}

pub fn adopt(given: &mut Given) -> Result<Command> {
    let (dir, mut parts) = (given.operand(values::folder)?, vec![given.operand(values::file)?]);
    while let Some(part) = given.optional(values::file)? {
        parts.push(part);
    }
    one_input(&parts.iter().collect::<Vec<_>>())?;
    Ok(Command::Adopt { dir, parts })
}

pub fn edit(given: &mut Given) -> Result<Command> {
    Ok(Command::Edit { dir: given.operand(values::folder)?, lines: given.operand(values::file)? })
}

pub fn squeeze(given: &mut Given) -> Result<Command> {
    Ok(Command::Squeeze { dir: given.operand(values::folder)? })
}

// ---- Readings ----

pub fn density(given: &mut Given) -> Result<Command> {
    let from = given.operand(values::file)?;
    let mut coordinate = || given.operand(values::kilometres);
    let point = [coordinate()?, coordinate()?, coordinate()?];
    let (convention, layers) = (convention(given)?, layers(given)?);
    reading(given, from, Reading::Density { point, convention, layers })
}

pub fn report(given: &mut Given) -> Result<Command> {
    let from = given.operand(values::file)?;
    let (conventions, layers) = (conventions(given)?, layers(given)?);
    let by_layer = given.flag(&BY_LAYER);
    reading(given, from, Reading::Report { conventions, layers, by_layer })
}

pub fn finished(given: &mut Given) -> Result<Command> {
    let from = given.operand(values::file)?;
    let (conventions, layers) = (conventions(given)?, layers(given)?);
    reading(given, from, Reading::Finished { conventions, layers })
}

pub fn list(given: &mut Given) -> Result<Command> {
    let from = given.operand(values::file)?;
    let (convention, layers) = (convention(given)?, layers(given)?);
    let (csv, overwrite) = (given.file(&LIST_CSV)?, given.flag(&OVERWRITE));
    one_stream(given, &[&csv])?;
    reading(given, from, Reading::List { convention, layers, csv, overwrite })
}

pub fn track(given: &mut Given) -> Result<Command> {
    let (from, points) = (given.operand(values::file)?, given.operand(values::file)?);
    one_input(&[&from, &points])?;
    let (convention, layers) = (convention(given)?, layers(given)?);
    let (csv, svg) = (given.file(&TRACK_CSV)?, given.file(&TRACK_SVG)?);
    let overwrite = given.flag(&OVERWRITE);
    one_stream(given, &[&csv, &svg])?;
    reading(given, from, Reading::Track { points, convention, layers, csv, svg, overwrite })
}

pub fn page(given: &mut Given) -> Result<Command> {
    let from = given.operand(values::file)?;
    reading(given, from, Reading::Page)
}

pub fn bill_of_store(given: &mut Given) -> Result<Command> {
    let from = given.operand(values::file)?;
    reading(given, from, Reading::Bill)
}

pub fn status(given: &mut Given) -> Result<Command> {
    let from = given.operand(values::file)?;
    reading(given, from, Reading::Status)
}

fn reading(given: &mut Given, from: PathBuf, reading: Reading) -> Result<Command> {
    Ok(Command::Read { from, at: None, reading, json: given.flag(&JSON) })
}

/// Standard input is read once.
fn one_input(inputs: &[&PathBuf]) -> Result<()> {
    match inputs.iter().filter(|input| is_standard(input)).count() {
        0 | 1 => Ok(()),
        _ => Failure::usage("standard input: two inputs are to come from there"),
    }
}

/// Standard output takes one thing alone: a file or the reading as JSON.
fn one_stream(given: &Given, outputs: &[&Option<PathBuf>]) -> Result<()> {
    let streams = outputs.iter().filter(|output| output.as_deref().is_some_and(is_standard)).count();
    match streams + usize::from(given.has(&JSON)) {
        0 | 1 => Ok(()),
        _ => Failure::usage("standard output takes one thing alone: one file `-`, or --json"),
    }
}

pub fn handover(given: &mut Given) -> Result<Command> {
    let dir = given.operand(values::folder)?;
    let Some(html) = given.file(&HTML)? else {
        return Failure::usage("give --html FILE too");
    };
    let bulk = given.value(&BULK, values::above_zero)?.unwrap_or(DEFAULT_BULK);
    let mass = given.value(&MASS, values::above_zero)?.map(|target| Convention::Mass { target, bulk });
    let conventions = [Convention::Raw, Convention::Rho0 { bulk }].into_iter().chain(mass).collect();
    Ok(Command::Handover { dir, html, conventions, overwrite: given.flag(&OVERWRITE) })
}

// ---- History ----

pub fn log(given: &mut Given) -> Result<Command> {
    Ok(Command::Log { dir: given.operand(values::folder)?, json: given.flag(&JSON) })
}

pub fn verify(given: &mut Given) -> Result<Command> {
    Ok(Command::Verify { dir: given.operand(values::folder)?, json: given.flag(&JSON) })
}

/// `at DIR N` without a reading; one that has a reading is parsed as that reading.
pub fn at(given: &mut Given) -> Result<Command> {
    let (from, line) = (given.operand(values::folder)?, given.operand(values::whole)?);
    if given.optional(values::file)?.is_some() {
        return Failure::usage("at: DIR and N come first, then the reading, and then its options");
    }
    Ok(Command::Read { from, at: Some(line), reading: Reading::Status, json: given.flag(&JSON) })
}

// ---- Exchange ----

pub fn export(given: &mut Given) -> Result<Command> {
    let (from, lines) = (given.operand(values::file)?, given.optional(values::file)?);
    Ok(Command::Export { from, lines, overwrite: given.flag(&OVERWRITE) })
}

pub fn import(given: &mut Given) -> Result<Command> {
    let lines = given.operand(values::file)?;
    match given.file(&SNAPSHOT_OF_LINES)? {
        Some(snapshot) => Ok(Command::Import { lines, snapshot, overwrite: given.flag(&OVERWRITE) }),
        None => Failure::usage("import makes a store: give DIR, or --snapshot FILE"),
    }
}

pub fn import_dir(given: &mut Given) -> Result<Command> {
    Ok(Command::ImportDir { lines: given.operand(values::file)?, dir: given.operand(values::folder)? })
}

// ---- The program itself ----

pub fn help(given: &mut Given) -> Result<Command> {
    Ok(Command::Help(given.optional(super::help::subject)?))
}

pub fn man(_: &mut Given) -> Result<Command> {
    Ok(Command::Man)
}

pub fn completions(given: &mut Given) -> Result<Command> {
    Ok(Command::Completions(given.operand(Shell::named)?))
}
