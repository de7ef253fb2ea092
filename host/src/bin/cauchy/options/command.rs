//! What the command line asks for.
use super::Shell;
use crate::kernels::Loading;
use cauchy::{Convention, FileKernel, Layers};
use std::path::PathBuf;

/// What is asked for. A path `-` stands for standard input where a file is read and for standard output where one is
/// written; a store's folder is never `-`.
#[derive(Debug, PartialEq)]
pub enum Command {
    /// The commands, or one command or topic by its name.
    Help(Option<&'static str>),
    Version,
    Man,
    Completions(Shell),
    /// `run` and `resume`.
    Work(Box<Options>),
    /// The bill of a mesh and a kernel list.
    Bill {
        files: Files,
        json: bool,
    },
    /// A reading of a store. It comes from a folder; that of a page may be a snapshot, that of a bill a store's lines.
    /// With `at` the store is as it was after that line of its log.
    Read {
        from: PathBuf,
        at: Option<u64>,
        reading: Reading,
        json: bool,
    },
    /// A new store of a mesh, whose unit is given in metres; the radius in metres where it is given.
    Init {
        dir: PathBuf,
        mesh: PathBuf,
        unit: f64,
        radius: Option<f64>,
    },
    /// One kernel, in kilometres as a file has it, and the exponent that it gets where it has none.
    Put {
        dir: PathBuf,
        place: u32,
        kernel: FileKernel,
        alpha: f64,
        layer: u32,
    },
    /// A whole kernel list, into places 0, 1, 2 ..
    PutList {
        dir: PathBuf,
        kernels: PathBuf,
        loading: Loading,
    },
    Clear {
        dir: PathBuf,
        place: u32,
    },
    Reweigh {
        dir: PathBuf,
        place: u32,
        weight: f64,
    },
    /// The steps that are left, or the first so many of them.
    Advance {
        dir: PathBuf,
        steps: Option<u64>,
        /// The processes that work at once, where that is said.
        jobs: Option<usize>,
    },
    /// The work on some places, to a part of its own.
    WorkOn {
        dir: PathBuf,
        places: Vec<u32>,
        out: PathBuf,
        overwrite: bool,
    },
    /// Parts that such work has written, into the store.
    Adopt {
        dir: PathBuf,
        parts: Vec<PathBuf>,
    },
    Squeeze {
        dir: PathBuf,
    },
    /// Edits in bracket lines, each a step of its own.
    Edit {
        dir: PathBuf,
        lines: PathBuf,
    },
    Log {
        dir: PathBuf,
        json: bool,
    },
    Verify {
        dir: PathBuf,
        json: bool,
    },
    /// The hand-over page. The conventions are raw and rho0, and mass where a target is given.
    Handover {
        dir: PathBuf,
        html: PathBuf,
        conventions: Vec<Convention>,
        overwrite: bool,
    },
    /// The lines of the store of a folder or a snapshot, to a file or to standard output.
    Export {
        from: PathBuf,
        lines: Option<PathBuf>,
        overwrite: bool,
    },
    /// The snapshot of a store's lines.
    Import {
        lines: PathBuf,
        snapshot: PathBuf,
        overwrite: bool,
    },
    /// A new store in a folder, of a store's lines.
    ImportDir {
        lines: PathBuf,
        dir: PathBuf,
    },
}

/// A reading of a store, wherever the store comes from.
#[derive(Debug, PartialEq)]
pub enum Reading {
    /// The density at a point, in metres.
    Density {
        point: [f64; 3],
        convention: Convention,
        layers: Layers,
    },
    /// The mass report by each of these conventions, at least one; each layer by itself too where that is asked.
    Report {
        conventions: Vec<Convention>,
        layers: Layers,
        by_layer: bool,
    },
    /// The report of what is finished, by each of these conventions, at least one.
    Finished {
        conventions: Vec<Convention>,
        layers: Layers,
    },
    List {
        convention: Convention,
        layers: Layers,
        csv: Option<PathBuf>,
        overwrite: bool,
    },
    Track {
        points: PathBuf,
        convention: Convention,
        layers: Layers,
        csv: Option<PathBuf>,
        svg: Option<PathBuf>,
        overwrite: bool,
    },
    Page,
    Bill,
    Status,
}

/// A mesh, its unit given in metres, and a kernel list.
#[derive(Debug, PartialEq)]
pub struct Files {
    pub mesh: PathBuf,
    pub unit: f64,
    pub kernels: PathBuf,
    pub loading: Loading,
}

/// Where the store comes from.
#[derive(Debug, PartialEq)]
pub enum Origin {
    /// Files, and the radius in metres where it is given.
    Files(Files, Option<f64>),
    /// A store's lines.
    Lines(PathBuf),
    Snapshot(PathBuf),
}

/// What `run` and `resume` are to do.
#[derive(Debug, PartialEq)]
pub struct Options {
    pub origin: Origin,
    pub convention: Convention,
    /// The layers that are read.
    pub layers: Layers,
    /// Whether each layer is reported by itself too.
    pub by_layer: bool,
    /// Whether what is finished is reported where work is left.
    pub so_far: bool,
    pub track: Option<PathBuf>,
    pub csv: Option<PathBuf>,
    pub svg: Option<PathBuf>,
    pub list: Option<PathBuf>,
    pub page: Option<PathBuf>,
    pub snapshot: Option<PathBuf>,
    pub steps: Option<u64>,
    pub squeeze: bool,
    pub overwrite: bool,
}
