//! The table's options and operands, each with its meaning.
use super::row::Kind::{File, Folder, Number, Path, Reading, Subject, Words};
use super::row::{Kind, Operand, OptionRow};

const fn flag(name: &'static str, meaning: &'static str) -> OptionRow {
    OptionRow { name, value: None, meaning }
}

const fn with(name: &'static str, value: &'static str, kind: Kind, meaning: &'static str) -> OptionRow {
    OptionRow { name, value: Some((value, kind)), meaning }
}

const fn operand(name: &'static str, kind: Kind, meaning: &'static str) -> Operand {
    Operand { name, kind, is_optional: false, is_repeated: false, meaning }
}

const fn optional(name: &'static str, kind: Kind, meaning: &'static str) -> Operand {
    Operand { name, kind, is_optional: true, is_repeated: false, meaning }
}

const fn repeated(name: &'static str, kind: Kind, meaning: &'static str) -> Operand {
    Operand { name, kind, is_optional: false, is_repeated: true, meaning }
}

// ---- Conventions ----

/// The options that name conventions.
pub static CONVENTIONS: &[&OptionRow] = &[&RAW, &RHO0, &MASS, &BULK];
pub static RAW: OptionRow = flag("--raw", "weights as entered");
pub static RHO0: OptionRow = flag("--rho0", "the density at the origin becomes the bulk density");
pub static MASS: OptionRow = with("--mass", "TARGET", Number, "the field mass becomes TARGET, in kg");
pub static BULK: OptionRow = with(
    "--bulk",
    "DENSITY",
    Number,
    "the bulk density of --rho0 and --mass, in kg/m³; 1190 if it is not given",
);

pub static HANDOVER_MASS: OptionRow =
    with("--mass", "TARGET", Number, "report by mass too, with the field mass TARGET in kg");
pub static HANDOVER_BULK: OptionRow = with(
    "--bulk",
    "DENSITY",
    Number,
    "the bulk density of the conventions rho0 and mass, in kg/m³; 1190 if it is not given",
);

// ---- What is read ----

pub static LAYERS: OptionRow = with(
    "--layers",
    "N,N,..",
    Number,
    "read only the places of these layers, from 0 to 15, as of a store that holds no other place; otherwise all",
);
pub static BY_LAYER: OptionRow = flag(
    "--by-layer",
    "report each layer by itself too, beside the whole: its mass as entered, and that times the factor of the whole",
);
pub static SO_FAR: OptionRow = flag(
    "--so-far",
    "where --steps stops before the end, report the mass of what is finished: of the places that have no work \
     left, with those that have some named beside it. An interrupt (Ctrl-C) does the same: the portion under way \
     ends, a snapshot is kept, and a second interrupt ends at once",
);
pub static TRACK: OptionRow = with("--track", "FILE", File, "read the density at the points of FILE");
pub static JSON: OptionRow = flag("--json", "print the reading as one JSON value, for other programs");

// ---- What is written ----

pub static TRACK_CSV: OptionRow = with(
    "--csv",
    "FILE",
    File,
    "write the track as a table: the way, the points and their densities, with units in the headings, and whether \
     each point is inside the mesh",
);
pub static TRACK_SVG: OptionRow = with(
    "--svg",
    "FILE",
    File,
    "draw the densities of the track; shaded and dashed where it is outside the mesh",
);
pub static LIST: OptionRow =
    with("--list", "FILE", File, "write all pieces with rescaled weights as a table (metres, kg/m³)");
pub static LIST_CSV: OptionRow = with("--csv", "FILE", File, "write all pieces as a table (metres, kg/m³)");
pub static PAGE: OptionRow =
    with("--page", "FILE", File, "write the wall page, which is that of every layer");
pub static SNAPSHOT: OptionRow = with(
    "--snapshot",
    "FILE",
    File,
    "keep the store in FILE: before the work, every 30 seconds, and at the end",
);
pub static SNAPSHOT_OF_LINES: OptionRow =
    with("--snapshot", "FILE", File, "the snapshot that is made of the lines");
pub static HTML: OptionRow = with("--html", "FILE", File, "the page that is written");
pub static OVERWRITE: OptionRow =
    flag("--overwrite", "replace files that are there; otherwise nothing is replaced");

// ---- The work ----

pub static STEPS: OptionRow = with(
    "--steps",
    "N",
    Number,
    "do at most N steps now; with --snapshot, so that `resume` can do the others, or with --so-far",
);
pub static STEPS_OF_STORE: OptionRow = with("--steps", "N", Number, "do at most N steps now; otherwise all");
pub static JOBS: OptionRow = with(
    "--jobs",
    "N",
    Number,
    "work by N processes at once; otherwise as many as there are processors, and one where little is left; with \
     --steps there is one",
);
pub static PLACES: OptionRow = with(
    "--places",
    "N,N,..",
    Number,
    "the places that are worked on, from 0 to 31; one that is empty has no work",
);
pub static OUT: OptionRow =
    with("--out", "PART", File, "the part that is written, about each second and at the end");
pub static SQUEEZE: OptionRow = flag(
    "--squeeze",
    "take the vertices that no face uses out of the store before the work. No figure but the count of vertices \
     and the extent changes by it; a snapshot keeps its size",
);

// ---- How files are read ----

pub static RADIUS: OptionRow = with(
    "--radius",
    "KM",
    Number,
    "the body's radius in km, for the fits of exponents other than 1; otherwise the distance of the farthest \
     vertex from the origin",
);
pub static MESH_UNIT: OptionRow = with(
    "--mesh-unit",
    "km|m",
    Words(&["km", "m"]),
    "the unit of the mesh; otherwise km. PLY and STL are often in m",
);
pub static LOADER: OptionRow = with(
    "--loader",
    "NAME",
    Words(&["native", "source", "strict"]),
    "what becomes of an exponent that is not above 0, in kernels of bracket lines or TOML: by native it gives way to the \
     default, by source it is kept; by strict a file on which the two differ is refused, and its first such line is \
     named; otherwise strict",
);
pub static ALPHA: OptionRow =
    with("--alpha", "EXPONENT", Number, "the default exponent of kernels in bracket lines; otherwise 1");
pub static ALPHA_OF_ONE: OptionRow =
    with("--alpha", "EXPONENT", Number, "the exponent of a kernel that is given with `-`; otherwise 1");

// ---- Operands ----

pub static MESH: Operand = operand("MESH", File, "the shape model: OBJ, PLY, STL or a plate model (.tab)");
pub static KERNELS: Operand = operand("KERNELS", File, "the kernel list: numbers, bracket lines or TOML");
pub static LINES: Operand =
    operand("LINES", File, "a store's lines, which stand for a mesh and a kernel list");
pub static EDITS: Operand = operand("EDITS", File, "edits in bracket lines, one a line");
pub static DIR: Operand = operand("DIR", Folder, "the store's folder");
pub static PART: Operand = repeated("PART", File, "a part that `work` has written");
pub static SNAPSHOT_FILE: Operand = operand("SNAPSHOT", File, "a snapshot");
pub static DIR_OR_SNAPSHOT: Operand =
    operand("DIR|SNAPSHOT", Path, "the store's folder, or a snapshot; readings take a store's lines too");
pub static DIR_OR_LINES: Operand =
    operand("DIR|LINES", Path, "the store's folder, or a store's lines, or a snapshot");
pub static NEW_DIR: Operand =
    operand("DIR", Folder, "the store's folder, which is made; it must not be there, or be empty");
pub static LINES_OUT: Operand = optional("FILE", File, "the file that is written; otherwise standard output");
pub static PLACE: Operand = operand("PLACE", Number, "a place of the store, from 0 to 31");
pub static X: Operand = operand("X", Number, "x in km");
pub static Y: Operand = operand("Y", Number, "y in km");
pub static Z: Operand = operand("Z", Number, "z in km");
pub static SIGMA: Operand = operand("SIGMA", Number, "the kernel's inverse width in 1/km");
pub static WEIGHT: Operand = operand("WEIGHT", Number, "the kernel's weight in kg/m³, as entered");
pub static EXPONENT: Operand =
    operand("EXPONENT", Number, "the kernel's exponent, or `-` for the default one");
pub static LAYER: Operand = optional("LAYER", Number, "the kernel's layer, from 0 to 15; otherwise 0");
pub static POINTS: Operand = operand("POINTS", File, "the points of the track");
pub static LINE_OF_LOG: Operand =
    operand("N", Number, "the number of a line of the store's log, as `log` prints it");
pub static READING: Operand =
    optional("READING", Reading, "a reading with its words as elsewhere, but without DIR; otherwise status");
pub static SHELL: Operand = operand("SHELL", Words(&["bash", "zsh", "fish"]), "the shell");
pub static SUBJECT: Operand = optional("SUBJECT", Subject, "a command or a topic");
