//! The table of commands: their forms, options and texts. Parsing, help, the man page and completions come of it.
use super::build;
use super::row::Conventions::{One, Several};
use super::row::Group::{Exchange, Files, History, Itself, Readings, Store};
use super::row::{CommandRow, Form, OptionRow, Reason};
use super::rows::*;

/// The command of this name.
pub fn command(name: &str) -> Option<&'static CommandRow> {
    COMMANDS.iter().find(|command| command.name == name)
}

/// The options of all commands; one that several commands have comes more than once.
pub fn options() -> impl Iterator<Item = &'static OptionRow> {
    COMMANDS.iter().flat_map(CommandRow::all_options)
}

/// The commands that have an option of this name.
pub fn with(name: &str) -> Vec<&'static str> {
    let has = |command: &&CommandRow| command.all_options().iter().any(|option| option.name == name);
    COMMANDS.iter().filter(has).map(|command| command.name).collect()
}

/// What `at` reads.
pub static READINGS: &[&str] = &["status", "report", "finished", "density", "list", "track", "page", "bill"];

const WORK: &[&OptionRow] = &[
    &LAYERS, &BY_LAYER, &SO_FAR, &TRACK, &TRACK_CSV, &TRACK_SVG, &LIST, &PAGE, &SNAPSHOT, &STEPS, &SQUEEZE,
    &OVERWRITE,
];

const WORK_OF_FILES: &[&OptionRow] = &[
    &LAYERS, &BY_LAYER, &SO_FAR, &TRACK, &TRACK_CSV, &TRACK_SVG, &LIST, &PAGE, &SNAPSHOT, &STEPS, &SQUEEZE,
    &OVERWRITE, &RADIUS, &MESH_UNIT, &LOADER, &ALPHA,
];

/// Why a file of lines is not read by the options of a mesh and a kernel list.
const LINES_HAVE_ALL: &[Reason] = &[Reason {
    options: &["--radius", "--mesh-unit", "--loader", "--alpha"],
    why: "--radius, --mesh-unit, --loader and --alpha go with two files, MESH KERNELS: a store has its radius, metres \
          and kernels",
}];

/// Why one kernel at the command line has no loader.
const LOADER_OF_LIST: &[Reason] = &[Reason {
    options: &["--loader"],
    why: "--loader goes with a kernel list, put DIR KERNELS: it tells how bracket lines and TOML are read",
}];

pub static COMMANDS: &[CommandRow] = &[
    CommandRow {
        name: "run",
        group: Files,
        purpose: "Puts a kernel list into a mesh, does the work and prints every reading",
        forms: &[
            Form::of(&[&MESH, &KERNELS], build::run).by(One).options(WORK_OF_FILES),
            Form::of(&[&LINES], build::run_lines).by(One).options(WORK).reasons(LINES_HAVE_ALL),
        ],
        text: "\
It opens a store of the mesh, puts the kernels into its places and does the work: one step for each piece of a kernel \
and face of the mesh. It prints the bill before the work, and then reads the store: a mass report, the wall page, the \
rescaled list of pieces and, along a track, the density. By --raw and --rho0 the track needs no work, and is read \
before it. The report, the list and the track are of the layers that --layers names; the wall page stays that of every \
layer.

One file of a store's lines may stand for the mesh and the kernel list.",
        reasons: &[],
    },
    CommandRow {
        name: "resume",
        group: Files,
        purpose: "Goes on from a snapshot, as `run` does",
        forms: &[Form::of(&[&SNAPSHOT_FILE], build::resume).by(One).options(WORK)],
        text: "\
The snapshot may be kept in its own file again: `--snapshot` may name the one that is read.

A snapshot of a version before layers is carried over, with a note: every kernel is then in layer 0, and pieces and \
work done stay as they were.",
        reasons: &[
            Reason {
                options: &["--radius", "--mesh-unit"],
                why: "--radius and --mesh-unit go with run: a snapshot has its mesh and radius",
            },
            Reason {
                options: &["--loader", "--alpha"],
                why: "--loader and --alpha go with run: a snapshot has its kernels",
            },
        ],
    },
    CommandRow {
        name: "bill",
        group: Files,
        purpose: "Tells ahead what the work will take: steps, floats and time",
        forms: &[
            Form::of(&[&MESH, &KERNELS], build::bill).options(&[&MESH_UNIT, &LOADER, &ALPHA, &JSON]),
            Form::of(&[&DIR_OR_LINES], build::bill_of_store).options(&[&JSON]).reasons(LINES_HAVE_ALL),
        ],
        text: "\
It tells the steps of the work, the floats and bytes of the list of pieces, and an estimate of the time on this \
machine, from a short run on this mesh. Nothing is fitted and no file is written. Steps and floats are exact where \
every exponent is 1. A kernel of another exponent is to be fitted, and 13 or 16 pieces are assumed for it: then they \
are an upper bound, whatever the radius.",
        reasons: &[],
    },
    CommandRow {
        name: "init",
        group: Store,
        purpose: "Makes a store of a mesh, in a folder of its own",
        forms: &[Form::of(&[&NEW_DIR, &MESH], build::init).options(&[&MESH_UNIT, &RADIUS])],
        text: "\
The store has no kernel yet: `put` adds them. `cauchy help store` tells what a store is and what is in its folder.",
        reasons: &[],
    },
    CommandRow {
        name: "put",
        group: Store,
        purpose: "Puts a kernel into a place of the store, or a whole kernel list into its first places",
        forms: &[
            Form::of(&[&DIR, &PLACE, &X, &Y, &Z, &SIGMA, &WEIGHT, &EXPONENT, &LAYER], build::put)
                .options(&[&ALPHA_OF_ONE])
                .reasons(LOADER_OF_LIST),
            Form::of(&[&DIR, &KERNELS], build::put_list).options(&[&LOADER, &ALPHA]),
        ],
        text: "\
What was in the place is dropped, with the work done for it. The kernel is fitted at once where its exponent is \
not 1; its work is done by `advance`. The kernel's density at a distance is \
WEIGHT · (1 + SIGMA² · distance²)^(-EXPONENT).

A kernel list fills as many places as it has kernels, from place 0 on; places behind them stay as they are.",
        reasons: &[],
    },
    CommandRow {
        name: "clear",
        group: Store,
        purpose: "Empties a place of the store",
        forms: &[Form::of(&[&DIR, &PLACE], build::clear)],
        text: "The work done for its kernel is dropped with it.",
        reasons: &[],
    },
    CommandRow {
        name: "reweigh",
        group: Store,
        purpose: "Changes the weight of the kernel in a place; its work stays done",
        forms: &[Form::of(&[&DIR, &PLACE, &WEIGHT], build::reweigh)],
        text: "",
        reasons: &[],
    },
    CommandRow {
        name: "advance",
        group: Store,
        purpose: "Does the work that is left, in portions that are kept one by one",
        forms: &[Form::of(&[&DIR], build::advance).options(&[&STEPS_OF_STORE, &JOBS])],
        text: "\
A bar shows how far it is and the time left. An interrupt (Ctrl-C) ends it after the portion under way; the work \
done is kept, and `advance` goes on from there. Where the program is killed, at most the portion under way is lost.

Places are independent of each other, so several processes may work on them at once; the store is, bit for bit, the \
one that a single process makes. A process that dies costs only the portion of its own places that was under way.",
        reasons: &[],
    },
    CommandRow {
        name: "work",
        group: Store,
        purpose: "Does the work that is left of some places, on a copy, and writes it as a part",
        forms: &[Form::of(&[&DIR], build::work_on).needs(&[&PLACES, &OUT]).options(&[&OVERWRITE])],
        text: "\
The store is only read, so that many may work on it at once, here or on other machines that have a copy of its folder; \
`adopt` takes the parts in. A part is a small file without the mesh. An interrupt (Ctrl-C) ends the work after the \
portion under way; the part then has what is done so far.",
        reasons: &[],
    },
    CommandRow {
        name: "adopt",
        group: Store,
        purpose: "Takes work that was done elsewhere into the store",
        forms: &[Form::of(&[&DIR, &PART], build::adopt)],
        text: "\
A place of a part comes in where it has more steps done than the store has. Parts may come in any order, twice, or not \
at all. A place that holds another kernel, weight or layer by now is left alone, with a note. A part of another body, or \
of the mesh before a squeeze, changes nothing; the other parts are taken, and the exit status is 1.",
        reasons: &[],
    },
    CommandRow {
        name: "squeeze",
        group: Store,
        purpose: "Takes the vertices that no face uses out of the store",
        forms: &[Form::of(&[&DIR], build::squeeze)],
        text: "No figure but the count of vertices and the extent changes by it.",
        reasons: &[],
    },
    CommandRow {
        name: "edit",
        group: Store,
        purpose: "Makes edits that come in bracket lines, each a whole step by itself",
        forms: &[Form::of(&[&DIR, &EDITS], build::edit)],
        text: "\
The lines are those of the store's log: `log` and other tools write them. All are read before the first edit is made. \
Each answer is printed as soon as its edit is on the disk; one that is refused is in the log too, and those behind it \
are made.

    (put N (c H H H) (sigma H) (w H) (alpha H) (layer N))
    (clear N)
    (reweigh N H)
    (advance N)
    (squeeze)
    (adopt N (steps N))

Lengths are metres. An adoption of so many steps is brought about here, by doing them. \
H is a number by the 16 upper-case hexadecimal digits of its bits, N a whole number; ` (layer N)` \
may be left out, and is then 0. Empty lines and those that begin with `#` are passed over.",
        reasons: &[],
    },
    CommandRow {
        name: "status",
        group: Readings,
        purpose: "Tells what is in the store: its mesh, its places and the work left",
        forms: &[Form::of(&[&DIR_OR_SNAPSHOT], build::status).options(&[&JSON])],
        text: "",
        reasons: &[],
    },
    CommandRow {
        name: "report",
        group: Readings,
        purpose: "Prints the mass report, by one convention or several",
        forms: &[Form::of(&[&DIR_OR_SNAPSHOT], build::report).by(Several).options(&[&LAYERS, &BY_LAYER, &JSON])],
        text: "\
It needs all work done, of the layers that are read; `finished` reports before that. Several conventions stand side by \
side, a column each. On a mesh that is not closed every line with a mass says so.",
        reasons: &[],
    },
    CommandRow {
        name: "finished",
        group: Readings,
        purpose: "Prints the mass report of the places whose work is done, by one convention or several",
        forms: &[Form::of(&[&DIR_OR_SNAPSHOT], build::finished).by(Several).options(&[&LAYERS, &JSON])],
        text: "\
It names the places that it passes over, and the steps left in each. Where it passes over some, its mass is not that \
of the store.",
        reasons: &[],
    },
    CommandRow {
        name: "density",
        group: Readings,
        purpose: "Prints the density at a point",
        forms: &[Form::of(&[&DIR_OR_SNAPSHOT, &X, &Y, &Z], build::density).by(One).options(&[&LAYERS, &JSON])],
        text: "Work that is left matters by --mass alone. It tells whether the point is inside the mesh.",
        reasons: &[],
    },
    CommandRow {
        name: "list",
        group: Readings,
        purpose: "Prints the pieces of all kernels with rescaled weights",
        forms: &[Form::of(&[&DIR_OR_SNAPSHOT], build::list).by(One).options(&[&LAYERS, &LIST_CSV, &OVERWRITE, &JSON])],
        text: "Work that is left matters by --mass alone.",
        reasons: &[],
    },
    CommandRow {
        name: "track",
        group: Readings,
        purpose: "Reads the density along a track, as a summary, a table and a picture",
        forms: &[Form::of(&[&DIR_OR_SNAPSHOT, &POINTS], build::track)
            .by(One)
            .options(&[&LAYERS, &TRACK_CSV, &TRACK_SVG, &OVERWRITE, &JSON])],
        text: "\
Work that is left matters by --mass alone. A point is inside where the mesh winds around it, also one with holes: \
where the solid angles of its faces add up to more than half a sphere. The picture keeps every peak of a long track.",
        reasons: &[],
    },
    CommandRow {
        name: "page",
        group: Readings,
        purpose: "Prints the wall page and nothing else, for the printer",
        forms: &[Form::of(&[&DIR_OR_SNAPSHOT], build::page).options(&[&JSON])],
        text: "\
The work must be done. The page has a line of 64 characters for each filled place, with its number in columns 1-2, \
its pieces in 4-5 and its own field mass in 45-64, by the weight as entered and in whole kilograms (to the nearest, \
ties to even), and a line with the total of these masses. There is no page where a mass is NaN or exceeds 10^15 kg. \
Where the mesh is not closed, a note on standard error says so.",
        reasons: &[],
    },
    CommandRow {
        name: "handover",
        group: Readings,
        purpose: "Writes one page with everything in the store, for those who take it over",
        forms: &[Form::of(&[&DIR], build::handover)
            .needs(&[&HTML])
            .options(&[&HANDOVER_MASS, &HANDOVER_BULK, &OVERWRITE])],
        text: "\
The page is one file for a browser and needs no server, no network and no other file. It has five tabs: the kernels \
with how their fits ended; the shape model in figures, with its kernels as a picture, and the density in three planes; \
the weights as entered and by each convention; the work left; and the hand-over, which has the report by each \
convention side by side, the wall page and the log. A reading that is refused, as the report is while work is left, is \
told in words, with the report of what is finished beside it. The page can be printed.",
        reasons: &[],
    },
    CommandRow {
        name: "log",
        group: History,
        purpose: "Prints every edit of the store, accepted or refused: when, who, what and the answer",
        forms: &[Form::of(&[&DIR], build::log).options(&[&JSON])],
        text: "",
        reasons: &[],
    },
    CommandRow {
        name: "verify",
        group: History,
        purpose: "Plays the log into a fresh store and compares every word with the one on disk",
        forms: &[Form::of(&[&DIR], build::verify).options(&[&JSON])],
        text: "\
Every word of a store is a proved function of its calls, so any difference is damage of the disk or the memory. The \
place and the field where it is are named, and the exit status is 1.",
        reasons: &[],
    },
    CommandRow {
        name: "at",
        group: History,
        purpose: "Reads the store as it was after a line of its log",
        forms: &[Form::of(&[&DIR, &LINE_OF_LOG, &READING], build::at).options(&[&JSON])],
        text: "\
The readings are status, report, finished, density, list, track, page and bill, such as in `cauchy at DIR 12 report \
--raw`. DIR and N come first.",
        reasons: &[],
    },
    CommandRow {
        name: "export",
        group: Exchange,
        purpose: "Writes a store as lines of text, for tools that do not link the library",
        forms: &[Form::of(&[&DIR_OR_SNAPSHOT, &LINES_OUT], build::export).options(&[&OVERWRITE])],
        text: "\
The lines tell the mesh, the radius, the kernels, weights and layers bit for bit. The work done is not in them.",
        reasons: &[],
    },
    CommandRow {
        name: "import",
        group: Exchange,
        purpose: "Makes a store of a store's lines, in a folder or as a snapshot, with all steps to do",
        forms: &[
            Form::of(&[&LINES, &NEW_DIR], build::import_dir),
            Form::of(&[&LINES], build::import).needs(&[&SNAPSHOT_OF_LINES]).options(&[&OVERWRITE]),
        ],
        text: "\
`export` writes such lines, and `cauchy help files` has their form. A file that is refused is named with its first \
line that is at fault.",
        reasons: &[],
    },
    CommandRow {
        name: "help",
        group: Itself,
        purpose: "Tells of the commands, or of one command or topic",
        forms: &[Form::of(&[&SUBJECT], build::help)],
        text: "",
        reasons: &[],
    },
    CommandRow {
        name: "man",
        group: Itself,
        purpose: "Prints the manual page, for `man`",
        forms: &[Form::of(&[], build::man)],
        text: "To look at it, or to keep it where `man cauchy` finds it:\n\n  \
               cauchy man | man -l -\n  \
               cauchy man >~/.local/share/man/man1/cauchy.1",
        reasons: &[],
    },
    CommandRow {
        name: "completions",
        group: Itself,
        purpose: "Prints what completes the program's words in a shell",
        forms: &[Form::of(&[&SHELL], build::completions)],
        text: "Where each shell looks for them:\n\n  \
               cauchy completions bash >~/.local/share/bash-completion/completions/cauchy\n  \
               cauchy completions zsh >~/.zsh/completions/_cauchy          # a folder of fpath\n  \
               cauchy completions fish >~/.config/fish/completions/cauchy.fish",
        reasons: &[],
    },
];
