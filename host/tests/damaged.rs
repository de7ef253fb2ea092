//! Damaged files of every kind, given to the program: a message and exit status 1, or a run. Many more of them are read
//! within one process by the program's own tests (`src/bin/cauchy/damaged.rs`), whose generator this is.
#[allow(dead_code, reason = "the program's own tests use more of it")]
#[path = "../src/bin/cauchy/damage/mod.rs"]
mod damage;

use damage::{Body, Damaged, KINDS, Kind, Random, damaged};
use std::fs::{self, File};
use std::path::{Path, PathBuf};
use std::process::{Command, Output, Stdio};

/// A folder of its own for one test, with whole files in it.
struct Folder(PathBuf);

impl Folder {
    fn new(name: &str) -> Folder {
        let path = std::env::temp_dir().join(format!("cauchy-{name}-{}", std::process::id()));
        let _ = fs::remove_dir_all(&path);
        fs::create_dir(&path).unwrap();
        let body = Body::globe(4, 6);
        for kind in KINDS {
            fs::write(path.join(kind.name()), kind.bytes(&body)).unwrap();
        }
        Folder(path)
    }

    /// Runs the program with one input in place of that of its kind: a file, or standard input for `-`.
    fn run(&self, kind: Kind, input: &str, file: &Path) -> Output {
        let read = |wanted: bool, otherwise: Kind| if wanted { input } else { otherwise.name() };
        let mesh = read(kind.is_mesh(), Kind::Obj);
        let kernels = read(matches!(kind, Kind::List | Kind::Lines | Kind::Toml), Kind::List);
        let files = if kind == Kind::StoreLines { vec![input] } else { vec![mesh, kernels] };
        let mut command = Command::new(env!("CARGO_BIN_EXE_cauchy"));
        command.current_dir(&self.0).arg("run").args(files).args(["--raw", "--steps", "0", "--so-far"]);
        if kind == Kind::Track {
            command.args(["--track", input]);
        }
        let stdin = if input == "-" { Stdio::from(File::open(file).unwrap()) } else { Stdio::null() };
        command.stdin(stdin).output().unwrap()
    }
}

impl Drop for Folder {
    fn drop(&mut self) {
        let _ = fs::remove_dir_all(&self.0);
    }
}

#[test]
fn whole_files_are_taken_by_name_and_from_standard_input() {
    let folder = Folder::new("whole");
    for kind in KINDS {
        let file = folder.0.join(kind.name());
        for input in [kind.name(), "-"] {
            let output = folder.run(kind, input, &file);
            assert!(output.status.success(), "{kind:?} {input}: {output:?}");
        }
    }
}

#[test]
fn damaged_files_are_refused_with_a_message_or_taken() {
    run_many("damaged", 8);
}

#[test]
#[ignore = "minutes: host/test --long"]
fn many_damaged_files_are_refused_with_a_message_or_taken() {
    run_many("many-damaged", 500);
}

fn run_many(name: &str, files: u64) {
    let folder = Folder::new(name);
    let body = Body::globe(4, 6);
    for kind in KINDS {
        let whole = kind.whole(&body);
        for seed in 1..=files {
            // seeds that the program's own tests do not take
            let Damaged { bytes, how, must_be_refused } =
                damaged(kind, &whole, &mut Random::new((1 << 32) + seed));
            let file = format!("damaged-{}", kind.name());
            let path = folder.0.join(&file);
            fs::write(&path, bytes).unwrap();
            let input = if seed % 4 == 0 { "-" } else { &file[..] };
            let output = folder.run(kind, input, &path);
            let what = format!("{kind:?}, seed {seed}, {how}: {output:?}");
            check(&output, if input == "-" { "standard input" } else { input }, must_be_refused, &what);
        }
    }
}

fn check(output: &Output, name: &str, must_be_refused: bool, what: &str) {
    let said = String::from_utf8_lossy(&output.stderr);
    assert!(!said.contains("panicked") && !said.contains('\u{fffd}'), "{what}");
    match output.status.code() {
        Some(0) => assert!(!must_be_refused && said.is_empty(), "{what}"),
        Some(1) => assert!(said.starts_with(&format!("cauchy: {name}")), "{what}"),
        _ => panic!("{what}"),
    }
}
