//! The planner's program, run as a planner runs it.
use std::fs;
use std::path::{Path, PathBuf};
use std::process::{Command, Output};

const BODY: &str = "v 0 0 0\nv 0.9 0 0\nv 0 0.8 0\nv 0 0 0.7\nf 1 3 2\nf 1 2 4\nf 1 4 3\nf 2 3 4\n";
const KERNELS: &str = "0.1 0.15 0.05 2 1200 1\n0.05 0.02 0.09 10 -300 2\n";
const TRACK: &str = "0 0 0\n0.2 0.2 0.2\n0.9 0.9 0.9\n";

/// A folder of its own for one test, with inputs in it. Tests run side by side, so no two have one name.
struct Folder(PathBuf);

impl Folder {
    fn new(name: &str) -> Folder {
        let path = std::env::temp_dir().join(format!("cauchy-{name}-{}", std::process::id()));
        let _ = fs::remove_dir_all(&path);
        fs::create_dir(&path).unwrap();
        let folder = Folder(path);
        folder.write("a.obj", BODY);
        folder.write("k.txt", KERNELS);
        folder.write("t.txt", TRACK);
        folder
    }

    fn write(&self, name: &str, text: impl AsRef<[u8]>) {
        fs::write(self.0.join(name), text).unwrap();
    }

    fn read(&self, name: &str) -> Vec<u8> {
        fs::read(self.0.join(name)).unwrap()
    }

    fn run(&self, line: &str) -> Output {
        let mut command = Command::new(env!("CARGO_BIN_EXE_cauchy"));
        command.current_dir(&self.0).args(line.split_whitespace()).output().unwrap()
    }

    /// Runs a line that goes through.
    fn goes(&self, line: &str) -> String {
        let output = self.run(line);
        assert!(output.status.success() && output.stderr.is_empty(), "{line}: {output:?}");
        String::from_utf8(output.stdout).unwrap()
    }

    /// Runs a line that does not go through, and changes no file.
    fn fails(&self, line: &str, status: i32, said: &str) {
        let before = self.files();
        let output = self.run(line);
        let text = String::from_utf8_lossy(&output.stderr);
        assert_eq!(output.status.code(), Some(status), "{line}: {text}");
        assert!(text.contains(said) && text.starts_with("cauchy: "), "{line}: {text}");
        assert!(!text.contains("panicked"), "{line}: {text}");
        assert!(self.files() == before, "{line}: a file has changed");
    }

    fn files(&self) -> Vec<(PathBuf, Vec<u8>)> {
        let entries = fs::read_dir(&self.0).unwrap().map(|entry| entry.unwrap().path());
        let mut files: Vec<_> = entries.filter(|path| path.is_file()).collect();
        files.sort();
        files.into_iter().map(|path| (path.clone(), fs::read(path).unwrap())).collect()
    }
}

impl Drop for Folder {
    fn drop(&mut self) {
        let _ = fs::remove_dir_all(&self.0);
    }
}

#[test]
fn a_stopped_run_goes_on_from_its_snapshot() {
    let folder = Folder::new("resume");
    let reads = "--mass 1e11 --track t.txt --overwrite --csv c.csv --list l.csv --svg s.svg";
    folder.goes(&format!("run a.obj k.txt {reads}"));
    let whole = ["c.csv", "l.csv", "s.svg"].map(|name| folder.read(name));
    let said = folder.goes("run a.obj k.txt --mass 1e11 --snapshot s.snap --steps 9 --list never.csv");
    assert!(said.contains("9 steps done, 47 left") && said.contains("cauchy resume s.snap"), "{said}");
    assert!(!Path::new(&folder.0.join("never.csv")).exists());
    let said = folder.goes("resume s.snap --raw --steps 20 --snapshot ./s.snap");
    assert!(said.contains("20 steps done, 27 left"), "{said}");
    let said = folder.goes(&format!("resume s.snap {reads}"));
    assert!(said.contains("27 steps done, none left"), "{said}");
    assert!(["c.csv", "l.csv", "s.svg"].map(|name| folder.read(name)) == whole);
}

/// A half worked store, as the version before layers wrote it; see `data/make.py`.
const BEFORE_LAYERS: &[u8] = include_bytes!("data/before-layers.snapshot");

#[test]
fn a_snapshot_of_the_version_before_layers_is_carried_over_with_a_note() {
    let folder = Folder::new("before-layers");
    folder.write("old.snap", BEFORE_LAYERS);
    let note = "carried over from the form before layers: every kernel in layer 0, pieces and work done as they were";
    let reads = "--mass 4.5e11 --track t.txt --overwrite --csv c.csv --list l.csv";
    let files = || ["c.csv", "l.csv"].map(|name| folder.read(name));
    let said = folder.goes(&format!("resume old.snap {reads} --snapshot whole.snap"));
    assert!(said.contains(&format!("mesh      of the snapshot old.snap\n          {note}\n")), "{said}");
    assert!(said.contains(", fitted by an earlier version with an error of "), "{said}");
    let whole = files();
    // the snapshot that is kept is of the form with layers, and goes on to the same figures
    folder.goes("resume old.snap --raw --steps 77 --snapshot part.snap");
    let said = folder.goes(&format!("resume part.snap {reads} --snapshot whole-too.snap"));
    assert!(!said.contains("carried over") && said.contains(", fitted by an earlier version "), "{said}");
    assert!(files() == whole && folder.read("whole-too.snap") == folder.read("whole.snap"));
    assert!(folder.read("old.snap") == BEFORE_LAYERS);

    folder.fails("page old.snap", 1, "old.snap: unfinished: work is left");
    // an old store of no vertex, no face and no kernel; its page goes to standard output, and the note to standard error
    let counts = [1761_u64, 98].map(u64::to_le_bytes).concat();
    let checksum = 0x85b8_10a7_8262_8a08_u64.to_le_bytes();
    folder.write("empty.snap", [b"CAUCHY01", &counts[..], &[0; 8 * 1761 + 4 * 98], &checksum].concat());
    let output = folder.run("page empty.snap");
    assert_eq!(String::from_utf8(output.stdout).unwrap(), format!("TOTAL{:>59}\n", 0));
    assert_eq!(String::from_utf8(output.stderr).unwrap(), format!("cauchy: empty.snap: note: {note}\n"));
    folder.write("cut.snap", &BEFORE_LAYERS[..1000]);
    folder.fails("resume cut.snap --raw", 1, "cut.snap: damaged: bytes are missing");
}

#[test]
fn the_bill_comes_before_the_work() {
    let folder = Folder::new("bill");
    let fitted = "bill      at most 56 steps, and a list of at most 84 floats (672 bytes)\n          \
                  an upper bound: 13 or 16 pieces are assumed for each kernel to be fitted (1 of 2)\n";
    let before = folder.files();
    let said = folder.goes("bill a.obj k.txt");
    assert!(said.starts_with("mesh      a.obj\n          4 vertices, 4 faces\nkernels   k.txt"), "{said}");
    let (head, time) = said.split_once("time      ").unwrap();
    assert!(head.ends_with(fitted), "{said}");
    assert!(
        time.starts_with("about ") && time.contains("an estimate") && time.contains(" ns a step\n"),
        "{said}"
    );
    assert!(folder.files() == before);
    let said = folder.goes("run a.obj k.txt --raw");
    assert!(said.contains(&format!("{fitted}work      56 steps done, none left\n")), "{said}");

    folder.write("flat.txt", "0.1 0.15 0.05 2 1200 1\n0.1 0.15 0.05 2 1200 1\n");
    let exact = "bill      exactly 8 steps, and a list of exactly 12 floats (96 bytes)\n          \
                 exact: no kernel is to be fitted\n";
    assert!(folder.goes("bill a.obj flat.txt --mesh-unit m").contains(exact));
    let said = folder.goes("run a.obj flat.txt --raw --snapshot s.snap");
    assert!(said.contains(&format!("{exact}work      8 steps done")), "{said}");
    assert!(!folder.goes("resume s.snap --raw").contains("bill"));

    folder.fails("bill none.obj k.txt", 1, "none.obj: no such file");
    folder.fails("bill a.obj a.obj", 1, "a.obj, line 1, column 8: a kernel has six numbers");
    let options = "--raw: bill takes no option but --mesh-unit, --loader, --alpha and --json";
    folder.fails("bill a.obj k.txt --raw", 2, options);
    folder.write("large.obj", format!("{BODY}{}", "f 1 3 2\n".repeat(2_097_149)));
    let many = "large.obj, line 2097157, column 7: a mesh has at most 2,097,152 triangles\n";
    folder.fails("bill large.obj k.txt", 1, many);
}

/// A kernel in a bracket line: x, y, z, sigma, weight, and the exponent where there is one.
fn line(numbers: [f64; 5], alpha: Option<f64>) -> String {
    let hex = |x: f64| format!("{:016X}", x.to_bits());
    let [x, y, z, sigma, w] = numbers.map(hex);
    let alpha = alpha.map_or("none".to_string(), hex);
    format!("(kernel (c {x} {y} {z}) (sigma {sigma}) (w {w}) (alpha {alpha}))\n")
}

const FIRST: [f64; 5] = [0.1, 0.15, 0.05, 2.0, 1200.0];
const SECOND: [f64; 5] = [0.05, 0.02, 0.09, 10.0, -300.0];

#[test]
fn bracket_lines_make_the_kernels_of_a_list() {
    let folder = Folder::new("lines");
    let reads =
        "--mass 1e11 --track t.txt --overwrite --csv c.csv --list l.csv --svg s.svg --snapshot s.snap";
    let files = || ["c.csv", "l.csv", "s.svg", "s.snap"].map(|name| folder.read(name));
    let list = folder.goes(&format!("run a.obj k.txt {reads}"));
    let wanted = files();
    folder.write("k.lines", line(FIRST, Some(1.0)) + &line(SECOND, None));
    for loader in ["", "--loader strict", "--loader native", "--loader source"] {
        let said = folder.goes(&format!("run a.obj k.lines {loader} --alpha 2 {reads}"));
        assert!(files() == wanted, "{loader}");
        let name = loader.split(' ').next_back().filter(|name| !name.is_empty()).unwrap_or("strict");
        let (ours, its) =
            (format!("k.lines, by the loader {name}, default exponent 2"), "k.txt, default exponent 1");
        assert_eq!(said.replace(&ours, its), list);
    }
    let said = folder.goes("bill a.obj k.lines --alpha 2 --loader native --mesh-unit m");
    assert!(said.contains("kernels   k.lines, by the loader native, default exponent 2\n"), "{said}");
    assert!(said.contains("at most 56 steps"), "{said}");
}

#[test]
fn a_loader_is_named_where_the_loaders_differ() {
    let folder = Folder::new("loaders");
    let low = line(SECOND, Some(-1.0));
    folder.write("low.lines", line(FIRST, None) + &low + &line(FIRST, Some(-0.0)));
    let differ = "low.lines, line 2, column 117: loaders differ: the exponent is 1 by native and -1 by source; \
                  --loader names one of them (no 21)";
    for loader in ["", "--loader strict"] {
        folder.fails(&format!("run a.obj low.lines --raw --list l.csv {loader}"), 1, differ);
        folder.fails(&format!("bill a.obj low.lines {loader}"), 1, differ);
    }
    let native = folder.goes("run a.obj low.lines --raw --loader native");
    assert!(native.contains("place 1: exponent -1 is not above 0, the default is taken"), "{native}");
    assert!(native.contains("place 2: exponent -0 is not above 0, the default is taken"), "{native}");
    let source = folder.goes("run a.obj low.lines --raw --loader source");
    assert!(source.contains("place 1: exponent -1 is not above 0, and is kept"), "{source}");
    assert!(source.contains("place 1   16 pieces   exponent -1"), "{source}");
    assert!(!source.contains("default is taken"), "{source}");

    // numbers that are not finite are read, and what comes of them is said
    folder.write("nan.lines", line([0.1, 0.1, 0.1, 2.0, f64::NAN], None));
    let said = folder.goes("run a.obj nan.lines --mass 1e11 --track t.txt --svg s.svg");
    assert!(said.contains("the target is NOT met") && said.contains("not a finite number"), "{said}");
    folder.write("wide.lines", line([0.1, f64::INFINITY, 0.1, 2.0, 5.0], Some(f64::NAN)));
    let said = folder.goes("run a.obj wide.lines --raw --loader source");
    assert!(said.contains("place 0   0 pieces    exponent NaN: no exponent, so no piece\n"), "{said}");
}

#[test]
fn bad_bracket_lines_are_named() {
    let folder = Folder::new("bad-lines");
    let good = line(FIRST, None);
    let form = "bad kernel line: not (kernel (c h h h) (sigma h) (w h) (alpha h or none)) (no 20)";
    let bad = |name: &str, text: String, said: &str| {
        folder.write(name, text);
        for loader in ["", "--loader native", "--loader source", "--loader strict --alpha 3"] {
            folder.fails(
                &format!("run a.obj {name} --raw --list l.csv {loader}"),
                1,
                &format!("{name}, {said}"),
            );
            folder.fails(&format!("bill a.obj {name} {loader}"), 1, &format!("{name}, {said}"));
        }
    };
    bad(
        "cut",
        good.repeat(2).trim_end().into(),
        &format!("line 2, column 123: {form}: the newline at its end is missing"),
    );
    bad(
        "dos",
        good.replace('\n', "\r\n"),
        &format!("line 1, column 123: {form}: a carriage return stands at its end"),
    );
    bad("nul", good.clone() + "\0\n" + &good, &format!("line 2, column 1: {form}\n"));
    bad("blank", good.clone() + "\n", &format!("line 2, column 1: {form}\n"));
    bad("note", good.clone() + "# note\n", &format!("line 2, column 1: {form}\n"));
    bad("lower", good.to_lowercase(), &format!("line 1, column 13: {form}\n"));
    bad("mixed", good.clone() + KERNELS, &format!("line 2, column 1: {form}\n"));
    // a line that is not of the form comes ahead of one on which the loaders differ
    bad("both", line(FIRST, Some(-1.0)) + "hello\n", &format!("line 2, column 1: {form}\n"));
    bad("many", good.repeat(33), "line 33, column 1: one kernel too many: a store has 32 places");

    for option in ["--loader native", "--alpha 2"] {
        let said = "k.txt, line 1, column 1: --loader and --alpha go with bracket lines, (kernel ..), --loader with TOML \
                    too: this is neither\n";
        folder.fails(&format!("run a.obj k.txt --raw {option}"), 1, said);
        folder.write("empty", "");
        folder.fails(&format!("run a.obj empty --raw {option}"), 1, "empty: has no kernel");
    }
    folder.fails("run a.obj k.txt --raw --loader both", 2, "both is none of native, source and strict");
    folder.fails("run a.obj k.txt --raw --alpha -1", 2, "--alpha: -1 is not a number above 0");
    folder.goes("run a.obj k.txt --raw --snapshot s.snap");
    folder.fails("resume s.snap --raw --loader native", 2, "--loader and --alpha go with run");
}

#[test]
fn the_convention_is_named_and_followed() {
    let folder = Folder::new("conventions");
    let raw = folder.goes("run a.obj k.txt --raw");
    assert!(raw.contains("by the convention raw: weights as entered"), "{raw}");
    let rho0 = folder.goes("run a.obj k.txt --rho0 --bulk 1500");
    assert!(rho0.contains("density at the origin brought to 1500 kg/m³"), "{rho0}");
    let mass = folder.goes("run a.obj k.txt --mass 1e11");
    assert!(mass.contains("field mass brought to 1e11 kg"), "{mass}");
}

#[test]
fn layers_are_read_alone_and_reported_beside_the_whole() {
    let folder = Folder::new("layers");
    folder.write("k.txt", "0 0 0 0.5 1000 1\n0 0 0 0.5 500 1 7\n0 0 0 2 -80 1.5 7\n");
    let said = folder.goes("run a.obj k.txt --raw --by-layer");
    assert!(
        said.contains("exponent 1, kept, in layer 7") && said.contains("By layer, by the convention raw"),
        "{said}"
    );
    let row = |name: &str| said.lines().find(|line| line.trim_start().starts_with(name)).unwrap().to_string();
    let counts =
        |name: &str| row(name).split_whitespace().skip(1).take(2).map(str::to_string).collect::<Vec<_>>();
    assert_eq!(
        (counts("0  "), counts("7  "), counts("all")),
        (strings(["1", "1"]), strings(["2", "14"]), strings(["3", "15"]))
    );
    let seven = folder.goes("run a.obj k.txt --raw --layers 7");
    assert!(
        seven.contains("Mass report of layer 7 by the convention raw")
            && seven.contains("list by the convention raw: 14 pieces")
    );
    // what is read is not what is kept: the wall page stays that of every layer
    assert!(seven.contains("\n   0  1 "), "{seven}");
    folder.fails("run a.obj k.txt --raw --layers 7,16", 2, "--layers: `16` is not a layer: they are 0 to 15");
    folder.write("bad.txt", "0 0 0 0.5 1000 1 16\n");
    folder.fails(
        "run a.obj bad.txt --raw",
        1,
        "bad.txt, line 1, column 18: `16` is not a layer: they are 0 to 15",
    );
}

fn strings<const N: usize>(words: [&str; N]) -> Vec<String> {
    words.map(str::to_string).to_vec()
}

#[test]
fn what_is_finished_is_told_and_what_is_not_is_named() {
    let folder = Folder::new("so-far");
    folder.write("k.txt", "0 0 0 0.5 1000 1\n0 0 0 0.5 500 1 7\n0 0 0 2 -80 1.5 7\n");
    let all = folder.goes("run a.obj k.txt --raw");
    let faces: usize = all.split(" faces").next().unwrap().rsplit(' ').next().unwrap().parse().unwrap();
    let some = folder.goes(&format!("run a.obj k.txt --raw --steps {} --so-far", faces + 1));
    assert!(
        some.contains("Mass of what is finished, by the convention raw")
            && some.contains("1 kernel, 1 piece"),
        "{some}"
    );
    assert!(some.contains("NOT the mass of the store: it is without 2 kernels with work left"), "{some}");
    assert!(some.contains(&format!("not in it: place 1, in layer 7, {} steps left", faces - 1)), "{some}");
    assert!(some.contains("not in it: place 2, in layer 7, ") && !some.contains("Mass report"), "{some}");
    folder.fails("run a.obj k.txt --raw --steps 5", 2, "give --snapshot FILE or --so-far too");
}

#[test]
fn a_track_may_have_any_number_of_points() {
    let folder = Folder::new("track");
    let densities = |track: &str| -> Vec<String> {
        folder.write("long.txt", track);
        folder.goes("run a.obj k.txt --mass 1e11 --track long.txt --csv c.csv --overwrite");
        let table = String::from_utf8(folder.read("c.csv")).unwrap();
        assert!(table.starts_with("distance_m,x_m,y_m,z_m,density_kg_m3,inside\n"), "{table}");
        // what comes after the way and the point
        table.lines().skip(1).map(|line| line.splitn(5, ',').nth(4).unwrap().to_string()).collect()
    };
    let three = densities(TRACK);
    let inside = |line: &String| line.ends_with(",true");
    assert_eq!(three.iter().map(inside).collect::<Vec<_>>(), [true, true, false]);
    assert!(three[0] != three[1] && three[0].starts_with(|c: char| c.is_ascii_digit()), "{three:?}");
    let long = densities(&TRACK.repeat(3000));
    assert!(long.len() == 9000 && long.chunks(3).all(|densities| densities == three));
}

#[test]
fn what_a_planner_must_not_overlook_is_said() {
    let folder = Folder::new("cautions");
    folder.write("none.txt", "0.1 0.1 0.1 2 0 1\n");
    let said = folder.goes("run a.obj none.txt --mass 1e11");
    assert!(said.contains("the target is NOT met") && said.contains("NOT brought to the bulk"), "{said}");
    folder.write("less.txt", "0.1 0.1 0.1 2 -5 1\n");
    let said = folder.goes("run a.obj less.txt --mass 1e11");
    assert!(said.contains("every weight changes its sign"), "{said}");
    folder.write("out.obj", "v 0 0 0\nv 0.9 0 0\nv 0 0.8 0\nv 0 0 0.7\nf 1 2 3\nf 1 4 2\nf 1 3 4\nf 2 4 3\n");
    let said = folder.goes("run out.obj k.txt --raw");
    assert!(said.contains("inside out and have been turned"), "{said}");
    let reports = [said, folder.goes("run a.obj k.txt --raw")].map(|page| {
        let report = page.split("Mass report").nth(1).unwrap().to_string();
        report.lines().find(|line| line.contains("by this convention")).unwrap()[..60].to_string()
    });
    assert_eq!(reports[0], reports[1]);
    folder.write("low.txt", "default 2\n0.1 0.1 0.1 2 5 -1\n");
    let said = folder.goes("run a.obj low.txt --raw");
    assert!(said.contains("place 0: exponent -1 is not above 0, the default is taken"), "{said}");
    folder.write("flat.obj", "v 0 0 0\nv 1 0 0\nv 0 1 0\nf 1 2 3\n");
    let said = folder.goes("run flat.obj k.txt --raw");
    assert!(said.contains("encloses no volume"), "{said}");
}

#[test]
fn a_mesh_that_is_not_closed_is_read_with_a_note() {
    let folder = Folder::new("closed");
    let said = folder.goes("run a.obj k.txt --raw --snapshot whole.snap");
    assert!(said.contains("closed: every edge occurs once each way") && !said.contains("NOT"), "{said}");
    assert!(folder.goes("resume whole.snap --raw").contains("closed: every edge occurs once each way"));

    let note = "the mesh is NOT closed: field mass means nothing on a shell with a hole";
    folder.write("hole.obj", BODY.replace("f 2 3 4\n", ""));
    let said = folder.goes("run hole.obj k.txt --raw --snapshot hole.snap");
    let lines = [
        "NOT closed: field mass means nothing on a shell with a hole",
        "edges that do not occur once each way: 3 (vertices counted from 1)",
        "  3 → 2 in 1 face, 2 → 3 in 0 faces: (0, 0.8, 0) to (0.9, 0, 0) km",
    ];
    assert!(said.contains(&lines.map(|line| format!("          {line}\n")).concat()), "{said}");
    assert!(said.contains(&format!("  Note: {note}\n")), "{said}");
    let said = folder.goes("resume hole.snap --raw");
    assert!(said.contains(lines[2]) && said.contains(note), "{said}");

    folder.write("twice.obj", format!("{BODY}f 1 1 2\n"));
    let said = folder.goes("run twice.obj k.txt --raw");
    assert!(said.contains("faces that name a corner twice: 1") && said.contains("  1 1 2: at (0, 0, 0) km"));
    assert!(said.contains(note), "{said}");
}

#[test]
fn unused_vertices_are_counted_and_taken_out() {
    let folder = Folder::new("squeeze");
    let vertices = "v 0 0 0\nv 0.9 0 0\nv 0.3 0.3 0.3\nv 0.1 0 0\nv 0 0.8 0\nv 0 0 0.7\n";
    folder.write("spare.obj", format!("{vertices}f 1 5 2\nf 1 2 6\nf 1 6 5\nf 2 5 6\n"));
    let reads = "--mass 1e11 --track t.txt --overwrite --csv c.csv --list l.csv --svg s.svg";
    let files = || ["c.csv", "l.csv", "s.svg"].map(|name| folder.read(name));
    let report = |said: &str| said.split("Mass report").nth(1).unwrap().to_string();

    let plain = folder.goes(&format!("run a.obj k.txt {reads}"));
    assert!(!plain.contains("no face"), "{plain}");
    let wanted = (report(&plain), files());
    let said = folder.goes(&format!("run spare.obj k.txt {reads}"));
    assert!(said.contains("2 vertices in no face: see --squeeze"), "{said}");
    assert!(said.contains("6 vertices, 4 faces"), "{said}");
    assert!((report(&said), files()) == wanted);
    let said = folder.goes(&format!("run spare.obj k.txt {reads} --squeeze"));
    assert!(said.contains("2 vertices in no face, taken out"), "{said}");
    assert!(said.contains("4 vertices, 4 faces"), "{said}");
    assert!((report(&said), files()) == wanted);
    let said = folder.goes("run a.obj k.txt --raw --squeeze");
    assert!(said.contains("every vertex is in a face: none taken out"), "{said}");

    // between two portions of work, and from a snapshot of a squeezed store
    folder.goes("run spare.obj k.txt --raw --snapshot s.snap --steps 9");
    let said = folder.goes("resume s.snap --raw --snapshot s.snap --steps 9 --squeeze");
    assert!(said.contains("2 vertices in no face, taken out") && said.contains("38 left"), "{said}");
    let said = folder.goes(&format!("resume s.snap {reads}"));
    assert!(said.contains("4 vertices, 4 faces") && !said.contains("no face"), "{said}");
    assert!((report(&said), files()) == wanted);
}

/// The wall page in what a run prints.
fn wall(said: &str) -> String {
    let lines = said.split("\nWall page: ").nth(1).unwrap().lines().skip(1);
    lines.map_while(|line| line.strip_prefix("  ")).map(|line| format!("{line}\n")).collect()
}

#[test]
fn the_wall_page_is_printed_and_written() {
    let folder = Folder::new("page");
    let said = folder.goes("run a.obj k.txt --raw --page wall.txt --snapshot s.snap");
    let page = folder.goes("page s.snap");
    assert_eq!((wall(&said), folder.read("wall.txt")), (page.clone(), page.clone().into_bytes()));
    assert!(said.contains("written   wall.txt\n"), "{said}");
    assert!(page.lines().all(|line| line.len() == 64) && page.len() == 3 * 65, "{page}");
    let figures: Vec<Vec<&str>> = page.lines().map(|line| line.split_whitespace().collect()).collect();
    let mass = |line: &[&str]| line.last().unwrap().parse::<i64>().unwrap();
    assert_eq!((&figures[0][..2], &figures[1][..2]), (&["0", "1"][..], &["1", "13"][..]));
    assert_eq!((figures[2][0], mass(&figures[2])), ("TOTAL", mass(&figures[0]) + mass(&figures[1])));
    assert!(mass(&figures[0]) > 0 && mass(&figures[1]) < 0, "{page}");

    // no convention changes it, and a store that was resumed has the same
    let rescaled = folder.goes("run a.obj k.txt --mass 1e11 --snapshot begun --steps 9");
    assert!(!rescaled.contains("Wall page"), "{rescaled}");
    folder.fails(
        "page begun",
        1,
        "begun: unfinished: work is left that this reading needs (no 8); cauchy resume",
    );
    let said = folder.goes("resume begun --mass 1e11 --snapshot begun --page again.txt");
    assert_eq!((wall(&said), folder.read("again.txt")), (page.clone(), page.clone().into_bytes()));
    assert_eq!(folder.goes("page begun"), page);

    folder.fails("run a.obj k.txt --raw --page wall.txt", 1, "wall.txt: is there already");
    folder.fails("run a.obj k.txt --raw --page p --list ./p", 2, "two outputs are to go there");
    folder.fails("run a.obj k.txt --raw --page k.txt --overwrite", 2, "k.txt: it is read");
    folder.fails("page none.snap", 1, "none.snap: no such file");
    folder.fails("page a.obj", 1, "a.obj: not a snapshot of a store");
    folder.fails("page s.snap --raw", 2, "page takes no option");
}

#[test]
fn a_mass_without_a_figure_has_no_page() {
    let folder = Folder::new("no-figure");
    let told = "no figure: the mass of a place is NaN or exceeds 10^15 kg (no 17)";
    folder.write("heavy.txt", format!("{KERNELS}0 0 0 0 1e90 1\n"));
    let said = folder.goes("run a.obj heavy.txt --raw --list l.csv --snapshot heavy.snap");
    assert!(said.contains(&format!("\nWall page: {told}\n")), "{said}");
    folder.fails("page heavy.snap", 1, &format!("heavy.snap: {told}"));
    // the other files are written
    let output = folder.run("run a.obj heavy.txt --raw --list l.csv --page wall.txt --overwrite");
    assert_eq!(output.status.code(), Some(1));
    assert_eq!(String::from_utf8_lossy(&output.stderr), format!("cauchy: page: {told}\n"));
    assert!(folder.read("l.csv").starts_with(b"place,") && !folder.0.join("wall.txt").exists());
    folder.write("nan.lines", line([0.1, 0.1, 0.1, 2.0, f64::NAN], None));
    assert!(folder.goes("run a.obj nan.lines --raw").contains(&format!("\nWall page: {told}\n")));
}

#[test]
fn a_page_of_an_open_shell_has_a_note_beside_it() {
    let folder = Folder::new("open-page");
    folder.write("hole.obj", BODY.replace("f 2 3 4\n", ""));
    let said = folder.goes("run hole.obj k.txt --raw --snapshot hole.snap");
    let output = folder.run("page hole.snap");
    assert!(output.status.success());
    // the page's own bytes stay as they are; what a run prints says it behind every mass
    let page = String::from_utf8(output.stdout).unwrap();
    assert!(page.lines().count() == 3 && !page.contains("NOT"), "{page}");
    assert_eq!(page.replace('\n', "  mesh NOT closed\n"), wall(&said));
    let note =
        "cauchy: hole.snap: note: the mesh is NOT closed: field mass means nothing on a shell with a hole\n";
    assert_eq!(String::from_utf8_lossy(&output.stderr), note);
}

#[test]
fn bad_files_are_named() {
    let folder = Folder::new("bad-files");
    folder.write("bad.obj", format!("{BODY}f 1 2 9\n"));
    folder.write("bad.txt", "# one\n0 0 0 1 1\n");
    folder.write("binary", [0u8, 159, 146, 150, 10, 255]);
    folder.write("empty", "");
    folder.fails("run none.obj k.txt --raw", 1, "none.obj: no such file");
    folder.fails("run . k.txt --raw", 1, ".: is a folder");
    folder.fails(
        "run bad.obj k.txt --raw",
        1,
        "bad.obj, line 9, column 7: corner 9 of 4 vertices\n  f 1 2 9\n        ^\n",
    );
    folder.fails(
        "run binary k.txt --raw",
        1,
        "binary, line 1, column 1: no mesh begins like this: OBJ, PLY, STL",
    );
    folder.fails("run empty k.txt --raw", 1, "empty: has no face");
    folder.fails("run a.obj bad.txt --raw", 1, "bad.txt, line 2, column 10: a kernel has six numbers");
    folder.fails("run a.obj binary --raw", 1, "binary, line 1, column 5: a kernel has six numbers");
    folder.fails("run a.obj empty --raw", 1, "empty: has no kernel");
    folder.fails("run a.obj k.txt --raw --track none.txt", 1, "none.txt: no such file");
    folder.fails(
        "run a.obj k.txt --raw --track a.obj",
        1,
        "a.obj, line 1, column 7: a point has three numbers",
    );
    folder.fails("run a.obj k.txt", 2, "name a convention");
    folder.fails("run a.obj k.txt --row", 2, "--row is no option");
    folder.fails("", 2, "nothing asked");
}

#[test]
fn bad_snapshots_are_named() {
    let folder = Folder::new("bad-snapshots");
    folder.goes("run a.obj k.txt --raw --snapshot s.snap");
    let mut bytes = folder.read("s.snap");
    folder.write("cut.snap", &bytes[..bytes.len() - 1]);
    bytes[2000] ^= 4;
    folder.write("bad.snap", bytes);
    folder.fails("resume cut.snap --raw", 1, "cut.snap: damaged: bytes are missing");
    folder.fails("resume bad.snap --raw", 1, "bad.snap: damaged: its checksum does not fit");
    folder.fails("resume a.obj --raw", 1, "a.obj: not a snapshot of a store");
    folder.fails("resume none.snap --raw", 1, "none.snap: no such file");
}

#[test]
fn no_file_is_lost() {
    let folder = Folder::new("outputs");
    folder.write("old", "kept");
    let run = "run a.obj k.txt --raw --track t.txt";
    folder.fails(&format!("{run} --csv old"), 1, "old: is there already; --overwrite replaces it");
    folder.fails(&format!("{run} --snapshot old"), 1, "old: is there already");
    folder.fails(&format!("{run} --csv x --svg ./x"), 2, "two outputs are to go there");
    folder.fails(&format!("{run} --list a.obj --overwrite"), 2, "a.obj: it is read");
    folder.fails(&format!("{run} --csv ./t.txt --overwrite"), 2, "t.txt: it is read");
    folder.fails(&format!("{run} --csv none/x"), 1, "none/x: no such file or folder");
    folder.fails(&format!("{run} --csv . --overwrite"), 1, ".: is a folder");
    folder.fails(&format!("{run} --csv /dev/null --overwrite"), 1, "/dev/null: is not a plain file");
    folder.goes(&format!("{run} --csv old --overwrite"));
    assert!(folder.read("old").starts_with(b"distance_m"));
    folder.write("aim", "");
    std::os::unix::fs::symlink("aim", folder.0.join("link")).unwrap();
    folder.goes(&format!("{run} --csv link --overwrite"));
    assert!(folder.0.join("link").is_symlink() && folder.read("aim").starts_with(b"distance_m"));
    assert!(folder.files().iter().all(|(path, _)| !path.to_string_lossy().contains(".part")));
}

#[test]
fn help_and_version_are_given() {
    let folder = Folder::new("help");
    for line in ["help", "--help", "-h"] {
        assert!(
            folder.goes(line).contains("  reweigh  Changes the weight of the kernel in a place"),
            "{line}"
        );
    }
    for line in ["run --help", "run -h", "help run", "run a.obj --fast --help"] {
        assert!(folder.goes(line).contains("  cauchy run MESH KERNELS CONVENTION [OPTIONS]\n"), "{line}");
    }
    assert!(folder.goes("--version").starts_with("cauchy "));
}

#[test]
fn a_closed_output_is_no_fault() {
    let folder = Folder::new("pipe");
    let line = format!("{} run a.obj k.txt --raw --list l.csv | head -c 1", env!("CARGO_BIN_EXE_cauchy"));
    let output = Command::new("sh").current_dir(&folder.0).args(["-c", &line]).output().unwrap();
    assert!(output.stderr.is_empty(), "{output:?}");
    assert!(folder.read("l.csv").starts_with(b"place,"));
}

#[test]
fn a_store_goes_out_as_lines_and_comes_back() {
    let folder = Folder::new("export");
    let reads = "--mass 1e11 --track t.txt --overwrite --csv c.csv --list l.csv --svg s.svg";
    let files = || ["c.csv", "l.csv", "s.svg"].map(|name| folder.read(name));
    folder.goes(&format!("run a.obj k.txt {reads}"));
    let wanted = files();
    folder.goes("run a.obj k.txt --mass 1e11 --snapshot s.snap --steps 0");
    let lines = folder.goes("export s.snap");
    assert!(lines.starts_with("(open (radius 408C200000000000) (verts 4) (faces 4))\n(vert "), "{lines}");
    assert_eq!(lines.lines().count(), 1 + 4 + 4 + 2);
    let said = folder.goes("export s.snap s.lines");
    assert_eq!(said, format!("written   s.lines\n          11 lines, {} bytes\n", lines.len()));
    assert_eq!(folder.read("s.lines"), lines.as_bytes());

    // a run of the lines reads what a run of the files does, and its snapshot is that of an import
    let said = folder.goes(&format!("run s.lines {reads}"));
    assert!(said.starts_with("mesh      of the lines s.lines\n"), "{said}");
    assert!(
        said.contains("kernels   of the lines\n") && said.contains("bill      at most 56 steps"),
        "{said}"
    );
    assert!(files() == wanted);
    let said = folder.goes("import s.lines --snapshot again.snap");
    assert!(said.contains("written   again.snap\nThe work: cauchy resume again.snap ..\n"), "{said}");
    assert_eq!(folder.read("again.snap"), folder.read("s.snap"));
    folder.goes(&format!("resume again.snap {reads}"));
    assert!(files() == wanted);
    assert_eq!(folder.goes("export again.snap"), lines);
    let said = folder.goes("bill s.lines");
    let head = "mesh      of the lines s.lines\n          4 vertices, 4 faces\nbill      at most 56 steps";
    assert!(said.starts_with(head) && said.contains("\ntime      about "), "{said}");

    // work that is done is not in the lines, which a note tells
    folder.goes("resume s.snap --raw --steps 9 --snapshot half.snap");
    let output = folder.run("export half.snap");
    assert_eq!(output.stdout, lines.as_bytes());
    let note = "cauchy: half.snap: note: the work that is done, 9 steps, is not in the lines\n";
    assert_eq!(String::from_utf8(output.stderr).unwrap(), note);
}

#[test]
fn lines_that_are_refused_are_named() {
    let folder = Folder::new("refused-lines");
    folder.goes("run a.obj k.txt --raw --snapshot s.snap");
    let lines = String::from_utf8(folder.run("export s.snap").stdout).unwrap();
    for (name, old, new, line, said) in [
        (
            "corner.lines",
            "(face 0 1 3)",
            "(face 0 1 4)",
            "7, column 11",
            "loose corner: a face names a vertex that is not there (no 3)",
        ),
        ("place.lines", "(put 1 ", "(put 32 ", "11, column 6", "no place: the places are 0 to 31 (no 6)"),
        (
            "layer.lines",
            "(layer 0))",
            "(layer 16))",
            "10, column 141",
            "no layer: the layers are 0 to 15 (no 16)",
        ),
        (
            "count.lines",
            "(verts 4)",
            "(verts 5)",
            "6, column 2",
            "vertex 5, (vert H H H), is due: bad line: ",
        ),
        (
            "open.lines",
            "(open ",
            " (open ",
            "1, column 1",
            "not (open (radius H) (verts N) (faces N)): bad line: ",
        ),
        (
            "return.lines",
            "(face 0 1 3)",
            "(face 0 1 3)\r",
            "7, column 13",
            "face 2, (face N N N), is due, and a carriage return stands at its end: bad line",
        ),
        (
            "zero.lines",
            "(put 1 ",
            "(put 01 ",
            "11, column 7",
            "not (put N (c H H H) (sigma H) (w H) (alpha H) (layer N)): bad",
        ),
    ] {
        assert!(lines.contains(old), "{old}");
        folder.write(name, lines.replacen(old, new, 1));
        let wanted = format!("{name}, line {line}: {said}");
        folder.fails(&format!("import {name} --snapshot never.snap"), 1, &wanted);
        folder.fails(&format!("run {name} --raw --snapshot never.snap"), 1, &wanted);
        folder.fails(&format!("bill {name}"), 1, &wanted);
    }
    folder.write("cut.lines", &lines[..lines.len() - 1]);
    folder.fails(
        "import cut.lines --snapshot never.snap",
        1,
        "line 11, column 144: not (put N (c H H H) (sigma H) (w H) (alpha H)",
    );
    folder.write("short.lines", lines.split_inclusive('\n').take(7).collect::<String>());
    folder.fails(
        "run short.lines --raw",
        1,
        "short.lines, line 8: the file ends, and face 3, (face N N N), is due",
    );
    folder.write("empty.lines", "");
    folder.fails("bill empty.lines", 1, "empty.lines, line 1, column 1: not (open ");
    folder.fails("bill a.obj", 1, "a.obj, line 1, column 1: not (open ");
    folder.fails("import none.lines --snapshot s", 1, "none.lines: no such file");
    folder.fails("import s.snap --snapshot s.snap", 2, "it is read, and not to be replaced");
    folder.fails(
        "import cut.lines --snapshot s.snap",
        1,
        "s.snap: is there already; --overwrite replaces it",
    );
    folder.fails("export s.snap s.snap", 2, "it is read, and not to be replaced");
    folder.fails("export s.snap a.obj", 1, "a.obj: is there already; --overwrite replaces it");
    folder.fails("export a.obj", 1, "a.obj: not a snapshot of a store");
    folder.fails("export s.snap none/x.lines", 1, "none/x.lines: no such file or folder");
}
