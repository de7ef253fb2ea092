//! Readings of a store as commands of their own: of a folder, of a snapshot and of lines, in words and as JSON.
use std::fs;
use std::io::Write;
use std::path::PathBuf;
use std::process::{Command, Output, Stdio};

const BODY: &str = "v 0 0 0\nv 0.9 0 0\nv 0 0.8 0\nv 0 0 0.7\nf 1 3 2\nf 1 2 4\nf 1 4 3\nf 2 3 4\n";
const KERNELS: &str = "0.1 0.15 0.05 2 1200 1\n0.05 0.02 0.09 10 -300 2 7\n";
const TRACK: &str = "0 0 0\n0.2 0.2 0.2\n0.9 0.9 0.9\n";

/// A folder of its own for one test, with inputs in it.
struct Folder(PathBuf);

impl Folder {
    fn new(name: &str) -> Folder {
        let path = std::env::temp_dir().join(format!("cauchy-readings-{name}-{}", std::process::id()));
        let _ = fs::remove_dir_all(&path);
        fs::create_dir(&path).unwrap();
        let folder = Folder(path);
        folder.write("a.obj", BODY);
        folder.write("k.txt", KERNELS);
        folder.write("t.txt", TRACK);
        folder
    }

    /// With a store in a folder, none of its work done.
    fn with_store(name: &str) -> Folder {
        let folder = Folder::new(name);
        folder.goes("init store a.obj");
        folder.goes("put store k.txt");
        folder
    }

    fn write(&self, name: &str, text: impl AsRef<[u8]>) {
        fs::write(self.0.join(name), text).unwrap();
    }

    fn read(&self, name: &str) -> String {
        fs::read_to_string(self.0.join(name)).unwrap()
    }

    fn run(&self, line: &str) -> Output {
        let mut command = Command::new(env!("CARGO_BIN_EXE_cauchy"));
        command.current_dir(&self.0).args(line.split_whitespace()).output().unwrap()
    }

    /// Runs a line that goes through.
    fn goes(&self, line: &str) -> String {
        let output = self.run(line);
        assert!(output.status.success() && output.stderr.is_empty(), "{line}: {output:?}");
        String::from_utf8(output.stdout).unwrap()
    }

    /// Runs a line that does not go through.
    fn fails(&self, line: &str, said: &str) {
        let output = self.run(line);
        let text = String::from_utf8_lossy(&output.stderr);
        assert!(output.status.code() == Some(1) && output.stdout.is_empty(), "{line}: {output:?}");
        assert!(text.starts_with("cauchy: ") && text.contains(said), "{line}: {text}");
    }

    /// The example's body, cut off at line 700 of 1,084, as a broken download leaves it.
    fn cut_body(&self) {
        let body = fs::read_to_string(concat!(env!("CARGO_MANIFEST_DIR"), "/../example/body.obj")).unwrap();
        let lines: Vec<&str> = body.lines().collect();
        assert_eq!(lines.len(), 1084);
        self.write("cut.obj", lines[..700].join("\n"));
    }
}

impl Drop for Folder {
    fn drop(&mut self) {
        let _ = fs::remove_dir_all(&self.0);
    }
}

const NOT_CLOSED: &str = "the mesh is NOT closed: field mass means nothing on a shell with a hole";

/// The lines of a text that have a word in them.
fn lines_with<'a>(text: &'a str, word: &str) -> Vec<&'a str> {
    text.lines().filter(|line| line.contains(word)).collect()
}

#[test]
fn a_mesh_that_is_cut_off_is_told_on_the_line_of_every_mass() {
    let folder = Folder::new("cut");
    folder.cut_body();
    folder.write("k.txt", "0 0 0 1.5 1480 1\n0.23 0.05 0.19 7.5 900 1.5\n");
    let said = folder.goes("run cut.obj k.txt --raw --by-layer --snapshot cut.snap");
    let report = said.split("Mass report").nth(1).unwrap();
    let masses = lines_with(report, " kg  ");
    assert_eq!(masses.len(), 3, "{report}");
    let all = masses.into_iter().chain(lines_with(report, " m³")).chain(lines_with(report, "mean density"));
    assert!(all.into_iter().all(|line| line.ends_with("mesh NOT closed")), "{report}");
    assert!(report.contains(&format!("  Note: {NOT_CLOSED}\n")), "{report}");
    let table = report.split("By layer").nth(1).unwrap().split("\n\n").next().unwrap();
    assert!(table.lines().skip(2).all(|line| line.ends_with("mesh NOT closed")), "{table}");
    let wall = said.split("Wall page").nth(1).unwrap().split("\n\n").next().unwrap();
    assert!(wall.lines().skip(1).all(|line| line.ends_with("mesh NOT closed")), "{wall}");

    folder.goes("init store cut.obj");
    folder.goes("put store k.txt");
    let finished = folder.goes("finished store --raw --mass 4.5e11");
    assert!(lines_with(&finished, "field mass [kg]")[0].ends_with("mesh NOT closed"), "{finished}");
    folder.goes("advance store");
    for from in ["store", "cut.snap"] {
        let one = folder.goes(&format!("report {from} --raw"));
        assert_eq!(lines_with(&one, "mesh NOT closed").len(), 5, "{one}");
        let several = folder.goes(&format!("report {from} --raw --mass 4.5e11"));
        assert_eq!(lines_with(&several, "mesh NOT closed").len(), 3, "{several}");
        let finished = folder.goes(&format!("finished {from} --raw"));
        assert_eq!(lines_with(&finished, "mesh NOT closed").len(), 2, "{finished}");
        // what is no mass tells it too, once, and the vertices that the lost faces had
        let notes = format!("  Note: {NOT_CLOSED}\n  Note: 169 vertices are in no face\n");
        let readings = [
            "density FROM 0 0 0 --raw",
            "track FROM t.txt --raw",
            "list FROM --raw",
            "bill FROM",
            "status FROM",
        ];
        for line in readings.map(|line| line.replace("FROM", from)) {
            assert!(folder.goes(&line).ends_with(&notes), "{line}");
        }
        for line in
            ["report FROM --raw", "finished FROM --raw", "page FROM"].map(|line| line.replace("FROM", from))
        {
            assert!(folder.goes(&format!("{line} --json")).contains("\"mesh_closed\": false"), "{line}");
        }
        // the page's bytes are the archive's, and what must be known beside them goes to standard error
        let page = folder.run(&format!("page {from}"));
        assert!(page.status.success() && page.stdout.len() == 3 * 65, "{page:?}");
        let beside = format!(
            "cauchy: {from}: note: {NOT_CLOSED}\ncauchy: {from}: note: 169 vertices are in no face\n"
        );
        assert_eq!(String::from_utf8(page.stderr).unwrap(), beside);
    }
    assert!(folder.goes("bill cut.obj k.txt").ends_with("  Note: 169 vertices are in no face\n"));
}

#[test]
fn a_fit_that_is_off_is_told() {
    let folder = Folder::new("fits");
    folder.write("k.txt", "0 0 0 2 1200 1\n0 0 0 9 -300 2\n0 0 0 9 -300 1e6 3\n");
    let note = "Note: place 2: its fit is off by 58 % of its peak, more than 1 %\n";
    let said = folder.goes("run a.obj k.txt --raw --snapshot s.snap");
    let (head, report) = said.split_once("\nMass report").unwrap();
    assert!(head.contains(&format!("          {note}")) && report.contains(&format!("  {note}")), "{said}");
    for line in ["report s.snap --raw", "finished s.snap --raw", "list s.snap --raw", "status s.snap"] {
        assert!(folder.goes(line).contains(&format!("  {note}")), "{line}");
    }
    // a reading of other layers has nothing to do with it
    assert!(!folder.goes("report s.snap --raw --layers 0,1").contains("Note"));
    let json = folder.goes("report s.snap --raw --json");
    assert!(
        json.contains("{\"kind\": \"fit_error\", \"text\": \"place 2: its fit is off by 58 % "),
        "{json}"
    );
    assert!(json.contains("\"place\": 2, \"error_of_peak\": 0.58"), "{json}");
}

#[test]
fn tracks_that_need_no_work_do_not_wait_for_it() {
    let folder = Folder::with_store("waiting");
    let raw = folder.goes("track store t.txt --raw --csv raw.csv --svg raw.svg");
    assert!(raw.contains("Track by the convention raw: t.txt, 3 points over 1.559 km\n"), "{raw}");
    assert!(raw.ends_with("written   raw.csv\n          raw.svg\n"), "{raw}");
    folder.goes("track store t.txt --rho0 --csv rho0.csv");
    let unfinished =
        "store: unfinished: work is left that this reading needs (no 8); cauchy advance store does it";
    folder.fails("track store t.txt --mass 1e11 --csv mass.csv", unfinished);
    folder.fails("density store 0 0 0 --mass 1e11", unfinished);
    folder.fails("report store --raw", "cauchy finished store tells what is done");
    folder.fails("at store 2 report --raw", "cauchy at store 2 finished tells what was done by then");
    assert!(!folder.0.join("mass.csv").exists());
    assert_eq!(lines_with(&folder.read("raw.csv"), ",true").len(), 2);

    // a run reads them before its work, and leaves them where it stops
    for by in ["raw", "rho0"] {
        let line =
            format!("run a.obj k.txt --{by} --track t.txt --csv run.csv --steps 0 --so-far --overwrite");
        let said = folder.goes(&line);
        let track = said.find("\nTrack by the convention").unwrap();
        assert!(track < said.find("\nwork      0 steps done, 56 left").unwrap(), "{said}");
        assert!(said.ends_with("\nwritten   run.csv\n"), "{said}");
        assert_eq!(folder.read("run.csv"), folder.read(&format!("{by}.csv")));
    }
    let said = folder.goes("run a.obj k.txt --raw --track t.txt --csv run.csv --svg run.svg --overwrite");
    assert_eq!(said.matches("Track by the convention").count(), 1);
    assert_eq!(folder.read("run.svg"), folder.read("raw.svg"));
    let said = folder.goes("run a.obj k.txt --mass 1e11 --track t.txt --csv run.csv --overwrite");
    assert!(said.find("\nTrack by").unwrap() > said.find("\nMass report").unwrap(), "{said}");
    folder.goes("advance store");
    folder.goes("track store t.txt --mass 1e11 --csv mass.csv");
    assert_eq!(folder.read("run.csv"), folder.read("mass.csv"));
}

/// A column of a table that is set out by spaces, from a row that begins so.
fn figures(text: &str, row: &str) -> Vec<String> {
    let line = text
        .lines()
        .find(|line| line.trim_start().starts_with(row))
        .unwrap_or_else(|| panic!("{row}: {text}"));
    line.trim_start()[row.len()..].split_whitespace().map(str::to_string).collect()
}

#[test]
fn several_conventions_stand_side_by_side() {
    let folder = Folder::with_store("conventions");
    folder.goes("advance store");
    let all = folder.goes("report store --mass 1e11 --raw --rho0 --bulk 1500 --by-layer");
    assert_eq!(figures(&all, "by the convention"), ["raw", "rho0", "mass"]);
    for (column, by) in ["--raw", "--rho0 --bulk 1500", "--mass 1e11 --bulk 1500"].iter().enumerate() {
        let one = folder.goes(&format!("report store {by}"));
        let mass = figures(&one, "field mass by this convention");
        assert_eq!(figures(&all, "field mass [kg]")[column], mass[0], "{by}");
        assert_eq!(figures(&all, "weights times")[column], mass[4], "{by}");
        let mean = &figures(&one, "mean density by this convention")[0];
        assert_eq!(&figures(&all, "mean density [kg/m³]")[column], mean, "{by}");
        assert_eq!(figures(&all, "volume of the mesh [m³]")[column], figures(&one, "volume of the mesh")[0]);
        let density = folder.goes(&format!("density store 0 0 0 {by}"));
        let density = density.lines().nth(1).unwrap().split_whitespace().next().unwrap();
        assert_eq!(figures(&all, "density at the origin [kg/m³]")[column], density, "{by}");
    }
    // raw has no column among the layers: its masses are those as entered
    let heads = "mass as entered [kg]             mass by rho0 [kg]             mass by mass [kg]";
    assert!(all.contains(heads) && figures(&all, "all").len() == 6, "{all}");
    assert_eq!(figures(&all, "all")[2..5], figures(&all, "field mass [kg]")[..3]);
    let finished = folder.goes("finished store --raw --rho0 --bulk 1500");
    assert_eq!(figures(&finished, "field mass [kg]"), figures(&all, "field mass [kg]")[..2]);
    let json = folder.goes("report store --raw --mass 1e11 --json");
    assert!(json.contains("\"convention\": \"raw\"") && json.contains("\"convention\": \"mass\""), "{json}");
}

/// Every reading of a store.
const READINGS: [&str; 10] = [
    "density FROM 0.1 0.1 0.1 --raw",
    "density FROM 9 9 9 --mass 1e11",
    "report FROM --raw --rho0 --mass 1e11 --by-layer",
    "report FROM --mass 1e11 --layers 0",
    "finished FROM --rho0",
    "list FROM --mass 1e11",
    "track FROM t.txt --rho0",
    "page FROM",
    "bill FROM",
    "status FROM",
];

/// Whether each text is JSON, as Python has it where it is there: asked once for all of them, as a list.
fn are_json(texts: &[String]) -> bool {
    let tool = Command::new("python3")
        .args(["-m", "json.tool"])
        .stdin(Stdio::piped())
        .stdout(Stdio::null())
        .stderr(Stdio::null())
        .spawn();
    let Ok(mut tool) = tool else {
        eprintln!("JSON by Python skipped: no python3");
        return true;
    };
    // a tool that finds a fault may end before it has read all
    let _ = tool.stdin.take().unwrap().write_all(format!("[{}]", texts.join(",")).as_bytes());
    tool.wait().unwrap().success()
}

#[test]
fn every_reading_is_json_of_a_folder_a_snapshot_and_lines() {
    let folder = Folder::with_store("json");
    folder.goes("advance store");
    folder.goes("run a.obj k.txt --raw --snapshot s.snap");
    let mut texts = Vec::new();
    for line in READINGS {
        let mut of = |from: &str| {
            let text = folder.goes(&format!("{} --json", line.replace("FROM", from)));
            let name = line.split(' ').next().unwrap();
            let head = format!("{{\n  \"reading\": \"{name}\",\n  \"from\": \"{from}\",\n");
            assert!(text.starts_with(&head) && text.contains("\"notes\": []"), "{line}: {text}");
            texts.push(text.clone());
            text.replace(&format!("\"from\": \"{from}\""), "")
        };
        let [folders, snapshots] = ["store", "s.snap"].map(&mut of);
        // a bill has a time of its own, and the status of a folder tells of its log
        if !line.starts_with("bill") && !line.starts_with("status") {
            assert_eq!(folders, snapshots, "{line}");
        }
    }
    assert!(folder.run("export store store.lines").status.success());
    for line in ["density FROM 0.1 0.1 0.1 --raw", "list FROM --raw", "track FROM t.txt --raw", "bill FROM"] {
        texts.push(folder.goes(&format!("{} --json", line.replace("FROM", "store.lines"))));
    }
    texts.extend(
        ["log store --json", "verify store --json", "bill a.obj k.txt --json"].map(|line| folder.goes(line)),
    );
    assert!(are_json(&texts), "{texts:?}");
    texts.push("{\"a\": nothing}".to_string());
    assert!(!are_json(&texts) || Command::new("python3").output().is_err());
    assert!(folder.goes("status store --json").contains("\"log\": {\"lines\": 4, "));
    folder.goes("track s.snap t.txt --raw --json --csv c.csv");
    assert!(folder.read("c.csv").starts_with("distance_m,x_m,y_m,z_m,density_kg_m3,inside\n"));
}

/// The numbers in a text that have a point or an exponent, by their bits.
fn floats(text: &str) -> Vec<u64> {
    let words = text.split(|c: char| !(c.is_ascii_alphanumeric() || ".-".contains(c)));
    let is_float = |word: &&str| word.contains(['.', 'e']) && word.contains(|c: char| c.is_ascii_digit());
    words.filter(is_float).filter_map(|word| word.parse::<f64>().ok()).map(f64::to_bits).collect()
}

#[test]
fn text_and_json_have_the_same_figures() {
    let folder = Folder::with_store("figures");
    folder.goes("advance store");
    for (line, least) in [
        ("density store 0.1 0.1 0.1 --mass 1e11", 1),
        ("report store --raw --rho0 --mass 1e11 --by-layer", 20),
        ("report store --rho0", 6),
        ("finished store --mass 1e11", 2),
    ] {
        let (text, json) = (folder.goes(line), folder.goes(&format!("{line} --json")));
        // what the words of a convention or a point say is not a figure of the reading
        let told: String =
            text.lines().filter(|line| !line.contains(" km, ")).map(|line| format!("{line}\n")).collect();
        let (told, known) = (floats(&told), floats(&json));
        let met = told.iter().filter(|figure| known.contains(figure)).count();
        assert!(met >= least && met + 2 >= told.len(), "{line}: {met} of {}\n{text}{json}", told.len());
    }
    let table = {
        folder.goes("track store t.txt --mass 1e11 --csv c.csv");
        folder.read("c.csv")
    };
    let json = floats(&folder.goes("track store t.txt --mass 1e11 --json"));
    let told = floats(&table);
    assert!(told.len() >= 5 && told.iter().all(|figure| json.contains(figure)), "{table}");
    // whole kilograms are whole in JSON too
    let page = folder.goes("page store");
    let json = folder.goes("page store --json");
    for mass in page.lines().map(|line| line.split_whitespace().last().unwrap()) {
        assert!(json.contains(&format!("mass_kg\": {mass}")), "{mass}: {json}");
    }
}

#[test]
fn figures_that_are_no_numbers_are_json_all_the_same() {
    let folder = Folder::new("nan");
    let hex = |x: f64| format!("{:016X}", x.to_bits());
    let [zero, one, nan] = [0.0, 1.0, f64::NAN].map(hex);
    let kernel = format!("(kernel (c {zero} {zero} {zero}) (sigma {one}) (w {nan}) (alpha none))\n");
    folder.write("nan.lines", kernel);
    folder.goes("run a.obj nan.lines --raw --snapshot s.snap");
    let readings = READINGS.iter().filter(|line| !line.starts_with("page"));
    let texts: Vec<String> =
        readings.map(|line| folder.goes(&format!("{} --json", line.replace("FROM", "s.snap")))).collect();
    assert!(are_json(&texts), "{texts:?}");
    let json = folder.goes("density s.snap 0 0 0 --raw --json");
    assert!(json.contains("\"density_kg_m3\": \"NaN\""), "{json}");
    folder.fails("page s.snap --json", "no figure: the mass of a place is NaN or exceeds 10^15 kg (no 17)");
}

#[test]
fn outputs_of_readings_lose_no_file() {
    let folder = Folder::with_store("outputs");
    folder.write("old", "kept");
    folder.fails("list store --raw --csv old", "old: is there already; --overwrite replaces it");
    folder.fails("track store t.txt --raw --csv none/x", "none/x: no such file or folder");
    folder.fails("track store none.txt --raw", "none.txt: no such file or folder");
    let same = folder.run("track store t.txt --raw --csv x --svg ./x");
    assert_eq!(same.status.code(), Some(2));
    let read = folder.run("track store t.txt --raw --csv ./t.txt --overwrite");
    assert_eq!(read.status.code(), Some(2));
    assert_eq!((folder.read("old"), folder.read("t.txt")), ("kept".to_string(), TRACK.to_string()));
    let said = folder.goes("list store --raw --csv old --overwrite");
    assert!(said.ends_with("written   old\n") && folder.read("old").starts_with("place,x_m,"), "{said}");
    assert_eq!(folder.read("old").lines().count(), 1 + 14);
    assert_eq!(said.lines().count(), 2 + 14 + 1);
    folder.fails("report none --raw", "none: no such file or folder");
    folder.fails("report a.obj --raw", "a.obj: not a snapshot of a store");
}
