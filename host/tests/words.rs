//! The program's command line, over the built program: help, streams, files left behind, man page, completions.
use std::fs::{self, File};
use std::io::Write;
use std::path::PathBuf;
use std::process::{Command, Output, Stdio};

const BODY: &str = "v 0 0 0\nv 0.9 0 0\nv 0 0.8 0\nv 0 0 0.7\nf 1 3 2\nf 1 2 4\nf 1 4 3\nf 2 3 4\n";
const KERNELS: &str = "0.1 0.15 0.05 2 1200 1\n0.05 0.02 0.09 10 -300 2\n";
const TRACK: &str = "0 0 0\n0.2 0.2 0.2\n0.9 0.9 0.9\n";

/// A folder of its own for one test, with inputs in it.
struct Folder(PathBuf);

impl Folder {
    fn new(name: &str) -> Folder {
        let path = std::env::temp_dir().join(format!("cauchy-words-{name}-{}", std::process::id()));
        let _ = fs::remove_dir_all(&path);
        fs::create_dir(&path).unwrap();
        let folder = Folder(path);
        folder.write("a.obj", BODY);
        folder.write("k.txt", KERNELS);
        folder.write("t.txt", TRACK);
        folder
    }

    fn write(&self, name: &str, bytes: impl AsRef<[u8]>) {
        fs::write(self.0.join(name), bytes).unwrap();
    }

    fn read(&self, name: &str) -> Vec<u8> {
        fs::read(self.0.join(name)).unwrap()
    }

    fn names(&self) -> Vec<String> {
        let entries = fs::read_dir(&self.0).unwrap().map(|entry| entry.unwrap().file_name());
        let mut names: Vec<String> = entries.map(|name| name.into_string().unwrap()).collect();
        names.sort();
        names
    }

    /// Runs a line with these bytes as its standard input.
    fn fed(&self, line: &str, bytes: &[u8]) -> Output {
        let mut command = Command::new(env!("CARGO_BIN_EXE_cauchy"));
        command.current_dir(&self.0).args(line.split_whitespace());
        let streams = command.stdin(Stdio::piped()).stdout(Stdio::piped()).stderr(Stdio::piped());
        let mut running = streams.spawn().unwrap();
        // a program that does not read it may have ended
        let _ = running.stdin.take().unwrap().write_all(bytes);
        running.wait_with_output().unwrap()
    }

    /// What a line that goes through writes to standard output and to standard error.
    fn gives(&self, line: &str, bytes: &[u8]) -> (Vec<u8>, String) {
        let output = self.fed(line, bytes);
        let said = String::from_utf8(output.stderr).unwrap();
        assert!(output.status.success(), "{line}: {said}");
        (output.stdout, said)
    }

    /// What a line that goes through prints.
    fn prints(&self, line: &str) -> String {
        let (printed, said) = self.gives(line, b"");
        assert_eq!(said, "", "{line}");
        String::from_utf8(printed).unwrap()
    }

    fn fails(&self, line: &str, status: i32, said: &str) {
        let before = self.names();
        let output = self.fed(line, b"");
        let text = String::from_utf8_lossy(&output.stderr);
        assert_eq!(output.status.code(), Some(status), "{line}: {text}");
        assert!(text.starts_with("cauchy: ") && text.contains(said), "{line}: {text}");
        assert!(output.stdout.is_empty() && self.names() == before, "{line}");
    }
}

impl Drop for Folder {
    fn drop(&mut self) {
        let _ = fs::remove_dir_all(&self.0);
    }
}

/// Whether a tool is on the machine; where it is not, what is left out is said.
fn has(tool: &str) -> bool {
    let is_there =
        Command::new(tool).arg("--version").stdout(Stdio::null()).stderr(Stdio::null()).status().is_ok();
    if !is_there {
        eprintln!("skipped: no {tool}");
    }
    is_there
}

#[test]
fn more_is_told_of_what_was_asked() {
    let folder = Folder::new("help");
    let all = folder.prints("help");
    assert!(all.contains("Exit status: 0 done, 1 refused or failed, 2"), "{all}");
    let put = folder.prints("help put");
    assert_eq!(put, folder.prints("put --help"));
    assert!(put.contains("\n  cauchy put DIR KERNELS [--loader NAME] [--alpha EXPONENT]\n"), "{put}");
    assert!(folder.prints("help files").contains("(put N (c H H H) (sigma H) (w H) (alpha H) (layer N))"));
    assert!(folder.prints("help exit").contains("  130   interrupted"));
    folder.fails("put d", 2, "\n`cauchy help put` tells more\n");
    folder.fails("putt d", 2, "putt is no command; the nearest one is put\n`cauchy help` tells more\n");
    folder.fails("run a.obj k.txt --row", 2, "--row is no option; the nearest one of run is --raw\n");
    folder.fails("", 2, "nothing asked\n`cauchy help` tells more\n");
}

/// Each line of the help's examples, in their order and in a shell, from a folder that has the repository's example.
#[test]
fn the_examples_of_the_help_go_through() {
    let folder = Folder::new("examples");
    fs::create_dir(folder.0.join("example")).unwrap();
    for name in ["body.obj", "kernels.txt", "kernels.lines", "track.txt"] {
        let from = PathBuf::from(env!("CARGO_MANIFEST_DIR")).join("../example").join(name);
        fs::copy(from, folder.0.join("example").join(name)).unwrap();
    }
    let program = PathBuf::from(env!("CARGO_BIN_EXE_cauchy"));
    let tools = std::env::var("PATH").unwrap();
    let path = format!("{}:{tools}", program.parent().unwrap().display());
    let examples = folder.prints("help examples");
    let lines: Vec<&str> = examples.lines().filter_map(|line| line.strip_prefix("  ")).collect();
    assert!(lines.len() > 10 && lines.iter().all(|line| line.starts_with("cauchy ")), "{examples}");
    for line in lines {
        let mut shell = Command::new("sh");
        let output = shell.current_dir(&folder.0).env("PATH", &path).args(["-c", line]).output().unwrap();
        assert!(output.status.success(), "{line}: {output:?}");
    }
}

#[test]
fn a_value_stands_behind_its_option_or_an_equals_sign() {
    let folder = Folder::new("equals");
    folder.prints("run a.obj k.txt --mass 1e11 --track t.txt --csv c.csv --list l.csv");
    folder.prints("run a.obj k.txt --mass=1e11 --track=t.txt --csv=c2.csv --list=l2.csv");
    assert_eq!((folder.read("c.csv"), folder.read("l.csv")), (folder.read("c2.csv"), folder.read("l2.csv")));
    folder.write("--raw", KERNELS);
    folder.prints("run --mass=1e11 --list l3.csv -- a.obj --raw");
    assert_eq!(folder.read("l3.csv"), folder.read("l.csv"));
}

#[test]
fn a_file_may_come_by_standard_input() {
    let folder = Folder::new("input");
    let reads = "--mass 1e11 --overwrite --track t.txt --csv c.csv --list l.csv --snapshot s.snap";
    folder.prints(&format!("run a.obj k.txt {reads}"));
    let files = || ["c.csv", "l.csv", "s.snap"].map(|name| folder.read(name));
    let wanted = files();
    folder.gives("export s.snap s.lines", b"");
    let (lines, snapshot) = (folder.read("s.lines"), folder.read("s.snap"));
    for (line, bytes) in [
        (format!("run - k.txt {reads}"), BODY.as_bytes()),
        (format!("run a.obj - {reads}"), KERNELS.as_bytes()),
        (format!("run a.obj k.txt {}", reads.replace("t.txt", "-")), TRACK.as_bytes()),
        (format!("run - {reads}"), &lines),
        (format!("resume - {reads}"), &snapshot),
    ] {
        for name in ["c.csv", "l.csv", "s.snap"] {
            fs::remove_file(folder.0.join(name)).unwrap();
        }
        let (_, said) = folder.gives(&line, bytes);
        assert!(said.is_empty() && files() == wanted, "{line}: {said}");
    }
    assert_eq!(folder.gives("page -", &snapshot).0, folder.prints("page s.snap").into_bytes());
    assert_eq!(folder.gives("export -", &snapshot).0, lines);
    assert!(folder.gives("bill -", &lines).0.starts_with(b"mesh "));
    folder.gives("import - --snapshot again.snap", &lines);
    assert!(folder.names().contains(&"again.snap".to_string()));

    folder.fails("run - k.txt --raw", 1, "standard input: has no face");
    folder.fails("run a.obj - --raw --track -", 2, "standard input: two inputs are to come from there");
    let output = folder.fed("run a.obj - --raw", b"0 0 0\n");
    assert_eq!(output.status.code(), Some(1));
    assert!(output.stderr.starts_with(b"cauchy: standard input, line 1"), "{output:?}");
}

#[test]
fn a_file_may_go_to_standard_output() {
    let folder = Folder::new("output");
    let files = "--csv c.csv --svg s.svg --list l.csv --page p.txt";
    let said = folder.prints(&format!("run a.obj k.txt --raw --track t.txt {files} --snapshot s.snap"));
    // what is said of the run goes to standard error then
    for (option, name) in [("--csv", "c.csv"), ("--svg", "s.svg"), ("--list", "l.csv"), ("--page", "p.txt")] {
        let (given, beside) = folder.gives(&format!("run a.obj k.txt --raw --track t.txt {option} -"), b"");
        assert!(given == folder.read(name), "{option}");
        assert!(beside.ends_with("\nwritten   standard output\n"), "{beside}");
        assert_eq!(beside.split("\nwritten").next(), said.split("\nwritten").next());
    }
    let (lines, _) = folder.gives("export s.snap", b"");
    let (given, beside) = folder.gives("export s.snap -", b"");
    assert_eq!((given, beside.starts_with("cauchy: s.snap: note: ")), (lines.clone(), true));
    folder.write("s.lines", &lines);
    folder.prints("import s.lines --snapshot again.snap");
    assert_eq!(folder.gives("import - --snapshot -", &lines).0, folder.read("again.snap"));
    assert!(!folder.names().contains(&"-".to_string()));

    folder.fails("run a.obj k.txt --raw --list - --page -", 2, "-: two outputs are to go there");
    folder.fails("run a.obj k.txt --raw --snapshot -", 2, "it needs a file and not a stream");
    // a file of that name is another one
    folder.prints("run a.obj k.txt --raw --list ./-");
    assert_eq!(folder.read("-"), folder.read("l.csv"));
}

#[test]
fn what_a_killed_program_left_is_removed_by_the_next() {
    let folder = Folder::new("killed");
    // the system kills a program that writes a file of more than 8 blocks
    let killed = |line: &str| {
        let limited = format!("ulimit -c 0; ulimit -f 8; exec {} {line}", env!("CARGO_BIN_EXE_cauchy"));
        let output = Command::new("sh").current_dir(&folder.0).args(["-c", &limited]).output().unwrap();
        assert_eq!(output.status.code(), None, "{output:?}");
    };
    let before = folder.names();
    killed("run a.obj k.txt --raw --snapshot s.snap");
    killed("run a.obj k.txt --raw --snapshot s.snap2");
    let left: Vec<String> = folder.names().into_iter().filter(|name| !before.contains(name)).collect();
    assert!(left.len() == 2 && left[0].starts_with("s.snap.part-"), "{left:?}");
    assert!(left[1].starts_with("s.snap2.part-"), "{left:?}");

    // a part of a program that runs, one that is locked, and names that only look so stay
    let mut ended = Command::new("true").spawn().unwrap();
    ended.wait().unwrap();
    let dead = ended.id();
    let running = format!("s.snap.part-{}", std::process::id());
    let others = [running.as_str(), "s.snap.part-", "s.snap.part-x", "as.snap.part-1", "s.snap.part-00"];
    for name in others {
        folder.write(name, "kept");
    }
    folder.write(&format!("s.snap.part-{dead}"), "left");
    let locked = File::create(folder.0.join("s.snap.part-4294967295")).unwrap();
    locked.lock().unwrap();
    folder.prints("run a.obj k.txt --raw --snapshot s.snap");
    let mut wanted: Vec<String> = before.into_iter().chain(others.map(String::from)).collect();
    wanted.extend([left[1].clone(), "s.snap".to_string(), "s.snap.part-4294967295".to_string()]);
    wanted.sort();
    assert_eq!(folder.names(), wanted);

    drop(locked);
    folder.prints("run a.obj k.txt --raw --snapshot s.snap --overwrite");
    folder.prints("run a.obj k.txt --raw --snapshot s.snap2");
    let names = folder.names();
    assert!(!names.contains(&left[1]) && !names.contains(&"s.snap.part-4294967295".to_string()), "{names:?}");
}

#[test]
fn the_man_page_is_set_without_a_warning() {
    let folder = Folder::new("man");
    let page = folder.prints("man");
    assert!(page.starts_with(".TH CAUCHY 1 ") && page.contains("\n.SH \"EXIT STATUS\"\n"), "{page}");
    if !has("groff") {
        return;
    }
    folder.write("cauchy.1", &page);
    for device in ["ascii", "utf8"] {
        let words = ["-man", "-ww", "-Z", &format!("-T{device}"), "cauchy.1"];
        let set = Command::new("groff").current_dir(&folder.0).args(words).output().unwrap();
        assert!(
            set.status.success() && set.stderr.is_empty(),
            "{device}: {}",
            String::from_utf8_lossy(&set.stderr)
        );
        assert!(set.stdout.len() > page.len() / 2);
    }
    let words = ["-man", "-Tascii", "-P-cbou", "cauchy.1"];
    let set = Command::new("groff").current_dir(&folder.0).args(words).output().unwrap();
    let text = String::from_utf8(set.stdout).unwrap();
    for wanted in
        ["cauchy reweigh DIR PLACE WEIGHT", "--mesh-unit km|m", "kg/m^3", "130   interrupted (Ctrl-C)"]
    {
        assert!(text.contains(wanted), "{wanted}");
    }
    assert!(!text.contains('`'), "{text}");
}

/// What bash completes the last word of a line to.
fn completed(folder: &Folder, line: &str) -> Vec<String> {
    let script = "source ./cauchy.bash; COMP_WORDS=(\"$@\"); COMP_CWORD=$(($# - 1)); _cauchy; echo \"${COMPREPLY[@]}\"";
    let words = line.split(' ');
    let mut bash = Command::new("bash");
    let output =
        bash.current_dir(&folder.0).args(["--norc", "-c", script, "bash"]).args(words).output().unwrap();
    assert!(output.stderr.is_empty(), "{line}: {}", String::from_utf8_lossy(&output.stderr));
    String::from_utf8(output.stdout).unwrap().split_whitespace().map(String::from).collect()
}

#[test]
fn bash_completes_words() {
    let folder = Folder::new("completions");
    for shell in ["bash", "zsh", "fish"] {
        folder.write(&format!("cauchy.{shell}"), folder.prints(&format!("completions {shell}")));
        if has(shell) {
            let checked =
                Command::new(shell).current_dir(&folder.0).args(["-n", &format!("cauchy.{shell}")]).output();
            let checked = checked.unwrap();
            assert!(checked.status.success() && checked.stderr.is_empty(), "{shell}: {checked:?}");
        }
    }
    if !has("bash") {
        return;
    }
    for (line, wanted) in [
        ("cauchy pu", "put"),
        ("cauchy re", "resume reweigh report"),
        ("cauchy --v", "--version"),
        ("cauchy put d k --", "--alpha --loader --help"),
        ("cauchy clear d --", "--help"),
        ("cauchy report d --r", "--raw --rho0"),
        ("cauchy report d --raw --r", "--rho0"),
        ("cauchy run a k --loader ", "native source strict"),
        ("cauchy run a k --loader =", "native source strict"),
        ("cauchy run a k --mesh-unit = k", "km"),
        ("cauchy run a k --mass = 4 --m", "--mesh-unit"),
        ("cauchy completions z", "zsh"),
        ("cauchy help conv", "conventions"),
        ("cauchy at d 3 l", "list"),
        ("cauchy at d 3 list --c", "--csv"),
        ("cauchy put d 3 ", ""),
    ] {
        assert_eq!(completed(&folder, line), wanted.split_whitespace().collect::<Vec<_>>(), "{line}");
    }
}
