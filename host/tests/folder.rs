//! A store in a folder, as a planner uses it.
use std::fs;
use std::io::Write;
use std::path::PathBuf;
use std::process::{Command, Output, Stdio};
use std::time::{Duration, Instant};

/// A body in kilometres with a vertex that no face uses.
const BODY: &str = "v 0 0 0\nv 0.9 0 0\nv 5 5 5\nv 0 0.8 0\nv 0 0 0.7\nf 1 4 2\nf 1 2 5\nf 1 5 4\nf 2 4 5\n";
const KERNELS: &str = "default 2\n0.1 0.15 0.05 2 1200 1\n0.05 0.02 0.09 10 -300 - 3\n";

/// A folder of its own for one test, with inputs in it.
struct Folder(PathBuf);

impl Folder {
    fn new(name: &str) -> Folder {
        let path = std::env::temp_dir().join(format!("cauchy-stores-{name}-{}", std::process::id()));
        let _ = fs::remove_dir_all(&path);
        fs::create_dir(&path).unwrap();
        let folder = Folder(path);
        folder.write("a.obj", BODY);
        folder.write("k.txt", KERNELS);
        folder
    }

    fn write(&self, name: &str, text: impl AsRef<[u8]>) {
        fs::write(self.0.join(name), text).unwrap();
    }

    fn read(&self, name: &str) -> Vec<u8> {
        fs::read(self.0.join(name)).unwrap()
    }

    fn command(&self, line: &str) -> Command {
        let mut command = Command::new(env!("CARGO_BIN_EXE_cauchy"));
        command.current_dir(&self.0).args(line.split_whitespace());
        command
    }

    fn run(&self, line: &str) -> Output {
        self.command(line).output().unwrap()
    }

    /// Runs a line that goes through.
    fn goes(&self, line: &str) -> String {
        let output = self.run(line);
        assert!(output.status.success(), "{line}: {output:?}");
        String::from_utf8(output.stdout).unwrap()
    }

    /// Runs a line that is refused or fails.
    fn fails(&self, line: &str, said: &str) {
        let output = self.run(line);
        let text = String::from_utf8_lossy(&output.stderr);
        assert_eq!(output.status.code(), Some(1), "{line}: {text}");
        assert!(
            text.contains(said) && text.starts_with("cauchy: ") && !text.contains("panicked"),
            "{line}: {text}"
        );
    }

    /// The files of a store in it.
    fn files(&self, store: &str) -> Vec<(PathBuf, Vec<u8>)> {
        let entries = fs::read_dir(self.0.join(store)).unwrap().map(|entry| entry.unwrap().path());
        let mut files: Vec<_> = entries.map(|path| (path.clone(), fs::read(path).unwrap())).collect();
        files.sort();
        files
    }

    /// The fourth and fifth fields of each line of a store's log: calls and answers.
    fn log(&self, store: &str) -> Vec<(String, String)> {
        let text = String::from_utf8(self.read(&format!("{store}/log"))).unwrap();
        let fields = text.lines().map(|line| line.split('\t').map(str::to_string).collect::<Vec<_>>());
        fields.map(|fields| (fields[3].clone(), fields[4].clone())).collect()
    }
}

impl Drop for Folder {
    fn drop(&mut self) {
        let _ = fs::remove_dir_all(&self.0);
    }
}

#[test]
fn a_store_is_made_edited_worked_and_read() {
    let folder = Folder::new("whole");
    let said = folder.goes("init s a.obj");
    assert!(
        said.contains("5 vertices, 4 faces") && said.contains("1 vertex in no face: see cauchy squeeze"),
        "{said}"
    );
    assert!(said.contains("closed: every edge occurs once each way"), "{said}");
    let said = folder.goes("put s k.txt");
    assert!(
        said.contains("place 1: 13 pieces, 52 steps to do") && said.contains("line 3 of the log"),
        "{said}"
    );
    let said = folder.goes("advance s --steps 10");
    assert!(
        said.contains("10 steps done, 46 left\n") && said.contains("The rest: cauchy advance s\n"),
        "{said}"
    );
    folder.goes("reweigh s 1 -250");
    folder.fails("clear s 9", "s: clear: vacant: the place is empty (no 7); line 6 of the log");
    folder.goes("put s 9 0.1 0.1 0.1 3 100 0 15");
    folder.goes("advance s");
    folder.goes("squeeze s");
    folder.goes("clear s 0");
    let said = folder.goes("status s");
    assert!(said.contains("4 vertices, 4 faces") && said.contains("place 9 "), "{said}");
    assert!(said.contains("log       10 lines, the last at 2"), "{said}");
    let said = folder.goes("status s --json");
    assert!(said.contains("\"lines\": 10"), "{said}");
    let said = folder.goes("verify s");
    assert!(said.starts_with("verified  10 lines played from the opening on, with 56 steps\n"), "{said}");
    let log = folder.log("s");
    let calls: Vec<_> = log.iter().map(|(call, _)| call.split(' ').next().unwrap()).collect();
    let wanted = [
        "(open",
        "(put",
        "(put",
        "(advance",
        "(reweigh",
        "(clear",
        "(put",
        "(advance",
        "(squeeze)",
        "(clear",
    ];
    assert_eq!(calls, wanted);
    assert_eq!(log[4].0, "(reweigh 1 C06F400000000000)");
    assert_eq!(log[5].1, "(no 7) vacant: the place is empty");
    assert!(log[6].0.ends_with(" (alpha 3FF0000000000000) (layer 15))"), "{}", log[6].0);
    assert_eq!(log[7], ("(advance 50)".to_string(), "(advance (done 50) (left 0))".to_string()));
    assert_eq!(log[8].1, "(squeeze (freed 3))");
    // what an exponent that is not above 0 becomes is said
    let said = folder.goes("put s 9 0.1 0.1 0.1 3 100 0");
    assert!(said.contains("place 9: exponent 0 is not above 0, the default is taken"), "{said}");
}

#[test]
fn a_store_is_read_as_it_was() {
    let folder = Folder::new("at");
    folder.goes("init s a.obj");
    folder.goes("put s k.txt");
    folder.goes("advance s --steps 10");
    folder.goes("export s at-4.lines");
    let status = folder.goes("status s");
    folder.goes("clear s 0");
    folder.goes("squeeze s");
    folder.goes("advance s");
    assert_eq!(folder.goes("at s 4"), status);
    assert!(folder.goes("at s 1").contains("no place is filled"));
    folder.fails("at s 0", "s: line 0: the log has the lines 1 to 7");
    folder.fails("at s 8", "s: line 8: the log has the lines 1 to 7");
    assert!(folder.goes("at s 7 status").contains("4 vertices"));
}

#[test]
fn a_list_goes_in_as_one_step() {
    let folder = Folder::new("list");
    folder.goes("init s a.obj");
    // the number of the commit stands behind the head's first eight bytes
    let commit = || folder.read("s/head")[8];
    assert_eq!(commit(), 1);
    folder.goes("put s k.txt");
    assert_eq!((commit(), folder.log("s").len()), (2, 3));
    let before = folder.files("s");
    folder.write("bad.txt", "0 0 0 1 1 1\n0 0 0 1 1\n");
    folder.fails("put s bad.txt", "bad.txt, line 2, column 10: a kernel has six numbers");
    assert!(folder.files("s") == before);
}

#[test]
fn lines_make_a_store_with_its_puts_in_the_log() {
    let folder = Folder::new("lines");
    folder.goes("init s a.obj");
    folder.goes("put s k.txt");
    folder.goes("export s s.lines");
    folder.goes("import s.lines t");
    let (s, t) = (folder.log("s"), folder.log("t"));
    assert_eq!(t, s);
    folder.goes("verify t");
    folder.goes("export t t.lines");
    assert_eq!(folder.read("t.lines"), folder.read("s.lines"));
    folder.fails("import s.lines t", "t: has a store already");
    folder.fails("init a.obj a.obj", "a.obj: is a file; a store takes a folder");
    folder.fails("init none/s a.obj", "none/s: no such file or folder");
    folder.write("bad.lines", "hello\n");
    folder.fails("import bad.lines u", "bad.lines, line 1, column 1: not (open ");
    folder.fails("init u bad.lines", "bad.lines");
    assert!(!folder.0.join("u").exists());
}

#[test]
fn edits_come_in_bracket_lines() {
    let folder = Folder::new("edits");
    folder.goes("init s a.obj");
    folder.goes("put s k.txt");
    folder.goes("advance s");
    folder.goes("clear s 0");
    // the log of a store is played into another
    let calls: String = folder.log("s").iter().skip(1).map(|(call, _)| format!("{call}\n")).collect();
    let answers: String = folder.log("s").iter().skip(1).map(|(_, answer)| format!("{answer}\n")).collect();
    folder.write("e", format!("# the log of s\n\n{}", calls.replace('\n', "\r\n")));
    folder.goes("init t a.obj");
    assert_eq!(folder.goes("edit t e"), answers);
    assert_eq!(folder.log("t"), folder.log("s"));
    assert_eq!(&folder.read("t/head")[56..14_664], &folder.read("s/head")[56..14_664]);
    // an edit that is refused is answered, and those behind it are made
    folder.write("e", "(clear 31)\n(clear 32)\n(clear 1)\n(advance 5)\n");
    let output = folder.run("edit t e");
    let wanted = "(no 7) vacant: the place is empty\n(no 6) no place: the places are 0 to 31\n(clear 1)\n\
                  (advance (done 0) (left 0))\n";
    assert_eq!(String::from_utf8_lossy(&output.stdout), wanted);
    assert_eq!(String::from_utf8_lossy(&output.stderr), "cauchy: e: 2 edits refused\n");
    assert_eq!(output.status.code(), Some(1));
    // a line that is none of an edit is found before the first is made
    let before = folder.files("t");
    folder.write("e", "(put 0)\n");
    folder.fails("edit t e", "e, line 1, column 1: no edit: they are (put N (c H H H)");
    folder.write("e", "(clear 0)\n(density (raw) 0 0 0)\n");
    folder.fails("edit t e", "e, line 2, column 1: no edit");
    assert!(folder.files("t") == before);
    let mut child = folder.command("edit t -").stdin(Stdio::piped()).stdout(Stdio::piped()).spawn().unwrap();
    child.stdin.take().unwrap().write_all(b"(squeeze)\n").unwrap();
    assert_eq!(child.wait_with_output().unwrap().stdout, b"(squeeze (freed 3))\n");
}

#[test]
fn damage_is_told_by_every_command() {
    let folder = Folder::new("damage");
    folder.goes("init s a.obj");
    folder.goes("put s k.txt");
    let wholes = ["head", "log", "mesh-1"].map(|name| folder.read(&format!("s/{name}")));
    for (name, whole) in ["head", "log", "mesh-1"].into_iter().zip(&wholes) {
        let path = format!("s/{name}");
        let mut flipped = whole.clone();
        flipped[whole.len() / 2] ^= 4;
        for bytes in [&b""[..], &whole[..40], &whole[..whole.len() - 1], &flipped] {
            folder.write(&path, bytes);
            for line in
                ["status s", "verify s", "at s 2", "put s k.txt", "clear s 0", "advance s", "squeeze s"]
            {
                folder.fails(line, &format!("cauchy: s{}", if line == "verify s" { "" } else { "/" }));
            }
        }
        fs::remove_file(folder.0.join(&path)).unwrap();
        folder.fails("status s", "cauchy: s");
        folder.fails("clear s 0", "cauchy: s");
        folder.write(&path, whole);
        folder.goes("verify s");
    }
    folder.fails("status none", "none: no such file or folder");
    folder.fails("clear . 0", ".: no store is in it: it has no file `head`; cauchy init makes a store");
    assert!(!folder.0.join("lock").exists());
}

#[test]
fn verify_names_the_place_and_the_field() {
    let folder = Folder::new("verify");
    folder.goes("init s a.obj");
    folder.goes("put s k.txt");
    folder.goes("advance s");
    let mut head = folder.read("s/head");
    // the lowest byte of the weight of place 1, which stands at float 1 + 7 + 4
    head[56 + 8 * 12] ^= 1;
    folder.write("s/head", &head);
    let output = folder.run("verify s");
    let said = String::from_utf8_lossy(&output.stdout);
    let wanted = "place 1, weight: the folder has -300.00000000000006 (C072C00000000001), \
                  the log makes -300 (C072C00000000000)";
    assert!(said.starts_with("DIFFERS") && said.contains(wanted), "{said}");
    assert_eq!(output.status.code(), Some(1));
    let told = String::from_utf8_lossy(&output.stderr);
    assert_eq!(told, "cauchy: s: 2 differences found: disk or memory is damaged\n");
}

#[test]
fn no_reading_writes_over_a_store() {
    let folder = Folder::new("owned");
    folder.goes("init s a.obj");
    for name in ["head", "log", "lock", "mesh-1"] {
        folder.fails(
            &format!("export s s/{name} --overwrite"),
            "is a file of a store, which edits alone change",
        );
    }
    folder.goes("verify s");
    folder.goes("export s s/mine.lines");
}

/// A limit on the size of files stands for a disk that is full: the head is longer than it, the line of the log is not.
#[test]
fn a_disk_that_is_full_changes_nothing() {
    let folder = Folder::new("full");
    folder.goes("init s a.obj");
    folder.goes("put s k.txt");
    let head = folder.read("s/head");
    let limited = |line: &str| {
        let program = env!("CARGO_BIN_EXE_cauchy");
        let script = format!("trap '' XFSZ; ulimit -f 16; exec {program} {line}");
        Command::new("sh").args(["-c", &script]).current_dir(&folder.0).output().unwrap()
    };
    for line in ["clear s 0", "put s 5 0 0 0 1 1 1", "advance s"] {
        let output = limited(line);
        let said = String::from_utf8_lossy(&output.stderr);
        assert_eq!(output.status.code(), Some(1), "{line}: {said}");
        assert!(said.starts_with("cauchy: s/head.new: "), "{line}: {said}");
        assert_eq!((folder.read("s/head"), folder.goes("log s").lines().count()), (head.clone(), 4));
        folder.goes("verify s");
    }
    assert_eq!(limited("init t a.obj").status.code(), Some(1));
    folder.goes("init t a.obj");
    folder.goes("clear s 0");
    assert_eq!(folder.log("s").len(), 4);
    folder.goes("verify s");
}

/// A body of so many rings and faces, in metres.
fn globe(rings: u32) -> String {
    let mut text = "v 0 0 500\n".to_string();
    for (ring, turn) in (1..=rings).flat_map(|ring| (0..rings).map(move |turn| (ring, turn))) {
        let (flat, height) = (std::f64::consts::PI * f64::from(ring) / f64::from(rings + 1)).sin_cos();
        let (y, x) = (std::f64::consts::TAU * f64::from(turn) / f64::from(rings)).sin_cos();
        text += &format!("v {} {} {}\n", 500.0 * flat * x, 500.0 * flat * y, 500.0 * height);
    }
    let at = |ring: u32, turn: u32| 2 + (ring - 1) * rings + turn % rings;
    text += "v 0 0 -500\n";
    for turn in 0..rings {
        text += &format!("f 1 {} {}\n", at(1, turn), at(1, turn + 1));
        text += &format!("f {} {} {}\n", 2 + rings * rings, at(rings, turn + 1), at(rings, turn));
        text += &(1..rings)
            .map(|ring| {
                let [a, b, c, d] =
                    [at(ring, turn), at(ring, turn + 1), at(ring + 1, turn), at(ring + 1, turn + 1)];
                format!("f {a} {c} {d} {b}\n")
            })
            .collect::<String>();
    }
    text
}

/// Waits until something is so.
fn until(is_so: impl Fn() -> bool) {
    let begun = Instant::now();
    while !is_so() {
        assert!(begun.elapsed() < Duration::from_secs(60), "it does not become so");
        std::thread::sleep(Duration::from_millis(5));
    }
}

#[test]
fn an_interrupt_keeps_the_work_and_says_how_to_go_on() {
    let folder = Folder::new("interrupt");
    folder.write("g.obj", globe(150));
    folder.write("many.txt", "0.1 0 0.1 3 1000 2.5\n".repeat(32));
    folder.goes("init s g.obj --mesh-unit m");
    folder.goes("put s many.txt");
    let mut command = folder.command("advance s --jobs 1");
    let child = command.stdout(Stdio::piped()).stderr(Stdio::piped()).spawn().unwrap();
    // it is at work when it writes the line of its first portion
    until(|| String::from_utf8_lossy(&folder.read("s/log")).contains("\t(advance "));
    let kill = Command::new("kill").args(["-INT", &child.id().to_string()]).status().unwrap();
    assert!(kill.success());
    let output = child.wait_with_output().unwrap();
    let said = String::from_utf8_lossy(&output.stdout);
    assert_eq!(output.status.code(), Some(130), "{said}");
    assert!(said.contains(" steps done, ") && said.ends_with("The rest: cauchy advance s\n"), "{said}");
    let (call, answer) = folder.log("s").last().unwrap().clone();
    assert!(call.starts_with("(advance ") && !answer.ends_with("(left 0))"), "{call} {answer}");
    folder.goes("verify s");
    assert!(folder.goes("advance s").contains(", none left"));
    assert!(folder.goes("advance s").contains("0 steps done, none left"));
    folder.goes("verify s");
}
