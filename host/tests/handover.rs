//! The hand-over's command, as a planner gives it. What the page shows is looked at by `tests/handover`, in a browser.
use std::fs;
use std::path::PathBuf;
use std::process::{Command, Output};

const BODY: &str = "v 0 0 0\nv 0.9 0 0\nv 0 0.8 0\nv 0 0 0.7\nf 1 3 2\nf 1 2 4\nf 1 4 3\nf 2 3 4\n";

/// A folder of its own for one test, with a store in it.
struct Folder(PathBuf);

impl Folder {
    fn new(name: &str) -> Folder {
        let path = std::env::temp_dir().join(format!("cauchy-handover-{name}-{}", std::process::id()));
        let _ = fs::remove_dir_all(&path);
        fs::create_dir(&path).unwrap();
        let folder = Folder(path);
        fs::write(folder.0.join("a.obj"), BODY).unwrap();
        folder.goes("init body a.obj");
        folder.goes("put body 3 0.1 0.15 0.05 2 1200 1 5");
        folder
    }

    fn run(&self, line: &str) -> Output {
        let mut command = Command::new(env!("CARGO_BIN_EXE_cauchy"));
        command.current_dir(&self.0).args(line.split_whitespace()).output().unwrap()
    }

    fn goes(&self, line: &str) -> String {
        let output = self.run(line);
        assert!(output.status.success(), "{line}: {output:?}");
        String::from_utf8(output.stdout).unwrap()
    }

    /// Runs a line that does not go through, and leaves no file.
    fn fails(&self, line: &str, status: i32, said: &str) {
        let names =
            || fs::read_dir(&self.0).unwrap().map(|entry| entry.unwrap().file_name()).collect::<Vec<_>>();
        let before = names();
        let output = self.run(line);
        let text = String::from_utf8_lossy(&output.stderr);
        assert_eq!(output.status.code(), Some(status), "{line}: {text}");
        assert!(text.contains(said) && text.starts_with("cauchy: "), "{line}: {text}");
        assert_eq!(names(), before, "{line}");
    }

    fn page(&self) -> String {
        fs::read_to_string(self.0.join("page.html")).unwrap()
    }
}

impl Drop for Folder {
    fn drop(&mut self) {
        let _ = fs::remove_dir_all(&self.0);
    }
}

#[test]
fn a_page_tells_the_store_as_it_is() {
    let folder = Folder::new("store");
    let line = "handover body --html page.html --mass 1e11 --bulk 1300";
    assert_eq!(folder.goes(line), "written   page.html\n");
    let page = folder.page();
    assert!(page.contains("4 steps left of 4, in place 3") && page.contains("Refused: unfinished"), "{page}");
    assert!(page.contains("brought to 1300 kg/m³") && page.contains("field mass brought to 1e11 kg"));
    folder.fails(line, 1, "page.html: is there already; --overwrite replaces it");
    folder.goes("advance body");
    folder.goes(&format!("{line} --overwrite"));
    let page = folder.page();
    let wall = folder.goes("page body");
    assert!(page.contains(&format!("<pre>{wall}</pre>")) && !page.contains("Refused"), "{page}");
    assert!(page.contains(">advance by 4 steps<") && page.contains(">4 steps done, none left<"), "{page}");
    // without a target there is no reading by mass
    folder.goes("handover body --html page.html --overwrite");
    assert!(!folder.page().contains("weight by mass") && folder.page().contains("weight by rho0"));
}

#[test]
fn a_page_goes_to_standard_output() {
    let folder = Folder::new("stream");
    let output = folder.run("handover body --html -");
    assert!(output.status.success() && output.stdout.starts_with(b"<!DOCTYPE html>\n"), "{output:?}");
    assert!(output.stdout.ends_with(b"</html>\n"));
}

#[test]
fn what_cannot_be_handed_over_is_told() {
    let folder = Folder::new("faults");
    folder.fails("handover body", 2, "--html");
    folder.fails("handover nothing --html page.html", 1, "nothing");
    folder.fails("handover a.obj --html page.html", 1, "a.obj");
    folder.fails("handover body --html body/head --overwrite", 1, "body/head: is a file of a store");
    folder.fails("handover body --html nowhere/page.html", 1, "nowhere/page.html: no such file or folder");
    folder.fails("handover body --html page.html --mass 0", 2, "--mass: 0 is not a number above 0");
}
