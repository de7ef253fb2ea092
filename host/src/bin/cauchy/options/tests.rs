//! Command lines, and what they ask for.
use super::*;
use crate::kernels::Loading;
use cauchy::{Convention, FileKernel, Layers, Loader};
use row::{Conventions, Form, Kind, OptionRow};
use std::collections::BTreeSet;

const UNSAID: Loading = Loading { loader: None, alpha: None };

fn files(unit: f64, loading: Loading) -> Files {
    Files { mesh: "a.obj".into(), unit, kernels: "k.txt".into(), loading }
}

/// A reading of a store in words.
fn read(from: &str, at: Option<u64>, reading: Reading) -> Command {
    Command::Read { from: from.into(), at, reading, json: false }
}

fn asked(line: &str) -> Result<Command> {
    parse(line.split_whitespace().map(OsString::from))
}

#[test]
fn a_whole_line_is_understood() {
    let line = "run a.obj --mass 4.5e11 k.txt --bulk 1200 --radius 0.5 --mesh-unit m --steps 9 --snapshot s \
                --squeeze --layers 2,15,2 --by-layer";
    let Ok(Command::Work(options)) = asked(line) else { panic!() };
    assert_eq!(options.origin, Origin::Files(files(1.0, UNSAID), Some(500.0)));
    assert_eq!(options.convention, Convention::Mass { target: 4.5e11, bulk: 1200.0 });
    assert_eq!((options.steps, options.snapshot), (Some(9), Some("s".into())));
    assert_eq!((options.squeeze, options.overwrite), (true, false));
    assert_eq!((Ok(options.layers), options.by_layer), (Layers::of(&[2, 15]), true));
    let Ok(Command::Work(plain)) = asked("run a.obj k.txt --raw") else { panic!() };
    assert_eq!((plain.layers, plain.by_layer), (Layers::ALL, false));
}

#[test]
fn a_bill_has_a_mesh_and_kernels() {
    let billed = |unit| Command::Bill { files: files(unit, UNSAID), json: false };
    assert_eq!(asked("bill a.obj k.txt"), Ok(billed(1000.0)));
    assert_eq!(asked("bill a.obj --mesh-unit m k.txt"), Ok(billed(1.0)));
}

#[test]
fn a_loader_is_named() {
    for (word, loader) in [("native", Loader::Native), ("source", Loader::Source), ("strict", Loader::Strict)]
    {
        let loading = Loading { loader: Some(loader), alpha: Some(1.5) };
        let line = format!("bill a.obj k.txt --loader {word} --alpha 1.5");
        assert_eq!(asked(&line), Ok(Command::Bill { files: files(1000.0, loading), json: false }));
        let Ok(Command::Work(options)) = asked(&line.replace("bill", "run --raw")) else { panic!() };
        assert_eq!(options.origin, Origin::Files(files(1000.0, loading), None));
    }
    let alone = Loading { loader: None, alpha: Some(2.5) };
    assert_eq!(
        asked("bill a.obj k.txt --alpha 2.5"),
        Ok(Command::Bill { files: files(1000.0, alone), json: false })
    );
}

#[test]
fn a_page_is_of_a_snapshot() {
    assert_eq!(asked("page s.snap"), Ok(read("s.snap", None, Reading::Page)));
    let Ok(Command::Work(options)) = asked("resume s.snap --raw --page wall.txt") else { panic!() };
    assert_eq!(options.page, Some("wall.txt".into()));
}

#[test]
fn lines_stand_for_a_mesh_and_kernels() {
    let Ok(Command::Work(options)) = asked("run s.lines --raw") else { panic!() };
    assert_eq!(options.origin, Origin::Lines("s.lines".into()));
    assert_eq!(asked("bill s.lines"), Ok(read("s.lines", None, Reading::Bill)));
    let export = |lines, overwrite| Ok(Command::Export { from: "s".into(), lines, overwrite });
    assert_eq!(asked("export s"), export(None, false));
    assert_eq!(asked("export --overwrite s l"), export(Some("l".into()), true));
    let import = |overwrite| Command::Import { lines: "l".into(), snapshot: "s".into(), overwrite };
    assert_eq!(asked("import l --snapshot s"), Ok(import(false)));
    assert_eq!(asked("import --snapshot s l --overwrite"), Ok(import(true)));
}

#[test]
fn what_is_not_understood_is_said() {
    for (line, said) in [
        ("", "nothing asked"),
        ("walk", "walk is no command"),
        ("reprot", "reprot is no command; the nearest one is report"),
        ("adv d", "adv is no command; the nearest one is advance"),
        ("export", "export: DIR|SNAPSHOT is missing: cauchy export DIR|SNAPSHOT [FILE] [--overwrite]"),
        ("export a b c", "export: c is one word too many: cauchy export DIR|SNAPSHOT [FILE]"),
        ("export s --raw", "export takes no option but --overwrite"),
        (
            "import l",
            "give --snapshot FILE too: cauchy import LINES DIR, or cauchy import LINES --snapshot FILE",
        ),
        ("import --snapshot s", "import: LINES is missing"),
        ("import a b --snapshot s", "--snapshot: import LINES DIR takes no option"),
        ("import a b c", "import: c is one word too many"),
        ("import l --snapshot s --steps 5", "import takes no option but --snapshot and --overwrite"),
        ("run s.lines --raw --radius 1", "go with two files"),
        ("bill s.lines --alpha 1", "go with two files"),
        ("bill s.lines --raw", "--raw: bill takes no option but --mesh-unit, --loader, --alpha and --json"),
        (
            "run --raw",
            "run: LINES is missing: cauchy run MESH KERNELS CONVENTION [OPTIONS], or cauchy run LINES",
        ),
        ("page", "page: DIR|SNAPSHOT is missing"),
        ("page a.obj k.txt", "page: k.txt is one word too many: cauchy page DIR|SNAPSHOT [--json]"),
        ("page s --raw", "--raw: page takes no option but --json"),
        ("run a b --raw --layers 16", "--layers: `16` is not a layer: they are 0 to 15"),
        ("run a b --raw --layers 1,", "--layers: `` is not a layer: they are 0 to 15"),
        ("page s --page p", "--page: page takes no option but --json"),
        ("run a b --raw --page p --page p", "--page is given twice"),
        ("run a b c --raw", "run: c is one word too many"),
        ("resume --raw", "resume: SNAPSHOT is missing"),
        ("bill a b c", "bill: c is one word too many"),
        ("bill a b --raw", "--raw: bill takes no option but --mesh-unit, --loader, --alpha and --json"),
        ("bill a b --mesh-unit m --radius 1", "--radius: bill takes no option but --mesh-unit"),
        ("bill a b --loader Native", "--loader: Native is none of native, source and strict"),
        ("bill a b --loader", "--loader: its value is missing"),
        ("bill a b --loader strict --loader strict", "--loader is given twice"),
        ("bill a b --alpha 0", "--alpha: 0 is not a number above 0"),
        ("bill a b --alpha nan", "--alpha: nan is not a number above 0"),
        ("bill a b --alpha 1 --alpha 1", "--alpha is given twice"),
        ("bill a b --mesh-unit m --mesh-unit m", "--mesh-unit is given twice"),
        ("run a b", "name a convention"),
        ("run a b --raw --rho0", "one convention"),
        ("run a b --raw --raw", "--raw is given twice"),
        ("run a b --raw --squeeze --squeeze", "--squeeze is given twice"),
        ("run a b --raw --bulk 5", "--bulk goes with"),
        ("run a b --mass", "--mass: its value is missing"),
        ("run a b --mass 0", "--mass: 0 is not a number above 0"),
        ("run a b --mass nan", "not a number above 0"),
        ("run a b --mass inf", "not a number above 0"),
        ("run a b --raw --fast", "--fast is no option"),
        ("run a b --raw --csv c", "give --track FILE too"),
        ("run a b --raw --steps 5", "give --snapshot FILE or --so-far too"),
        ("run a b --raw --steps -5", "--steps: -5 is not a whole number"),
        ("run a b --raw --mesh-unit cm", "neither km nor m"),
        ("resume s --raw --radius 1", "go with run"),
        ("resume s --raw --loader native", "--loader and --alpha go with run"),
        ("resume s --raw --alpha 2", "a snapshot has its kernels"),
    ] {
        match asked(line) {
            Err(Failure::Usage(text)) => assert!(text.contains(said), "{line}: {text}"),
            other => panic!("{line}: {other:?}"),
        }
    }
}

const RAW: Convention = Convention::Raw;

#[test]
fn edits_of_a_store_are_understood() {
    let dir = || "d".into();
    let put = |alpha, default, layer| {
        let kernel = FileKernel { c: [0.12, -0.05, 0.0], sigma: 4.5, w: -180.0, alpha };
        Ok(Command::Put { dir: dir(), place: 31, kernel, alpha: default, layer })
    };
    assert_eq!(asked("put d 31 .12 -.5e-1 0 4.5 -180 2.5"), put(Some(2.5), 1.0, 0));
    assert_eq!(asked("put d 31 .12 -0.05 0 4.5 -180 - 15"), put(None, 1.0, 15));
    assert_eq!(asked("put --alpha=1.5 d 31 .12 -0.05 0 4.5 -1.8e2 -"), put(None, 1.5, 0));
    let list = |loading| Ok(Command::PutList { dir: dir(), kernels: "k".into(), loading });
    assert_eq!(asked("put d k"), list(UNSAID));
    let native = Loading { loader: Some(Loader::Native), alpha: Some(2.0) };
    assert_eq!(asked("put d k --loader native --alpha 2"), list(native));
    let init = |unit, radius| Ok(Command::Init { dir: dir(), mesh: "m".into(), unit, radius });
    assert_eq!(asked("init d m"), init(1000.0, None));
    assert_eq!(asked("init d m --mesh-unit=m --radius=.5"), init(1.0, Some(500.0)));
    assert_eq!(asked("clear d 0"), Ok(Command::Clear { dir: dir(), place: 0 }));
    assert_eq!(asked("reweigh d 7 -12.5"), Ok(Command::Reweigh { dir: dir(), place: 7, weight: -12.5 }));
    let advance = |steps, jobs| Ok(Command::Advance { dir: dir(), steps, jobs });
    assert_eq!(asked("advance d"), advance(None, None));
    assert_eq!(asked("advance --steps 0 d"), advance(Some(0), None));
    assert_eq!(asked("advance d --jobs 3"), advance(None, Some(3)));
    let work = Command::WorkOn { dir: dir(), places: vec![3, 7], out: "p".into(), overwrite: false };
    assert_eq!(asked("work d --places 3,7 --out p"), Ok(work));
    let adopt = |parts: &[&str]| {
        let parts = parts.iter().map(|part| part.into()).collect();
        Ok(Command::Adopt { dir: dir(), parts })
    };
    assert_eq!(asked("adopt d p"), adopt(&["p"]));
    assert_eq!(asked("adopt d p q p"), adopt(&["p", "q", "p"]));
    assert_eq!(asked("squeeze d"), Ok(Command::Squeeze { dir: dir() }));
    assert_eq!(asked("import l d"), Ok(Command::ImportDir { lines: "l".into(), dir: dir() }));
}

#[test]
fn readings_of_a_store_are_understood() {
    let conventions =
        || vec![RAW, Convention::Rho0 { bulk: 5.0 }, Convention::Mass { target: 4.5e11, bulk: 5.0 }];
    let all = Layers::ALL;
    let report = |conventions, layers, by_layer| Reading::Report { conventions, layers, by_layer };
    let crust = Layers::of(&[1, 2]).unwrap();
    for (line, reading) in [
        ("status d", Reading::Status),
        ("report d --raw", report(vec![RAW], all, false)),
        ("report d --mass=4.5e11 --bulk 5 --rho0 --raw --by-layer", report(conventions(), all, true)),
        ("report --layers 1,2 d --raw", report(vec![RAW], crust, false)),
        ("finished d --raw", Reading::Finished { conventions: vec![RAW], layers: all }),
        (
            "density d 1 -2 .5 --raw",
            Reading::Density { point: [1000.0, -2000.0, 500.0], convention: RAW, layers: all },
        ),
        ("list d --raw", Reading::List { convention: RAW, layers: all, csv: None, overwrite: false }),
        (
            "list d --raw --csv=c --overwrite",
            Reading::List { convention: RAW, layers: all, csv: Some("c".into()), overwrite: true },
        ),
        (
            "track d - --raw --svg s",
            Reading::Track {
                points: "-".into(),
                convention: RAW,
                layers: all,
                csv: None,
                svg: Some("s".into()),
                overwrite: false,
            },
        ),
        ("page d", Reading::Page),
        ("bill d", Reading::Bill),
    ] {
        let words: Vec<&str> = line.split_whitespace().collect();
        let command = asked(line);
        assert_eq!(command, Ok(read("d", None, reading)), "{line}");
        // the same of an earlier store, but that DIR stands elsewhere
        let rest: Vec<&str> = words[1..].iter().copied().filter(|word| *word != "d").collect();
        let Ok(Command::Read { from, reading, json, .. }) = command else { panic!() };
        let earlier = format!("at d 12 {} {}", words[0], rest.join(" "));
        assert_eq!(asked(&earlier), Ok(Command::Read { from, at: Some(12), reading, json }), "{earlier}");
    }
    assert_eq!(asked("at d 12"), Ok(read("d", Some(12), Reading::Status)));
    let json = Command::Read { from: "d".into(), at: Some(3), reading: Reading::Status, json: true };
    assert_eq!(asked("at d 3 --json"), Ok(json));
    assert_eq!(asked("log d --json"), Ok(Command::Log { dir: "d".into(), json: true }));
    assert_eq!(asked("verify d"), Ok(Command::Verify { dir: "d".into(), json: false }));
    let handover = |conventions| {
        Ok(Command::Handover { dir: "d".into(), html: "h".into(), conventions, overwrite: false })
    };
    assert_eq!(asked("handover d --html h"), handover(vec![RAW, Convention::Rho0 { bulk: 1190.0 }]));
    assert_eq!(asked("handover d --html h --mass 4.5e11 --bulk 5"), handover(conventions()));
}

#[test]
fn the_program_tells_of_itself() {
    assert_eq!(asked("--version"), Ok(Command::Version));
    for (line, subject) in [
        ("help", None),
        ("--help", None),
        ("help put", Some("put")),
        ("help files", Some("files")),
        ("put --help", Some("put")),
        ("at d 3 report -h", Some("at")),
    ] {
        assert_eq!(asked(line), Ok(Command::Help(subject)), "{line}");
    }
    assert_eq!(asked("man"), Ok(Command::Man));
    assert_eq!(asked("completions fish"), Ok(Command::Completions(Shell::Fish)));
    assert_eq!(hint(Some("put".into())), "`cauchy help put` tells more");
    assert_eq!(hint(Some("pot".into())), "`cauchy help` tells more");
}

#[test]
fn words_are_options_operands_or_values() {
    // behind `--` every word is an operand
    let clear = |dir: &str| Ok(Command::Clear { dir: dir.into(), place: 3 });
    assert_eq!(asked("clear -- --help 3"), clear("--help"));
    assert_eq!(asked("clear -- -- 3"), clear("--"));
    assert_eq!(asked("clear -3 3"), clear("-3"));
    // a value may be any word but the name of an option
    let csv = |csv: &str| {
        Ok(read(
            "d",
            None,
            Reading::List { convention: RAW, layers: Layers::ALL, csv: Some(csv.into()), overwrite: false },
        ))
    };
    for (line, name) in [
        ("list d --raw --csv -", "-"),
        ("list d --raw --csv=-", "-"),
        ("list d --raw --csv -x", "-x"),
        ("list d --raw --csv=--raw", "--raw"),
        ("list d --raw --csv=a=b", "a=b"),
    ] {
        assert_eq!(asked(line), csv(name), "{line}");
    }
    // words that are no text are kept as they are
    use std::os::unix::ffi::OsStringExt;
    let word = |bytes: &[u8]| OsString::from_vec(bytes.to_vec());
    let words = [word(b"list"), word(b"d\xff"), word(b"--raw"), word(b"--csv=\xfe=")];
    let Ok(Command::Read { from, reading: Reading::List { csv, .. }, .. }) = parse(words) else { panic!() };
    assert_eq!((from, csv), (word(b"d\xff").into(), Some(word(b"\xfe=").into())));
}

#[test]
fn what_a_store_is_not_asked_is_said() {
    for (line, said) in [
        ("put d", "put: KERNELS is missing: cauchy put DIR PLACE X Y Z SIGMA WEIGHT EXPONENT [LAYER]"),
        ("put d 3 1 2", "put: Z, SIGMA, WEIGHT and EXPONENT are missing: "),
        ("put d 3 1 2 3 4 5", "put: EXPONENT is missing: "),
        ("put d 3 1 2 3 4 5 6 7 8", "put: 8 is one word too many: "),
        ("put d 32 1 2 3 4 5 6", "PLACE: 32 is not a place: they are 0 to 31"),
        ("put d -1 1 2 3 4 5 6", "PLACE: -1 is not a place"),
        ("put d +1 1 2 3 4 5 6", "PLACE: +1 is not a place"),
        ("put d 1 1 2 nan 4 5 6", "Z: nan is not a number from -1e100 to 1e100"),
        ("put d 1 1 2 3 1e101 5 6", "SIGMA: 1e101 is not a number"),
        ("put d 1 1 2 3 4 - 6", "WEIGHT: - is not a number"),
        ("put d 1 1 2 3 4 5 x", "EXPONENT: x is not a number"),
        ("put d 1 1 2 3 4 5 6 16", "LAYER: `16` is not a layer: they are 0 to 15"),
        ("put d 1 1 2 3 4 5 6 --alpha 2", "--alpha is the exponent for `-`"),
        ("put d 1 1 2 3 4 5 - --loader native", "--loader goes with a kernel list, put DIR KERNELS"),
        ("put - k", "DIR: `-` is a stream, and a store is a folder"),
        ("clear d", "clear: PLACE is missing: cauchy clear DIR PLACE"),
        ("adopt d", "adopt: PART is missing: cauchy adopt DIR PART.."),
        ("adopt d - -", "standard input: two inputs are to come from there"),
        ("advance d --jobs 0", "--jobs: 0 is not a whole number above 0"),
        (
            "work d --places 3",
            "give --out PART too: cauchy work DIR --places N,N,.. --out PART [--overwrite]",
        ),
        ("work d --places 3,32 --out p", "--places: 32 is not a place: they are 0 to 31"),
        ("work d --places= --out p", "--places:  is not a place: they are 0 to 31"),
        ("clear d 1 --overwrite", "--overwrite: clear takes no option"),
        ("reweigh d 1", "reweigh: WEIGHT is missing"),
        ("reweigh d 1 heavy", "WEIGHT: heavy is not a number"),
        ("init d", "init: MESH is missing: cauchy init DIR MESH [--mesh-unit km|m] [--radius KM]"),
        ("init d m --radius 0", "--radius: 0 is not a number above 0"),
        ("advance d --steps", "--steps: its value is missing"),
        ("advance d --steps=", "--steps:  is not a whole number"),
        ("advance d --steps 1 --steps=1", "--steps is given twice"),
        ("report d", "name a convention: --raw, --rho0 or --mass TARGET"),
        ("report d --raw --bulk 5", "--bulk goes with --rho0 or --mass"),
        ("report d --raw=yes", "--raw takes no value"),
        (
            "report d --mass --raw",
            "--mass: its value is missing before --raw; --mass=--raw would be that word",
        ),
        ("report d --raw --csv c", "--csv: report takes no option but --raw, --rho0, "),
        ("density d 1 2 --raw", "density: Z is missing: cauchy density DIR|SNAPSHOT X Y Z CONVENTION"),
        ("density d 1 2 3 --raw --rho0", "one convention at a time"),
        ("list d --raw --csv - --json", "standard output takes one thing alone"),
        ("track d t --raw --csv - --svg=-", "standard output takes one thing alone"),
        ("track d t --raw --track t", "--track does not go with track; it goes with run and resume"),
        ("run - - --raw", "standard input: two inputs are to come from there"),
        ("track - - --raw", "standard input: two inputs are to come from there"),
        ("run a k --raw --snapshot -", "--snapshot: it is written more than once"),
        ("handover d", "give --html FILE too: cauchy handover DIR --html FILE"),
        ("at d", "at: N is missing"),
        ("at d x", "N: x is not a whole number"),
        ("at d 3 repot --raw", "at: repot is no reading: they are status, report, "),
        ("at d 3 log", "at: log is no reading"),
        ("at d 3 bill k", "at reads a store's folder"),
        ("at d 3 report d --raw", "report: d is one word too many"),
        ("at - 3 page", "DIR: `-` is a stream"),
        ("at --json d 3 report", "at: DIR and N come first"),
        ("report d --row", "--row is no option; the nearest one of report is --raw"),
        (
            "report d -raw",
            "-raw is no option; the nearest one of report is --raw; behind -- it would be an operand",
        ),
        ("report d --rwa=1", "--rwa is no option; the nearest one of report is --raw"),
        ("help pot", "SUBJECT: pot is no command and no topic; the nearest one is put"),
        ("completions csh", "SHELL: csh is none of bash, zsh and fish"),
        ("man cauchy", "man: cauchy is one word too many: cauchy man"),
        ("--json report d", "--json: the command comes first, and then its options"),
        ("-x", "-x: the command comes first"),
    ] {
        match asked(line) {
            Err(Failure::Usage(text)) => assert!(text.contains(said), "{line}: {text}"),
            other => panic!("{line}: {other:?}"),
        }
    }
    let empty = ["report", "", "--raw"].map(OsString::from);
    assert_eq!(parse(empty), Failure::usage("DIR|SNAPSHOT: an empty word names no file"));
}

// ---- The table ----

#[test]
fn the_table_is_in_order() {
    let names: BTreeSet<&str> = table::COMMANDS.iter().map(|command| command.name).collect();
    let topics: BTreeSet<&str> = topics::TOPICS.iter().map(|topic| topic.name).collect();
    assert_eq!((names.len(), topics.len()), (table::COMMANDS.len(), topics::TOPICS.len()));
    assert!(names.is_disjoint(&topics) && table::READINGS.iter().all(|reading| names.contains(reading)));
    for command in table::COMMANDS {
        // the number of operands tells the forms apart
        let mut counts: Vec<_> = command.forms.iter().map(Form::counts).collect();
        counts.sort();
        assert!(counts.windows(2).all(|pair| pair[0].1 < pair[1].0), "{}", command.name);
        let is_named = |option: &&OptionRow| option.name.starts_with("--") && !option.meaning.ends_with('.');
        assert!(
            command.all_options().iter().all(is_named) && !command.purpose.ends_with('.'),
            "{}",
            command.name
        );
    }
}

/// The words of a form with every operand and every option, and each option's own.
fn whole(name: &str, form: &Form) -> (Vec<String>, Vec<Vec<String>>) {
    let value = |kind: Kind, name: &str| match kind {
        Kind::Words(words) => words[words.len() - 1].to_string(),
        Kind::Number if name == "EXPONENT" => "-".to_string(),
        Kind::Number => "3".to_string(),
        Kind::Subject => "run".to_string(),
        _ => name.trim_start_matches('-').to_string(),
    };
    let operands = form.operands.iter().filter(|operand| operand.kind != Kind::Reading);
    let operands = operands.map(|operand| value(operand.kind, operand.name));
    let one = [rows::RAW.name, rows::RHO0.name];
    let is_asked = |option: &&OptionRow| form.conventions != Conventions::One || !one.contains(&option.name);
    let words = |option: &OptionRow| {
        let value = option.value.map(|(_, kind)| value(kind, option.name));
        std::iter::once(option.name.to_string()).chain(value).collect()
    };
    let command = std::iter::once(name.to_string()).chain(operands).collect();
    (command, form.all_options().filter(is_asked).map(words).collect())
}

#[test]
fn every_option_of_the_table_is_taken_and_changes_what_is_asked() {
    let mut seen = 0;
    for (command, form) in
        table::COMMANDS.iter().flat_map(|row| row.forms.iter().map(move |form| (row, form)))
    {
        let (words, options) = whole(command.name, form);
        let all = |without: Option<usize>| {
            let options =
                options.iter().enumerate().filter(|(i, _)| Some(*i) != without).flat_map(|(_, words)| words);
            parse(words.iter().chain(options).map(OsString::from))
        };
        let asked = all(None);
        assert!(asked.is_ok(), "{words:?} {options:?}: {asked:?}");
        for (i, option) in options.iter().enumerate() {
            assert_ne!(all(Some(i)), asked, "{} {option:?}", command.name);
            seen += 1;
        }
    }
    assert!(seen > 60, "{seen}");
}

#[test]
fn the_help_tells_all_and_fits_the_page() {
    let all = help(None);
    for command in table::COMMANDS {
        assert!(
            all.contains(&format!("  {}", command.name)) && all.contains(command.purpose),
            "{}",
            command.name
        );
        let told = help(Some(command.name));
        for option in command.all_options() {
            assert!(told.contains(&format!("  {}", option.usage())), "{}: {}", command.name, option.name);
        }
        assert!(told.lines().all(|line| line.chars().count() <= 110), "{told}");
    }
    for topic in topics::TOPICS {
        let told = help(Some(topic.name));
        assert!(
            all.contains(topic.purpose) && told.lines().all(|line| line.chars().count() <= 112),
            "{told}"
        );
    }
    assert!(all.lines().all(|line| line.chars().count() <= text::WIDTH), "{all}");
    assert!(help(Some("exit")).contains("130   interrupted"));
}

#[test]
fn any_words_are_understood_or_told_of() {
    use std::os::unix::ffi::OsStringExt;
    let odd = [
        "", "-", "--", "=", "-5", "-.5", "--=", "--mass=", "--raw=1", "0", "31", "1e400", "d", "é", "--é",
        "-x",
    ];
    let names =
        table::COMMANDS.iter().map(|command| command.name).chain(table::options().map(|option| option.name));
    let mut pool: Vec<OsString> = names.chain(odd).map(OsString::from).collect();
    pool.push(OsString::from_vec(vec![b'-', b'-', 0xff, b'=', 0xfe]));
    pool.push(OsString::from("x".repeat(5000)));
    // a generator of Knuth's: the same words in every run
    let mut state: u64 = 33;
    let mut pick = |most: usize| {
        state = state.wrapping_mul(6364136223846793005).wrapping_add(1442695040888963407);
        (state >> 33) as usize % most
    };
    let mut understood = 0;
    for _ in 0..20_000 {
        let mut words = vec![OsString::from(table::COMMANDS[pick(table::COMMANDS.len())].name)];
        words.extend((0..pick(6)).map(|_| pool[pick(pool.len())].clone()).collect::<Vec<_>>());
        match parse(words.clone()) {
            Ok(_) => understood += 1,
            Err(Failure::Usage(text)) => assert!(!text.is_empty()),
            Err(other) => panic!("{words:?}: {other:?}"),
        }
    }
    assert!(understood > 500, "{understood}");
}
