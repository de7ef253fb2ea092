//! The cases of cases.txt.

/// An input and what is printed for it.
#[derive(Default)]
pub struct Case {
    pub name: String,
    pub input: Vec<u8>,
    pub printed: String,
}

/// The cases as the file has them; the lines before the first are its legend.
pub fn all() -> Vec<Case> {
    let mut cases: Vec<Case> = Vec::new();
    for line in include_str!("cases.txt").lines().skip_while(|line| !line.is_empty()) {
        let (mark, rest) = line.split_at_checked(2).unwrap_or((line, ""));
        if mark == "# " {
            cases.push(Case { name: rest.into(), ..Case::default() });
            continue;
        }
        let case = cases.last_mut();
        match (mark, case) {
            ("", _) => {}
            ("> " | ">", Some(case)) => case.input.extend([spelt(rest), b"\n".to_vec()].concat()),
            (">|", Some(case)) => case.input.extend(spelt(&rest[1..])),
            ("< ", Some(case)) => case.printed += &(String::from_utf8(spelt(rest)).expect("ASCII is printed") + "\n"),
            _ => panic!("cases.txt: {line}"),
        }
    }
    cases
}

/// The bytes of a line, whose braces are spelt out.
fn spelt(line: &str) -> Vec<u8> {
    let mut bytes = Vec::new();
    let mut rest = line;
    while let Some((before, after)) = rest.split_once('{') {
        let (word, after) = after.split_once('}').expect("a brace closes");
        bytes.extend(before.as_bytes());
        bytes.extend(brace(word));
        rest = after;
    }
    bytes.extend(rest.as_bytes());
    bytes
}

fn brace(word: &str) -> Vec<u8> {
    match word.strip_prefix('=') {
        Some("sp") => vec![b' '],
        Some("cr") => vec![b'\r'],
        Some("tab") => vec![b'\t'],
        Some("nul") => vec![0],
        Some("ff") => vec![0xff],
        Some(many) => vec![many.as_bytes()[0]; many[2..].parse().expect("a count")],
        None => format!("{:016X}", word.parse::<f64>().expect("a float").to_bits()).into_bytes(),
    }
}

/// The cases as one input, each but the first after an opening that empties the store: the first is of the store before any opening. One
/// that ends within a line gets its newline, and one that ends within an opening is the last.
pub fn as_one() -> Vec<u8> {
    let (whole, open): (Vec<Case>, Vec<Case>) = all().into_iter().partition(|case| !ends_in_opening(case));
    let mut input = Vec::new();
    for (i, case) in whole.into_iter().chain(open.into_iter().next_back()).enumerate() {
        if i > 0 {
            input.extend(spelt("(open (radius {0}) (verts 0) (faces 0))\n"));
        }
        input.extend(&case.input);
        if input.last() != Some(&b'\n') {
            input.push(b'\n');
        }
    }
    input
}

fn ends_in_opening(case: &Case) -> bool {
    let mut program = oracle::program::Program::default();
    oracle::program::lines(&case.input).for_each(|line| {
        program.line(line);
    });
    program.opening()
}
