//! Calls, answers and lines of the log in words.
use super::call::{Answer, Call, Open};
use super::log::Entry;
use super::when;
use crate::figures::{counted, short};
use crate::json::{Value, object};
use crate::page;

const METRES_IN_KM: f64 = 1000.0;

/// The heading over the lines of a log.
pub const HEADING: &str = "  line  time (UTC)            user      edit: answer\n";

/// A line of the log for people.
pub fn line(entry: &Entry) -> String {
    let Entry { number, who, .. } = entry;
    let [call, answer] = in_words(entry);
    let answer = if answer.is_empty() { answer } else { format!(": {answer}") };
    format!("{number:>6}  {}  {who:<8}  {call}{answer}\n", when::text(entry.when))
}

/// The call and the answer of a line in words: lengths in km, weights in kg/m³.
pub fn in_words(entry: &Entry) -> [String; 2] {
    if let Some(open) = Open::parse(&entry.call) {
        // an opening answers its counts, which it has named already
        return [opening(&open), String::new()];
    }
    let call = Call::parse(&entry.call).map_or(entry.call.clone(), said);
    [call, Answer::parse(&entry.answer).map_or(entry.answer.clone(), told)]
}

/// A line of the log for programs.
pub fn value(entry: &Entry) -> Value {
    let refused = match Answer::parse(&entry.answer) {
        Some(Answer::Refused(refusal)) => Some(refusal.number()),
        _ => None,
    };
    object([
        ("line", entry.number.into()),
        ("time", when::text(entry.when).into()),
        ("user", entry.who.as_str().into()),
        ("call", entry.call.as_str().into()),
        ("answer", entry.answer.as_str().into()),
        ("refused", refused.into()),
    ])
}

fn opening(open: &Open) -> String {
    let size = page::size(open.vertices.into(), open.faces.into());
    format!("open {size}, radius {} km", short(open.radius / METRES_IN_KM))
}

/// A call in words.
pub fn said(call: Call) -> String {
    match call {
        Call::Put { place, kernel, layer } => {
            let [x, y, z] = kernel.c.map(|x| short(x / METRES_IN_KM));
            let sigma = short(kernel.sigma * METRES_IN_KM);
            let (weight, exponent) = (short(kernel.w), short(kernel.alpha));
            let layer = if layer > 0 { format!(", layer {layer}") } else { String::new() };
            let shape = format!("sigma {sigma} 1/km, weight {weight} kg/m³, exponent {exponent}");
            format!("put {place} at {x} {y} {z} km, {shape}{layer}")
        }
        Call::Clear(place) => format!("clear {place}"),
        Call::Reweigh(place, weight) => format!("reweigh {place} to {} kg/m³", short(weight)),
        Call::Advance(steps) => format!("advance by {}", counted(steps, "step")),
        Call::Squeeze => "squeeze".to_string(),
        Call::Adopt { place, steps } => format!("adopt {place} at {}", counted(steps, "step")),
    }
}

/// An answer in words.
pub fn told(answer: Answer) -> String {
    match answer {
        Answer::Placed { pieces, steps, .. } => {
            format!("{}, {} to do", counted(pieces.into(), "piece"), counted(steps.into(), "step"))
        }
        Answer::Cleared(_) => "empty".to_string(),
        Answer::Reweighed(_) => "its work is kept".to_string(),
        Answer::Advanced { done, left } => page::steps(done, left),
        Answer::Squeezed { freed: 0 } => "every vertex is in a face: none taken out".to_string(),
        Answer::Squeezed { freed } => {
            format!("{} in no face, taken out", counted(u64::from(freed / 3), "vertex"))
        }
        Answer::Adopted { pieces, left, .. } => {
            let left =
                if left == 0 { "none left".to_string() } else { format!("{} left", counted(left, "step")) };
            format!("{}, {left}", counted(pieces.into(), "piece"))
        }
        Answer::Refused(refusal) => format!("REFUSED, {refusal}"),
    }
}

#[cfg(test)]
mod tests {
    use super::*;
    use cauchy::{Kernel, Refusal};

    fn entry(call: &str, answer: &str) -> Entry {
        let (call, answer) = (call.to_string(), answer.to_string());
        Entry { number: 12, when: 1_794_929_580, who: "ada".to_string(), call, answer }
    }

    #[test]
    fn lines_are_told_in_words() {
        let kernel = Kernel { c: [230.0, -50.0, 190.0], sigma: 0.0075, w: 540.0, alpha: 1.5 };
        let put = |layer| Call::Put { place: 1, kernel, layer }.to_string();
        let told = |call: &str, answer: &str| line(&entry(call, answer));
        let head = "    12  2026-11-17T15:33:00Z  ada       ";
        for (call, answer, words) in [
            (
                put(3).as_str(),
                "(put 1 (pieces 13) (steps 9360))",
                "put 1 at 0.23 -0.05 0.19 km, sigma 7.5 1/km, weight 540 kg/m³, exponent 1.5, layer 3: \
                 13 pieces, 9,360 steps to do",
            ),
            ("(clear 1)", "(clear 1)", "clear 1: empty"),
            ("(clear 1)", "(no 7) vacant", "clear 1: REFUSED, vacant: the place is empty (no 7)"),
            ("(reweigh 1 4072C00000000000)", "(reweigh 1)", "reweigh 1 to 300 kg/m³: its work is kept"),
            ("(advance 1)", "(advance (done 1) (left 0))", "advance by 1 step: 1 step done, none left"),
            ("(squeeze)", "(squeeze (freed 9))", "squeeze: 3 vertices in no face, taken out"),
            (
                "(adopt 7 (steps 9000))",
                "(adopt 7 (pieces 13) (left 360))",
                "adopt 7 at 9,000 steps: 13 pieces, 360 steps left",
            ),
            ("(adopt 7 (steps 1))", "(adopt 7 (pieces 1) (left 0))", "adopt 7 at 1 step: 1 piece, none left"),
            (
                "(open (radius 407F400000000000) (verts 3) (faces 1) (mesh 00000000000000AB))",
                "(open (verts 3) (faces 1))",
                "open 3 vertices, 1 face, radius 0.5 km",
            ),
            ("(later 1)", "(later (odd 2))", "(later 1): (later (odd 2))"),
        ] {
            assert_eq!(told(call, answer), format!("{head}{words}\n"));
        }
        assert!(!told(&put(0), "").contains("layer"));
    }

    #[test]
    fn programs_get_the_very_lines() {
        let refused = entry("(clear 1)", &Answer::Refused(Refusal::Vacant).to_string());
        let wanted = r#"{"line": 12, "time": "2026-11-17T15:33:00Z", "user": "ada", "call": "(clear 1)", "#
            .to_string()
            + r#""answer": "(no 7) vacant: the place is empty", "refused": 7}"#;
        assert_eq!(value(&refused).to_string(), wanted);
    }
}
