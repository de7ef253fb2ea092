//! The tab Work still to run: the steps that each place has left.
use super::html::{Html, Table, element, figure, paragraph, void};
use super::kernels::places;
use super::readings::{Readings, need};
use crate::figures::{count, counted};
use cauchy::Store;

pub fn tab(store: &Store, read: &Readings) -> Html {
    let heads = ["place", "layer", "pieces", "steps needed", "steps done", "steps left", "done"];
    let mut table = Table::new("work-table", "Steps by place: one step is one face of one piece", heads);
    for (place, held) in &read.held {
        let (need, left) = (need(store, held), store.left_at(*place));
        let counts = [held.layer, held.pieces].map(figure);
        table.row(place.to_string(), counts.into_iter().chain(steps(need, left)));
    }
    let pieces: u32 = read.held.iter().map(|(_, held)| held.pieces).sum();
    let counts = [figure(""), figure(pieces)];
    table.row("all", counts.into_iter().chain(steps(read.need, read.left)));
    Html::from([paragraph(said(store, read)), table.html()])
}

/// What is left, in words.
pub fn said(store: &Store, read: &Readings) -> Html {
    if read.left == 0 {
        return "No work is left: every reading can be taken.".into();
    }
    let has_work = |place: &u32| store.left_at(*place) > 0;
    let unfinished: Vec<u32> = read.held.iter().map(|(place, _)| *place).filter(has_work).collect();
    let said = format!(
        "{} left of {}, in {}. The report and the wall page wait for them, and so do densities and the list by mass; ",
        counted(read.left, "step"),
        count(read.need),
        places(&unfinished)
    );
    Html::from([said.into(), element("code", &[], "cauchy advance"), " does them.".into()])
}

/// The cells of steps needed, done and left, and the part that is done as a bar and as a number.
fn steps(need: u64, left: u64) -> [Html; 4] {
    let done = need.saturating_sub(left);
    let bar = element("td", &[("class", "n")], [Html::from(percent(done, need)), bar(done, need)]);
    [figure(count(need)), figure(count(done)), figure(count(left)), bar]
}

/// The part that is done, in per cent. What is not whole is never said to be, however little is left.
fn percent(done: u64, need: u64) -> String {
    let tenths = if need == 0 { 1000 } else { u128::from(done) * 1000 / u128::from(need) };
    format!("{}.{} %", tenths / 10, tenths % 10)
}

fn bar(done: u64, need: u64) -> Html {
    let part = if need == 0 { 100.0 } else { 100.0 * done as f64 / need as f64 };
    let all = void("rect", &[("class", "all"), ("width", "100"), ("height", "10")]);
    let done = void("rect", &[("class", "done"), ("width", &format!("{part:.2}")), ("height", "10")]);
    let shown = [
        ("class", "bar"),
        ("viewBox", "0 0 100 10"),
        ("preserveAspectRatio", "none"),
        ("aria-hidden", "true"),
    ];
    element("svg", &shown, [all, done])
}

#[cfg(test)]
mod tests {
    use super::*;

    #[test]
    fn what_is_not_whole_is_not_said_to_be() {
        let said = [(0, 3), (1, 3), (999_999, 1_000_000), (5, 5), (0, 0), (u64::MAX - 1, u64::MAX)];
        let said = said.map(|(done, need)| percent(done, need));
        assert_eq!(said, ["0.0 %", "33.3 %", "99.9 %", "100.0 %", "100.0 %", "99.9 %"]);
    }
}
