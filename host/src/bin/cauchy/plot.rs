//! The density along a track as a picture (SVG).
use crate::figures::{counted, rounded, short};
use crate::page;
use crate::readings::Track;
use std::fmt::Write;

const WIDTH: f64 = 960.0;
const HEIGHT: f64 = 480.0;
const LEFT: f64 = 92.0;
const RIGHT: f64 = WIDTH - 36.0;
const TOP: f64 = 84.0;
const BOTTOM: f64 = HEIGHT - 72.0;

const STYLE: &str = "\
text { font-family: 'Helvetica Neue', Helvetica, Arial, 'DejaVu Sans', sans-serif; fill: #4a5a6a; font-size: 13px }
.title { font-size: 20px; font-weight: 600; fill: #16242f }
.subtitle { font-size: 13.5px; fill: #66747f }
.peak { font-size: 13px; fill: #0f5a86 }
.key { font-size: 12px; fill: #66747f }
.grid { stroke: #e1e7ec; stroke-width: 1 }
.axis { stroke: #8896a3; stroke-width: 1 }
.band { fill: #eceff2 }
.edge { stroke: #bcc7d0; stroke-width: 1; stroke-dasharray: 3 3 }
.area { fill: #1b79b0; fill-opacity: 0.12 }
.curve { fill: none; stroke: #1b79b0; stroke-width: 2.2; stroke-linejoin: round; stroke-linecap: round }
.outside { fill: none; stroke: #7c9fb4; stroke-width: 1.8; stroke-linejoin: round; stroke-dasharray: 5 4 }
.dot { fill: #ffffff; stroke: #0f5a86; stroke-width: 2 }";

/// One axis: the range shown, its ticks, and where a value lies on the page.
struct Axis {
    low: f64,
    high: f64,
    step: f64,
    from: f64,
    to: f64,
}

impl Axis {
    /// A range opened to whole ticks of 1, 2, 2.5 or 5 times a power of ten, about `ticks` of them.
    fn opened(low: f64, high: f64, ticks: f64, from: f64, to: f64) -> Axis {
        let wide = high - low;
        let wide = if wide > 0.0 { wide } else { low.abs().max(1.0) };
        let step = tick_step(wide / ticks);
        let (low, high) = ((low / step).floor() * step, (high / step).ceil() * step);
        let high = if high > low { high } else { low + step };
        Axis { low, high, step, from, to }
    }

    /// Exactly this range.
    fn closed(high: f64, ticks: f64, from: f64, to: f64) -> Axis {
        let high = if high > 0.0 { high } else { 1.0 };
        Axis { low: 0.0, high, step: tick_step(high / ticks), from, to }
    }

    fn at(&self, value: f64) -> f64 {
        self.from + (self.to - self.from) * ((value - self.low) / (self.high - self.low))
    }

    fn ticks(&self) -> impl Iterator<Item = f64> {
        let first = (self.low / self.step).ceil() as i64;
        let last = (self.high / self.step * (1.0 + 1e-12)).floor() as i64;
        (first..=last).map(|i| i as f64 * self.step)
    }
}

/// The least of 1, 2, 2.5 and 5 times a power of ten that is not below this.
pub fn tick_step(least: f64) -> f64 {
    let power = 10_f64.powf(least.log10().floor());
    let steps = [1.0, 2.0, 2.5, 5.0, 10.0].map(|digit| digit * power);
    steps.into_iter().find(|step| *step >= least * (1.0 - 1e-9)).unwrap_or(10.0 * power)
}

/// The most points of a curve, and the columns of the page that it is thinned by: five points of each are kept.
const MOST_POINTS: usize = 2000;
const COLUMNS: f64 = 400.0;
/// The most stretches inside the mesh that have a line at their ends.
const MOST_EDGED: usize = 40;

/// Draws a track, under the name of its file.
pub fn picture(track: &Track) -> String {
    let name: String =
        track.file.file_name().unwrap_or_default().to_string_lossy().chars().take(32).collect();
    let (by, kernels) = (track.by, counted(track.kernels, "kernel"));
    let subtitle = format!("{} (convention {}) · {kernels} · {name}", page::convention(by), by.name());
    svg("Density along the track", &subtitle, track)
}

/// Draws the density; the lines say what is drawn.
fn svg(title: &str, subtitle: &str, track: &Track) -> String {
    let (unit, metres) = if track.length() < 5000.0 { ("m", 1.0) } else { ("km", 1000.0) };
    let along: Vec<f64> = track.along.iter().map(|way| way / metres).collect();
    let across = Axis::closed(track.length() / metres, 8.0, LEFT, RIGHT);
    let up = density_axis(&track.density);
    let mut page = head(title, subtitle);
    bands(&mut page, &across, &along, &track.inside);
    keys(&mut page, &track.inside);
    grid(&mut page, &across, &up, unit);
    curve(&mut page, &across, &up, &thinned(&across, &along, &track.density));
    if let Some(i) = track.greatest().filter(|i| can_be_drawn(track.density[*i])) {
        peak(&mut page, (across.at(along[i]), up.at(track.density[i])), track.density[i], along[i], unit);
    }
    page += "</svg>\n";
    page
}

/// The points of a curve, those of a long one thinned so that it looks the same: of each column of the page the first
/// and the last, the least and the greatest, and one that cannot be drawn where there is one.
fn thinned(across: &Axis, along: &[f64], density: &[f64]) -> Vec<(f64, f64)> {
    let points: Vec<(f64, f64)> = along.iter().copied().zip(density.iter().copied()).collect();
    if points.len() <= MOST_POINTS {
        return points;
    }
    let column = |(way, _): &(f64, f64)| {
        ((across.at(*way) - LEFT) / (RIGHT - LEFT) * COLUMNS).min(COLUMNS - 1.0) as u32
    };
    points.chunk_by(|one, next| column(one) == column(next)).flat_map(kept).collect()
}

/// The points of a column that are kept, in their order.
fn kept(column: &[(f64, f64)]) -> Vec<(f64, f64)> {
    let density = |i: &usize| column[*i].1;
    let drawn = || (0..column.len()).filter(|i| can_be_drawn(column[*i].1));
    let least = drawn().min_by(|i, j| density(i).total_cmp(&density(j)));
    let greatest = drawn().max_by(|i, j| density(i).total_cmp(&density(j)));
    let gap = (0..column.len()).find(|i| !can_be_drawn(column[*i].1));
    let mut found: Vec<usize> =
        [drawn().next(), drawn().next_back(), least, greatest, gap].into_iter().flatten().collect();
    found.sort_unstable();
    found.dedup();
    found.into_iter().map(|i| column[i]).collect()
}

/// Whether a density can be drawn: it is a number, and the range of two of them is one.
fn can_be_drawn(density: f64) -> bool {
    density.abs() < 1e300
}

/// From 0 where the least density is not far above it, with room for a label over the greatest.
fn density_axis(density: &[f64]) -> Axis {
    let finite = density.iter().copied().filter(|density| can_be_drawn(*density));
    let (low, high) =
        finite.fold((f64::INFINITY, f64::NEG_INFINITY), |(low, high), x| (low.min(x), high.max(x)));
    let (low, high) = if low <= high { (low, high) } else { (0.0, 1.0) };
    let low = if low > 0.0 && low < 0.6 * high { 0.0 } else { low };
    Axis::opened(low, high + 0.08 * (high - low), 6.0, BOTTOM, TOP)
}

fn head(title: &str, subtitle: &str) -> String {
    let (title, subtitle) = (escaped(title), escaped(subtitle));
    format!(
        "<svg xmlns=\"http://www.w3.org/2000/svg\" viewBox=\"0 0 {WIDTH} {HEIGHT}\" width=\"{WIDTH}\" \
         height=\"{HEIGHT}\" role=\"img\">\n<title>{title}: {subtitle}</title>\n<style>\n{STYLE}\n</style>\n\
         <rect width=\"{WIDTH}\" height=\"{HEIGHT}\" fill=\"#ffffff\"/>\n\
         <text class=\"title\" x=\"{LEFT}\" y=\"38\">{title}</text>\n\
         <text class=\"subtitle\" x=\"{LEFT}\" y=\"61\">{subtitle}</text>\n"
    )
}

/// Shades the stretches of the track that are outside the mesh; those inside cut the curve that is drawn as inside.
fn bands(page: &mut String, across: &Axis, along: &[f64], inside: &[bool]) {
    let tall = BOTTOM - TOP;
    let place = |(from, to): &(f64, f64)| {
        let (x, wide) = (across.at(*from), across.at(*to) - across.at(*from));
        format!("x=\"{x:.1}\" y=\"{TOP}\" width=\"{wide:.1}\" height=\"{tall}\"")
    };
    // what is nearer than half a point of the page is one stretch
    let gap = (across.high - across.low) / (RIGHT - LEFT) / 2.0;
    let [outside, inside] = [false, true].map(|is| stretches(along, inside, is, gap));
    let edges = |(from, to): &(f64, f64)| {
        [from, to].map(|way| format!("M{:.1} {TOP}V{BOTTOM}", across.at(*way))).concat()
    };
    *page += &outside
        .iter()
        .map(|stretch| format!("<rect class=\"band\" {}/>\n", place(stretch)))
        .collect::<String>();
    if inside.len() <= MOST_EDGED {
        let edges: String = inside.iter().map(edges).collect();
        let _ = writeln!(page, "<path class=\"edge\" d=\"{edges}\"/>");
    }
    let cut: String = inside.iter().map(|stretch| format!("<rect {}/>", place(stretch))).collect();
    let _ = writeln!(page, "<clipPath id=\"inside\">{cut}</clipPath>");
}

/// What the two kinds of line mean, of those that are there.
fn keys(page: &mut String, inside: &[bool]) {
    let (from, to, label) = (RIGHT - 226.0, RIGHT - 198.0, RIGHT - 190.0);
    if inside.contains(&true) {
        let _ = writeln!(
            page,
            "<path class=\"curve\" d=\"M{from} 22H{to}\"/>\
             <text class=\"key\" x=\"{label}\" y=\"26\">inside the body</text>"
        );
    }
    if inside.contains(&false) {
        let _ = writeln!(
            page,
            "<rect class=\"band\" x=\"{from}\" y=\"34\" width=\"28\" height=\"14\"/><path class=\"outside\" \
             d=\"M{from} 41H{to}\"/><text class=\"key\" x=\"{label}\" y=\"45\">outside: the kernels carried on</text>"
        );
    }
}

/// The stretches of points that are inside, or that are not, from midway to midway between points; those no farther
/// than a gap from each other are one.
fn stretches(along: &[f64], inside: &[bool], is: bool, gap: f64) -> Vec<(f64, f64)> {
    let mut found: Vec<(f64, f64)> = Vec::new();
    for (i, _) in inside.iter().enumerate().filter(|(_, inside)| **inside == is) {
        let before = along[i.saturating_sub(1)];
        let after = along[(i + 1).min(along.len() - 1)];
        let (from, to) = ((before + along[i]) / 2.0, (along[i] + after) / 2.0);
        match found.last_mut() {
            Some(last) if from - last.1 <= gap => last.1 = to,
            _ => found.push((from, to)),
        }
    }
    found
}

fn grid(page: &mut String, across: &Axis, up: &Axis, unit: &str) {
    for density in up.ticks() {
        let y = up.at(density);
        let (label, below, before) = (short(density), y + 4.5, LEFT - 10.0);
        let _ = writeln!(
            page,
            "<path class=\"grid\" d=\"M{LEFT} {y:.1}H{RIGHT}\"/>\
             <text x=\"{before}\" y=\"{below:.1}\" text-anchor=\"end\">{label}</text>"
        );
    }
    for way in across.ticks() {
        let (x, label) = (across.at(way), short(way));
        let (tick, below) = (BOTTOM + 5.0, BOTTOM + 22.0);
        let _ = writeln!(
            page,
            "<path class=\"axis\" d=\"M{x:.1} {BOTTOM}V{tick}\"/>\
             <text x=\"{x:.1}\" y=\"{below}\" text-anchor=\"middle\">{label}</text>"
        );
    }
    let (middle, lowest) = ((LEFT + RIGHT) / 2.0, HEIGHT - 22.0);
    let centre = (TOP + BOTTOM) / 2.0;
    let _ = writeln!(
        page,
        "<path class=\"axis\" d=\"M{LEFT} {BOTTOM}H{RIGHT}\"/>\n\
         <text x=\"{middle}\" y=\"{lowest}\" text-anchor=\"middle\">distance along the track [{unit}]</text>\n\
         <text transform=\"translate(26 {centre}) rotate(-90)\" text-anchor=\"middle\">density [kg/m³]</text>"
    );
}

/// The curve, broken where a density cannot be drawn, and the area under it where 0 is on the page. Outside the mesh
/// it is only the kernels' continuation, and drawn so.
fn curve(page: &mut String, across: &Axis, up: &Axis, points: &[(f64, f64)]) {
    let clip = "clip-path=\"url(#inside)\"";
    for run in points.split(|(_, density)| !can_be_drawn(*density)).filter(|run| !run.is_empty()) {
        let at = |(way, density): &(f64, f64)| format!("{:.1} {:.1}", across.at(*way), up.at(*density));
        let line = run.iter().map(at).collect::<Vec<_>>().join("L");
        if up.low <= 0.0 && up.high >= 0.0 {
            let (first, last) = (across.at(run[0].0), across.at(run[run.len() - 1].0));
            let zero = up.at(0.0);
            let area = format!("M{first:.1} {zero:.1}L{line}L{last:.1} {zero:.1}Z");
            let _ = writeln!(page, "<path class=\"area\" {clip} d=\"{area}\"/>");
        }
        let _ = writeln!(page, "<path class=\"outside\" d=\"M{line}\"/>");
        let _ = writeln!(page, "<path class=\"curve\" {clip} d=\"M{line}\"/>");
    }
}

/// A dot with its figures.
fn peak(page: &mut String, (x, y): (f64, f64), density: f64, way: f64, unit: &str) {
    let (anchor, beside) = if x < WIDTH * 0.6 { ("start", x + 9.0) } else { ("end", x - 9.0) };
    let (density, way, above) = (rounded(density, 4), rounded(way, 3), y - 8.0);
    let _ = writeln!(
        page,
        "<circle class=\"dot\" cx=\"{x:.1}\" cy=\"{y:.1}\" r=\"4\"/>\
         <text class=\"peak\" x=\"{beside:.1}\" y=\"{above:.1}\" text-anchor=\"{anchor}\">\
         {density} kg/m³ at {way} {unit}</text>"
    );
}

/// Text that may stand in SVG.
fn escaped(text: &str) -> String {
    let mut safe = String::new();
    for c in text.chars() {
        match c {
            '&' => safe += "&amp;",
            '<' => safe += "&lt;",
            '>' => safe += "&gt;",
            c if c.is_control() => safe.push('\u{fffd}'),
            c => safe.push(c),
        }
    }
    safe
}

#[cfg(test)]
mod tests {
    use super::*;
    use cauchy::{Convention, Layers};

    fn of(density: &[f64], inside: impl Fn(usize) -> bool) -> Track {
        let along: Vec<f64> = (0..density.len()).map(|i| 10.0 * i as f64).collect();
        Track {
            by: Convention::Raw,
            layers: Layers::ALL,
            file: "t.txt".into(),
            kernels: 1,
            points: along.iter().map(|way| [*way, 0.0, 0.0]).collect(),
            inside: (0..along.len()).map(inside).collect(),
            along,
            density: density.to_vec(),
            notes: Vec::new(),
        }
    }

    fn drawn(density: &[f64]) -> String {
        svg("a < b & c", "", &of(density, |i| i == 0))
    }

    #[test]
    fn ticks_are_round() {
        assert_eq!(
            [0.9, 1.0, 1.3, 2.0, 2.1, 60.0, 0.03].map(tick_step),
            [1.0, 1.0, 2.0, 2.0, 2.5, 100.0, 0.05]
        );
        let axis = Axis::opened(-3.0, 17.0, 5.0, 0.0, 100.0);
        assert_eq!(axis.ticks().collect::<Vec<_>>(), [-5.0, 0.0, 5.0, 10.0, 15.0, 20.0]);
    }

    #[test]
    fn every_track_is_drawn_in_figures() {
        let tracks: [&[f64]; 9] = [
            &[f64::MAX, f64::MIN, 1.0],
            &[1.0],
            &[5.0, 5.0],
            &[0.0, 0.0],
            &[-2.0, 7.0, f64::NAN, 3.0],
            &[f64::NAN; 2],
            &[f64::INFINITY, 1.0],
            &[1e300, -1e300],
            &[1e-300, 2e-300],
        ];
        for density in tracks {
            let page = drawn(density);
            let shown = page.split("</style>").nth(1).unwrap();
            assert!(!shown.contains("NaN") && !shown.contains("inf"), "{density:?}: {shown}");
            assert!(shown.contains("a &lt; b &amp; c"));
            assert!(page.len() < 20_000, "{density:?}");
        }
    }

    #[test]
    fn stretches_reach_midway() {
        let along = [0.0, 10.0, 20.0, 30.0, 40.0];
        let inside = [true, false, true, true, false];
        assert_eq!(stretches(&along, &inside, true, 0.0), [(0.0, 5.0), (15.0, 35.0)]);
        assert_eq!(stretches(&along, &inside, false, 0.0), [(5.0, 15.0), (35.0, 40.0)]);
        assert_eq!(stretches(&along, &inside, true, 10.0), [(0.0, 35.0)]);
    }

    #[test]
    fn outside_is_shaded_and_dashed_with_a_key() {
        let both = svg("", "", &of(&[1.0, 2.0, 3.0, 2.0], |i| i == 1 || i == 2));
        let shaded = |page: &str| page.matches("<rect class=\"band\"").count();
        // the key is one, and the two ends of the track
        assert_eq!(shaded(&both), 3);
        assert!(both.contains("inside the body</text>") && both.contains("outside: the kernels"), "{both}");
        let inside = svg("", "", &of(&[1.0, 2.0], |_| true));
        assert!(shaded(&inside) == 0 && !inside.contains("outside: "), "{inside}");
        let outside = svg("", "", &of(&[1.0, 2.0], |_| false));
        assert!(shaded(&outside) == 2 && !outside.contains("inside the body</text>"), "{outside}");
    }

    #[test]
    fn a_long_track_is_thinned_and_keeps_every_peak() {
        let bumpy = |i: usize| 1500.0 + 300.0 * (i as f64 / 9000.0).sin() + (i * 7919 % 101) as f64;
        let mut density: Vec<f64> = (0..200_000).map(bumpy).collect();
        (density[77_777], density[123_456], density[5]) = (9000.0, -4000.0, f64::NAN);
        let track = of(&density, |i| i / 3 % 2 == 0);
        let across = Axis::closed(track.length(), 8.0, LEFT, RIGHT);
        let kept = thinned(&across, &track.along, &track.density);
        assert!(kept.len() <= MOST_POINTS && kept.len() > MOST_POINTS / 2, "{}", kept.len());
        assert!(kept.is_sorted_by(|one, next| one.0 < next.0));
        let has = |i: usize| kept.contains(&(track.along[i], density[i]));
        assert!(has(0) && has(77_777) && has(123_456) && has(199_999));
        assert_eq!(kept.iter().filter(|(_, density)| density.is_nan()).count(), 1);
        for part in density.chunks(500) {
            let of_part = kept.iter().filter(|(_, kept)| part.contains(kept)).map(|(_, kept)| *kept);
            let greatest = part.iter().copied().fold(f64::MIN, f64::max);
            assert!(of_part.fold(f64::MIN, f64::max) == greatest, "{greatest}");
        }
        let page = svg("", "", &track);
        assert!(page.len() < 400_000, "{}", page.len());
        // a short one is drawn as it is
        let few = of(&density[..MOST_POINTS], |_| true);
        assert_eq!(thinned(&across, &few.along, &few.density).len(), MOST_POINTS);
    }
}
