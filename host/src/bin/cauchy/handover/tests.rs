//! The page as a whole: its markup, its colours, and that nothing from outside becomes markup.
use super::*;
use cauchy::{Kernel, Mesh};
use std::collections::HashSet;

const VERTICES: [[f64; 3]; 4] = [[0.0; 3], [900.0, 0.0, 0.0], [0.0, 800.0, 0.0], [0.0, 0.0, 700.0]];
const FACES: [[u32; 3]; 4] = [[0, 2, 1], [0, 1, 3], [0, 3, 2], [1, 2, 3]];
const KERNEL: Kernel = Kernel { c: [100.0, 150.0, 50.0], sigma: 0.002, w: 1200.0, alpha: 1.0 };
const CONVENTIONS: [Convention; 3] =
    [Convention::Raw, Convention::Rho0 { bulk: 1190.0 }, Convention::Mass { target: 1e11, bulk: 1190.0 }];

fn store(faces: &[[u32; 3]], kernels: &[Kernel]) -> Store {
    let mut store = Store::open(900.0, Mesh { vertices: &VERTICES, faces }).unwrap();
    (0..).zip(kernels).for_each(|(place, kernel)| assert!(store.put_in(place, *kernel, place % 16).is_ok()));
    store
}

fn finished(mut store: Store) -> Store {
    assert_eq!(store.advance(u64::MAX).unwrap().left, 0);
    store
}

fn page_of(store: &Store, log: &[Entry], name: &str, who: &str) -> String {
    let path = Path::new("/stores").join(name);
    let page = Page { store, log, path: &path, conventions: &CONVENTIONS, when: 1_794_930_009, who };
    page.html()
}

fn plain(store: &Store) -> String {
    page_of(store, &[], "body", "planner")
}

/// A tag of a page: its name and its attributes.
struct Tag<'a> {
    name: &'a str,
    attributes: Vec<(&'a str, &'a str)>,
}

impl<'a> Tag<'a> {
    fn parse(inner: &'a str) -> Tag<'a> {
        let (name, mut rest) = inner.split_once(' ').unwrap_or((inner, ""));
        let mut attributes = Vec::new();
        while !rest.is_empty() {
            let (attribute, value) = rest.split_once("=\"").unwrap_or_else(|| panic!("<{inner}>"));
            let (value, more) = value.split_once('"').unwrap_or_else(|| panic!("<{inner}>"));
            assert!(!attribute.contains(' ') && !attribute.starts_with("on"), "<{inner}>");
            assert!(attributes.iter().all(|(other, _)| *other != attribute), "<{inner}>: {attribute} twice");
            attributes.push((attribute, value));
            check_text(value);
            rest = more.trim_start_matches(' ');
        }
        Tag { name, attributes }
    }

    fn get(&self, name: &str) -> Option<&'a str> {
        self.attributes.iter().find(|(other, _)| *other == name).map(|(_, value)| *value)
    }
}

/// Text without a bracket, and each `&` the beginning of an entity.
fn check_text(text: &str) {
    assert!(!text.contains(['<', '>']), "{text}");
    const ENTITIES: [&str; 5] = ["amp;", "lt;", "gt;", "quot;", "#39;"];
    let is_entity = |after: &str| ENTITIES.iter().any(|entity| after.starts_with(entity));
    assert!(text.split('&').skip(1).all(is_entity), "{text}");
}

/// The tags of a page, in order, with a check that every element is closed within the one that it stands in.
fn tags(page: &str) -> Vec<Tag<'_>> {
    let mut rest = page.strip_prefix("<!DOCTYPE html>\n").unwrap();
    let (mut tags, mut open) = (Vec::new(), Vec::new());
    while let Some((text, after)) = rest.split_once('<') {
        check_text(text);
        let (inner, after) = after.split_once('>').unwrap();
        rest = after;
        if let Some(name) = inner.strip_prefix('/') {
            assert_eq!(open.pop(), Some(name));
        } else if let Some(inner) = inner.strip_suffix('/') {
            tags.push(Tag::parse(inner));
        } else {
            let tag = Tag::parse(inner);
            open.push(tag.name);
            if matches!(tag.name, "style" | "script") {
                rest = &rest[rest.find(&format!("</{}>", tag.name)).unwrap()..];
            }
            tags.push(tag);
        }
    }
    assert!(open.is_empty() && rest == "\n", "{open:?} {rest}");
    tags
}

/// Checks a page as a whole.
fn check(page: &str) {
    let tags = tags(page);
    let ids: Vec<&str> = tags.iter().filter_map(|tag| tag.get("id")).collect();
    let known: HashSet<&str> = ids.iter().copied().collect();
    assert_eq!(known.len(), ids.len(), "an id occurs twice: {ids:?}");
    let links = || tags.iter().filter_map(|tag| tag.get("href"));
    let named = tags.iter().filter_map(|tag| tag.get("aria-labelledby"));
    assert!(named.chain(links().filter_map(|to| to.strip_prefix('#'))).all(|id| known.contains(id)));
    assert!(links().all(|to| to.starts_with(['#']) || to.starts_with("data:")));
    let has = |name: &str| tags.iter().any(|tag| tag.get(name).is_some());
    assert!(!has("src") && !has("style") && !page.contains("http://") && !page.contains("https://"));
    assert!(!page.contains("url(") && !page.contains("@import"));
    let count = |name: &str| tags.iter().filter(|tag| tag.name == name).count();
    assert_eq!((count("h1"), count("script"), count("section")), (1, 1, 5));
    assert_eq!((count("table"), count("caption")), (count("thead"), count("tbody")));
    assert_eq!(count("table"), count("caption"));
    assert!(
        tags.iter()
            .filter(|tag| tag.name == "th")
            .all(|tag| matches!(tag.get("scope"), Some("col" | "row" | "colgroup")))
    );
    let pictures = tags.iter().filter(|tag| tag.get("role") == Some("img"));
    assert!(pictures.into_iter().all(|tag| tag.get("aria-labelledby").is_some()));
    check_headings(&tags);
    check_columns(page);
}

/// No heading is more than one level under the one before.
fn check_headings(tags: &[Tag<'_>]) {
    let level = |tag: &Tag<'_>| tag.name.strip_prefix('h')?.parse::<u32>().ok();
    let levels: Vec<u32> = tags.iter().filter_map(level).collect();
    assert_eq!(levels[0], 1);
    assert!(levels.windows(2).all(|two| two[1] <= two[0] + 1), "{levels:?}");
}

/// Every row of a table has as many cells as the table has columns; one that goes over all rows is in the first.
fn check_columns(page: &str) {
    for table in page.split("<table>").skip(1) {
        let (table, _) = table.split_once("</table>").unwrap();
        let (head, body) = table.split_once("<tbody>").unwrap();
        let cells = |row: &str| row.matches("<th ").count() + row.matches("<td").count();
        let (over, under) = head.rsplit_once("<tr>").unwrap();
        let columns = cells(under) + over.matches("rowspan=\"2\"").count();
        let tall = body.matches("rowspan=").count();
        for (i, row) in body.split("<tr").skip(1).enumerate() {
            let missing = if i == 0 { 0 } else { tall };
            assert_eq!(cells(row) + missing, columns, "{row}");
        }
    }
}

#[test]
fn pages_of_every_kind_of_store_are_whole() {
    let steep = Kernel { alpha: 2.5, ..KERNEL };
    let odd = [f64::NAN, f64::INFINITY, 0.0, -1.0].map(|alpha| Kernel { alpha, ..KERNEL });
    let far = [Kernel { c: [1e9; 3], ..KERNEL }, Kernel { c: [f64::NAN, f64::INFINITY, 1e300], ..KERNEL }];
    let extreme = [f64::NAN, 1e308, -1e308].map(|w| Kernel { w, ..KERNEL });
    let stores = [
        store(&FACES, &[]),
        store(&[], &[KERNEL]),
        store(&FACES[..2], &[KERNEL, steep]),
        store(&FACES, &[KERNEL, steep]),
        finished(store(&FACES, &[KERNEL, steep])),
        finished(store(&FACES, &odd)),
        finished(store(&FACES, &far)),
        finished(store(&FACES, &extreme)),
        finished(store(&FACES, &[steep; 32])),
        finished(store(&FACES[..3], &[KERNEL])),
    ];
    stores.iter().for_each(|store| check(&plain(store)));
}

#[test]
fn a_finished_store_has_every_reading() {
    let store = finished(store(&FACES, &[KERNEL, Kernel { alpha: 2.0, w: -300.0, ..KERNEL }]));
    let page = plain(&store);
    for by in CONVENTIONS {
        let report = store.report(by).unwrap();
        assert!(
            page.contains(&format!(">{}</td>", crate::figures::whole(report.mass.applied_mass))),
            "{by:?}"
        );
        assert!(page.contains(&format!("download=\"list-{}.csv\"", by.name())));
    }
    // a kernel that stays has in the list the weight that its place has
    for by in CONVENTIONS {
        let (factor, list) = (store.report(by).unwrap().mass.applied_scale, store.list(by).unwrap());
        assert_eq!(list[0].w.to_bits(), (KERNEL.w * factor).to_bits());
    }
    let wall = store.page().unwrap();
    assert!(page.contains(&format!("<pre>{wall}</pre>")));
    assert!(!page.contains("Refused") && !page.contains("NOT"), "{page}");
    assert!(page.contains("Made 2026-11-17T15:40:09Z by planner with cauchy "));
    assert!(page.contains("<h1>Hand-over of body</h1>") && page.contains("<dd>/stores/body</dd>"));
}

#[test]
fn refusals_are_told_in_words_with_the_finished_report_beside() {
    let mut store = store(&FACES, &[KERNEL, KERNEL]);
    store.advance(5).unwrap();
    let page = plain(&store);
    assert_eq!(page.matches("Refused: unfinished: work is left that this reading needs (no 8)").count(), 3);
    assert_eq!(page.matches("NOT the mass of the store, without 1 kernel<").count(), 3);
    assert!(page.contains("There is no wall page: unfinished"));
    assert!(page.contains("The list by mass is refused: unfinished"));
    assert!(page.contains("3 steps left of 8, in place 1.") && page.contains(">62.5 %<"));
    // by nothing that is finished no target is met
    let begun = plain(&self::store(&FACES, &[KERNEL]));
    assert!(
        begun.contains("By mass, finished places only: the mass as entered is tiny or not finite"),
        "{begun}"
    );
    let so_far = store.finished(Convention::Raw).unwrap().report.mass.raw_mass;
    assert!(page.contains(&format!(">{}</td>", crate::figures::whole(so_far))));
}

#[test]
fn what_must_not_be_overlooked_is_said_in_words() {
    let page = plain(&finished(store(&FACES[..3], &[KERNEL])));
    let head = page.split("<nav").next().unwrap();
    assert!(head.contains("the mesh is NOT closed"), "{head}");
    assert!(page.matches("mesh NOT closed</strong>").count() >= 6);
    assert!(page.contains("edges that do not occur once each way: 3"));
    assert!(page.contains("since it is not closed, inside is where it surrounds a point by more than half"));
    // a narrow kernel with an exponent near 0 is fitted badly, and one without a piece is none
    let page = plain(&finished(store(&FACES, &[Kernel { alpha: 0.3, sigma: 0.1, ..KERNEL }])));
    assert!(page.contains("above 1 %</strong>") && page.contains("Place 0: its fit is off by"), "{page}");
    let odd = [f64::NAN, f64::NEG_INFINITY].map(|alpha| Kernel { alpha, ..KERNEL });
    assert_eq!(
        plain(&finished(store(&FACES, &odd))).matches("it has no piece and adds nothing</strong>").count(),
        2
    );
    let negative = plain(&finished(store(&FACES, &[Kernel { w: -300.0, ..KERNEL }])));
    let head = negative.split("<nav").next().unwrap();
    assert!(head.contains("By mass: the factor is below 0: every weight changes its sign."), "{head}");
    let loose = Store::open(900.0, Mesh { vertices: &[[1.0; 3]; 7], faces: &[[0, 1, 2]] }).unwrap();
    assert!(plain(&loose).contains("4 vertices are in no face"));
}

#[test]
fn nothing_from_outside_becomes_markup() {
    let evil = "<script>alert(1)</script>\"'&amp;\u{202e}</title><img src=x onerror=alert(1)>\0\u{1b}[31m";
    let entry =
        |text: &str| Entry { number: 1, when: 5, who: text.into(), call: text.into(), answer: text.into() };
    let store = store(&FACES, &[KERNEL]);
    let page = page_of(&store, &[entry(evil), entry("]]>-->"), entry("(no 6)")], evil, evil);
    check(&page);
    assert_eq!((page.matches("<script>").count(), page.matches("<img").count()), (1, 0));
    assert!(page.contains("&lt;script&gt;alert(1)&lt;/script&gt;&quot;&#39;&amp;amp;\\u{202e}"));
    assert!(!page.contains(['\0', '\u{1b}', '\u{202e}']));
}

/// A wavy sheet, open all around, which is drawn from both sides.
fn sheet(side: u32) -> (Vec<[f64; 3]>, Vec<[u32; 3]>) {
    let wave = |i: u32| 30.0 * (f64::from(i) * 0.37).sin();
    let point = |i: u32| {
        let (x, y) = (i / side, i % side);
        [f64::from(x) * 3.0 + wave(y), f64::from(y) * 2.0, wave(x) + wave(y)]
    };
    let square = |i: u32| [[i, i + side, i + 1], [i + 1, i + side, i + side + 1]];
    let inner = (0..side * (side - 1)).filter(|i| i % side < side - 1);
    ((0..side * side).map(point).collect(), inner.flat_map(square).collect())
}

#[test]
fn the_longest_page_is_small() {
    let (vertices, faces) = sheet(45);
    assert!((3000..=thin::MOST).contains(&faces.len()));
    let mut store = Store::open(900.0, Mesh { vertices: &vertices, faces: &faces }).unwrap();
    (0..32).for_each(|place| assert!(store.put_in(place, Kernel { alpha: 2.5, ..KERNEL }, 15).is_ok()));
    let float = "C06CC123456789AB";
    let put = format!(
        "(put 31 (c {float} {float} {float}) (sigma {float}) (w {float}) (alpha {float}) (layer 15))"
    );
    let answer = "(no 16) no layer: the layers are 0 to 15".to_string();
    let entry = |number| Entry {
        number,
        when: number,
        who: "&".repeat(64),
        call: put.clone(),
        answer: answer.clone(),
    };
    let log: Vec<Entry> = (1..=5000).map(entry).collect();
    let page = page_of(&finished(store), &log, "body", "planner");
    check(&page);
    assert!((700_000..1_800_000).contains(&page.len()), "{}", page.len());
}

/// The relative luminance of a colour and the contrast of two, by WCAG 2.
fn contrast(a: &str, b: &str) -> f64 {
    let luminance = |colour: &str| {
        let part = |i: usize| {
            let part = f64::from(u8::from_str_radix(&colour[i..i + 2], 16).unwrap()) / 255.0;
            if part <= 0.04045 { part / 12.92 } else { ((part + 0.055) / 1.055).powf(2.4) }
        };
        0.2126 * part(1) + 0.7152 * part(3) + 0.0722 * part(5)
    };
    let (a, b) = (luminance(a), luminance(b));
    (a.max(b) + 0.05) / (a.min(b) + 0.05)
}

#[test]
fn text_stands_out_from_its_ground() {
    let style = include_str!("style.css");
    let (light, dark) = style.split_once("prefers-color-scheme: dark").unwrap();
    let dark = dark.split_once("color-scheme: dark;").unwrap().0;
    for scheme in [light, dark] {
        let colour = |name: &str| {
            let (_, after) = scheme.split_once(&format!("--{name}: ")).unwrap();
            after.split_once(';').unwrap().0
        };
        for ground in ["paper", "ground"] {
            for text in ["ink", "soft", "accent", "mark"] {
                let contrast = contrast(colour(text), colour(ground));
                assert!(contrast >= 4.5, "{text} on {ground}: {contrast}");
            }
        }
        // a bar and the lines of tables are seen, not read
        assert!(contrast(colour("bar"), colour("bar-ground")) >= 3.0);
    }
    // no text has a colour that is not among these
    let of_text = |line: &&str| {
        line.contains(" color: ") || line.contains("fill: var") || line.contains("background: ")
    };
    assert!(style.lines().filter(of_text).all(|line| !line.contains('#')));
    assert_eq!((contrast("#000000", "#ffffff"), contrast("#777777", "#777777")), (21.0, 1.0));
}
