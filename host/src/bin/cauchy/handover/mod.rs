//! The hand-over: a store as one page for a browser, which needs no server, no network and no other file.
mod colour;
mod fields;
mod history;
mod html;
mod kernels;
mod picture;
mod png;
mod readings;
mod remaining;
mod reports;
mod shape;
mod slice;
mod thin;
mod view;
mod weights;

use crate::failure::Result;
use crate::figures::{count, counted};
use crate::folder::{Entry, Folder};
use crate::output::{Output, say};
use crate::{folder, page};
use cauchy::{Convention, PLACES, Store};
use html::{Html, element, list, paragraph, void};
use readings::Readings;
use std::fs;
use std::path::Path;

/// Writes the page of a store, by these conventions.
pub fn write(dir: &Path, html: &Path, conventions: &[Convention], overwrite: bool) -> Result<()> {
    let output = Output::prepare(html, overwrite)?;
    let folder = Folder::read(dir)?;
    let page = Page {
        store: folder.store(),
        log: folder.log(),
        path: &fs::canonicalize(dir).unwrap_or_else(|_| dir.to_path_buf()),
        conventions,
        when: folder::now(),
        who: &folder::user(),
    };
    output.write(page.html().as_bytes())?;
    say(&page::entry("written", &[output.name()]))
}

/// What a page is made of.
pub struct Page<'a> {
    pub store: &'a Store,
    pub log: &'a [Entry],
    /// The store's folder.
    pub path: &'a Path,
    /// Those that it is read by, raw first.
    pub conventions: &'a [Convention],
    /// When the page is made, in seconds since the beginning of 1970, and by whom.
    pub when: u64,
    pub who: &'a str,
}

/// What a browser may do with the page: run its one script and show pictures that it holds. Nothing is fetched, and a
/// script that is not the page's own does not run. The digits are the script's SHA-256: `host/tests/handover` checks
/// them, and tells those of a script that has changed.
const POLICY: &str = "default-src 'none'; style-src 'unsafe-inline'; img-src data:; base-uri 'none'; \
                      form-action 'none'; script-src 'sha256-ht5mj18nWZXB9m0y99ty5dqNrS34D6dMD3eJ/NmwvJ0='";

/// A tab: its name in addresses, its name for people, and its content.
struct Tab {
    id: &'static str,
    name: &'static str,
    content: Html,
}

impl Page<'_> {
    pub fn html(&self) -> String {
        let read = Readings::of(self);
        let tabs = self.tabs(&read);
        let links = tabs.iter().map(|tab| element("a", &[("href", &format!("#{}", tab.id))], tab.name));
        let nav = element("nav", &[("aria-label", "Tabs")], list(links));
        let main = element("main", &[], tabs.into_iter().map(Tab::section).collect::<Html>());
        let fields = element("footer", &[], [element("h2", &[], "Fields and units"), fields::table()]);
        let script = element("script", &[], Html::own(include_str!("script.js")));
        let body = element("body", &[], [self.head(&read), nav, main, fields, script]);
        let whole = element("html", &[("lang", "en")], [self.meta(), body]);
        format!("<!DOCTYPE html>\n{}\n", whole.into_string())
    }

    fn title(&self) -> String {
        let name = self.path.file_name().unwrap_or(self.path.as_os_str());
        format!("Hand-over of {}", name.display())
    }

    /// What is not shown.
    fn meta(&self) -> Html {
        let parts = [
            void("meta", &[("charset", "utf-8")]),
            void("meta", &[("name", "viewport"), ("content", "width=device-width, initial-scale=1")]),
            void("meta", &[("http-equiv", "Content-Security-Policy"), ("content", POLICY)]),
            void("meta", &[("name", "generator"), ("content", VERSION)]),
            element("title", &[], self.title()),
            element("style", &[], Html::own(include_str!("style.css"))),
        ];
        element("head", &[], parts)
    }

    fn tabs(&self, read: &Readings) -> [Tab; 5] {
        let store = self.store;
        let handover = [
            element("h3", &[], "Reports"),
            reports::reports(read),
            element("h3", &[], "Wall page"),
            reports::wall(read),
            element("h3", &[], "Log"),
            history::log(self.log),
        ];
        let tab = |id, name, content| Tab { id, name, content };
        [
            tab("kernels", "Kernels", kernels::tab(read, store.radius())),
            tab("shape-model", "Shape model", shape::tab(store, read)),
            tab("weights", "Weights", weights::tab(store, read)),
            tab("work", "Work still to run", remaining::tab(store, read)),
            tab("hand-over", "Hand-over", handover.into()),
        ]
    }

    /// What stands over the tabs.
    fn head(&self, read: &Readings) -> Html {
        let title = element("h1", &[], self.title());
        let made = format!("Made {} by {} with {VERSION}", folder::time(self.when), self.who);
        let made = element("p", &[("class", "made")], made);
        let pieces: u64 = read.held.iter().map(|(_, held)| u64::from(held.pieces)).sum();
        let kernels = format!("{} of {PLACES} places filled, {}", read.held.len(), counted(pieces, "piece"));
        let work = match read.left {
            0 => format!("{} done, none left", counted(read.need, "step")),
            left => format!("{} left of {}", counted(left, "step"), count(read.need)),
        };
        let mesh = page::size(self.store.vertices().into(), self.store.faces().into());
        let entries = [
            ("Store", self.path.display().to_string().into()),
            ("Field mass", reports::masses(read)),
            ("Kernels", kernels.into()),
            ("Mesh", mesh.into()),
            ("Work", work.into()),
            ("Log", counted(self.log.len() as u64, "line").into()),
        ];
        let entry = |(term, said)| Html::from([element("dt", &[], term), element("dd", &[], said)]);
        let summary = element("dl", &[], entries.map(entry));
        element("header", &[], [title, made, summary, self.notes(read)])
    }

    /// What nobody must overlook.
    fn notes(&self, read: &Readings) -> Html {
        let said = read.notes.iter().map(|note| sentence(&note.to_string())).chain(reports::cautions(read));
        let mut notes: Vec<Html> = said.map(Html::from).collect();
        if read.left > 0 {
            notes.push(remaining::said(self.store, read));
        }
        let class = if notes.is_empty() { "notes none" } else { "notes" };
        let said = match notes.is_empty() {
            true => paragraph(
                "None: the mesh is closed, every vertex is used, every fit is good and no work is left.",
            ),
            false => list(notes),
        };
        element("div", &[("class", class)], [element("h2", &[], "Notes"), said])
    }
}

/// Words with a capital and a full stop.
fn sentence(words: &str) -> String {
    let mut letters = words.chars();
    let first = letters.next().map_or(String::new(), |first| first.to_uppercase().to_string());
    format!("{first}{}.", letters.as_str())
}

const VERSION: &str = concat!("cauchy ", env!("CARGO_PKG_VERSION"));

impl Tab {
    fn section(self) -> Html {
        let head_id = format!("{}-head", self.id);
        let head = element("h2", &[("id", &head_id)], self.name);
        element("section", &[("id", self.id), ("aria-labelledby", &head_id)], [head, self.content])
    }
}

#[cfg(test)]
mod tests;
