//! Markup: escaped text, and elements around it.
use std::fmt::{Display, Write};
use std::ops::RangeInclusive;

/// Markup that may stand in a page. It is made of escaped text, of elements whose names stand in this program, and of
/// this program's own files: so nothing that comes from outside can become markup.
#[derive(Clone, Debug, Default, PartialEq)]
pub struct Html(String);

/// Names of attributes, each with its value, which is escaped.
pub type Attributes<'a> = &'a [(&'static str, &'a str)];

impl Html {
    /// A file of this program's, as it is.
    pub fn own(file: &'static str) -> Html {
        Html(file.to_string())
    }

    pub fn push(&mut self, more: Html) {
        self.0 += &more.0;
    }

    pub fn into_string(self) -> String {
        self.0
    }
}

impl From<&str> for Html {
    fn from(text: &str) -> Html {
        Html(escaped(text))
    }
}

impl From<String> for Html {
    fn from(text: String) -> Html {
        Html(escaped(&text))
    }
}

impl<const N: usize> From<[Html; N]> for Html {
    fn from(parts: [Html; N]) -> Html {
        parts.into_iter().collect()
    }
}

impl FromIterator<Html> for Html {
    fn from_iter<T: IntoIterator<Item = Html>>(parts: T) -> Html {
        let mut whole = Html::default();
        parts.into_iter().for_each(|part| whole.push(part));
        whole
    }
}

/// Text that may stand between tags and in attributes. Characters that are not seen, or that turn the direction of what
/// follows them, are shown by their numbers: nobody is led to read another name than the one that is there.
fn escaped(text: &str) -> String {
    let mut safe = String::with_capacity(text.len());
    for c in text.chars() {
        match c {
            '&' => safe += "&amp;",
            '<' => safe += "&lt;",
            '>' => safe += "&gt;",
            '"' => safe += "&quot;",
            '\'' => safe += "&#39;",
            '\n' => safe.push(c),
            c if c.is_control() || is_unseen(c) => {
                let _ = write!(safe, "{}", c.escape_unicode());
            }
            c => safe.push(c),
        }
    }
    safe
}

/// Whether a character only steers how others are shown: joiners and marks of direction.
fn is_unseen(c: char) -> bool {
    const RANGES: [RangeInclusive<char>; 3] =
        ['\u{200b}'..='\u{200f}', '\u{2028}'..='\u{202e}', '\u{2060}'..='\u{206f}'];
    matches!(c, '\u{ad}' | '\u{61c}' | '\u{feff}') || RANGES.iter().any(|range| range.contains(&c))
}

/// An element with its content.
pub fn element(name: &'static str, attributes: Attributes<'_>, content: impl Into<Html>) -> Html {
    let Html(content) = content.into();
    Html(format!("<{name}{}>{content}</{name}>", written(attributes)))
}

/// An element without content.
pub fn void(name: &'static str, attributes: Attributes<'_>) -> Html {
    Html(format!("<{name}{}/>", written(attributes)))
}

fn written(attributes: Attributes<'_>) -> String {
    attributes.iter().map(|(name, value)| format!(" {name}=\"{}\"", escaped(value))).collect()
}

/// A paragraph.
pub fn paragraph(content: impl Into<Html>) -> Html {
    element("p", &[], content)
}

/// A list with a point for each part.
pub fn list(points: impl IntoIterator<Item = Html>) -> Html {
    let points: Html = points.into_iter().map(|point| element("li", &[], point)).collect();
    element("ul", &[], [points])
}

/// A cell of words.
pub fn cell(content: impl Into<Html>) -> Html {
    element("td", &[], content)
}

/// A cell of a figure.
pub fn figure(figure: impl Display) -> Html {
    element("td", &[("class", "n")], figure.to_string())
}

/// A cell of a figure, in words marked as one to be looked at.
pub fn marked_figure(figure: impl Display, mark: &str) -> Html {
    let mark = element("strong", &[("class", "mark")], mark);
    element("td", &[("class", "n")], [Html::from(format!("{figure} ")), mark])
}

/// A table with a caption, in a box that is scrolled by itself where the page is narrow.
pub struct Table {
    id: &'static str,
    caption: Html,
    heads: Html,
    rows: Html,
}

impl Table {
    /// A table by the name that it has in the page, with a head for each column.
    pub fn new<'a>(
        id: &'static str,
        caption: impl Into<Html>,
        heads: impl IntoIterator<Item = &'a str>,
    ) -> Table {
        let heads: Html = heads.into_iter().map(|head| element("th", &[("scope", "col")], head)).collect();
        Table::under(id, caption, element("tr", &[], heads))
    }

    /// A table whose heads are rows of their own making.
    pub fn under(id: &'static str, caption: impl Into<Html>, heads: Html) -> Table {
        Table { id, caption: caption.into(), heads, rows: Html::default() }
    }

    /// A row under its own head.
    pub fn row(&mut self, head: impl Into<Html>, cells: impl IntoIterator<Item = Html>) {
        self.row_of("", head, cells);
    }

    /// A row of a class, which the style sheet names.
    pub fn row_of(&mut self, class: &str, head: impl Into<Html>, cells: impl IntoIterator<Item = Html>) {
        let head = element("th", &[("scope", "row")], head);
        let class: Attributes<'_> = if class.is_empty() { &[] } else { &[("class", class)] };
        self.rows.push(element("tr", class, [head, cells.into_iter().collect()]));
    }

    pub fn html(self) -> Html {
        if self.rows == Html::default() {
            return paragraph([self.caption, ": none.".into()]);
        }
        let caption = element("caption", &[("id", self.id)], self.caption);
        let heads = element("thead", &[], self.heads);
        let table = element("table", &[], [caption, heads, element("tbody", &[], self.rows)]);
        // a box that is scrolled must be within reach of the keyboard, and have a name
        let scrolled =
            [("class", "scroll"), ("role", "region"), ("tabindex", "0"), ("aria-labelledby", self.id)];
        element("div", &scrolled, table)
    }
}
