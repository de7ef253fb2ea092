//! The tab Hand-over: the reports by each convention side by side, and the wall page.
use super::html::{Html, Table, element, figure, list, marked_figure, paragraph};
use super::readings::{Reading, Readings};
use super::weights::head;
use crate::figures::{counted, short, whole};
use crate::notes::BESIDE_MASS;
use crate::page;
use cauchy::{Convention, Finished, Refusal, StoreReport};

/// A column of the table of reports.
enum Column<'a> {
    /// The report of the whole store.
    Whole(Convention, &'a StoreReport),
    Refused(Convention, Refusal),
    /// The report of the places whose work is done.
    Finished(Convention, &'a Finished),
}

pub fn reports(read: &Readings) -> Html {
    let origin = match &read.origin {
        Ok(origin) => format!("Density at the origin, weights as entered: {} kg/m³.", whole(*origin)),
        Err(refusal) => format!("Density at the origin: {refusal}."),
    };
    let columns: Vec<Column<'_>> = read.by.iter().flat_map(columns).collect();
    let mut table = Table::under("report-table", "The mass report by each convention", heads(&columns));
    for (i, field) in FIELDS.iter().enumerate() {
        let cells = columns.iter().filter_map(|column| column.cell(field, i == 0, read.closed));
        table.row_of(field.class, field.said, cells);
    }
    let cautions = cautions(read);
    let cautions =
        if cautions.is_empty() { Html::default() } else { list(cautions.into_iter().map(Html::from)) };
    Html::from([paragraph(origin), table.html(), cautions])
}

/// The report, or its refusal with the report of what is finished beside it.
fn columns(reading: &Reading) -> Vec<Column<'_>> {
    let by = reading.by;
    match &reading.report {
        Ok(report) => vec![Column::Whole(by, report)],
        Err(refusal) => {
            let finished = reading.finished.iter().map(|told| Column::Finished(by, told));
            std::iter::once(Column::Refused(by, *refusal)).chain(finished).collect()
        }
    }
}

/// A row of the table of reports.
struct Field {
    said: &'static str,
    class: &'static str,
    is_mass: bool,
    figure: fn(&StoreReport) -> String,
}

const fn field(said: &'static str, is_mass: bool, figure: fn(&StoreReport) -> String) -> Field {
    Field { said, class: "", is_mass, figure }
}

const FIELDS: [Field; 11] = [
    Field {
        class: "chief",
        ..field("field mass by this convention [kg]", true, |report| whole(report.mass.applied_mass))
    },
    field("factor of this convention", false, |report| whole(report.mass.applied_scale)),
    field("target [kg]", false, |report| match report.mass.target_mass {
        0.0 => "none".to_string(),
        target => whole(target),
    }),
    field("field mass, weights as entered [kg]", true, |report| whole(report.mass.raw_mass)),
    field("factor that brings the density at the origin to the bulk density", false, |report| {
        whole(report.mass.rho0_scale)
    }),
    field("field mass by that factor [kg]", true, |report| whole(report.mass.rho0_mass)),
    field("volume of the mesh [m³]", false, |report| whole(report.mass.volume)),
    field("mean density by this convention [kg/m³]", false, |report| {
        short(report.mass.applied_mass / report.mass.volume)
    }),
    field("kernels", false, |report| report.kernels.to_string()),
    field("pieces", false, |report| report.pieces.to_string()),
    field("greatest error of a fit [of its peak]", false, |report| whole(report.error)),
];

/// A head for each convention and, where one has two columns, a head for each of them under it.
fn heads(columns: &[Column<'_>]) -> Html {
    let is_one = columns.iter().all(|column| matches!(column, Column::Whole(..)));
    let rows = if is_one { "1" } else { "2" };
    let field = element("th", &[("scope", "col"), ("rowspan", rows), ("class", "wide")], "field");
    let group = |columns: &[Column<'_>]| {
        let (by, count) = (columns.first().map_or(Convention::Raw, Column::by), columns.len().to_string());
        let scope = if columns.len() == 1 { "col" } else { "colgroup" };
        element("th", &[("scope", scope), ("colspan", &count)], head(by))
    };
    let groups = columns.chunk_by(|a, b| a.by() == b.by()).map(group).collect::<Html>();
    let first = element("tr", &[], [field, groups]);
    let under =
        columns.iter().map(|column| element("th", &[("scope", "col")], column.head())).collect::<Html>();
    if is_one { first } else { Html::from([first, element("tr", &[], under)]) }
}

impl Column<'_> {
    fn by(&self) -> Convention {
        match self {
            Column::Whole(by, _) | Column::Refused(by, _) | Column::Finished(by, _) => *by,
        }
    }

    fn head(&self) -> String {
        match self {
            Column::Whole(..) | Column::Refused(..) => "the whole store".to_string(),
            Column::Finished(_, told) => {
                let passed = counted(u64::from(told.passed_over), "kernel");
                format!("finished places only: NOT the mass of the store, without {passed}")
            }
        }
    }

    /// The column's cell in a row. A refusal fills its column from the first row to the last.
    fn cell(&self, field: &Field, is_first: bool, closed: bool) -> Option<Html> {
        let report = match self {
            Column::Whole(_, report) => report,
            Column::Finished(_, told) => &told.report,
            Column::Refused(_, refusal) if is_first => {
                let all = FIELDS.len().to_string();
                let said = element("strong", &[("class", "mark")], format!("Refused: {refusal}"));
                return Some(element("td", &[("rowspan", &all), ("class", "refused")], said));
            }
            Column::Refused(..) => return None,
        };
        let said = (field.figure)(report);
        // a mass on a shell with a hole means nothing
        let is_marked = field.is_mass && !closed;
        Some(if is_marked { marked_figure(said, BESIDE_MASS) } else { figure(said) })
    }

    /// What must not be overlooked in the report.
    fn cautions(&self, read: &Readings) -> Vec<String> {
        let (report, places, origin) = match self {
            Column::Whole(_, report) => (*report, "", read.origin),
            Column::Finished(_, told) => (&told.report, ", finished places only", read.finished_origin),
            Column::Refused(..) => return Vec::new(),
        };
        let name = self.by().name();
        // that the mesh is not closed is said on the lines of the masses
        let cautions = page::cautions(self.by(), &report.mass, origin.unwrap_or(f64::NAN), true);
        cautions.into_iter().map(|caution| format!("By {name}{places}: {caution}.")).collect()
    }
}

/// What must not be overlooked in the reports.
pub fn cautions(read: &Readings) -> Vec<String> {
    read.by.iter().flat_map(columns).flat_map(|column| column.cautions(read)).collect()
}

/// The wall page as it is pinned up, or why there is none.
pub fn wall(read: &Readings) -> Html {
    let said = "Place, pieces, and field mass in whole kilograms with weights as entered; the total is the sum of the \
                masses as they are printed.";
    let not_closed = match read.closed {
        true => Html::default(),
        false => paragraph(element("strong", &[("class", "mark")], page::NOT_CLOSED)),
    };
    match &read.wall {
        Ok(wall) => {
            let text = element("pre", &[], wall.as_str());
            let scrolled =
                [("class", "scroll"), ("role", "region"), ("tabindex", "0"), ("aria-label", "Wall page")];
            Html::from([paragraph(said), not_closed, element("div", &scrolled, text)])
        }
        Err(refusal) => {
            paragraph(element("strong", &[("class", "mark")], format!("There is no wall page: {refusal}.")))
        }
    }
}

/// The field mass by each convention in a few words, for the head of the page.
pub fn masses(read: &Readings) -> Html {
    let one = |reading: &Reading| {
        let name = reading.by.name();
        let said = match &reading.report {
            Ok(report) => format!("{name}: {} kg", short(report.mass.applied_mass)),
            Err(Refusal::Unfinished) => format!("{name}: not known while work is left"),
            Err(refusal) => format!("{name}: {refusal}"),
        };
        element("div", &[], said)
    };
    let closed = match read.closed {
        true => Html::default(),
        false => element("div", &[], element("strong", &[("class", "mark")], page::NOT_CLOSED)),
    };
    read.by.iter().map(one).chain([closed]).collect()
}
