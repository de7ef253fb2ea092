//! The density in three planes through the origin, as pictures.
use super::colour::{colours, hexadecimal};
use super::html::{Html, element, paragraph, void};
use super::png::{Image, base64, encoded};
use super::view::{Frame, SIDE, View, drawing};
use crate::figures::{count, short};
use crate::inside::Faces;
use crate::plot::tick_step;
use cauchy::{Convention, Refusal, Store};

/// About how many colours the densities have.
const LEVELS: f64 = 12.0;

/// The densities of one plane, kg/m³, row by row; nothing at points that are to stay blank.
pub struct Plane {
    view: View,
    densities: Vec<Option<f64>>,
}

impl Plane {
    /// Those of the weights as entered, which need no work done, at the points that are inside.
    pub fn read(store: &Store, frame: &Frame, view: View, faces: &Faces<'_>) -> Result<Plane, Refusal> {
        let all: Vec<[f64; 3]> = (0..SIDE * SIDE).map(|i| frame.point(view, i / SIDE, i % SIDE)).collect();
        let is_inside: Vec<bool> = all.iter().map(|point| faces.contains(*point)).collect();
        let is_read = all.iter().zip(&is_inside).filter(|(_, inside)| **inside);
        let points: Vec<[f64; 3]> = is_read.map(|(point, _)| *point).collect();
        let mut read = store.densities(Convention::Raw, &points)?.into_iter();
        let densities = is_inside.into_iter().map(|inside| if inside { read.next() } else { None }).collect();
        Ok(Plane { view, densities })
    }
}

/// Ranges of densities, each a round step wide, that share a colour.
#[derive(Debug, PartialEq)]
struct Levels {
    step: f64,
    /// How many steps the first of them is from 0, and how many there are.
    first: f64,
    count: usize,
}

impl Levels {
    /// Those that hold these densities; nothing where none can be shown.
    fn of(densities: impl Iterator<Item = f64>) -> Option<Levels> {
        let none = (f64::INFINITY, f64::NEG_INFINITY);
        let (least, greatest) = densities.fold(none, |(low, high), x| (low.min(x), high.max(x)));
        let wide = if greatest > least { greatest - least } else { least.abs() };
        // below that a step would be no number
        let step = tick_step(wide.max(1e-290) / LEVELS);
        let (first, last) = ((least / step).floor(), (greatest / step).floor());
        let count = ((last - first) as usize + 1).min(2 * LEVELS as usize);
        (least <= greatest).then_some(Levels { step, first, count })
    }

    /// The level of a density, from 0.
    fn number(&self, density: f64) -> usize {
        (((density / self.step).floor() - self.first) as usize).min(self.count - 1)
    }

    fn bounds(&self, level: usize) -> [f64; 2] {
        [level, level + 1].map(|level| (self.first + level as f64) * self.step)
    }
}

/// Whether a density can be shown: it is a number, and so is the range of two of them.
fn can_be_shown(density: f64) -> bool {
    density.abs() < 1e300
}

/// The pictures of these planes with the key of their colours, or words where there is nothing to show.
pub fn slices(frame: &Frame, planes: &[Plane]) -> Html {
    let read = || planes.iter().flat_map(|plane| plane.densities.iter().flatten().copied());
    let shown = || read().filter(|density| can_be_shown(*density));
    let Some(levels) = Levels::of(shown()) else {
        return paragraph(
            "There is nothing to show: no point of these planes has a density inside the mesh.",
        );
    };
    let palette = colours(levels.count);
    let drawn = planes.iter().map(|plane| slice(frame, plane, &levels, &palette));
    let drawn = element("div", &[("class", "views")], drawn.collect::<Html>());
    let (least, greatest) =
        shown().fold((f64::INFINITY, f64::NEG_INFINITY), |(low, high), x| (low.min(x), high.max(x)));
    let range = format!("On these planes: least {} kg/m³, greatest {} kg/m³.", short(least), short(greatest));
    let left_out = read().filter(|density| !can_be_shown(*density)).count();
    let left_out = match left_out {
        0 => Html::default(),
        n => paragraph(format!(
            "At {} of their points the density is not a finite number: they are blank.",
            count(n as u64)
        )),
    };
    Html::from([drawn, key(&levels, &palette), paragraph(range), left_out])
}

/// One plane.
fn slice(frame: &Frame, plane: &Plane, levels: &Levels, palette: &[[u8; 3]]) -> Html {
    let number = |density: &Option<f64>| match density {
        Some(density) if can_be_shown(*density) => 1 + levels.number(*density) as u8,
        _ => 0,
    };
    let points: Vec<u8> = plane.densities.iter().map(number).collect();
    // colour 0 is that of blank points
    let palette = [&[[0; 3]], palette].concat();
    let file = encoded(&Image { width: SIDE, palette: &palette, points: &points });
    let address = format!("data:image/png;base64,{}", base64(&file));
    let side = SIDE.to_string();
    let image = void("image", &[("width", &side), ("height", &side), ("href", &address)]);
    let name = plane.view.name;
    let title = format!("Density in the plane {name} through the origin, seen from {}", plane.view.from);
    let square = [image, origin(frame, plane.view)];
    let drawing = drawing(&format!("slice-{name}"), &title, frame, square);
    let said =
        format!("Plane {name} through the origin, seen from {}: {}", plane.view.from, plane.view.axes());
    element("figure", &[], [drawing, element("figcaption", &[], said)])
}

/// A cross at the origin.
fn origin(frame: &Frame, view: View) -> Html {
    let [x, y] = frame.at(view, [0.0; 3]);
    let way = format!("M{:.1} {y:.1}h12M{x:.1} {:.1}v12", x - 6.0, y - 6.0);
    element("g", &[("class", "origin")], [void("path", &[("d", &way)]), void("path", &[("d", &way)])])
}

/// What each colour stands for, in figures.
fn key(levels: &Levels, palette: &[[u8; 3]]) -> Html {
    let entry = |(level, colour): (usize, &[u8; 3])| {
        let patch = void("rect", &[("width", "16"), ("height", "16"), ("fill", &hexadecimal(*colour))]);
        let patch = element("svg", &[("viewBox", "0 0 16 16"), ("aria-hidden", "true")], patch);
        let [from, to] = levels.bounds(level).map(short);
        element("li", &[], [patch, Html::from(format!("{from} to {to}"))])
    };
    let entries = palette.iter().enumerate().map(entry).collect::<Html>();
    let head = element(
        "p",
        &[("id", "key-head")],
        "Key: density [kg/m³] with weights as entered, each range up to its second figure",
    );
    let list = element("ul", &[("class", "key"), ("aria-labelledby", "key-head")], entries);
    Html::from([head, list])
}

#[cfg(test)]
mod tests {
    use super::super::view::VIEWS;
    use super::*;
    use cauchy::{Kernel, Mesh};

    #[test]
    fn levels_are_round_and_hold_every_density() {
        let levels = |densities: &[f64]| Levels::of(densities.iter().copied());
        assert_eq!(levels(&[1034.0, 1550.0]), Some(Levels { step: 50.0, first: 20.0, count: 12 }));
        assert_eq!(levels(&[-3.0, 9.0]), Some(Levels { step: 1.0, first: -3.0, count: 13 }));
        assert_eq!(levels(&[]), None);
        for (low, high) in
            [(5.0, 5.0), (0.0, 0.0), (-1e299, 1e299), (1e-320, 2e-320), (0.1, 0.3), (-7.0, -6.9)]
        {
            let levels = levels(&[low, high]).unwrap();
            assert!((1..=24).contains(&levels.count), "{levels:?}");
            let [first, last] = [low, high].map(|density| levels.number(density));
            assert!(first == 0 && last == levels.count - 1, "{levels:?}");
            let near = 1e-12 * levels.step;
            assert!(levels.bounds(0)[0] <= low + near && high <= levels.bounds(last)[1] + near, "{levels:?}");
        }
    }

    #[test]
    fn a_plane_has_the_stores_densities_inside_and_nothing_outside() {
        let vertices = [[-300.0, -300.0, -300.0], [900.0, 0.0, 0.0], [0.0, 800.0, 0.0], [0.0, 0.0, 700.0]];
        let faces = [[0, 2, 1], [0, 1, 3], [0, 3, 2], [1, 2, 3]];
        let mesh = Mesh { vertices: &vertices, faces: &faces };
        let mut store = Store::open(900.0, mesh).unwrap();
        store.put(0, Kernel { c: [100.0, 50.0, 0.0], sigma: 0.004, w: 1200.0, alpha: 1.0 }).unwrap();
        let frame = Frame::of(mesh).unwrap();
        for view in VIEWS {
            let plane = Plane::read(&store, &frame, view, &Faces::new(mesh)).unwrap();
            let at = |row: usize, column: usize| plane.densities[row * SIDE + column];
            let [column, row] = frame.at(view, [0.0; 3]).map(|x| x as usize);
            let point = frame.point(view, row, column);
            assert_eq!(
                at(row, column),
                Some(store.density(Convention::Raw, point).unwrap()),
                "{}",
                view.name
            );
            assert_eq!((at(0, 0), at(SIDE - 1, SIDE - 1)), (None, None));
            let shown = slices(&frame, &[plane]).into_string();
            assert!(
                shown.contains("data:image/png;base64,iVBOR") && shown.contains("greatest 1"),
                "{}",
                view.name
            );
        }
        assert!(slices(&frame, &[]).into_string().contains("There is nothing to show"));
    }
}
