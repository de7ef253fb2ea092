//! Whole files of every kind, of a globe and of some kernels, with the places of their numbers.
use std::fmt::Display;

/// The kinds of files that are read.
#[derive(Clone, Copy, Debug, PartialEq)]
pub enum Kind {
    Obj,
    PlyText,
    PlyLittle,
    PlyBig,
    StlText,
    StlBinary,
    Tab,
    /// Kernels, by numbers.
    List,
    /// Kernels, in bracket lines.
    Lines,
    Toml,
    StoreLines,
    Track,
}

pub const KINDS: [Kind; 12] = [
    Kind::Obj,
    Kind::PlyText,
    Kind::PlyLittle,
    Kind::PlyBig,
    Kind::StlText,
    Kind::StlBinary,
    Kind::Tab,
    Kind::List,
    Kind::Lines,
    Kind::Toml,
    Kind::StoreLines,
    Kind::Track,
];

/// What a number is.
#[derive(Clone, Copy, Debug, PartialEq)]
pub enum Meaning {
    /// A coordinate or another float.
    Number,
    Corner,
    Count,
}

/// Where a number stands.
#[derive(Clone, Copy, Debug)]
pub struct Mark {
    pub meaning: Meaning,
    pub start: usize,
    pub end: usize,
    pub is_binary: bool,
}

/// A whole file.
#[derive(Debug, Default)]
pub struct Whole {
    pub bytes: Vec<u8>,
    /// Where its numbers stand, where that is asked.
    pub marks: Vec<Mark>,
    is_marked: bool,
    /// How many vertices its mesh has.
    pub vertices: usize,
    /// Where its last line begins that it cannot do without.
    pub last_line: usize,
    /// Where its mesh ends and kernels begin.
    pub end_of_mesh: usize,
}

/// A globe, in kilometres.
pub struct Body {
    pub vertices: Vec<[f64; 3]>,
    pub faces: Vec<[usize; 3]>,
}

impl Body {
    /// So many rings of so many vertices between two poles.
    pub fn globe(rings: usize, around: usize) -> Body {
        let turned = |part: f64| (part * std::f64::consts::PI).sin_cos();
        let mut vertices = vec![[0.0, 0.0, 0.5]];
        vertices.extend((0..rings * around).map(|i| {
            let (flat, height) = turned((i / around + 1) as f64 / (rings + 1) as f64);
            let (y, x) = turned(2.0 * (i % around) as f64 / around as f64);
            [0.5 * flat * x, 0.5 * flat * y, 0.5 * height]
        }));
        vertices.push([0.0, 0.0, -0.5]);
        let at = |ring: usize, turn: usize| 1 + ring * around + turn % around;
        let south = vertices.len() - 1;
        let cap = |turn| [0, at(0, turn), at(0, turn + 1)];
        let base = |turn| [south, at(rings - 1, turn + 1), at(rings - 1, turn)];
        let mut faces: Vec<[usize; 3]> = (0..around).map(cap).collect();
        faces.extend((0..(rings - 1) * around).flat_map(|i| {
            let (ring, turn) = (i / around, i % around);
            let [a, b] = [at(ring, turn), at(ring, turn + 1)];
            let [c, d] = [at(ring + 1, turn), at(ring + 1, turn + 1)];
            [[a, c, d], [a, d, b]]
        }));
        faces.extend((0..around).map(base));
        Body { vertices, faces }
    }
}

impl Kind {
    /// A name for such a file.
    pub fn name(self) -> &'static str {
        match self {
            Kind::Obj => "body.obj",
            Kind::PlyText => "text.ply",
            Kind::PlyLittle => "little.ply",
            Kind::PlyBig => "big.ply",
            Kind::StlText => "text.stl",
            Kind::StlBinary => "binary.stl",
            Kind::Tab => "body.tab",
            Kind::List => "kernels.txt",
            Kind::Lines => "kernels.lines",
            Kind::Toml => "kernels.toml",
            Kind::StoreLines => "store.lines",
            Kind::Track => "track.txt",
        }
    }

    pub fn is_mesh(self) -> bool {
        KINDS.iter().position(|kind| *kind == self) < KINDS.iter().position(|kind| *kind == Kind::List)
    }

    /// A whole file of this kind, with the places of its numbers.
    pub fn whole(self, body: &Body) -> Whole {
        self.written(body, true)
    }

    /// The bytes of a whole file of this kind.
    pub fn bytes(self, body: &Body) -> Vec<u8> {
        self.written(body, false).bytes
    }

    fn written(self, body: &Body, is_marked: bool) -> Whole {
        let mut whole = Whole { vertices: body.vertices.len(), is_marked, ..Whole::default() };
        match self {
            Kind::Obj => whole.obj(body),
            Kind::PlyText => whole.ply_text(body),
            Kind::PlyLittle => whole.ply_little(body),
            Kind::PlyBig => whole.ply_big(body),
            Kind::StlText => whole.stl_text(body),
            Kind::StlBinary => whole.stl_binary(body),
            Kind::Tab => whole.tab(body),
            Kind::List => whole.list(),
            Kind::Lines => whole.lines(),
            Kind::Toml => whole.toml(),
            Kind::StoreLines => whole.store_lines(body),
            Kind::Track => whole.track(body),
        }
        whole
    }
}

/// x, y, z, sigma, weight, and the exponent where there is one.
const KERNELS: [([f64; 5], Option<f64>); 4] = [
    ([0.1, 0.15, 0.05, 2.0, 1200.0], Some(1.0)),
    ([0.05, -0.02, 0.09, 10.0, -300.0], None),
    ([-0.1, 0.0, 0.125, 4.5, 80.5], Some(2.5)),
    ([0.0, 0.0, -0.25, 0.9, 1e3], None),
];

fn hex(x: f64) -> String {
    format!("{:016X}", x.to_bits())
}

impl Whole {
    /// Text, in which `@` stands for each of some numbers.
    fn put(&mut self, text: &str, meaning: Meaning, numbers: &[impl Display]) {
        let mut numbers = numbers.iter();
        for (i, part) in text.split('@').enumerate() {
            if let Some(number) = (i > 0).then(|| numbers.next()).flatten() {
                let start = self.bytes.len();
                self.bytes.extend(number.to_string().bytes());
                self.mark(meaning, start, false);
            }
            self.bytes.extend(part.bytes());
        }
    }

    fn numbers(&mut self, text: &str, numbers: &[f64]) {
        self.put(text, Meaning::Number, numbers);
    }

    fn hexes(&mut self, text: &str, numbers: &[f64]) {
        let hexes: Vec<String> = numbers.iter().copied().map(hex).collect();
        self.put(text, Meaning::Number, &hexes);
    }

    fn corners(&mut self, text: &str, corners: &[usize]) {
        self.put(text, Meaning::Corner, corners);
    }

    fn counts(&mut self, text: &str, counts: &[usize]) {
        self.put(text, Meaning::Count, counts);
    }

    fn text(&mut self, text: &str) {
        self.bytes.extend(text.bytes());
    }

    fn binary(&mut self, meaning: Meaning, bytes: &[u8]) {
        let start = self.bytes.len();
        self.bytes.extend(bytes);
        self.mark(meaning, start, true);
    }

    /// Marks what was written last.
    fn mark(&mut self, meaning: Meaning, start: usize, is_binary: bool) {
        if self.is_marked {
            self.marks.push(Mark { meaning, start, end: self.bytes.len(), is_binary });
        }
    }

    // ---- Meshes ----

    fn obj(&mut self, body: &Body) {
        self.text("# globe\no globe\nvn 0 0 1\n");
        body.vertices.iter().for_each(|vertex| self.numbers("v @ @ @\n", vertex));
        let one_more = |face: &[usize; 3]| face.map(|corner| corner + 1);
        body.faces.iter().map(one_more).for_each(|face| self.corners("f @/1 @//1 @\n", &face));
    }

    fn ply_text(&mut self, body: &Body) {
        self.text("ply\nformat ascii 1.0\ncomment globe\n");
        self.counts("element vertex @\n", &[body.vertices.len()]);
        self.text("property float x\nproperty float y\nproperty float z\nproperty uchar red\n");
        self.counts("element face @\n", &[body.faces.len()]);
        self.text("property list uchar int vertex_indices\nend_header\n");
        body.vertices.iter().for_each(|vertex| self.numbers("@ @ @ 9\n", vertex));
        for face in &body.faces {
            self.last_line = self.bytes.len();
            self.corners("3 @ @ @\n", face);
        }
    }

    fn ply_header(&mut self, body: &Body, format: &str, number: &str, list: &str) {
        self.text(&format!("ply\nformat {format} 1.0\n"));
        self.counts("element vertex @\n", &[body.vertices.len()]);
        ["x", "y", "z"].iter().for_each(|name| self.text(&format!("property {number} {name}\n")));
        self.counts("element face @\n", &[body.faces.len()]);
        self.text(&format!("property list {list}\nend_header\n"));
    }

    fn ply_little(&mut self, body: &Body) {
        self.ply_header(body, "binary_little_endian", "float", "uchar int vertex_indices");
        let coordinates = body.vertices.as_flattened().iter();
        coordinates.for_each(|x| self.binary(Meaning::Number, &(*x as f32).to_le_bytes()));
        for face in &body.faces {
            self.bytes.push(3);
            face.iter().for_each(|corner| self.binary(Meaning::Corner, &(*corner as i32).to_le_bytes()));
        }
    }

    fn ply_big(&mut self, body: &Body) {
        self.ply_header(body, "binary_big_endian", "double", "ushort uint vertex_index");
        body.vertices.as_flattened().iter().for_each(|x| self.binary(Meaning::Number, &x.to_be_bytes()));
        for face in &body.faces {
            self.bytes.extend(3_u16.to_be_bytes());
            face.iter().for_each(|corner| self.binary(Meaning::Corner, &(*corner as u32).to_be_bytes()));
        }
    }

    fn stl_text(&mut self, body: &Body) {
        self.text("solid globe\n");
        for face in &body.faces {
            self.text("facet normal 0 0 1\nouter loop\n");
            face.iter().for_each(|corner| self.numbers("vertex @ @ @\n", &body.vertices[*corner]));
            self.text("endloop\nendfacet\n");
        }
        self.last_line = self.bytes.len();
        self.text("endsolid globe\n");
    }

    fn stl_binary(&mut self, body: &Body) {
        self.text(&format!("{:80}", "solid globe"));
        self.binary(Meaning::Count, &(body.faces.len() as u32).to_le_bytes());
        for face in &body.faces {
            self.bytes.extend([0; 12]);
            let corners = face.iter().flat_map(|corner| body.vertices[*corner]);
            corners.for_each(|x| self.binary(Meaning::Number, &(x as f32).to_le_bytes()));
            self.bytes.extend([0; 2]);
        }
    }

    fn tab(&mut self, body: &Body) {
        self.counts("  @\n", &[body.vertices.len()]);
        for (number, vertex) in (1..).zip(&body.vertices) {
            self.numbers(&format!("{number:5} @ @ @\n"), vertex);
        }
        self.counts("  @\n", &[body.faces.len()]);
        for (number, face) in (1..).zip(&body.faces) {
            self.last_line = self.bytes.len();
            self.corners(&format!("{number:5} @ @ @\n"), &face.map(|corner| corner + 1));
        }
    }

    // ---- Others ----

    fn list(&mut self) {
        self.text("# kernels\ndefault 1.5\n");
        for (numbers, alpha) in &KERNELS {
            let alpha = alpha.map_or("-".to_string(), |alpha| alpha.to_string());
            self.numbers(&format!("@ @ @ @ @ {alpha} 3\n"), numbers);
        }
    }

    fn lines(&mut self) {
        for (numbers, alpha) in &KERNELS {
            let alpha = alpha.map_or("none".to_string(), hex);
            self.hexes(&format!("(kernel (c @ @ @) (sigma @) (w @) (alpha {alpha}))\n"), numbers);
        }
    }

    fn toml(&mut self) {
        self.text(
            "# kernels\ntype = \"arbitrary_density\"\nbulk_density_ref = 1190.0\nalpha_default = 1.5\n",
        );
        for (numbers, alpha) in &KERNELS {
            self.numbers("\n[[kernels]]\nc = [@, @, @]\nsigma = @\nw = @\n", numbers);
            self.text(&alpha.map_or(String::new(), |alpha| format!("alpha = {alpha:?} # given\n")));
        }
    }

    fn store_lines(&mut self, body: &Body) {
        self.hexes("(open (radius @) ", &[500.0]);
        self.counts("(verts @) (faces @))\n", &[body.vertices.len(), body.faces.len()]);
        body.vertices.iter().for_each(|vertex| self.hexes("(vert @ @ @)\n", &vertex.map(|x| x * 1000.0)));
        body.faces.iter().for_each(|face| self.corners("(face @ @ @)\n", face));
        self.end_of_mesh = self.bytes.len();
        for (place, (numbers, alpha)) in KERNELS.iter().enumerate() {
            let alpha = hex(alpha.unwrap_or(1.5));
            self.hexes(
                &format!("(put {place} (c @ @ @) (sigma @) (w @) (alpha {alpha}) (layer 2))\n"),
                numbers,
            );
        }
    }

    fn track(&mut self, body: &Body) {
        self.text("# a pass\n");
        body.vertices.iter().for_each(|vertex| self.numbers("@ @ @\n", vertex));
    }
}
