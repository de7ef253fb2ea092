//! Why a call was refused.
use std::error::Error;
use std::fmt;

/// Why a call was refused, by the numbers of the specification. A refused call changes nothing.
///
/// ```
/// use cauchy::{Mesh, Refusal, Store};
///
/// let loose = Mesh { vertices: &[[0.0; 3]; 3], faces: &[[0, 1, 3]] };
/// let told = Store::open(1.0, loose).unwrap_err();
/// assert_eq!(told.to_string(), "loose corner: a face names a vertex that is not there (no 3)");
/// assert_eq!(Refusal::LooseCorner.number(), 3);
/// ```
#[derive(Clone, Copy, Debug, PartialEq, Eq, Hash)]
#[non_exhaustive]
pub enum Refusal {
    /// A count of coordinates or corners that is not a multiple of 3.
    Ragged = 1,
    /// More than 1,048,576 vertices or 2,097,152 faces.
    Oversize = 2,
    /// A face names a vertex that is not there.
    LooseCorner = 3,
    /// A run of the store is too short for its mesh.
    ShortStore = 4,
    /// The runs hold no sound store.
    Unsound = 5,
    /// The place is 32 or above.
    NoPlace = 6,
    /// The place to be cleared, reweighed or adopted is empty.
    Vacant = 7,
    /// Work is left that this reading needs.
    Unfinished = 8,
    /// The run to be written is too short, or a kernel list is not of sixes.
    ShortList = 9,
    /// More than 16 equations, or lengths that do not go with their count.
    BadMatrix = 10,
    /// The pivot chosen in some column of the equations is at most 1e-18 in absolute value.
    FlatPivot = 11,
    /// An exponent is farther than 1e-9 from 1, where only 1 can be integrated. A NaN passes.
    Exponent = 12,
    /// The bytes are not one whole opening and then puts.
    BadLine = 13,
    /// A track has more than 4,096 points, or the run to be written is too short for it.
    BadTrack = 14,
    /// More kernels are to be billed than a store has places.
    ManyKernels = 15,
    /// A layer is above 15.
    NoLayer = 16,
    /// The mass of a place is NaN or exceeds 10^15 kg, and a page cannot show it.
    NoFigure = 17,
    /// The bytes to be written are too few for the page.
    ShortPage = 18,
    /// The bytes to be written are too few for the store's lines.
    ShortText = 19,
    /// A line of a file is no kernel line.
    BadKernelLine = 20,
    /// The two loaders make different kernels of the lines.
    LoadersDiffer = 21,
    /// The mesh is not closed.
    NotClosed = 22,
}

impl Refusal {
    /// All refusals, by rising number.
    pub const ALL: [Refusal; 22] = [
        Refusal::Ragged,
        Refusal::Oversize,
        Refusal::LooseCorner,
        Refusal::ShortStore,
        Refusal::Unsound,
        Refusal::NoPlace,
        Refusal::Vacant,
        Refusal::Unfinished,
        Refusal::ShortList,
        Refusal::BadMatrix,
        Refusal::FlatPivot,
        Refusal::Exponent,
        Refusal::BadLine,
        Refusal::BadTrack,
        Refusal::ManyKernels,
        Refusal::NoLayer,
        Refusal::NoFigure,
        Refusal::ShortPage,
        Refusal::ShortText,
        Refusal::BadKernelLine,
        Refusal::LoadersDiffer,
        Refusal::NotClosed,
    ];

    /// The specification's number.
    ///
    /// ```
    /// let numbers = cauchy::Refusal::ALL.map(|refusal| refusal.number());
    /// assert!(numbers.into_iter().eq(1..=22));
    /// ```
    pub fn number(self) -> u32 {
        self as u32
    }

    /// What it means, in a line.
    ///
    /// ```
    /// assert_eq!(cauchy::Refusal::NoPlace.meaning(), "no place: the places are 0 to 31");
    /// ```
    pub fn meaning(self) -> &'static str {
        match self {
            Refusal::Ragged => "ragged: a count of coordinates or corners is not a multiple of 3",
            Refusal::Oversize => "oversize: more than 1,048,576 vertices or 2,097,152 faces",
            Refusal::LooseCorner => "loose corner: a face names a vertex that is not there",
            Refusal::ShortStore => "short store: a run is too short for its mesh",
            Refusal::Unsound => "unsound: the runs hold no sound store",
            Refusal::NoPlace => "no place: the places are 0 to 31",
            Refusal::Vacant => "vacant: the place is empty",
            Refusal::Unfinished => "unfinished: work is left that this reading needs",
            Refusal::ShortList => "short list: six floats are needed for each kernel",
            Refusal::BadMatrix => "bad matrix: more than 16 equations, or lengths that do not fit",
            Refusal::FlatPivot => "flat pivot: the pivot chosen in some column is at most 1e-18",
            Refusal::Exponent => "exponent: some exponent is farther than 1e-9 from 1",
            Refusal::BadLine => "bad line: the bytes are not one whole opening and then puts",
            Refusal::BadTrack => "bad track: more than 4,096 points, or lengths that do not fit",
            Refusal::ManyKernels => "many kernels: a bill takes at most 32",
            Refusal::NoLayer => "no layer: the layers are 0 to 15",
            Refusal::NoFigure => "no figure: the mass of a place is NaN or exceeds 10^15 kg",
            Refusal::ShortPage => "short page: 65 bytes are needed for each filled place and for the total",
            Refusal::ShortText => "short text: the bytes are too few for the store's lines",
            Refusal::BadKernelLine => {
                "bad kernel line: not (kernel (c h h h) (sigma h) (w h) (alpha h or none))"
            }
            Refusal::LoadersDiffer => "loaders differ: native and source make different kernels of some line",
            Refusal::NotClosed => {
                "not closed: an edge does not occur once each way, or a face names a corner twice"
            }
        }
    }

    /// `Ok` where the archive's number is 0.
    pub(crate) fn check(no: u32) -> Result<(), Refusal> {
        match no {
            0 => Ok(()),
            _ => Err(Refusal::of(no)),
        }
    }

    fn of(no: u32) -> Refusal {
        let known = Refusal::ALL.into_iter().find(|r| r.number() == no);
        known.unwrap_or_else(|| panic!("the archive answered {no}: it is not the one of this crate"))
    }
}

impl fmt::Display for Refusal {
    fn fmt(&self, f: &mut fmt::Formatter<'_>) -> fmt::Result {
        write!(f, "{} (no {})", self.meaning(), self.number())
    }
}

impl Error for Refusal {}
