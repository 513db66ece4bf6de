//! Where each crate stands in the picture of the crates, which parts they make up, and which way the arrows go.
use crate::svg::{Rect, LIGHT_BLUE, LIGHT_GREEN, LIGHT_YELLOW};

const LAYERS: usize = 10;
/// The top of the highest layer.
const TOP: f64 = 104.0;
pub const LEFT: f64 = 27.0;
const BOX_WIDTH: f64 = 152.0;
pub const BOX_HEIGHT: f64 = 50.0;
/// From one column to the next, and from one layer to the next.
pub const COLUMN: f64 = 188.0;
const LAYER: f64 = 88.0;

/// The box that stands for all programs whose names end so.
pub const CASES: &str = "*_cases";

#[derive(Clone, Copy, PartialEq, Eq, Debug)]
pub enum Kind {
    Library,
    NoCode,
    Program,
}
pub use Kind::{Library, NoCode, Program};

impl Kind {
    pub const ALL: [(Kind, &'static str); 3] = [
        (Library, "library with code"),
        (NoCode, "definitions and theorems, no code"),
        (Program, "program"),
    ];

    pub fn colours(self) -> (&'static str, &'static str) {
        match self {
            Library => (LIGHT_BLUE, "#6f93bd"),
            NoCode => (LIGHT_YELLOW, "#c2a14a"),
            Program => (LIGHT_GREEN, "#6ca572"),
        }
    }
}

/// A crate: its name, kind, layer from the lowest up, first and last column, and what it holds, in lines.
pub type Place = (
    &'static str,
    Kind,
    usize,
    [usize; 2],
    &'static [&'static str],
);

#[rustfmt::skip]
pub const PLACES: &[Place] = &[
    ("lists", Library, 0, [0, 4], &["sums, counts, tables, parts of lists"]),
    ("gf256", Library, 1, [0, 0], &["the field and its laws"]),
    ("settings", Library, 1, [1, 1], &["n, t, k, sender;", "refusals"]),
    ("bitset", Library, 1, [2, 2], &["sets of controllers,", "rows of marks"]),
    ("text", Library, 1, [4, 4], &["numbers, bytes,", "lines and fields"]),
    ("polynomial", NoCode, 2, [0, 0], &["values, products,", "root counting"]),
    ("wire", Library, 2, [1, 1], &["rounds, calls, lengths,", "slots"]),
    ("graph", Library, 2, [3, 3], &["neighbours, held as", "missing pairs"]),
    ("interpolation", Library, 3, [0, 0], &["a polynomial through", "partly wrong values"]),
    ("phase_king", Library, 3, [2, 2], &["the vote on a whole", "matrix of marks"]),
    ("matching", Library, 3, [3, 3], &["first largest matching", "of missing pairs"]),
    ("system_file", Library, 3, [4, 4], &["form and reader", "of system files"]),
    ("reed_solomon", Library, 4, [0, 0], &["coding and decoding", "of blocks"]),
    ("star", Library, 4, [3, 3], &["C, D, F", "and the core E"]),
    ("dispersal", Library, 5, [0, 0], &["calls 1 to 3: block,", "pieces, marks"]),
    ("reconstruction", Library, 5, [1, 1], &["last 3 calls: pieces,", "block, outcome"]),
    ("examples", NoCode, 5, [4, 4], &["document 01's a to j,", "computed"]),
    ("protocol", Library, 6, [0, 3], &["the state; every call, start and step as definitions"]),
    ("agreement", NoCode, 7, [0, 0], &["a run, a system,", "the theorem"]),
    ("state_bytes", Library, 7, [1, 1], &["the state as bytes"]),
    ("controller", Library, 7, [2, 2], &["start and step"]),
    ("simulation", NoCode, 7, [3, 3], &["the run of a system,", "as a definition"]),
    ("witnesses", NoCode, 8, [0, 0], &["computed systems,", "theorem applied"]),
    ("boards", Library, 8, [1, 1], &["the functions that", "C calls"]),
    ("simulator", Library, 8, [3, 3], &["from a system file", "to the output"]),
    ("cases", Library, 8, [4, 4], &["random numbers,", "digests, printing"]),
    ("boards_c", Library, 9, [0, 0], &["the functions of boards", "as a static library"]),
    ("boards_agreement", NoCode, 9, [1, 1], &["runs through the", "static library agree"]),
    ("simulation_agreement", NoCode, 9, [2, 2], &["simulated runs agree"]),
    ("simulate", Program, 9, [3, 3], &["standard input to", "standard output"]),
    (CASES, Program, 9, [4, 4], &["programs that run", "cases and compare"]),
];

/// Parts: a label, the first and the last crate in it.
#[rustfmt::skip]
pub const PARTS: &[(&str, &str, &str)] = &[
    ("field and code", "gf256", "reed_solomon"),
    ("settings and wire", "settings", "wire"),
    ("sets", "bitset", "bitset"),
    ("the vote", "phase_king", "phase_king"),
    ("graph and star", "graph", "star"),
    ("system files", "text", "system_file"),
    ("calls", "dispersal", "reconstruction"),
    ("checked examples", "examples", "examples"),
    ("definitions", "protocol", "protocol"),
    ("the theorem", "agreement", "witnesses"),
    ("static library", "state_bytes", "boards"),
    ("exports for C", "boards_c", "boards_c"),
    ("the code", "controller", "controller"),
    ("simulator", "simulation", "simulate"),
    ("theorems that reach the programs", "boards_agreement", "simulation_agreement"),
    ("test programs", "cases", CASES),
];

/// A point of a route: across, in a column from its left edge; or down, in the gap below a layer from the bottom of its crates.
#[derive(Clone, Copy)]
pub enum Turn {
    X(usize, f64),
    Below(usize, f64),
}
pub use Turn::{Below, X};

/// Where arrows go straight down, from the left edge of a column: right of the labels of the parts.
pub const STRAIGHT: f64 = 126.0;
/// A second arrow into the top of a crate.
const SECOND: f64 = 140.0;
/// In the gap to the right of a column: the middle, and two beside each other.
const GAP: f64 = 170.0;
const GAP_LEFT: f64 = 166.0;
const GAP_RIGHT: f64 = 174.0;

/// Arrows straight down: from, to, column.
pub const DOWN: &[(&str, &str, usize)] = &[
    ("gf256", "lists", 0),
    ("settings", "lists", 1),
    ("bitset", "lists", 2),
    ("text", "lists", 4),
    ("polynomial", "gf256", 0),
    ("wire", "settings", 1),
    ("interpolation", "polynomial", 0),
    ("phase_king", "bitset", 2),
    ("matching", "graph", 3),
    ("system_file", "text", 4),
    ("reed_solomon", "interpolation", 0),
    ("star", "matching", 3),
    ("dispersal", "reed_solomon", 0),
    ("protocol", "dispersal", 0),
    ("protocol", "reconstruction", 1),
    ("protocol", "phase_king", 2),
    ("protocol", "star", 3),
    ("agreement", "protocol", 0),
    ("state_bytes", "protocol", 1),
    ("controller", "protocol", 2),
    ("simulation", "protocol", 3),
    ("witnesses", "agreement", 0),
    ("boards", "state_bytes", 1),
    ("simulator", "simulation", 3),
    ("boards_agreement", "boards", 1),
    ("simulate", "simulator", 3),
    (CASES, "cases", 4),
];

/// Arrows with turns: from, to, and the turns, across and down in turn, beginning and ending across.
#[rustfmt::skip]
pub const BENT: &[(&str, &str, &[Turn])] = &[
    ("graph", "bitset", &[X(3, 20.0), Below(2, 15.0), X(2, SECOND)]),
    ("phase_king", "wire", &[X(2, 20.0), Below(3, 15.0), X(1, SECOND)]),
    ("system_file", "wire", &[X(4, 40.0), Below(3, 15.0), X(1, SECOND)]),
    ("system_file", "bitset", &[X(4, 20.0), Below(2, 15.0), X(2, SECOND)]),
    ("reed_solomon", "wire", &[X(0, SECOND), Below(4, 15.0), X(1, STRAIGHT)]),
    (
        "reed_solomon",
        "bitset",
        &[X(0, 112.0), Below(4, 20.0), X(1, GAP_RIGHT), Below(2, 20.0), X(2, 60.0)],
    ),
    (
        "star",
        "settings",
        &[X(3, 20.0), Below(4, 15.0), X(1, GAP_LEFT), Below(2, 15.0), X(1, SECOND)],
    ),
    ("reconstruction", "reed_solomon", &[X(1, 20.0), Below(5, 10.0), X(0, SECOND)]),
    ("boards", "controller", &[X(1, SECOND), Below(8, 15.0), X(2, 100.0)]),
    ("simulator", "controller", &[X(3, 20.0), Below(8, 15.0), X(2, SECOND)]),
    (
        "simulator",
        "system_file",
        &[X(3, SECOND), Below(8, 15.0), X(3, GAP), Below(4, 15.0), X(4, STRAIGHT)],
    ),
    ("boards_c", "boards", &[X(0, SECOND), Below(9, 10.0), X(1, STRAIGHT)]),
    (
        "boards_agreement",
        "agreement",
        &[X(1, 20.0), Below(9, 15.0), X(0, GAP), Below(8, 15.0), X(0, SECOND)],
    ),
    (
        "simulation_agreement",
        "agreement",
        &[X(2, 20.0), Below(9, 15.0), X(0, GAP), Below(8, 15.0), X(0, SECOND)],
    ),
    ("simulation_agreement", "simulator", &[X(2, SECOND), Below(9, 15.0), X(3, 100.0)]),
];

pub fn place(name: &str) -> &'static Place {
    let found = PLACES.iter().find(|place| place.0 == name);
    found.unwrap_or_else(|| panic!("{name} has no place"))
}

/// The top of a layer.
pub fn top(layer: usize) -> f64 {
    TOP + (LAYERS - 1 - layer) as f64 * LAYER
}

/// The rectangle of a crate.
pub fn area(name: &str) -> Rect {
    let &(_, _, layer, [first, last], _) = place(name);
    let x = LEFT + first as f64 * COLUMN;
    let width = (last - first) as f64 * COLUMN + BOX_WIDTH;
    let area = Rect::new(x, top(layer), width, BOX_HEIGHT);
    // the lowest layer reaches past the columns
    let more = if layer == 0 { 20.0 } else { 0.0 };
    Rect::new(area.x - more, area.y, area.w + 2.0 * more, area.h)
}
