//! The star: graphs on which the search for a matching takes long, and others, beside the reference; and the growth with n.
use crate::random::Random;
use crate::timing::{in_turns, print_table, ratio, Side, BEFORE, REPETITIONS};
use potekawhi::raw;
use reference::star;
use std::hint::black_box;

/// Row i has the bit j where i and j are not neighbours.
type Apart = [u16; 16];

/// Two graphs on which the search for a matching takes long. The second is the last one that `star_climb` prints; the first was found by
/// an earlier climb.
const FIRST: Apart = [
    65518, 65517, 65515, 65511, 2304, 15, 527, 527, 18975, 1487, 527, 287, 16399, 16399, 45327,
    16399,
];
const SECOND: Apart = [
    23902, 23901, 23899, 23639, 65487, 640, 23583, 816, 41111, 176, 22623, 21599, 19551, 272, 7263,
    272,
];

/// For each n from 4 on, those n controllers of the first graph among whom the search takes the most steps, counted by the model in
/// `star_climb` for all sets of n.
const PARTS: [u16; 13] = [
    0x0270, 0x0f20, 0x1a43, 0x59e0, 0x3a47, 0xb257, 0x7bd1, 0xfbd1, 0xfbd3, 0xffd3, 0xffd7, 0xfff7,
    0xffff,
];

/// The graph of some controllers, which are numbered anew in their order.
fn part(graph: &Apart, members: u16) -> Apart {
    let members: Vec<usize> = (0..16).filter(|i| members >> i & 1 == 1).collect();
    let mut rows = [0; 16];
    for (row, &i) in rows.iter_mut().zip(&members) {
        let bits = members.iter().enumerate();
        *row = bits.map(|(bit, &j)| (graph[i] >> j & 1) << bit).sum();
    }
    rows
}

/// A graph in which two controllers are neighbours with a chance of `tenths` in 10.
fn random_graph(random: &mut Random, tenths: usize) -> Apart {
    let mut graph = [0; 16];
    for (i, j) in (0..16).flat_map(|i| (0..i).map(move |j| (i, j))) {
        if random.below(10) >= tenths {
            graph[i] |= 1 << j;
            graph[j] |= 1 << i;
        }
    }
    graph
}

fn random_graphs(random: &mut Random, tenths: usize) -> Vec<Apart> {
    (0..REPETITIONS)
        .map(|_| random_graph(random, tenths))
        .collect()
}

/// A graph as the library and the reference take it, and what each answered last.
pub struct Case {
    n: usize,
    t: usize,
    marks: [u16; 16],
    rows: Vec<u8>,
    sets: [u8; raw::SETS_LENGTH],
    sets_of_reference: [u16; 4],
}

impl Case {
    pub const LIBRARY: Side<Case> = (|case| case.find_by(raw::star), Case::test);
    const REFERENCE: Side<Case> = (Case::find_by_reference, Case::test);

    fn new(n: usize, t: usize, graph: &Apart) -> Case {
        let marks = graph.map(|row| !row);
        let mut case = Case {
            n,
            t,
            marks,
            rows: marks.iter().flat_map(|row| row.to_le_bytes()).collect(),
            sets: [BEFORE; raw::SETS_LENGTH],
            sets_of_reference: [BEFORE.into(); 4],
        };
        case.find_by_reference();
        case
    }

    /// By a function of the library's signature.
    pub fn find_by(&mut self, star: fn(usize, usize, &[u8], &mut [u8]) -> u8) {
        self.sets.fill(BEFORE);
        let rows = black_box(&self.rows);
        let number = star(self.n, self.t, rows, black_box(&mut self.sets));
        assert_eq!(number, 0);
    }

    fn find_by_reference(&mut self) {
        self.sets_of_reference.fill(BEFORE.into());
        let star = star::star(black_box(&self.marks), self.n, self.t);
        assert_eq!(star.refusal, 0);
        self.sets_of_reference = black_box([star.c, star.d, star.f, star.e]);
    }

    pub fn test(&self) {
        let expected = self.sets_of_reference.map(u16::to_le_bytes).concat();
        assert_eq!(self.sets[..], expected);
    }
}

fn cases(n: usize, t: usize, graphs: &[Apart]) -> Vec<Case> {
    graphs.iter().map(|graph| Case::new(n, t, graph)).collect()
}

/// The graphs of 16 controllers that are measured, by name, with t 5.
pub fn sixteen() -> Vec<(&'static str, Vec<Case>)> {
    let mut random = Random::new(3);
    [
        ("first", vec![FIRST]),
        ("second", vec![SECOND]),
        ("random, 1 pair in 2", random_graphs(&mut random, 5)),
        ("random, 9 pairs in 10", random_graphs(&mut random, 9)),
        ("complete", vec![[0; 16]]),
    ]
    .map(|(name, graphs)| (name, cases(16, 5, &graphs)))
    .into()
}

/// Table 3: the star of 16 controllers, t 5.
pub fn of_sixteen() {
    let mut rows = Vec::new();
    for (name, mut cases) in sixteen() {
        let [library, reference] = in_turns(&mut cases, [Case::LIBRARY, Case::REFERENCE]);
        let mut row = vec![name.to_string()];
        row.extend(library.cells(1e3));
        row.extend(reference.cells(1e3));
        row.push(ratio(&reference, &library));
        rows.push(row);
    }
    let heading =
        "3. Finding the star, n 16, t 5, beside the reference, which makes a table of all sets of controllers. Microseconds.
First and second are graphs on which the search for a matching takes long. Of the random graphs each repetition has another.
The answer is filled with a5 before each call, on both sides, within the time.";
    let names = "neighbours | library | min | max | reference | min | max | reference / library";
    print_table(heading, names, &rows);
}

/// Table 4: the star as n grows, with the largest t.
pub fn by_controllers() {
    let mut random = Random::new(4);
    let mut rows = Vec::new();
    for (n, members) in (4..).zip(PARTS) {
        assert_eq!(members.count_ones(), n as u32);
        let t = (n - 1) / 3;
        let mut row = vec![n.to_string(), t.to_string()];
        for graphs in [
            vec![part(&FIRST, members)],
            random_graphs(&mut random, 5),
            vec![[0; 16]],
        ] {
            let [times] = in_turns(&mut cases(n, t, &graphs), [Case::LIBRARY]);
            row.extend(times.cells(1e3));
        }
        rows.push(row);
    }
    let heading =
        "4. Finding the star as n grows, with the largest t. Microseconds.
Part of first: those n controllers of the first graph among whom the search is longest. Random: 1 pair in 2 are neighbours.
The answer is filled with a5 before each call, within the time.";
    let names = "n | t | part of first | min | max | random | min | max | complete | min | max";
    print_table(heading, names, &rows);
}
