//! The expected output of the program controller_cases. The refusals are written by hand from document 01's table ('Turned down'; row 5 as
//! document 02, U6, has it), not computed; the runs with silent inboxes follow its rounds ('Rounds'), with what silence makes of each rule, and so do
//! those in which only slots of another run arrive (document 02, U11); what the last calls set is written by hand from its examples. The reference is
//! compared with all of it. The runs in which something is heard are the reference's, and their ends are compared with what is written here.
use reference::controller::{start, step, Outcome, State};
use reference::wire::{block_length, box_length, in_slot, slot_with, FRONT};

const MAX: usize = usize::MAX;

/// The row of marks of the states that steps are given: a refused step keeps it, and no other does (document 02, U1).
const MARKS: u16 = 0x8421;

/// n, t, k, own number, sender.
type Settings = [usize; 5];

/// The run number of the states that steps are given.
const RUN: u16 = 40961;

/// Settings, run number, the block's length and the number: each row by itself, then two rows at once, of which the first counts.
const STARTS: [(Settings, u16, usize, u8); 49] = [
    ([3, 1, 1, 1, 1], 1, 2, 1),
    ([17, 1, 1, 1, 1], 256, 2, 1),
    ([0, 1, 1, 1, 1], 65535, 2, 1),
    ([MAX, 1, 1, 1, 1], 258, 2, 1),
    ([4, 0, 1, 1, 1], 1, 1, 2),
    ([4, 2, 1, 1, 1], 256, 3, 2),
    ([6, 2, 1, 1, 1], 65535, 3, 2),
    ([16, 6, 1, 1, 1], 258, 7, 2),
    ([16, MAX, 1, 1, 1], 1, 0, 2),
    ([4, 1, 0, 1, 1], 256, 0, 3),
    ([4, 1, 129, 1, 1], 65535, 258, 3),
    ([7, 2, 129, 1, 1], 258, 387, 3),
    ([4, 1, MAX, 1, 1], 1, 0, 3),
    ([4, 1, 1, 0, 1], 256, 2, 4),
    ([4, 1, 1, 5, 1], 65535, 2, 4),
    ([4, 1, 1, MAX, 1], 258, 2, 4),
    ([4, 1, 1, 0, 0], 1, 2, 4),
    ([16, 5, 1, 1, 17], 256, 6, 5),
    ([4, 1, 1, 1, 5], 65535, 2, 5),
    ([4, 1, 1, 1, MAX], 258, 2, 5),
    ([4, 1, 1, 1, 1], 1, 0, 6),
    ([4, 1, 1, 1, 1], 256, 1, 6),
    ([4, 1, 1, 1, 1], 65535, 3, 6),
    ([4, 1, 1, 1, 0], 258, 3, 6),
    ([7, 2, 128, 7, 7], 1, 383, 6),
    ([7, 2, 128, 7, 7], 256, 385, 6),
    ([3, 0, 1, 1, 1], 65535, 1, 1),
    ([3, 1, 0, 1, 1], 258, 0, 1),
    ([3, 1, 1, 0, 1], 1, 2, 1),
    ([3, 1, 1, 1, 4], 256, 2, 1),
    ([3, 1, 1, 1, 1], 65535, 3, 1),
    ([4, 0, 129, 1, 1], 258, 129, 2),
    ([4, 0, 1, 0, 1], 1, 1, 2),
    ([4, 0, 1, 1, 5], 256, 1, 2),
    ([4, 0, 1, 1, 1], 65535, 2, 2),
    ([4, 1, 0, 0, 1], 258, 0, 3),
    ([4, 1, 0, 1, 5], 1, 0, 3),
    ([4, 1, 0, 1, 1], 256, 1, 3),
    ([4, 1, 1, 0, 5], 65535, 2, 4),
    ([4, 1, 1, 0, 1], 258, 3, 4),
    ([4, 1, 1, 1, 5], 1, 3, 5),
    ([3, 0, 0, 0, 4], 256, 9, 1),
    ([4, 1, 1, 1, 1], 0, 2, 0),
    ([4, 1, 1, 4, 4], 1, 2, 0),
    ([7, 2, 128, 7, 1], 256, 384, 0),
    ([16, 1, 128, 16, 16], 65535, 256, 0),
    ([16, 5, 128, 1, 16], 513, 768, 0),
    ([4, 1, 1, 1, 0], 0, 2, 0),
    ([16, 5, 128, 16, 0], 65535, 768, 0),
];

/// Settings and next call of the state, the lengths of block, inbox and outbox, and the number: the zero state; settings out of range; the
/// next call out of range, or the run finished; two rows at once.
const STEPS: [(Settings, usize, [usize; 3], u8); 44] = [
    ([0, 0, 0, 0, 0], 0, [0, 0, 0], 7),
    ([3, 1, 1, 1, 1], 1, [2, 0, 20], 7),
    ([17, 1, 1, 1, 1], 1, [2, 0, 20], 7),
    ([MAX, 1, 1, 1, 1], 1, [2, 0, 20], 7),
    ([4, 0, 1, 1, 1], 1, [2, 0, 20], 7),
    ([4, 2, 1, 1, 1], 1, [2, 0, 20], 7),
    ([4, MAX, 1, 1, 1], 1, [2, 0, 20], 7),
    ([4, 1, 0, 1, 1], 1, [2, 0, 20], 7),
    ([4, 1, 129, 1, 1], 1, [2, 0, 20], 7),
    ([4, 1, MAX, 1, 1], 1, [2, 0, 20], 7),
    ([4, 1, 1, 0, 1], 1, [2, 0, 20], 7),
    ([4, 1, 1, 5, 1], 1, [2, 0, 20], 7),
    ([4, 1, 1, MAX, 1], 1, [2, 0, 20], 7),
    ([4, 1, 1, 0, 0], 1, [2, 0, 20], 7),
    ([16, 5, 3, 1, 17], 1, [18, 0, 336], 7),
    ([4, 1, 1, 1, 5], 1, [2, 0, 20], 7),
    ([4, 1, 1, 1, MAX], 1, [2, 0, 20], 7),
    ([4, 1, 1, 1, 1], 0, [2, 0, 0], 7),
    ([4, 1, 1, 1, 1], 14, [2, 0, 0], 7),
    ([4, 1, 1, 1, 1], MAX, [2, 0, 0], 7),
    ([4, 1, 1, 1, 1], 13, [2, 0, 0], 8),
    ([16, 1, 1, 1, 1], 14, [2, 0, 0], 7),
    ([16, 1, 1, 1, 1], 13, [2, 0, 0], 8),
    ([7, 2, 2, 7, 1], 0, [6, 0, 0], 7),
    ([7, 2, 2, 7, 1], 17, [6, 0, 0], 7),
    ([7, 2, 2, 7, 1], 16, [6, 0, 0], 8),
    ([16, 5, 3, 1, 16], 26, [18, 0, 0], 7),
    ([16, 5, 3, 1, 16], 25, [18, 0, 0], 8),
    ([4, 1, 1, 1, 0], 14, [2, 0, 0], 7),
    ([4, 1, 1, 1, 0], 13, [2, 0, 0], 8),
    ([3, 1, 1, 1, 1], 13, [2, 0, 0], 7),
    ([4, 1, 0, 1, 1], 13, [0, 0, 0], 7),
    ([4, 1, 1, 5, 1], 13, [2, 0, 0], 7),
    ([4, 1, 1, 1, 5], 13, [2, 0, 0], 7),
    ([4, 0, 1, 1, 1], 10, [1, 0, 0], 7),
    ([3, 1, 1, 1, 1], 0, [2, 0, 0], 7),
    ([3, 1, 1, 1, 1], 1, [3, 1, 21], 7),
    ([4, 1, 1, 1, 1], 0, [3, 0, 0], 7),
    ([4, 1, 1, 1, 1], 14, [2, 1, 1], 7),
    ([4, 1, 1, 1, 1], 13, [3, 0, 0], 8),
    ([4, 1, 1, 1, 1], 13, [2, 1, 0], 8),
    ([4, 1, 1, 1, 1], 13, [2, 16, 0], 8),
    ([4, 1, 1, 1, 1], 13, [2, 0, 1], 8),
    ([4, 1, 1, 1, 1], 13, [9, 9, 9], 8),
];

/// A last call: n, t and k, the run number, the core, the slots of the inbox, and the outcome, row of marks and block that it sets.
struct Last {
    settings: [usize; 3],
    run: u16,
    core: u16,
    slots: &'static [Slot],
    outcome: Outcome,
    named: u16,
    block: &'static [u8],
}

/// A slot: present in a run; with another first byte; all 00.
enum Slot {
    Of(u16, &'static [u8]),
    Behind(u8, u16, &'static [u8]),
    Silent,
}

use Slot::{Behind, Of, Silent};

impl Slot {
    fn bytes(&self, k: usize) -> Vec<u8> {
        match *self {
            Of(run, piece) => slot_with(run, piece),
            Behind(first, run, piece) => [&[first], &slot_with(run, piece)[1..]].concat(),
            Silent => vec![0; FRONT + k],
        }
    }
}

/// Pieces of 0a14 with n 4 and t 1, which are 1e 22 36 5a: all of them, and everyone in the core.
const TRUE: Last = Last {
    settings: [4, 1, 1],
    run: 0,
    core: 15,
    slots: &[
        Of(0, &[0x1e]),
        Of(0, &[0x22]),
        Of(0, &[0x36]),
        Of(0, &[0x5a]),
    ],
    outcome: Outcome::Agreed,
    named: 0,
    block: &[0x0a, 0x14],
};

/// Slots of run 513 at 1 and 4.
const MIXED: &[Slot] = &[
    Of(513, &[0x1e]),
    Of(258, &[0x22]),
    Of(258, &[0x36]),
    Of(513, &[0x5a]),
];

/// All; example d, and with slot 1 absent; example e; all of them with a core of numbers past n only, which is none. Slots of another run than 258,
/// which are absent: one, whose number differs in either byte, and with a false piece; two; three, so that there is no block; and the slots of the two
/// in the run of which they are, where the others are absent. Three stripes of the block, 4 false in the first, 1 in the second, 2 in the third. Then n 7
/// and t 2, where 0a141e has the pieces 00 5a 50 a7 ad f7 fd: 2, 5 and 6 are silent. The four true pieces give the block (document 02, U2), but by
/// document 01's own rule, that five places agree, an absent slot being a piece of zeros, none.
const LASTS: [Last; 13] = [
    TRUE,
    Last {
        run: 1,
        slots: &[
            Of(1, &[0x00]),
            Of(1, &[0x22]),
            Of(1, &[0x36]),
            Of(1, &[0x5a]),
        ],
        named: 0b0001,
        ..TRUE
    },
    Last {
        run: 256,
        slots: &[
            Behind(0, 256, &[0x1e]),
            Of(256, &[0x22]),
            Of(256, &[0x36]),
            Of(256, &[0x5a]),
        ],
        named: 0b0001,
        ..TRUE
    },
    Last {
        run: 65535,
        slots: &[
            Of(65535, &[0x1e]),
            Of(65535, &[0x22]),
            Of(65535, &[0x37]),
            Of(65535, &[0x5b]),
        ],
        outcome: Outcome::Beyond,
        block: &[0, 0],
        ..TRUE
    },
    Last {
        core: 0xfff0,
        outcome: Outcome::None,
        block: &[0, 0],
        ..TRUE
    },
    Last {
        run: 258,
        slots: &[
            Of(258, &[0x1e]),
            Of(258, &[0x22]),
            Of(2, &[0x36]),
            Of(258, &[0x5a]),
        ],
        named: 0b0100,
        ..TRUE
    },
    Last {
        run: 258,
        slots: &[
            Of(258, &[0x1e]),
            Of(258, &[0x22]),
            Of(257, &[0x36]),
            Of(258, &[0x5a]),
        ],
        named: 0b0100,
        ..TRUE
    },
    Last {
        run: 258,
        slots: &[
            Of(258, &[0x1e]),
            Of(258, &[0x22]),
            Of(2, &[0x37]),
            Of(258, &[0x5a]),
        ],
        named: 0b0100,
        ..TRUE
    },
    Last {
        run: 258,
        slots: MIXED,
        named: 0b1001,
        ..TRUE
    },
    Last {
        run: 258,
        slots: &[
            Of(513, &[0x1e]),
            Of(0, &[0x22]),
            Of(258, &[0x36]),
            Of(513, &[0x5a]),
        ],
        outcome: Outcome::Beyond,
        block: &[0, 0],
        ..TRUE
    },
    Last {
        run: 513,
        slots: MIXED,
        named: 0b0110,
        ..TRUE
    },
    Last {
        settings: [4, 1, 3],
        run: 1,
        core: 7,
        slots: &[
            Of(1, &[0x1e, 0x00, 0x1e]),
            Of(1, &[0x22, 0x22, 0x00]),
            Of(1, &[0x36, 0x36, 0x36]),
            Of(1, &[0x00, 0x5a, 0x5a]),
        ],
        named: 0b1011,
        block: &[0x0a, 0x14, 0x0a, 0x14, 0x0a, 0x14],
        ..TRUE
    },
    Last {
        settings: [7, 2, 1],
        run: 256,
        core: 127,
        slots: &[
            Of(256, &[0x00]),
            Silent,
            Of(256, &[0x50]),
            Of(256, &[0xa7]),
            Silent,
            Silent,
            Of(256, &[0xfd]),
        ],
        named: 0b011_0010,
        block: &[0x0a, 0x14, 0x1e],
        ..TRUE
    },
];

fn words(numbers: &[usize]) -> String {
    numbers.iter().map(|x| format!(" {x}")).collect()
}

fn started([n, t, k, own, sender]: Settings, run: u16, length: usize, number: u8) {
    let (answer, state) = start(n, t, k, own, sender, run, &vec![0xa5; length]);
    assert_eq!(answer, number);
    let settings = [state.n, state.t, state.k, state.own, state.sender];
    if number == 0 {
        assert_eq!((settings, state.run), ([n, t, k, own, sender], run));
        assert_eq!(state.next, 1);
        assert_eq!((state.outcome, state.named), (Outcome::Open, 0));
    } else {
        assert_eq!(state, State::default());
    }
}

/// A refused step changes nothing.
fn refused(s: Settings, next: usize, lengths: [usize; 3], number: u8) {
    let [n, t, k, own, sender] = s;
    let state = State {
        n,
        t,
        k,
        own,
        sender,
        next,
        outcome: Outcome::Beyond,
        matrix: [0xa5; 16],
        weak: [0x5a; 16],
        core: 3,
        named: MARKS,
        run: RUN,
    };
    let [mut block, inbox, mut outbox] = lengths.map(|length| vec![0xa5; length]);
    let answer = step(state, &mut block, &inbox, &mut outbox);
    assert_eq!(answer, (number, state));
    assert_eq!(
        [block, outbox].concat(),
        vec![0xa5; lengths[0] + lengths[2]]
    );
    let all = [&s[..], &[next], &lengths[..]].concat();
    println!("step{}: {number} same same same", words(&all));
}

/// The length of the box of round c; there is none before round 1 and after the last.
fn slots(n: usize, t: usize, k: usize, c: usize) -> usize {
    box_length(n as u128, t as u128, k as u128, c as u128) as usize
}

/// Each lent length of each call a byte too long and a byte too short (of no byte, two bytes), and all three wrong: number 6.
fn lengths(n: usize, t: usize, k: usize) {
    let block = block_length(n as u128, t as u128, k as u128) as usize;
    for c in 1..=3 * t + 9 {
        let right = [block, slots(n, t, k, c - 1), slots(n, t, k, c)];
        let wrong = |x: usize, long: bool| match (x, long) {
            (_, true) => x + 1,
            (0, false) => 2,
            _ => x - 1,
        };
        for which in 0..3 {
            for long in [true, false] {
                let mut given = right;
                given[which] = wrong(right[which], long);
                refused([n, t, k, n, 1], c, given, 6);
            }
        }
        let given = [
            wrong(right[0], true),
            wrong(right[1], false),
            wrong(right[2], true),
        ];
        refused([n, t, k, n, 1], c, given, 6);
    }
}

fn hex(bytes: &[u8]) -> String {
    if bytes.is_empty() {
        return "-".to_string();
    }
    bytes.iter().map(|b| format!("{b:02x}")).collect()
}

/// The same message to all in a run.
fn to_all(n: usize, run: u16, message: &[u8]) -> Vec<u8> {
    slot_with(run, message).repeat(n)
}

/// A matrix of n equal rows.
fn matrix(n: usize, row: u16) -> Vec<u8> {
    row.to_le_bytes().repeat(n)
}

/// The pieces of 0a14 with n 4, t 1 and k 1 (document 01, example c).
const PIECES: [u8; 4] = [0x1e, 0x22, 0x36, 0x5a];

/// What a controller sends in round c if nothing ever arrives, not even what it sends to itself.
fn sent([n, t, k, own, sender]: Settings, run: u16, block: &[u8], c: usize) -> Vec<u8> {
    let silence = vec![0; slots(n, t, k, c)];
    if c == 1 {
        // the block that start was lent
        return if own == sender {
            to_all(n, run, block)
        } else {
            silence
        };
    }
    if c == 2 && sender == 0 {
        // the block is still the one that start was lent, 0a14: to each the own piece, then its own
        assert_eq!(([n, t, k], block), ([4, 1, 1], &[10, 20][..]));
        return PIECES
            .iter()
            .flat_map(|&p| slot_with(run, &[PIECES[own - 1], p]))
            .collect();
    }
    if c == 2 {
        // the block is zeros now, and zeros code to zeros
        return to_all(n, run, &vec![0; 2 * k]);
    }
    if c == 3 {
        // everyone marks itself, and no other whose slot is absent
        return to_all(n, run, &(1u16 << (own - 1)).to_le_bytes());
    }
    if c >= 3 * t + 7 {
        // the matrix is zeros, so no two are neighbours and there is no core
        return silence;
    }
    let p = (c - 1) / 3;
    match c - 3 * p {
        // rows of zeros at call 4; later the king's bits, 0
        1 => to_all(n, run, &matrix(n, 0)),
        // all n say 0: zero is seen for each bit of 1 .. n, one for none
        2 => {
            let seen = ((1u32 << n) - 1) as u16;
            to_all(n, run, &[matrix(n, seen), matrix(n, 0)].concat())
        }
        // no ones: each bit is 0
        _ if own == p => to_all(n, run, &matrix(n, 0)),
        _ => silence,
    }
}

/// The word for an outcome.
fn word(outcome: Outcome) -> String {
    format!("{outcome:?}").to_lowercase()
}

/// What arrives of an outbox of four controllers: all that is sent, in the slots above `heard` with a run number that differs in one byte.
fn arriving(outbox: &[u8], run: u16, c: usize, heard: usize) -> Vec<u8> {
    let other = run ^ if c % 2 == 0 { 1 } else { 256 };
    let slots = outbox.chunks((outbox.len() / 4).max(1));
    let arrives = |(j, slot): (usize, &[u8])| match in_slot(slot, run) {
        Some(message) if j <= heard => slot_with(run, message),
        Some(message) => slot_with(other, message),
        None => vec![0; slot.len()],
    };
    (1..).zip(slots).flat_map(arrives).collect()
}

/// A run of the reference: its state, its block, and what arrives; `heard` is none where nothing does.
struct Run {
    state: State,
    block: Vec<u8>,
    inbox: Vec<u8>,
    heard: Option<usize>,
}

impl Run {
    /// Prints the line of a start.
    fn new(s: Settings, run: u16, heard: Option<usize>, first: &[u8]) -> Run {
        let [n, t, k, own, sender] = s;
        let word = heard.map_or("silent".to_string(), |heard| heard.to_string());
        println!("run{} {run} {word} {}", words(&s), hex(first));
        Run {
            state: start(n, t, k, own, sender, run, first).1,
            block: first.to_vec(),
            inbox: vec![],
            heard,
        }
    }

    /// Call c, and its line: the state given has marks in its row, the one that it sets has none but in the last call. Answers the outbox.
    fn call(&mut self, c: usize) -> Vec<u8> {
        let run = self.state.run;
        let mut outbox = vec![0xa5; self.state.box_length(c)];
        let given = State {
            named: MARKS,
            ..self.state
        };
        let (number, state) = step(given, &mut self.block, &self.inbox, &mut outbox);
        assert_eq!((number, state.next, state.run), (0, c + 1, run));
        assert!(state.named == 0 || state.outcome == Outcome::Agreed);
        self.state = state;
        self.inbox = match self.heard {
            Some(heard) => arriving(&outbox, run, c, heard),
            None => vec![0; outbox.len()],
        };
        println!(
            "call {c}: 0 {} {} {} {run} {} {}",
            c + 1,
            word(state.outcome),
            state.named,
            hex(&self.block),
            hex(&outbox)
        );
        outbox
    }

    /// Two steps after the last call.
    fn end(&mut self) {
        let c = self.state.next;
        for _ in 0..2 {
            let state = State {
                named: MARKS,
                ..self.state
            };
            let left = self.block.clone();
            assert_eq!(step(state, &mut self.block, &[], &mut []), (8, state));
            assert_eq!(self.block, left);
            let (outcome, run) = (word(state.outcome), state.run);
            println!("call {c}: 8 {c} {outcome} {MARKS} {run} {} -", hex(&left));
        }
    }
}

/// All calls with inboxes that are silent, or have slots of another run only, then two steps more.
fn silent_run(s: Settings, run: u16, heard: Option<usize>, first: &[u8]) {
    let [n, t, k, _, sender] = s;
    let last = 3 * t + 9;
    let mut reference = Run::new(s, run, heard, first);
    for c in 1..=last {
        // silence from the sender sets the block to zeros; without a sender it is kept until the last call, which finds no core
        let block = if c == 1 || sender == 0 && c < last {
            first.to_vec()
        } else {
            vec![0; first.len()]
        };
        let (outbox, outcome) = if c == last {
            (vec![], "none")
        } else {
            (sent(s, run, first, c), "open")
        };
        assert_eq!(outbox.len(), slots(n, t, k, c));
        assert_eq!(reference.call(c), outbox);
        assert_eq!(reference.block, block);
        let state = reference.state;
        assert_eq!((word(state.outcome), state.named), (outcome.to_string(), 0));
    }
    reference.end();
}

/// All calls of the sender of four, who hears itself in the slots of 1 to `heard`: of the block 0a00 all pieces are 0a, so that it marks these, they are
/// the core, and all others are named.
fn heard_run(run: u16, heard: usize) {
    let mut reference = Run::new([4, 1, 1, 1, 1], run, Some(heard), &[10, 0]);
    for c in 1..=12 {
        reference.call(c);
    }
    let (core, state) = ((1 << heard) - 1, reference.state);
    assert_eq!((state.core, state.outcome), (core, Outcome::Agreed));
    assert_eq!(
        (state.named, &reference.block[..]),
        (15 - core, &[10, 0][..])
    );
    reference.end();
}

/// A last call of controller 1, the sender.
fn last(last: &Last) {
    let [n, t, k] = last.settings;
    let c = 3 * t + 9;
    let given = State {
        n,
        t,
        k,
        own: 1,
        sender: 1,
        next: c,
        outcome: Outcome::Beyond,
        matrix: [0xa5; 16],
        weak: [0x5a; 16],
        core: last.core,
        named: MARKS,
        run: last.run,
    };
    let inbox: Vec<u8> = last.slots.iter().flat_map(|slot| slot.bytes(k)).collect();
    let mut block = vec![0xff; last.block.len()];
    let (number, state) = step(given, &mut block, &inbox, &mut []);
    assert_eq!((number, state.next, state.run), (0, c + 1, last.run));
    assert_eq!((state.outcome, state.named), (last.outcome, last.named));
    assert_eq!(block, last.block);
    let settings = words(&[n, t, k, 1, 1, last.run.into(), last.core.into()]);
    println!("last{settings} {}", hex(&inbox));
    let (outcome, named, run) = (word(last.outcome), last.named, last.run);
    let end = hex(last.block);
    println!("call {c}: 0 {} {outcome} {named} {run} {end} -", c + 1);
}

fn main() {
    for (s, run, length, number) in STARTS {
        started(s, run, length, number);
        let state = if number == 0 { "begun" } else { "zero" };
        println!("start{} {run} {length}: {number} {state} same", words(&s));
    }
    for (s, next, given, number) in STEPS {
        refused(s, next, given, number);
    }
    lengths(4, 1, 1);
    lengths(7, 2, 2);
    lengths(16, 5, 3);
    let block = [10, 20, 30, 40, 50, 60];
    silent_run([4, 1, 1, 1, 1], 0, None, &[10, 0]);
    silent_run([7, 2, 2, 2, 2], 256, None, &block);
    silent_run([7, 2, 2, 4, 2], 65535, None, &block);
    silent_run([4, 1, 1, 3, 0], 1, None, &[10, 20]);
    silent_run([4, 1, 1, 1, 1], 0, Some(0), &[10, 0]);
    heard_run(256, 3);
    heard_run(65535, 3);
    heard_run(258, 4);
    LASTS.iter().for_each(last);
}
