//! The bytes of a state, written and read here from and to the reference's state: n, t, k, own, sender and next as numbers, the outcome,
//! matrix and weak of 16 rows each, the core, who is named, and the run number; all little endian.
use reference::controller::{Outcome, State};

/// How many bytes each field takes.
const WIDTHS: [usize; 12] = [8, 8, 8, 8, 8, 8, 1, 32, 32, 2, 2, 2];

/// Where field `i` starts.
const fn offset(i: usize) -> usize {
    if i == 0 {
        0
    } else {
        offset(i - 1) + WIDTHS[i - 1]
    }
}

pub const LENGTH: usize = offset(WIDTHS.len());
pub const NEXT: usize = offset(5);
pub const OUTCOME: usize = offset(6);
pub const MATRIX: usize = offset(7);
pub const CORE: usize = offset(9);
pub const NAMED: usize = offset(10);
pub const RUN: usize = offset(11);

pub fn outcome_number(outcome: Outcome) -> u8 {
    match outcome {
        Outcome::Open => 0,
        Outcome::Agreed => 1,
        Outcome::None => 2,
        Outcome::Beyond => 3,
    }
}

pub fn to_bytes(state: &State) -> Vec<u8> {
    let State {
        n,
        t,
        k,
        own,
        sender,
        ..
    } = *state;
    let mut bytes = Vec::new();
    for number in [n, t, k, own, sender, state.next] {
        bytes.extend((number as u64).to_le_bytes());
    }
    bytes.push(outcome_number(state.outcome));
    for row in state.matrix.iter().chain(&state.weak) {
        bytes.extend(row.to_le_bytes());
    }
    bytes.extend(state.core.to_le_bytes());
    bytes.extend(state.named.to_le_bytes());
    bytes.extend(state.run.to_le_bytes());
    assert_eq!(bytes.len(), LENGTH);
    bytes
}

/// Every `LENGTH` bytes are a state: an outcome above 3 is read as open.
pub fn from_bytes(bytes: &[u8]) -> State {
    let number = |field: usize| {
        let little = bytes[offset(field)..offset(field + 1)].iter().rev();
        little.fold(0usize, |sum, &byte| sum << 8 | usize::from(byte))
    };
    let row = |at: usize| u16::from(bytes[at]) + 256 * u16::from(bytes[at + 1]);
    State {
        n: number(0),
        t: number(1),
        k: number(2),
        own: number(3),
        sender: number(4),
        next: number(5),
        outcome: match bytes[OUTCOME] {
            1 => Outcome::Agreed,
            2 => Outcome::None,
            3 => Outcome::Beyond,
            _ => Outcome::Open,
        },
        matrix: std::array::from_fn(|i| row(MATRIX + 2 * i)),
        weak: std::array::from_fn(|i| row(offset(8) + 2 * i)),
        core: row(CORE),
        named: row(NAMED),
        run: row(RUN),
    }
}
