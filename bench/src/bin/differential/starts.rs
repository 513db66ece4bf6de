//! Starts with settings at and past every edge, with any run number, and with wrong lengths of block and state.
use crate::compare::{self, wrong_length, Same, Start, Tally};
use crate::inputs::{self, EDGES};
use crate::random::Random;
use crate::state;
use reference::wire;

/// The number of combinations of edges of n, t and k.
pub const COMBINATIONS: u64 = (EDGES.len() * EDGES.len() * EDGES.len()) as u64;

/// Starts by the number that they answer.
#[derive(Default)]
pub struct Counts {
    pub numbers: [u64; 7],
}

pub fn case(tally: &mut Tally, random: &mut Random, number: u64, counts: &mut Counts) -> Same<()> {
    let count = EDGES.len();
    let index = (number % COMBINATIONS) as usize;
    let edges = (
        EDGES[index % count],
        EDGES[index / count % count],
        EDGES[index / count / count],
    );
    // the edges, and mostly right settings
    for (n, t, k) in [edges, inputs::settings(random)] {
        let own = of(random, 1, n);
        let sender = of(random, 0, n);
        let start = Start {
            n,
            t,
            k,
            own,
            sender,
            run: random.run(),
        };
        let mut length = wire::block_length(n as u128, t as u128, k as u128) as usize;
        if random.one_in(5) {
            length = wrong_length(random, length);
        }
        let block = random.bytes(length);
        let mut state_length = state::LENGTH;
        if random.one_in(10) {
            state_length = wrong_length(random, state_length);
        }
        let (number, _, _) = compare::start(tally, random, start, &block, state_length)
            .map_err(|text| format!("{start:?}, block {length}, state {state_length}: {text}"))?;
        counts.numbers[usize::from(number)] += 1;
    }
    Ok(())
}

/// A number mostly from `least` to n, or at one of the edges.
fn of(random: &mut Random, least: usize, n: usize) -> usize {
    match random.below(8) {
        0 => random.pick(&EDGES),
        1 => n.wrapping_add(1),
        _ => random.within(least, n.clamp(1, 16)),
    }
}
