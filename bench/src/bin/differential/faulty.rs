//! What faulty controllers send. Each is also run as a correct one, so that it can send what a correct one would, or that with changes.
use crate::inputs::{other_presence, piece};
use crate::random::Random;
use crate::system::System;
use reference::wire::{self, slot_with, FRONT};

/// How a faulty controller chooses what it sends: the chances of its strategies.
pub struct Behaviour {
    weights: [usize; 7],
    /// One choice for all recipients of a round.
    alike: bool,
    /// Before this round it sends what a correct one does.
    first: usize,
}

#[derive(Clone, Copy)]
pub enum Strategy {
    Correct,
    Silent,
    Random,
    Garble,
    Replay,
    Structured,
    Late,
}

const STRATEGIES: [Strategy; 7] = [
    Strategy::Correct,
    Strategy::Silent,
    Strategy::Random,
    Strategy::Garble,
    Strategy::Replay,
    Strategy::Structured,
    Strategy::Late,
];

impl Behaviour {
    /// A behaviour that begins with the given round; after another run mostly one with late slots.
    pub fn new(random: &mut Random, first: usize, second_run: bool) -> Behaviour {
        let late = random.pick(&[[0, 0, 0, 0, 0, 0, 1], [2, 0, 0, 0, 0, 1, 4]]);
        let any = random.pick(&[
            [1, 1, 1, 1, 1, 1, 1],
            [0, 0, 0, 0, 0, 1, 0],
            [4, 0, 0, 0, 0, 4, 0],
            [8, 1, 1, 1, 1, 2, 1],
            [0, 0, 0, 1, 0, 0, 0],
            [2, 0, 0, 4, 1, 1, 0],
            [1, 1, 0, 0, 4, 1, 0],
            [0, 1, 0, 0, 0, 0, 0],
            [0, 0, 1, 0, 0, 0, 0],
            [0, 0, 0, 0, 0, 0, 1],
        ]);
        let weights = if second_run && !random.one_in(3) {
            late
        } else {
            any
        };
        Behaviour {
            weights,
            alike: random.one_in(3),
            first,
        }
    }
}

/// The slots that `from` sends in a round, one for each recipient.
pub fn slots(
    random: &mut Random,
    behaviour: &Behaviour,
    system: &System,
    round: usize,
    from: usize,
) -> Vec<Vec<u8>> {
    let one = random.weighted(&behaviour.weights);
    let mut slots: Vec<Vec<u8>> = Vec::new();
    for to in 1..=system.n {
        let strategy = if round < behaviour.first {
            Strategy::Correct
        } else if behaviour.alike {
            STRATEGIES[one]
        } else {
            STRATEGIES[random.weighted(&behaviour.weights)]
        };
        let slot = slot(random, system, round, from, to, strategy);
        assert_eq!(slot.len(), FRONT + system.message_length(round));
        slots.push(slot);
    }
    slots
}

fn slot(
    random: &mut Random,
    system: &System,
    round: usize,
    from: usize,
    to: usize,
    strategy: Strategy,
) -> Vec<u8> {
    let length = system.message_length(round);
    let correct = system.sent(round, from, to).to_vec();
    match strategy {
        Strategy::Correct => correct,
        Strategy::Silent => {
            let mut slot = vec![0; FRONT + length];
            if random.one_in(2) {
                slot = slot_with(system.run, &random.bytes(length));
                slot[0] = other_presence(random);
            }
            slot
        }
        Strategy::Random if random.one_in(16) => random.bytes(FRONT + length),
        Strategy::Random => slot_with(system.run, &random.bytes(length)),
        Strategy::Garble => garbled(random, correct),
        Strategy::Replay => replayed(random, system, round, from, to),
        Strategy::Structured => {
            let message = structured(random, system, round, from, to);
            slot_with(system.run, &message)
        }
        Strategy::Late => late(random, system, round, from, to),
    }
}

/// The slot of the same round of the run before, with that run's number; or what a correct one would send, or another message of the round's form, with
/// the number of another run, which is the rule where there was no run before.
fn late(random: &mut Random, system: &System, round: usize, from: usize, to: usize) -> Vec<u8> {
    if let Some(slot) = system.sent_before(round, from, to) {
        if !random.one_in(4) {
            return slot.to_vec();
        }
    }
    let other = random.other_run(system.run);
    match wire::in_slot(system.sent(round, from, to), system.run) {
        Some(message) if random.one_in(2) => slot_with(other, message),
        _ => slot_with(other, &structured(random, system, round, from, to)),
    }
}

/// A slot with some bits or bytes changed, or another first byte.
fn garbled(random: &mut Random, mut slot: Vec<u8>) -> Vec<u8> {
    match random.below(4) {
        0 => slot[0] = other_presence(random),
        1 => {
            for _ in 0..random.within(1, 4) {
                let at = random.below(slot.len());
                slot[at] = random.byte();
            }
        }
        _ => {
            for _ in 0..random.within(1, 4) {
                let at = random.within(FRONT, slot.len() - 1);
                slot[at] ^= 1 << random.below(8);
            }
        }
    }
    slot
}

/// A slot of this or an earlier round, from this or another controller, to this or another one; cut or repeated to the round's length.
fn replayed(random: &mut Random, system: &System, round: usize, from: usize, to: usize) -> Vec<u8> {
    let old = if random.one_in(2) {
        round
    } else {
        random.within(1, round)
    };
    let other = |random: &mut Random, this: usize| {
        if random.one_in(3) {
            this
        } else {
            random.within(1, system.n)
        }
    };
    let (source, target) = (other(random, from), other(random, to));
    let slot = system.sent(old, source, target);
    let (front, message) = slot.split_at(FRONT);
    let mut copy = front.to_vec();
    copy.extend(
        message
            .iter()
            .cycle()
            .take(system.message_length(round))
            .copied(),
    );
    copy
}

/// A message of the round's form, chosen for the recipient.
fn structured(
    random: &mut Random,
    system: &System,
    round: usize,
    from: usize,
    to: usize,
) -> Vec<u8> {
    let n = system.n;
    let own = system.state(from);
    let theirs = system.block(to);
    // the recipient's block or another one of the system
    let some_block = |random: &mut Random| {
        let block = match random.below(4) {
            0 | 1 => theirs,
            2 => system.block(random.within(1, n)),
            _ => &system.blocks[random.below(system.blocks.len())],
        };
        block.to_vec()
    };
    match wire::round_row(system.t as u128, round as u128) {
        // one block to some, another to the others
        1 => system.blocks[system.groups[to - 1]].clone(),
        2 => {
            let first = some_block(random);
            let second = if random.one_in(2) {
                first.clone()
            } else {
                some_block(random)
            };
            [piece(own, from, &first), piece(own, to, &second)].concat()
        }
        3 => {
            let marks = match random.below(4) {
                0 => 0xffff,
                1 => {
                    let group = |i: &usize| system.groups[*i] == system.groups[to - 1];
                    (0..n).filter(group).map(|i| 1 << i).sum()
                }
                2 => u16::from_le_bytes([
                    system.sent(round, from, to)[FRONT],
                    system.sent(round, from, to)[FRONT + 1],
                ]),
                _ => random.word(),
            };
            let flips = random.pick(&[0, 1, 4]);
            (marks ^ random.sparse(flips)).to_le_bytes().to_vec()
        }
        4 | 6 => matrix(random, system, from, to),
        5 => {
            let (zeros, ones) = (
                matrix(random, system, from, to),
                matrix(random, system, from, to),
            );
            match random.below(4) {
                // each the opposite of the other
                0 => [zeros.iter().map(|byte| !byte).collect(), zeros].concat(),
                // what a correct one would say, changed in one part
                1 => {
                    let correct = &system.sent(round, from, to)[FRONT..];
                    if random.one_in(2) {
                        [&correct[..2 * n], &ones].concat()
                    } else {
                        [&zeros, &correct[2 * n..]].concat()
                    }
                }
                _ => [zeros, ones].concat(),
            }
        }
        7 => {
            let block = some_block(random);
            piece(own, to, &block)
        }
        8 => {
            let block = some_block(random);
            piece(own, from, &block)
        }
        row => unreachable!("row {row}"),
    }
}

/// The bytes of n rows: those of a correct matrix, or all one value, with some bits changed.
fn matrix(random: &mut Random, system: &System, from: usize, to: usize) -> Vec<u8> {
    let base = match random.below(5) {
        0 => [0; 16],
        1 => [0xffff; 16],
        2 => system.state(to).matrix,
        _ => system.state(from).matrix,
    };
    let flips = random.pick(&[0, 1, 4, 8, 16]);
    let rows = base[..system.n].iter();
    rows.flat_map(|row| (row ^ random.sparse(flips)).to_le_bytes())
        .collect()
}
