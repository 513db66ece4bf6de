//! Steps on states that no run reaches: states of runs with some bytes changed, states of random bytes, and states with right settings and
//! random contents.
use crate::compare::{self, wrong_length, Same, Tally};
use crate::inputs::{self, of_another_run, EDGES};
use crate::random::Random;
use crate::state;
use crate::systems::Snapshot;
use reference::controller::State;
use reference::wire;

#[derive(Default)]
pub struct Counts {
    pub states: u64,
    /// Steps by the number that they answer.
    pub numbers: [u64; 9],
    /// Steps carried out by the kind of call: calls 1 to 4, after 3p + 1, after 3p + 2, after 3p + 3, 3t + 7, 3t + 8, 3t + 9.
    pub calls: [u64; 10],
    /// Steps on states that name somebody: calls but the last, last calls, refused ones.
    pub naming: [u64; 3],
    /// Steps carried out on inboxes with slots of another run.
    pub other_run: u64,
}

/// A state that makes a call, if the lengths are right.
fn makes_a_call(state: &State) -> bool {
    let State {
        n,
        t,
        k,
        own,
        sender,
        ..
    } = *state;
    wire::settings_hold(n as u128, t as u128, k as u128)
        && (1..=n).contains(&own)
        && (0..=n).contains(&sender)
        && (1..=3 * t + 9).contains(&state.next)
}

/// The state of a snapshot with some bits or bytes changed.
fn changed(random: &mut Random, mut bytes: Vec<u8>) -> Vec<u8> {
    for _ in 0..random.pick(&[0, 1, 1, 2, 3, 4]) {
        let at = match random.below(8) {
            // the low byte of a setting or of the next call
            0 => 8 * random.below(6),
            1 => state::NEXT,
            2 => random.below(48),
            3 => state::OUTCOME,
            4 => random.within(state::CORE, state::LENGTH - 1),
            _ => random.within(state::MATRIX, state::LENGTH - 1),
        };
        bytes[at] = match random.below(4) {
            0 => random.byte(),
            1 => random.pick(&[0, 1, 0xff]),
            _ => bytes[at] ^ 1 << random.below(8),
        };
    }
    bytes
}

/// Right settings, a call of any kind, and random contents.
fn built(random: &mut Random) -> Vec<u8> {
    let (n, t, k) = random.settings();
    let kind = random.within(1, 10);
    let calls: Vec<usize> = (1..=3 * t + 9)
        .filter(|&c| wire::call_row(t as u128, c as u128) == kind)
        .collect();
    let mut next = calls[random.below(calls.len())];
    if random.one_in(12) {
        let past = random.pick(&[0, 3 * t + 10, 3 * t + 11, next + 256, next + (1 << 32)]);
        let edge = random.pick(&EDGES);
        next = random.pick(&[past, past, edge]);
    }
    let density = random.pick(&[0, 1, 8, 15, 16]);
    let mut matrix = [0; 16].map(|_: u16| random.sparse(density));
    let mut weak = [0; 16].map(|_: u16| random.sparse(8));
    if kind == 8 || random.one_in(4) {
        matrix = inputs::graph(random, n, t);
        let density = random.pick(&[0, 0, 1, 16]);
        weak = weak.map(|row| row & random.sparse(density));
    }
    let size = random.within(0, n);
    let members = random.subset(n, size);
    let past = random.word() & !random.subset(n, n);
    let core = random.pick(&[members, members, members | past, past, 0, 0xffff]);
    let named = random.pick(&[0, members, past, 0xffff]);
    let mut bytes = state::to_bytes(&State {
        n,
        t,
        k,
        own: random.within(1, n),
        sender: random.within(0, n),
        next,
        matrix,
        weak,
        core,
        named,
        run: random.run(),
        ..State::default()
    });
    let any = random.byte();
    bytes[state::OUTCOME] = random.pick(&[0, 1, 2, 3, 4, 0xff, any]);
    bytes
}

pub fn case(
    tally: &mut Tally,
    random: &mut Random,
    snapshots: &[Snapshot],
    counts: &mut Counts,
) -> Same<()> {
    counts.states += 1;
    let mut snapshot = None;
    let mut bytes = match random.below(64) {
        0..=1 => random.bytes(state::LENGTH),
        2..=24 if !snapshots.is_empty() => {
            let taken = &snapshots[random.below(snapshots.len())];
            snapshot = Some(taken);
            changed(random, taken.bytes.clone())
        }
        _ => built(random),
    };
    let mut block = snapshot.map(|taken| taken.block.clone());
    // the state that a step leaves may be given to another one
    for _ in 0..random.pick(&[1, 1, 2, 4]) {
        let state = state::from_bytes(&bytes);
        let call = makes_a_call(&state);
        let (mut lent_block, mut inbox, mut outbox) = if call {
            let length = state.k * (state.t + 1);
            let mut lent = block.clone().unwrap_or_default();
            if lent.len() != length {
                lent = random.bytes(length);
            }
            let inbox = match snapshot.take() {
                Some(taken)
                    if random.one_in(2)
                        && taken.inbox.len() == state.box_length(state.next - 1) =>
                {
                    taken.inbox.clone()
                }
                _ => inputs::inbox(random, &state, &lent),
            };
            (lent, inbox, state.box_length(state.next))
        } else {
            let lengths = [(); 3].map(|()| random.below(40));
            (
                random.bytes(lengths[0]),
                random.bytes(lengths[1]),
                lengths[2],
            )
        };
        let mut lent = bytes.clone();
        if random.one_in(10) {
            match random.below(8) {
                0 | 1 => lent_block.resize(wrong_length(random, lent_block.len()), 1),
                2 | 3 => inbox.resize(wrong_length(random, inbox.len()), 1),
                4 | 5 => outbox = wrong_length(random, outbox),
                6 => lent.resize(wrong_length(random, lent.len()), 1),
                _ => {
                    inbox.resize(wrong_length(random, inbox.len()), 1);
                    outbox = wrong_length(random, outbox);
                }
            }
        }
        let after = compare::step(tally, random, &state, &lent, &lent_block, &inbox, outbox)
            .map_err(|text| format!("{state:x?}, outcome {:02x}: {text}", bytes[state::OUTCOME]))?;
        counts.numbers[usize::from(after.number)] += 1;
        if after.number != 0 {
            counts.naming[2] += u64::from(state.named != 0);
            break;
        }
        let row = wire::call_row(state.t as u128, state.next as u128);
        counts.calls[row - 1] += 1;
        counts.naming[usize::from(row == 10)] += u64::from(state.named != 0);
        let mut slots = inbox.chunks((inbox.len() / state.n).max(1));
        counts.other_run += u64::from(slots.any(|slot| of_another_run(slot, state.run)));
        bytes = after.bytes;
        block = Some(after.block);
    }
    Ok(())
}
