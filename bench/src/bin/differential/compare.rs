//! Calls of the library and of the reference with the same bytes, and the comparison of everything that they leave. The library's bytes lie
//! between margins, which must not change, nor may bytes that are lent for reading.
use crate::random::Random;
use crate::state;
use potekawhi::raw;
use reference::controller::{self, Outcome, State};
use reference::wire;
use std::fmt::Debug;

/// What differs first in a case.
pub type Same<T> = Result<T, String>;

/// Counts the comparisons.
#[derive(Default)]
pub struct Tally {
    pub comparisons: u64,
}

impl Tally {
    pub fn same<T: PartialEq + Debug>(&mut self, what: &str, library: T, reference: T) -> Same<()> {
        self.comparisons += 1;
        if library == reference {
            Ok(())
        } else {
            Err(format!(
                "{what}: library {library:?}, reference {reference:?}"
            ))
        }
    }

    pub fn same_bytes(&mut self, what: &str, library: &[u8], reference: &[u8]) -> Same<()> {
        self.comparisons += 1;
        if library == reference {
            return Ok(());
        }
        let differs = |&i: &usize| library.get(i) != reference.get(i);
        let at = (0..).find(differs).expect("a difference");
        Err(format!(
            "{what}, {} and {} bytes, byte {at}: library {:02x?}, reference {:02x?}",
            library.len(),
            reference.len(),
            library.get(at),
            reference.get(at)
        ))
    }

    /// The bytes lent to the library against those of the reference, and the margins.
    pub fn same_lent(&mut self, what: &str, lent: &Lent, reference: &[u8]) -> Same<()> {
        self.same_bytes(what, lent.bytes(), reference)?;
        if lent.margins_hold() {
            Ok(())
        } else {
            Err(format!("{what}: written past its ends"))
        }
    }

    /// A property of the results, which are the same on both sides.
    pub fn holds(&mut self, what: &str, holds: bool) -> Same<()> {
        self.comparisons += 1;
        if holds {
            Ok(())
        } else {
            Err(format!("does not hold: {what}"))
        }
    }
}

/// Bytes to lend to the library, between margins.
pub struct Lent {
    all: Vec<u8>,
    from: usize,
    to: usize,
}

const MARGIN: u8 = 0xc3;

impl Lent {
    /// The front margin's length varies, so that the bytes are lent at all alignments.
    pub fn new(random: &mut Random, bytes: &[u8]) -> Lent {
        let from = random.within(8, 15);
        let to = from + bytes.len();
        let mut all = vec![MARGIN; to + 8];
        all[from..to].copy_from_slice(bytes);
        Lent { all, from, to }
    }

    pub fn bytes(&self) -> &[u8] {
        &self.all[self.from..self.to]
    }

    pub fn bytes_mut(&mut self) -> &mut [u8] {
        &mut self.all[self.from..self.to]
    }

    fn margins_hold(&self) -> bool {
        let (front, back) = (&self.all[..self.from], &self.all[self.to..]);
        front.iter().chain(back).all(|&byte| byte == MARGIN)
    }
}

/// What a step left, the same on both sides: `bytes` is the library's state and `state` the reference's.
pub struct After {
    pub number: u8,
    pub state: State,
    pub bytes: Vec<u8>,
    pub block: Vec<u8>,
    pub outbox: Vec<u8>,
}

/// The settings, the own number and the run number of a start.
#[derive(Debug, Clone, Copy)]
pub struct Start {
    pub n: usize,
    pub t: usize,
    pub k: usize,
    pub own: usize,
    pub sender: usize,
    pub run: u16,
}

/// A start on both sides, with a state of `length` random bytes lent to the library; refused, they stay.
pub fn start(
    tally: &mut Tally,
    random: &mut Random,
    start: Start,
    block: &[u8],
    length: usize,
) -> Same<(u8, State, Vec<u8>)> {
    let Start {
        n,
        t,
        k,
        own,
        sender,
        run,
    } = start;
    let dirty = random.bytes(length);
    let mut lent_state = Lent::new(random, &dirty);
    let lent_block = Lent::new(random, block);
    let bytes = lent_block.bytes();
    let number = raw::start(n, t, k, own, sender, run, bytes, lent_state.bytes_mut());
    let (expected, after, expected_bytes) = if length == state::LENGTH {
        match controller::start(n, t, k, own, sender, run, block) {
            (0, after) => (0, after, state::to_bytes(&after)),
            (refused, _) => (refused, state::from_bytes(&dirty), dirty),
        }
    } else {
        (6, State::default(), dirty)
    };
    tally.same("start's number", number, expected)?;
    tally.same_lent("start's state", &lent_state, &expected_bytes)?;
    tally.same_lent("start's block", &lent_block, block)?;
    let bytes = lent_state.bytes().to_vec();
    queries(tally, random, &after, &bytes, block)?;
    Ok((number, after, bytes))
}

/// A step on both sides, with an outbox of random bytes: `state` for the reference, `bytes` for the library. Where `bytes` has another
/// length than a state, the reference is not asked.
pub fn step(
    tally: &mut Tally,
    random: &mut Random,
    state: &State,
    bytes: &[u8],
    block: &[u8],
    inbox: &[u8],
    outbox_length: usize,
) -> Same<After> {
    let dirty = random.bytes(outbox_length);
    let mut lent_state = Lent::new(random, bytes);
    let mut lent_block = Lent::new(random, block);
    let lent_inbox = Lent::new(random, inbox);
    let mut lent_outbox = Lent::new(random, &dirty);
    let number = raw::step(
        lent_state.bytes_mut(),
        lent_block.bytes_mut(),
        lent_inbox.bytes(),
        lent_outbox.bytes_mut(),
    );

    let mut block = block.to_vec();
    let mut outbox = dirty;
    let right = bytes.len() == state::LENGTH;
    let (expected, after) = if right {
        controller::step(*state, &mut block, inbox, &mut outbox)
    } else {
        (6, *state)
    };
    tally.same("step's number", number, expected)?;
    if number == 0 {
        tally.same_lent("step's state", &lent_state, &state::to_bytes(&after))?;
    } else {
        tally.same_lent("refused step's state", &lent_state, bytes)?;
    }
    if number != 0 && right {
        let left = state::from_bytes(lent_state.bytes());
        tally.same("refused step's state as a value", left, after)?;
    }
    tally.same_lent("step's block", &lent_block, &block)?;
    tally.same_lent("step's inbox", &lent_inbox, inbox)?;
    tally.same_lent("step's outbox", &lent_outbox, &outbox)?;
    let bytes = lent_state.bytes().to_vec();
    queries(tally, random, &after, &bytes, &block)?;
    Ok(After {
        number,
        state: after,
        bytes,
        block,
        outbox,
    })
}

/// The functions that only read a state: next_call, outcome, named, final_block; with the given bytes and now and then with wrong lengths.
pub fn queries(
    tally: &mut Tally,
    random: &mut Random,
    state: &State,
    bytes: &[u8],
    block: &[u8],
) -> Same<()> {
    ask(tally, random, state, bytes, block, block.len())?;
    if random.one_in(16) {
        let length = random.pick(&[0, 1, 116, 117, 118, 120, 238]);
        let mut other = bytes.to_vec();
        other.resize(length, 0xff);
        ask(tally, random, state, &other, block, block.len())?;
    }
    if random.one_in(16) {
        let length = wrong_length(random, block.len());
        ask(tally, random, state, bytes, block, length)?;
        let other = random.bytes(length);
        ask(tally, random, state, bytes, &other, block.len())?;
        ask(tally, random, state, bytes, &other, length)?;
    }
    Ok(())
}

fn ask(
    tally: &mut Tally,
    random: &mut Random,
    state: &State,
    bytes: &[u8],
    block: &[u8],
    final_length: usize,
) -> Same<()> {
    let right = bytes.len() == state::LENGTH;
    let lent_state = Lent::new(random, bytes);
    let next = if right { state.next } else { 0 };
    let outcome = if right {
        state::outcome_number(state.outcome)
    } else {
        6
    };
    tally.same("next_call", raw::next_call(lent_state.bytes()), next)?;
    tally.same("outcome", raw::outcome(lent_state.bytes()), outcome)?;
    let named = if right { state.named } else { 0 };
    tally.same("named", raw::named(lent_state.bytes()), named)?;

    let dirty = random.bytes(final_length);
    let lent_block = Lent::new(random, block);
    let mut lent_final = Lent::new(random, &dirty);
    let number = raw::final_block(
        lent_state.bytes(),
        lent_block.bytes(),
        lent_final.bytes_mut(),
    );
    let stated = wire::block_length(state.n as u128, state.t as u128, state.k as u128) as usize;
    let right = right && [block.len(), final_length] == [stated, stated];
    let expected = if right { outcome } else { 6 };
    let copied = right && state.outcome != Outcome::Open;
    tally.same("final_block's number", number, expected)?;
    let expected = if copied { block } else { &dirty };
    tally.same_lent("final_block's final block", &lent_final, expected)?;
    tally.same_lent("final_block's block", &lent_block, block)?;
    tally.same_lent("final_block's state", &lent_state, bytes)
}

/// Another length than the given one.
pub fn wrong_length(random: &mut Random, length: usize) -> usize {
    loop {
        let other = match random.below(5) {
            0 => 0,
            1 => length.saturating_sub(1),
            2 => length + 1,
            3 => length / 2,
            _ => random.below(2 * length + 4),
        };
        if other != length {
            return other;
        }
    }
}
