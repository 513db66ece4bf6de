//! encode and decode, with the marks that it writes: right and wrong settings and lengths, any run number, any numbers of absent slots, some of them
//! by their run number, and of false pieces, which are false in all stripes or in some, random slots.
use crate::compare::{wrong_length, Lent, Same, Tally};
use crate::inputs::{self, of_another_run, EDGES, STRIPES};
use crate::random::Random;
use potekawhi::raw;
use reference::code::{self, Decoded};
use reference::controller::State;
use reference::wire::{in_slot, slot_with, FRONT};

/// Numbers of stripes: the least, the most, and some at and beside powers of 2.
const LENGTHS: [usize; 11] = [1, 2, 3, 15, 16, 17, 31, 32, 33, 127, 128];
/// In so many cases `encode_piece` has each t with each of these lengths and each number of a piece, and `decode_partly` each t with each of
/// them and each choice of stripes, as no two of the factors have a common divisor.
pub const EVERY_PIECE: u64 = 5 * 11 * 16;
pub const EVERY_CHOICE: u64 = 5 * 11 * 7;

#[derive(Default)]
pub struct Counts {
    pub pieces: u64,
    pub encode_refused: u64,
    pub blocks: u64,
    /// Blocks although in some stripe more than t values are false, and although more than t slots are absent.
    pub many_false: u64,
    pub many_absent: u64,
    /// Blocks with marks; with more than t; and with the mark of a present slot whose first byte is true.
    pub marked: u64,
    pub many_marked: u64,
    pub marked_later: u64,
    /// Blocks with a present piece that is false in some stripes and true in others; and with more such pieces than are corrected in a stripe.
    pub partly: u64,
    pub many_partly: u64,
    /// Blocks with the mark of a slot of another run; and of one that has the true piece.
    pub other_run: u64,
    pub other_run_true: u64,
    pub beyonds: u64,
    /// Beyond with at most t slots present; and of these with more than t whose first byte is 01.
    pub few_present: u64,
    pub few_of_run: u64,
    pub decode_refused: u64,
}

pub fn encode(tally: &mut Tally, random: &mut Random, counts: &mut Counts) -> Same<()> {
    let (n, t, k) = inputs::settings(random);
    let number = match random.below(10) {
        0 => random.pick(&EDGES),
        1 => n.wrapping_add(1),
        _ => random.within(1, n.clamp(1, 16)),
    };
    let mut lengths = [k.min(130) * (t.min(6) + 1), k.min(130)];
    if random.one_in(8) {
        let which = random.below(2);
        lengths[which] = wrong_length(random, lengths[which]);
    }
    compare_encoding(tally, random, counts, (n, t, k, number), lengths)
}

/// Right settings and lengths; t, k and the number of the piece follow from that of the case.
pub fn encode_piece(
    tally: &mut Tally,
    random: &mut Random,
    case: u64,
    counts: &mut Counts,
) -> Same<()> {
    let case = case as usize;
    let (t, k, number) = (1 + case % 5, LENGTHS[case % 11], 1 + case % 16);
    let n = random.within(number.max(3 * t + 1), 16);
    let lengths = [k * (t + 1), k];
    compare_encoding(tally, random, counts, (n, t, k, number), lengths)
}

/// What library and reference answer to a block, with block and piece of these lengths.
fn compare_encoding(
    tally: &mut Tally,
    random: &mut Random,
    counts: &mut Counts,
    (n, t, k, number): (usize, usize, usize, usize),
    lengths: [usize; 2],
) -> Same<()> {
    let block = random.bytes(lengths[0]);
    let mut piece = random.bytes(lengths[1]);
    let lent_block = Lent::new(random, &block);
    let mut lent_piece = Lent::new(random, &piece);
    let answer = raw::encode(n, t, k, number, lent_block.bytes(), lent_piece.bytes_mut());
    let (n, t, k, number) = (n as u64, t as u64, k as u64, number as u64);
    let expected = code::encode(n, t, k, number, &block, &mut piece);
    let mut compare = || {
        tally.same("encode's number", answer, expected)?;
        tally.same_lent("encode's piece", &lent_piece, &piece)?;
        tally.same_lent("encode's block", &lent_block, &block)
    };
    compare().map_err(|text| format!("n {n}, t {t}, k {k}, number {number}: {text}"))?;
    match answer {
        0 => counts.pieces += 1,
        _ => counts.encode_refused += 1,
    }
    Ok(())
}

pub fn decode(tally: &mut Tally, random: &mut Random, counts: &mut Counts) -> Same<()> {
    let (n, t, k) = random.settings();
    let coded = State {
        n,
        t,
        k,
        run: random.run(),
        ..State::default()
    };
    let message = inputs::some_block(random, k * (t + 1));
    let mut slots = match random.below(16) {
        0 => {
            let pieces: Vec<_> = (0..n).map(|_| random.bytes(k)).collect();
            some_absent(random, coded.run, &pieces)
        }
        1 if !inputs::costly(n, t, k) => {
            let pieces = mixed(random, &coded, &message);
            some_absent(random, coded.run, &pieces)
        }
        _ => inputs::received(random, &coded, &message),
    };
    let mut block = random.bytes(k * (t + 1));
    let (mut n, mut t, mut k) = (n, t, k);
    if random.one_in(12) {
        let edge = random.pick(&EDGES);
        match random.below(3) {
            0 => n = edge,
            1 => t = edge,
            _ => k = edge,
        }
    }
    if random.one_in(12) {
        if random.one_in(2) {
            slots.resize(wrong_length(random, slots.len()), 1);
        } else {
            block.resize(wrong_length(random, block.len()), 1);
        }
    }
    // now and then the slots of the run are those of another
    let mut run = coded.run;
    if random.one_in(24) {
        run = random.other_run(run);
    }
    let given = State {
        n,
        t,
        k,
        run,
        ..State::default()
    };
    compare_decoding(tally, random, counts, &given, &slots, &mut block)
}

/// n, t, the number of present slots, and how many of these are false in every stripe: all that there are.
pub fn every_count() -> Vec<(usize, usize, usize, usize)> {
    let settings = (4..=16).flat_map(|n| (1..=(n - 1) / 3).map(move |t| (n, t)));
    settings
        .flat_map(|(n, t)| (0..=n).map(move |present| (n, t, present)))
        .flat_map(|(n, t, present)| (0..=present).map(move |wrong| (n, t, present, wrong)))
        .collect()
}

/// One of these, with one to three stripes.
pub fn decode_count(
    tally: &mut Tally,
    random: &mut Random,
    (n, t, present, wrong): (usize, usize, usize, usize),
    counts: &mut Counts,
) -> Same<()> {
    let k = random.within(1, 3);
    let coded = State {
        n,
        t,
        k,
        run: random.run(),
        ..State::default()
    };
    let message = inputs::some_block(random, k * (t + 1));
    let slots = inputs::received_with(random, &coded, &message, present, wrong);
    let mut block = random.bytes(k * (t + 1));
    compare_decoding(tally, random, counts, &coded, &slots, &mut block)
}

/// Pieces that are false in some stripes only. The library guesses all stripes from t + 1 slots that it has not seen to be false, decodes by
/// itself a stripe for which the guess is wrong, and guesses those behind it again: here the slots that it guesses from are false in some
/// stripes, once or again and again, and not in the last, which it decodes first, or only there. t, k and the choice of stripes mostly follow
/// from the number of the case.
pub fn decode_partly(
    tally: &mut Tally,
    random: &mut Random,
    case: u64,
    counts: &mut Counts,
) -> Same<()> {
    let case = case as usize;
    let (t, stripes) = (1 + case % 5, STRIPES[case % 7]);
    let k = if random.one_in(8) {
        random.within(1, 128)
    } else {
        LENGTHS[case % 11]
    };
    let n = if random.one_in(2) {
        16
    } else {
        random.within(3 * t + 1, 16)
    };
    let coded = State {
        n,
        t,
        k,
        run: random.run(),
        ..State::default()
    };
    let message = inputs::some_block(random, k * (t + 1));
    let slots = inputs::received_partly(random, &coded, &message, stripes);
    let mut block = random.bytes(k * (t + 1));
    compare_decoding(tally, random, counts, &coded, &slots, &mut block)
}

/// What library and reference answer to the same slots, in the run and with n, t and k of `given`.
fn compare_decoding(
    tally: &mut Tally,
    random: &mut Random,
    counts: &mut Counts,
    given: &State,
    slots: &[u8],
    block: &mut [u8],
) -> Same<()> {
    let State { n, t, k, run, .. } = *given;
    let lent_slots = Lent::new(random, slots);
    let mut lent_block = Lent::new(random, block);
    // the marks lie between margins too
    let before = random.word();
    let mut marks = [before; 3];
    let answer = raw::decode(
        n,
        t,
        k,
        run,
        lent_slots.bytes(),
        lent_block.bytes_mut(),
        &mut marks[1],
    );
    let (expected, named) = match code::decode(n as u64, t as u64, k as u64, run, slots, block) {
        Decoded::Block(named) => (0, named),
        Decoded::Beyond => (255, 0),
        Decoded::Refused(number) => (number, before),
    };
    let mut compare = || {
        tally.same("decode's number", answer, expected)?;
        tally.same("decode's marks", marks, [before, named, before])?;
        tally.same_lent("decode's block", &lent_block, block)?;
        tally.same_lent("decode's slots", &lent_slots, slots)
    };
    let place = |text| format!("n {n}, t {t}, k {k}, run {run}: {text}");
    compare().map_err(place)?;
    let count = |test: fn(&[u8], u16) -> bool| {
        let slots = slots.chunks(FRONT + k);
        slots.filter(|slot| test(slot, run)).count()
    };
    let present = || count(|slot, run| in_slot(slot, run).is_some());
    match answer {
        0 => {
            let (present, differing) = (present(), most_differing(given, slots, block));
            let right = 2 * differing + t + 1 <= present;
            tally
                .holds("2 * differing + t + 1 <= present", right)
                .map_err(place)?;
            let Unlike {
                all,
                later,
                partly,
                other_run,
                other_run_true,
            } = unlike_slots(given, slots, block);
            tally
                .holds("marks of the slots unlike the block's", named == all)
                .map_err(place)?;
            counts.blocks += 1;
            counts.many_false += u64::from(differing > t);
            counts.many_absent += u64::from(n - present > t);
            counts.marked += u64::from(named != 0);
            counts.many_marked += u64::from(named.count_ones() as usize > t);
            counts.marked_later += u64::from(later != 0);
            counts.partly += u64::from(partly != 0);
            let many = 2 * partly.count_ones() as usize + t + 1 > present;
            counts.many_partly += u64::from(partly != 0 && many);
            counts.other_run += u64::from(other_run != 0);
            counts.other_run_true += u64::from(other_run_true != 0);
        }
        255 => {
            let few = present() <= t;
            counts.beyonds += 1;
            counts.few_present += u64::from(few);
            counts.few_of_run += u64::from(few && count(|slot, _| slot[0] == 1) > t);
        }
        _ => counts.decode_refused += 1,
    }
    Ok(())
}

/// The most present values of a stripe that differ from the code of a block.
fn most_differing(state: &State, slots: &[u8], block: &[u8]) -> usize {
    let mut differing = vec![0; state.k];
    for (number, slot) in (1..).zip(slots.chunks(FRONT + state.k)) {
        let piece = inputs::piece(state, number, block);
        let received = in_slot(slot, state.run).unwrap_or(&piece);
        for s in (0..state.k).filter(|&s| received[s] != piece[s]) {
            differing[s] += 1;
        }
    }
    differing.into_iter().fold(0, usize::max)
}

/// The marks of the slots that are unlike those of a block's pieces: of all; of those present whose first piece byte is alike; of those present that are
/// unlike in some stripes only; of those of another run; and of these, of those with the piece.
#[derive(Default)]
struct Unlike {
    all: u16,
    later: u16,
    partly: u16,
    other_run: u16,
    other_run_true: u16,
}

fn unlike_slots(state: &State, slots: &[u8], block: &[u8]) -> Unlike {
    let mut unlike = Unlike::default();
    for (i, slot) in slots.chunks(FRONT + state.k).enumerate() {
        let right = slot_with(state.run, &inputs::piece(state, i + 1, block));
        if slot == right {
            continue;
        }
        let mark = 1 << i;
        let alike = |s: usize| slot[FRONT + s] == right[FRONT + s];
        unlike.all |= mark;
        if in_slot(slot, state.run).is_some() {
            unlike.later |= if alike(0) { mark } else { 0 };
            unlike.partly |= if (0..state.k).any(alike) { mark } else { 0 };
        }
        if of_another_run(slot, state.run) {
            unlike.other_run |= mark;
            unlike.other_run_true |= if (0..state.k).all(alike) { mark } else { 0 };
        }
    }
    unlike
}

/// The slots of pieces in a run, all present or some absent.
fn some_absent(random: &mut Random, run: u16, pieces: &[Vec<u8>]) -> Vec<u8> {
    let absent = random.pick(&[0, 0, 0, 1, 2, 8]);
    let slot = |piece: &Vec<u8>| inputs::slot(random, run, piece, absent);
    pieces.iter().flat_map(slot).collect()
}

/// Some pieces of one block and the others of a block that shares pieces with it.
fn mixed(random: &mut Random, state: &State, block: &[u8]) -> Vec<Vec<u8>> {
    let n = state.n;
    let other = inputs::sharing_block(random, n, state.t, block);
    let size = random.within(0, n);
    let first = random.subset(n, size);
    (0..n)
        .map(|i| {
            let of = if first >> i & 1 == 1 { block } else { &other };
            inputs::piece(state, i + 1, of)
        })
        .collect()
}
