//! Inputs that are likely to matter: blocks whose codings share pieces, graphs near the edge of having a core, and inboxes for each call.
//! They are made with the reference's coding; only what the library and the reference answer to them is compared.
use crate::random::Random;
use reference::code;
use reference::controller::State;
use reference::wire;

/// Numbers at and past the edges of the settings; 3t + 1 of the three before the last wraps around to a small number.
pub const EDGES: [usize; 26] = [
    0,
    1,
    2,
    3,
    4,
    5,
    6,
    7,
    10,
    13,
    15,
    16,
    17,
    127,
    128,
    129,
    255,
    256,
    1 << 16,
    1 << 32,
    (1 << 32) + 4,
    1 << 63,
    0x5555_5555_5555_5555,
    0x5555_5555_5555_5556,
    0xaaaa_aaaa_aaaa_aaab,
    usize::MAX,
];

/// Right settings n, t and k, or in one case of 8 one of them from the edges.
pub fn settings(random: &mut Random) -> (usize, usize, usize) {
    let (mut n, mut t, mut k) = random.settings();
    if random.one_in(8) {
        let edge = random.pick(&EDGES);
        match random.below(3) {
            0 => n = edge,
            1 => t = edge,
            _ => k = edge,
        }
    }
    (n, t, k)
}

/// Whether the reference, which tries sets of t + 1 present pieces, needs long for a block if pieces of low numbers are false.
pub fn costly(n: usize, t: usize, k: usize) -> bool {
    choose(n, t + 1) * k > 10_000
}

/// Piece `number` of the coding of a block.
pub fn piece(state: &State, number: usize, block: &[u8]) -> Vec<u8> {
    let (n, t, k) = (state.n as u64, state.t as u64, state.k as u64);
    let mut piece = vec![0; state.k];
    let refused = code::encode(n, t, k, number as u64, block, &mut piece);
    assert_eq!(refused, 0);
    piece
}

/// A block whose coding shares the pieces of up to t controllers with that of the given one: in each stripe a multiple of the polynomial
/// that is 0 at these numbers is added.
pub fn sharing_block(random: &mut Random, n: usize, t: usize, block: &[u8]) -> Vec<u8> {
    let shared = random.within(0, t);
    let mut difference = vec![1];
    for i in &random.order(n)[..shared] {
        difference = code::product(&difference, &[*i as u8 + 1, 1]);
    }
    let mut other = block.to_vec();
    for stripe in other.chunks_mut(t + 1) {
        let factor = random.byte();
        for (byte, d) in stripe.iter_mut().zip(&difference) {
            *byte ^= code::mul(factor, *d);
        }
    }
    other
}

/// Rows of marks of a random graph, with random bits and rows past n.
pub fn graph(random: &mut Random, n: usize, t: usize) -> [u16; 16] {
    let mut rows = match random.below(9) {
        0 => [0; 16].map(|_: u16| random.word()),
        1 => {
            let density = random.within(8, 16);
            [0; 16].map(|_: u16| random.sparse(density))
        }
        2 => clique(random, n, t),
        3 => without(n, &disjoint_pairs(random, n)),
        4 => without(n, &cycles(random, n)),
        5 => without(n, &attached_pairs(random, n, t)),
        6 => {
            // few missing pairs
            let missing = random.within(0, 3 * t);
            let pairs: Vec<_> = (0..missing).map(|_| pair(random, n)).collect();
            without(n, &pairs)
        }
        7 => {
            // a few controllers miss many neighbours
            let mut pairs = Vec::new();
            for &i in &random.order(n)[..random.within(1, t + 1)] {
                let others = random.sparse(12);
                pairs.extend((0..n).filter(|&j| others >> j & 1 == 1).map(|j| (i, j)));
            }
            without(n, &pairs)
        }
        _ => {
            // every pair with one chance
            let density = random.within(4, 15);
            let mut pairs = Vec::new();
            for i in 0..n {
                pairs.extend(
                    (0..i)
                        .filter(|_| random.below(16) >= density)
                        .map(|j| (i, j)),
                );
            }
            without(n, &pairs)
        }
    };
    // marks on one side only, and on none
    for _ in 0..random.pick(&[0, 0, 0, 1, 3, 8]) {
        let (i, j) = pair(random, n);
        rows[i] ^= 1 << j;
    }
    past(random, n, &mut rows);
    rows
}

/// Random bits and rows past n, and random own marks.
fn past(random: &mut Random, n: usize, rows: &mut [u16; 16]) {
    let noise = random.pick(&[0, 0xffff, lowest(n)]);
    for (i, row) in rows.iter_mut().enumerate() {
        let read = if i < n { lowest(n) & !(1 << i) } else { 0 };
        *row = *row & read | random.word() & noise & !read;
    }
}

/// The lowest n bits.
fn lowest(n: usize) -> u16 {
    ((1u32 << n) - 1) as u16
}

fn pair(random: &mut Random, n: usize) -> (usize, usize) {
    let order = random.order(n);
    (order[0], order[1])
}

/// All are neighbours but the given pairs.
fn without(n: usize, pairs: &[(usize, usize)]) -> [u16; 16] {
    let mut rows = [lowest(n); 16];
    for &(i, j) in pairs {
        rows[i] &= !(1 << j);
        rows[j] &= !(1 << i);
    }
    rows
}

/// A clique of about n - t, with few other pairs.
fn clique(random: &mut Random, n: usize, t: usize) -> [u16; 16] {
    let size = (n - t + random.below(4)).saturating_sub(2).min(n);
    let members = random.subset(n, size);
    let density = random.within(0, 12);
    let mut rows = [0u16; 16];
    for i in 0..n {
        for j in 0..i {
            let both = members >> i & members >> j & 1 == 1;
            if both || random.below(16) < density {
                rows[i] |= 1 << j;
                rows[j] |= 1 << i;
            }
        }
    }
    rows
}

fn disjoint_pairs(random: &mut Random, n: usize) -> Vec<(usize, usize)> {
    let order = random.order(n);
    let pairs = random.within(0, n / 2);
    (0..pairs)
        .map(|i| (order[2 * i], order[2 * i + 1]))
        .collect()
}

/// About t disjoint pairs, one end of most of which is attached to one of the others, with some more pairs among the first ends, among the
/// second ends and between both: so that F and E have about 2t + 1 members.
fn attached_pairs(random: &mut Random, n: usize, t: usize) -> Vec<(usize, usize)> {
    let order = random.order(n);
    let count = random.within(t - 1, t);
    let (ends, rest) = order.split_at(2 * count);
    let (first, second) = ends.split_at(count);
    let mut pairs: Vec<_> = first.iter().copied().zip(second.iter().copied()).collect();
    for &i in second {
        match random.below(8) {
            0 => {}
            1 => pairs.push((i, random.pick(rest))),
            _ => pairs.push((i, rest[0])),
        }
    }
    for (some, others) in [(first, first), (second, second), (first, second)] {
        let density = random.pick(&[0, 0, 1, 4, 12]);
        for &i in some {
            for &j in others {
                if i != j && random.below(16) < density {
                    pairs.push((i, j));
                }
            }
        }
    }
    pairs
}

/// Disjoint cycles, mostly odd ones, and paths.
fn cycles(random: &mut Random, n: usize) -> Vec<(usize, usize)> {
    let order = random.order(n);
    let mut pairs = Vec::new();
    let mut from = 0;
    while from + 2 < n && !random.one_in(4) {
        let longest = n - from;
        let length = random.pick(&[3, 3, 5, 5, 7, 9, 4]).min(longest);
        let cycle = &order[from..from + length];
        pairs.extend(cycle.windows(2).map(|pair| (pair[0], pair[1])));
        if !random.one_in(4) {
            pairs.push((cycle[0], cycle[length - 1]));
        }
        from += length;
    }
    pairs
}

/// A slot in a run: mostly present with the message; now and then absent, with zeros, or with the message behind another first byte or the number of
/// another run.
pub fn slot(random: &mut Random, run: u16, message: &[u8], absent_in_16: usize) -> Vec<u8> {
    let mut slot = wire::slot_with(run, message);
    if random.below(16) < absent_in_16 {
        match random.below(5) {
            0 => slot.fill(0),
            1 => slot[0] = 0,
            2 => slot[0] = other_presence(random),
            _ => slot = wire::slot_with(random.other_run(run), message),
        }
    }
    slot
}

/// Whether a slot has first byte 01 and the number of another run.
pub fn of_another_run(slot: &[u8], run: u16) -> bool {
    slot[0] == 1 && wire::in_slot(slot, run).is_none()
}

/// A first byte that means absent.
pub fn other_presence(random: &mut Random) -> u8 {
    let any = random.byte();
    match random.pick(&[0, 2, 3, 0x81, 0xff, any]) {
        1 => 0x10,
        byte => byte,
    }
}

/// The inbox of the next call of a state with right settings: messages of the round's length, such that the call's tests come out both
/// ways.
pub fn inbox(random: &mut Random, state: &State, block: &[u8]) -> Vec<u8> {
    let State { n, t, .. } = *state;
    let round = state.next - 1;
    let length = state.message_length(round);
    if length == 0 {
        return Vec::new();
    }
    let row = wire::round_row(t as u128, round as u128);
    if row == 8 {
        let block = some_block(random, block.len());
        return received(random, state, &block);
    }
    let mut messages: Vec<Vec<u8>> = match row {
        2 => (1..=n).map(|j| pieces(random, state, block, j)).collect(),
        4 | 5 => thresholds(random, n, t, length),
        7 => {
            let mut pool = vec![random.bytes(length)];
            for _ in 0..random.within(0, 2) {
                // another piece, or one that differs in one byte
                let mut piece = pool[0].clone();
                if random.one_in(2) {
                    piece = random.bytes(length);
                }
                piece[random.below(length)] ^= random.byte();
                pool.push(piece);
            }
            (0..n)
                .map(|_| pool[random.below(pool.len())].clone())
                .collect()
        }
        _ => (0..n).map(|_| random.bytes(length)).collect(),
    };
    // a few messages with one bit changed
    if random.one_in(4) {
        let message = &mut messages[random.below(n)];
        message[random.below(length)] ^= 1 << random.below(8);
    }
    // more are absent where a piece is taken that t + 1 members sent
    let absent = match row {
        7 => random.pick(&[0, 4, 8]),
        _ => random.pick(&[0, 0, 1, 4]),
    };
    let mut inbox = Vec::new();
    for message in &messages {
        inbox.extend(slot(random, state.run, message, absent));
    }
    inbox
}

/// What j sends in round 2 where it has the same block, or one or both pieces of another.
fn pieces(random: &mut Random, state: &State, block: &[u8], j: usize) -> Vec<u8> {
    let other = sharing_block(random, state.n, state.t, block);
    let choice = random.below(8);
    let first = if choice & 3 == 1 { &other } else { block };
    let second = if choice & 3 == 2 { &other } else { block };
    let first = piece(state, j, first);
    let second = piece(state, state.own, second);
    if choice == 3 {
        [second, first].concat()
    } else {
        [first, second].concat()
    }
}

/// Messages in each bit of which the number of ones is mostly at or beside one of the vote's thresholds.
pub fn thresholds(random: &mut Random, n: usize, t: usize, length: usize) -> Vec<Vec<u8>> {
    let mut messages = vec![vec![0; length]; n];
    let counts = [0, t - 1, t, t + 1, t + 2, n - t - 1, n - t, n - t + 1, n];
    for bit in 0..8 * length {
        let count = random.pick(&counts);
        for i in &random.order(n)[..count.min(n)] {
            messages[*i][bit / 8] |= 1 << (bit % 8);
        }
    }
    messages
}

/// A random block, now and then of zeros, whose pieces differ from an absent slot of zeros in the first byte only.
pub fn some_block(random: &mut Random, length: usize) -> Vec<u8> {
    if random.one_in(8) {
        vec![0; length]
    } else {
        random.bytes(length)
    }
}

/// The slots of the pieces of a block, any number of them present, and any number of these false, or up to as many as decoding corrects, or one
/// more.
pub fn received(random: &mut Random, state: &State, block: &[u8]) -> Vec<u8> {
    let State { n, t, .. } = *state;
    let count = if random.one_in(4) {
        n
    } else {
        random.within(0, n)
    };
    let corrected = corrected(count, t);
    let errors = match random.below(4) {
        0 => random.within(0, count),
        1 => random.within(0, corrected),
        2 => corrected,
        _ => (corrected + 1).min(count),
    };
    received_with(random, state, block, count, errors)
}

/// How many false ones of so many present pieces are corrected.
fn corrected(present: usize, t: usize) -> usize {
    present.saturating_sub(t + 1) / 2
}

/// The slots of the pieces of a block, `count` of them present. In each stripe `errors` of these are false, mostly those of the same
/// controllers; now and then fewer in all stripes but one.
pub fn received_with(
    random: &mut Random,
    state: &State,
    block: &[u8],
    count: usize,
    errors: usize,
) -> Vec<u8> {
    let State { n, t, k, .. } = *state;
    let mut present = random.order(n)[..count].to_vec();
    present.sort_unstable();
    // indices of `present`; the false ones come first
    let order = |random: &mut Random| {
        let mut order = random.order(count);
        if costly(n, t, k) {
            order.sort_by_key(|&i| i <= t);
        }
        order
    };
    let alike = order(random);
    let apart = random.one_in(4);
    let only = random.one_in(4).then(|| random.below(k));
    let mut pieces: Vec<Vec<u8>> = (1..=n).map(|j| piece(state, j, block)).collect();
    for s in 0..k {
        let errors = match only {
            Some(other) if other != s => random.within(0, corrected(count, t).min(errors)),
            _ => errors,
        };
        let order = if apart { order(random) } else { alike.clone() };
        for &i in &order[..errors] {
            pieces[present[i]][s] ^= random.within(1, 255) as u8;
        }
    }
    slots_of(random, state.run, &pieces, &present)
}

/// The slots of pieces in a run, those at the indices `present` present. In another stands its piece too, or anything.
fn slots_of(random: &mut Random, run: u16, pieces: &[Vec<u8>], present: &[usize]) -> Vec<u8> {
    let mut slots = Vec::new();
    for (i, piece) in pieces.iter().enumerate() {
        if present.contains(&i) {
            slots.extend(slot(random, run, piece, 0));
            continue;
        }
        let any = random.bytes(piece.len());
        let behind = if random.one_in(2) { piece } else { &any };
        slots.extend(slot(random, run, behind, 16));
    }
    slots
}

/// In which stripes false pieces are false: all from a stripe on, up to a stripe, or in one; each from its own on, or in its own; or each in each
/// stripe with one chance in so many.
#[derive(Clone, Copy)]
pub enum Stripes {
    From,
    UpTo,
    One,
    EachFrom,
    EachOne,
    Chance(usize),
}

pub const STRIPES: [Stripes; 7] = [
    Stripes::From,
    Stripes::UpTo,
    Stripes::One,
    Stripes::EachFrom,
    Stripes::EachOne,
    Stripes::Chance(2),
    Stripes::Chance(32),
];

/// The slots of the pieces of a block, more than t of them present, of which up to as many as decoding corrects, or one more, or any number
/// are false, in some stripes only. The false bytes are any, or those of another block's pieces. The false pieces are drawn again where the
/// reference would try too many sets.
pub fn received_partly(
    random: &mut Random,
    state: &State,
    block: &[u8],
    stripes: Stripes,
) -> Vec<u8> {
    let State { n, t, k, .. } = *state;
    let count = if random.one_in(2) {
        n
    } else {
        random.within(t + 1, n)
    };
    let mut present = random.order(n)[..count].to_vec();
    present.sort_unstable();
    let corrected = corrected(count, t);
    let errors = match random.below(4) {
        0 => random.within(0, corrected),
        1 => corrected,
        2 => corrected + 1,
        _ => random.within(0, count),
    };
    let mut most = 2 * choose(count, t + 1).max(k);
    let wrong = loop {
        let wrong = wrong_stripes(random, (count, errors.min(count), k), stripes);
        // the false ones may be those of another block, which is found then
        let sets = |&marks: &u16| sets_before(count, t, marks).min(sets_before(count, t, !marks));
        if wrong.iter().map(sets).sum::<usize>() <= most {
            break wrong;
        }
        most += most / 4;
    };

    let other = random.one_in(2).then(|| sharing_block(random, n, t, block));
    let mut pieces: Vec<Vec<u8>> = (1..=n).map(|j| piece(state, j, block)).collect();
    for (i, &j) in present.iter().enumerate() {
        let others = other.as_ref().map(|other| piece(state, j + 1, other));
        for s in (0..k).filter(|&s| wrong[s] >> i & 1 == 1) {
            pieces[j][s] = match &others {
                Some(others) => others[s],
                None => pieces[j][s] ^ random.within(1, 255) as u8,
            };
        }
    }
    slots_of(random, state.run, &pieces, &present)
}

/// For each of k stripes the marks of the false ones of `count` pieces, `errors` of which are false in some stripes.
fn wrong_stripes(
    random: &mut Random,
    (count, errors, k): (usize, usize, usize),
    stripes: Stripes,
) -> Vec<u16> {
    let mut wrong = vec![0; k];
    let common = random.below(k);
    for i in &random.order(count)[..errors] {
        let own = random.below(k);
        for s in 0..k {
            let is_wrong = match stripes {
                Stripes::From => s >= common,
                Stripes::UpTo => s <= common,
                Stripes::One => s == common,
                Stripes::EachFrom => s >= own,
                Stripes::EachOne => s == own,
                Stripes::Chance(among) => random.one_in(among),
            };
            wrong[s] |= u16::from(is_wrong) << i;
        }
    }
    wrong
}

/// How many sets of t + 1 of n pieces come, in dictionary order, before the first one without a marked piece; all, where there is none.
fn sets_before(n: usize, t: usize, marks: u16) -> usize {
    let (mut sets, mut missing) = (0, t + 1);
    for i in 0..n {
        if marks >> i & 1 == 1 {
            sets += choose(n - 1 - i, missing - 1);
            continue;
        }
        missing -= 1;
        if missing == 0 {
            return sets;
        }
    }
    choose(n, t + 1)
}

/// How many sets of `size` of n there are.
fn choose(n: usize, size: usize) -> usize {
    (0..size).fold(1, |sets, i| sets * n.saturating_sub(i) / (i + 1))
}
