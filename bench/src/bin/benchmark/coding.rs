//! Encoding and decoding: decoding beside a peer that tries sets of slots, and both as the block grows. n is 16.
use crate::peer;
use crate::random::Random;
use crate::timing::{in_turns, print_table, ratio, Side, BEFORE, REPETITIONS};
use potekawhi::raw;
use reference::code;
use reference::wire::{slot_with, FRONT};
use std::hint::black_box;

const N: usize = 16;
/// The run number of all slots.
pub const RUN: u16 = 513;

/// What the marks that a call writes are set to before it.
const NAMED_BEFORE: u16 = u16::from_le_bytes([BEFORE; 2]);

/// The library's functions as `raw` has them, or those of another version.
type Encode = fn(usize, usize, usize, usize, &[u8], &mut [u8]) -> u8;
type Decode = fn(usize, usize, usize, u16, &[u8], &mut [u8], &mut u16) -> u8;

/// A block, its pieces, slots of them of which some are false, and the marks of these; and what a call writes.
pub struct Case {
    t: usize,
    k: usize,
    block: Vec<u8>,
    pieces: Vec<u8>,
    slots: Vec<u8>,
    marks: u16,
    decoded: Vec<u8>,
    named: u16,
    coded: Vec<u8>,
}

impl Case {
    pub const LIBRARY: Side<Case> = (|case| case.decode_by(raw::decode), Case::test_named);
    const PEER: Side<Case> = (Case::decode_by_peer, Case::test_decoded);
    pub const ENCODE: Side<Case> = (|case| case.encode_by(raw::encode), Case::test_coded);

    /// A block drawn at random, whose pieces at the indices `wrong` are false in every byte.
    pub fn new(random: &mut Random, t: usize, k: usize, wrong: &[usize]) -> Case {
        Case::partly(random, t, k, |_, i, _| wrong.contains(&i))
    }

    /// A block drawn at random; `wrong` says, of each index of a piece and each stripe, whether the byte there is false.
    pub fn partly(
        random: &mut Random,
        t: usize,
        k: usize,
        wrong: impl Fn(&mut Random, usize, usize) -> bool,
    ) -> Case {
        let block = random.bytes(k * (t + 1));
        let mut pieces = vec![0; N * k];
        let mut slots = Vec::new();
        let mut marks = 0;
        for (i, piece) in pieces.chunks_exact_mut(k).enumerate() {
            let number = code::encode(N as u64, t as u64, k as u64, i as u64 + 1, &block, piece);
            assert_eq!(number, 0);
            let mut sent = piece.to_vec();
            for (s, byte) in sent.iter_mut().enumerate() {
                if wrong(random, i, s) {
                    *byte ^= 1 + random.below(255) as u8;
                    assert_ne!(*byte, piece[s]);
                    marks |= 1 << i;
                }
            }
            slots.extend(slot_with(RUN, &sent));
        }
        Case {
            t,
            k,
            marks,
            decoded: vec![BEFORE; block.len()],
            named: NAMED_BEFORE,
            coded: vec![BEFORE; pieces.len()],
            block,
            pieces,
            slots,
        }
    }

    /// The same with the slots at these indices absent, all 00.
    pub fn without(mut self, absent: impl IntoIterator<Item = usize>) -> Case {
        for i in absent {
            self.slots[i * (FRONT + self.k)..][..FRONT + self.k].fill(0);
            self.marks |= 1 << i;
        }
        self
    }

    pub fn decode_by(&mut self, decode: Decode) {
        self.decoded.fill(BEFORE);
        self.named = NAMED_BEFORE;
        let slots = black_box(&self.slots);
        let (decoded, named) = black_box((&mut self.decoded, &mut self.named));
        let number = decode(N, self.t, self.k, RUN, slots, decoded, named);
        assert_eq!(number, 0);
    }

    fn decode_by_peer(&mut self) {
        self.decoded.fill(BEFORE);
        let slots = black_box(&self.slots);
        let found = peer::decode(self.t, self.k, RUN, slots, black_box(&mut self.decoded));
        assert!(found);
    }

    fn test_decoded(&self) {
        assert_eq!(self.decoded, self.block);
    }

    /// The marks too.
    pub fn test_named(&self) {
        self.test_decoded();
        assert_eq!(self.named, self.marks);
    }

    pub fn encode_by(&mut self, encode: Encode) {
        self.coded.fill(BEFORE);
        let block = black_box(&self.block);
        let pieces = black_box(&mut self.coded).chunks_exact_mut(self.k);
        for (piece, number) in pieces.zip(1..) {
            assert_eq!(encode(N, self.t, self.k, number, block, piece), 0);
        }
    }

    pub fn test_coded(&self) {
        assert_eq!(self.coded, self.pieces);
    }
}

/// Library and peer answer alike, with slots absent, and with up to one false piece more than is corrected.
fn compare_answers(random: &mut Random) {
    let mut beyond = 0;
    for t in 1..=5 {
        for present in [N, N - 1, N - 2, N - t, t + 1, t] {
            let corrected = present.saturating_sub(t + 1) / 2;
            for wrong in 0..=corrected + 1 {
                let found = compare_answer(random, t, present, wrong);
                beyond += usize::from(present > t && !found);
            }
        }
    }
    assert!(beyond > 0, "no case with too many false pieces");
}

/// One answer; whether it is a block. It is the coded one exactly where the rule allows so many false pieces, which are false in the first
/// stripe and in some of the others; then the library marks these and the absent ones.
fn compare_answer(random: &mut Random, t: usize, present: usize, wrong: usize) -> bool {
    let slots = random.choice(N, present);
    let absent = (0..N).filter(|i| !slots.contains(i));
    let mut case = Case::new(random, t, 8, &[]).without(absent);
    for i in random.choice(present, wrong) {
        let piece = slots[i] * (FRONT + case.k) + FRONT;
        case.marks |= 1 << slots[i];
        case.slots[piece] ^= 1 + random.below(255) as u8;
        for s in 1..case.k {
            case.slots[piece + s] ^= random.below(3) as u8;
        }
    }
    let mut by_peer = vec![!BEFORE; case.block.len()];
    let (decoded, named) = (&mut case.decoded, &mut case.named);
    let number = raw::decode(N, t, case.k, RUN, &case.slots, decoded, named);
    let found = peer::decode(t, case.k, RUN, &case.slots, &mut by_peer);
    assert_eq!(number, if found { 0 } else { raw::BEYOND });
    assert_eq!(case.decoded, by_peer);
    let right = 2 * wrong + t + 1 <= present;
    assert_eq!(by_peer == case.block, right);
    assert!(!right || case.named == case.marks);
    assert!(found || by_peer.iter().all(|&byte| byte == 0));
    assert!(!found || present > t);
    found
}

/// Table 1: decoding beside the peer.
pub fn against_peer() {
    let k = 128;
    let mut random = Random::new(1);
    compare_answers(&mut random);
    let mut rows = Vec::new();
    for t in 1..=5 {
        for place in ["none", "1 to t", "at random", "1 to t silent"] {
            let mut case = |_| {
                let (wrong, absent) = match place {
                    "1 to t" => ((0..t).collect(), 0),
                    "at random" => (random.choice(N, t), 0),
                    "1 to t silent" => (Vec::new(), t),
                    _ => (Vec::new(), 0),
                };
                Case::new(&mut random, t, k, &wrong).without(0..absent)
            };
            let mut cases: Vec<Case> = (0..REPETITIONS).map(&mut case).collect();
            let [library, peer] = in_turns(&mut cases, [Case::LIBRARY, Case::PEER]);
            let mut row = vec![t.to_string(), place.to_string()];
            row.extend(library.cells(1e3));
            row.extend(peer.cells(1e3));
            row.push(ratio(&peer, &library));
            rows.push(row);
        }
    }
    let heading =
        "1. Decoding a block, n 16, k 128, beside a peer that tries sets of t + 1 present slots in dictionary order. Microseconds.
The false pieces are false in every byte. Each repetition has another block and, at random, other false pieces.
The library writes the marks of the false and the silent too, the peer does not.
The block is filled with a5 before each call, on both sides, within the time.";
    let names = "t | false pieces | library | min | max | peer | min | max | peer / library";
    print_table(heading, names, &rows);
}

/// Table 2: encoding and decoding as k grows.
pub fn by_length() {
    let t = 5;
    let mut random = Random::new(2);
    let mut rows = Vec::new();
    for k in (0..=7).map(|power| 1 << power) {
        let mut none = [Case::new(&mut random, t, k, &[])];
        let mut wrong = [Case::new(&mut random, t, k, &[0, 1, 2, 3, 4])];
        let [encode, decode] = in_turns(&mut none, [Case::ENCODE, Case::LIBRARY]);
        let [decode_wrong] = in_turns(&mut wrong, [Case::LIBRARY]);
        let length = k * (t + 1);
        let mut row = vec![k.to_string(), length.to_string()];
        for times in [encode, decode, decode_wrong] {
            row.extend(times.cells(length as f64));
        }
        rows.push(row);
    }
    let heading =
        "2. Encoding all 16 pieces, and decoding, as the block grows, n 16, t 5. Nanoseconds for a byte of the block.
Pieces and block are filled with a5 before each call, within the time.";
    let names =
        "k | bytes | encode | min | max | decode, none false | min | max | decode, 1 to 5 false | min | max";
    print_table(heading, names, &rows);
}

/// Whether a false piece is false in a stripe: the piece's place among the t false ones, the stripe, t and k.
type Pattern = fn(&mut Random, usize, usize, usize, usize) -> bool;

const PATTERNS: [(&str, Pattern); 9] = [
    ("the first", |_, _, s, _, _| s == 0),
    ("the last", |_, _, s, _, k| s == k - 1),
    ("one in the middle", |_, _, s, _, k| s == k / 2),
    ("from the middle on", |_, _, s, _, k| s >= k / 2),
    ("every second", |_, _, s, _, _| s % 2 == 0),
    ("each in another", |_, i, s, t, k| {
        s == (i + 1) * k / (t + 1)
    }),
    ("each from another on", |_, i, s, t, k| {
        s >= (i + 1) * k / (t + 1)
    }),
    ("1 in 2 at random", |random, _, _, _, _| {
        random.below(2) == 0
    }),
    ("1 in 32 at random", |random, _, _, _, _| {
        random.below(32) == 0
    }),
];

/// A block of whose pieces none are false, by the library; and one with pieces false in some stripes, by the library and by the peer.
const PARTLY: [Side<[Case; 2]>; 3] = [
    (
        |[none, _]| none.decode_by(raw::decode),
        |[none, _]| none.test_named(),
    ),
    (
        |[_, partly]| partly.decode_by(raw::decode),
        |[_, partly]| partly.test_named(),
    ),
    (
        |[_, partly]| partly.decode_by_peer(),
        |[_, partly]| partly.test_decoded(),
    ),
];

/// Table 9: decoding where t pieces are false in some stripes only.
pub fn partly_false() {
    let (t, k) = (5, 128);
    let mut random = Random::new(9);
    let mut rows = Vec::new();
    for (name, pattern) in PATTERNS {
        for place in ["1 to t", "at random"] {
            let mut case = |_| {
                let places = match place {
                    "1 to t" => (0..t).collect(),
                    _ => random.choice(N, t),
                };
                let wrong = |random: &mut Random, i, s| {
                    let place = places.iter().position(|&place| place == i);
                    place.is_some_and(|place| pattern(random, place, s, t, k))
                };
                let none = Case::new(&mut random, t, k, &[]);
                [none, Case::partly(&mut random, t, k, wrong)]
            };
            let mut cases: Vec<[Case; 2]> = (0..REPETITIONS).map(&mut case).collect();
            let [none, library, peer] = in_turns(&mut cases, PARTLY);
            let mut row = vec![name.to_string(), place.to_string()];
            row.extend(library.cells(1e3));
            row.push(ratio(&library, &none));
            row.extend(peer.cells(1e3));
            row.push(ratio(&peer, &library));
            rows.push(row);
        }
    }
    let heading =
        "9. Decoding a block where t pieces are false in some stripes only, n 16, t 5, k 128, beside the peer of table 1. Microseconds.
To none false: the library's time by that for a block without false pieces, which is measured in turns with it.
Each repetition has another block and, at random, other false pieces and stripes.
The library writes the marks of the false too, the peer does not.
The block is filled with a5 before each call, on both sides, within the time.";
    let names = "false in stripes | false pieces | library | min | max | to none false | peer | min | max | peer / library";
    print_table(heading, names, &rows);
}
