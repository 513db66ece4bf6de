//! The expected output of the program reed_solomon_cases, from the reference.
use reference::code::{decode, encode, product, Decoded};
use reference::simulator::hex;
use reference::wire::{send_one, slot_with, FRONT};

struct Case {
    n: usize,
    t: usize,
    k: usize,
    run: u16,
    manner: usize,
    seed: u64,
}

/// The generator of the program: x times 1664525 plus 1013904223, modulo 2 to the 32.
fn next(x: u64) -> u64 {
    (x % (1 << 32) * 1664525 + 1013904223) % (1 << 32)
}

fn mix(x: u64, y: u64) -> u64 {
    next(x + y)
}

fn draw(seed: u64, purpose: u64, i: usize, b: usize) -> u64 {
    [purpose, i as u64, b as u64]
        .iter()
        .fold(seed, |x, &y| mix(x, y))
        / 65536
}

fn digest(d: u64, s: &[u8]) -> u64 {
    s.iter().fold(d, |d, &b| mix(d, u64::from(b)))
}

fn seed_of(n: usize, t: usize, k: usize, manner: usize) -> u64 {
    [t, k, manner]
        .iter()
        .fold(n as u64, |x, &y| mix(x, y as u64))
}

fn fill(len: usize, seed: u64) -> Vec<u8> {
    (0..len).map(|b| draw(seed, 0, 0, b) as u8).collect()
}

/// Another block, which differs in each stripe by (x + 1) .. (x + t): pieces 1 to t are the same, the others have no byte in common.
fn other(block: &[u8], t: usize) -> Vec<u8> {
    let roots = (1..=t as u8).fold(vec![1], |p, i| product(&p, &[i, 1]));
    block
        .chunks(t + 1)
        .flat_map(|stripe| stripe.iter().zip(&roots).map(|(m, r)| m ^ r))
        .collect()
}

fn flipped(x: u8, seed: u64, i: usize, b: usize) -> u8 {
    x ^ (1 + draw(seed, 2, i, b) % 255) as u8
}

impl Case {
    fn piece(&self, block: &[u8], i: usize) -> Vec<u8> {
        let mut piece = vec![0; self.k];
        let r = encode(
            self.n as u64,
            self.t as u64,
            self.k as u64,
            i as u64 + 1,
            block,
            &mut piece,
        );
        assert_eq!(r, 0);
        piece
    }

    /// 0 its piece, 1 all bytes false, 2 those of one stripe, 3 absent, by its first byte or by its run number, 4 the piece of the other block.
    fn kind(&self, mask: usize, seed: u64, i: usize) -> usize {
        if mask >> i & 1 == 0 {
            0
        } else if self.manner < 5 {
            self.manner
        } else {
            1 + draw(seed, 1, i, 0) as usize % 4
        }
    }

    fn slots(&self, block: &[u8], other: &[u8], mask: usize, seed: u64) -> Vec<u8> {
        let mut slots = vec![0; self.n * (FRONT + self.k)];
        for i in 0..self.n {
            let kind = self.kind(mask, seed, i);
            let mut piece = self.piece(if kind == 4 { other } else { block }, i);
            if kind == 1 {
                for (b, x) in piece.iter_mut().enumerate() {
                    *x = flipped(*x, seed, i, b);
                }
            }
            if kind == 2 {
                let b = draw(seed, 3, i, 0) as usize % self.k;
                piece[b] = flipped(piece[b], seed, i, b);
            }
            send_one(&mut slots, self.run, self.k, i + 1, &piece);
            if kind == 3 {
                let byte = draw(seed, 6, i, 0) as usize % FRONT;
                slots[i * (FRONT + self.k) + byte] ^= (1 + draw(seed, 4, i, 0) % 255) as u8;
            }
        }
        slots
    }

    /// The sets of slots that are false or absent: at n 4 and n 7 all, else two of each size from 0 to n; with the seed of each.
    fn sets(&self) -> Vec<(usize, u64)> {
        let seed = |x: usize| mix(self.seed, x as u64);
        if self.n == 4 || self.n == 7 {
            return (0..1 << self.n).map(|mask| (mask, seed(mask))).collect();
        }
        (0..2 * (self.n + 1))
            .map(|x| (self.scattered(x / 2, seed(x)), seed(x)))
            .collect()
    }

    /// The slots that are absent, and those present that have a false byte, as marks. Pieces 1 to t of the other block are true.
    fn absent_and_false(&self, mask: usize, seed: u64) -> (u16, u16) {
        let (mut absent, mut differing) = (0, 0);
        for i in 0..self.n {
            match self.kind(mask, seed, i) {
                3 => absent |= 1 << i,
                1 | 2 => differing |= 1 << i,
                4 if i >= self.t => differing |= 1 << i,
                _ => {}
            }
        }
        (absent, differing)
    }

    fn scattered(&self, size: usize, seed: u64) -> usize {
        let mut order: Vec<usize> = (0..self.n).collect();
        order.sort_by_key(|&i| (draw(seed, 5, i, 0), i));
        order[..size].iter().map(|i| 1 << i).sum()
    }

    fn play(&self) {
        let (n, t, k) = (self.n as u64, self.t as u64, self.k as u64);
        let block = fill(self.k * (self.t + 1), self.seed);
        let other = other(&block, self.t);
        for i in 0..self.n {
            let (a, b) = (self.piece(&block, i), self.piece(&other, i));
            assert!(a.iter().zip(&b).all(|(x, y)| (x == y) == (i < self.t)));
        }
        let (mut blocks, mut beyond, mut naming, mut d) = (0, 0, 0, 0);
        let mut out = vec![255; block.len()];
        for (mask, seed) in self.sets() {
            let slots = self.slots(&block, &other, mask, seed);
            let r = decode(n, t, k, self.run, &slots, &mut out);
            let (absent, differing) = self.absent_and_false(mask, seed);
            let present = self.n - absent.count_ones() as usize;
            // what the code promises
            let few = mask.count_ones() as usize <= self.t;
            if few || 2 * differing.count_ones() as usize + self.t + 1 <= present {
                assert_eq!(out, block);
            }
            if out == block {
                assert_eq!(r, Decoded::Block(absent | differing));
            }
            if present <= self.t {
                assert_eq!((r, &out), (Decoded::Beyond, &vec![0; block.len()]));
            }
            let (number, named) = answer(r);
            blocks += usize::from(number == 0);
            beyond += usize::from(number == 9);
            naming += usize::from(named != 0);
            d = digest(mix(mix(d, number), named.into()), &out);
        }
        println!(
            "decode {n} {t} {k} {}: {blocks} {beyond} {naming} {d:08x}",
            self.manner
        );
    }
}

/// 0 a block, 9 beyond, else the number of the refusal; and the row of marks.
fn answer(r: Decoded) -> (u64, u16) {
    match r {
        Decoded::Block(named) => (0, named),
        Decoded::Beyond => (9, 0),
        Decoded::Refused(x) => (x.into(), 0),
    }
}

fn code(n: usize, t: usize, k: usize) {
    let case = Case {
        n,
        t,
        k,
        run: 0,
        manner: 0,
        seed: seed_of(n, t, k, 0),
    };
    let block = fill(k * (t + 1), case.seed);
    let d = (0..n).fold(0, |d, i| digest(mix(d, 0), &case.piece(&block, i)));
    println!("code {n} {t} {k}: {d:08x}");
}

fn try_encode(n: u64, t: u64, k: u64, number: u64, size: usize, len: usize) {
    let block = [85; 4096];
    let mut piece = [170; 4096];
    let r = encode(n, t, k, number, &block[..size], &mut piece[..len]);
    assert!(r == 0 || piece == [170; 4096]);
    let d = digest(digest(0, &block), &piece);
    println!("encode {n} {t} {k} {number} {size} {len}: {r} {d:08x}");
}

fn try_decode(n: u64, t: u64, k: u64, run: u16, end: usize, size: usize) {
    let slots = [1; 4096];
    let mut block = [170; 4096];
    let r = decode(n, t, k, run, &slots[..end], &mut block[..size]);
    // of run 257 all pieces are true where it is taken, of any other all slots are absent
    match r {
        Decoded::Block(named) => assert_eq!((run, named), (257, 0)),
        Decoded::Beyond => assert!(run != 257 && block[..size].iter().all(|&byte| byte == 0)),
        Decoded::Refused(_) => assert_eq!(block, [170; 4096]),
    }
    let d = digest(digest(0, &slots), &block);
    let (number, named) = answer(r);
    println!("decode {n} {t} {k} {run} {end} {size}: {number} {named} {d:08x}");
}

const LARGEST: u64 = u64::MAX;

/// Three times this is 2 more than the largest number.
const THIRD: u64 = LARGEST / 3 + 1;

const ENCODES: [(u64, u64, u64, u64, usize, usize); 43] = [
    (3, 1, 1, 1, 2, 1),
    (17, 1, 1, 1, 2, 1),
    (4, 0, 1, 1, 1, 1),
    (4, 2, 1, 1, 3, 1),
    (16, 6, 1, 1, 7, 1),
    (4, 1, 0, 1, 0, 0),
    (4, 1, 129, 1, 258, 129),
    (4, 1, 1, 0, 2, 1),
    (4, 1, 1, 5, 2, 1),
    (4, 1, 1, 1, 2, 1),
    (4, 1, 1, 4, 2, 1),
    (4, 1, 1, 1, 1, 1),
    (4, 1, 1, 1, 3, 1),
    (4, 1, 1, 1, 2, 0),
    (4, 1, 1, 1, 2, 2),
    (7, 2, 128, 7, 384, 128),
    (7, 2, 128, 7, 383, 128),
    (7, 2, 128, 7, 385, 128),
    (7, 2, 128, 7, 384, 127),
    (7, 2, 128, 7, 384, 129),
    (7, 2, 128, 8, 384, 128),
    (16, 5, 128, 16, 768, 128),
    (16, 5, 128, 17, 768, 128),
    (3, 0, 0, 0, 0, 0),
    (3, 1, 129, 1, 258, 129),
    (3, 1, 1, 0, 2, 1),
    (3, 1, 1, 1, 1, 1),
    (4, 0, 129, 1, 129, 129),
    (4, 2, 1, 5, 3, 1),
    (4, 2, 1, 1, 2, 1),
    (4, 1, 0, 5, 0, 0),
    (4, 1, 129, 1, 258, 128),
    (4, 1, 1, 0, 2, 2),
    (4, 1, 1, 5, 1, 1),
    (0, 0, 0, 0, 0, 0),
    (LARGEST, LARGEST, 1, 1, 2, 1),
    (4, LARGEST, LARGEST, 1, 2, 1),
    (4, THIRD, 1, 1, 2, 1),
    (4, 1, LARGEST, 0, 2, 1),
    (4, 1, 1 << 63, 0, 0, 1),
    (4, 1, 1, LARGEST, 1, 1),
    (4, 1, 1, 256, 2, 1),
    (4, 1, 1, 257, 2, 1),
];

/// n, t, k, the run number, and the lengths of slots and block.
const DECODES: [(u64, u64, u64, u16, usize, usize); 41] = [
    (3, 1, 1, 257, 12, 2),
    (17, 1, 1, 257, 68, 2),
    (4, 0, 1, 257, 16, 1),
    (4, 2, 1, 257, 16, 3),
    (16, 6, 1, 257, 64, 7),
    (4, 1, 0, 257, 12, 0),
    (4, 1, 129, 257, 528, 258),
    (4, 1, 1, 257, 16, 2),
    (4, 1, 1, 257, 15, 2),
    (4, 1, 1, 257, 17, 2),
    (4, 1, 1, 257, 12, 2),
    (4, 1, 1, 257, 20, 2),
    (4, 1, 1, 257, 16, 1),
    (4, 1, 1, 257, 16, 3),
    (4, 1, 1, 257, 8, 2),
    (4, 1, 1, 257, 0, 0),
    (7, 2, 128, 257, 917, 384),
    (7, 2, 128, 257, 916, 384),
    (7, 2, 128, 257, 918, 384),
    (7, 2, 128, 257, 917, 383),
    (7, 2, 128, 257, 917, 385),
    (16, 5, 128, 257, 2096, 768),
    (4, 1, 1, 0, 16, 2),
    (4, 1, 1, 1, 16, 2),
    (4, 1, 1, 256, 16, 2),
    (7, 2, 128, 65535, 917, 384),
    (7, 2, 128, 256, 917, 383),
    (3, 0, 0, 257, 0, 0),
    (3, 1, 129, 257, 396, 258),
    (3, 1, 1, 257, 11, 2),
    (4, 0, 129, 257, 528, 129),
    (4, 2, 1, 257, 16, 2),
    (4, 1, 0, 257, 16, 2),
    (4, 1, 129, 257, 527, 258),
    (0, 0, 0, 257, 0, 0),
    (LARGEST, LARGEST, 1, 257, 16, 2),
    (4, LARGEST, LARGEST, 257, 16, 2),
    (4, THIRD, 1, 257, 16, 2),
    (4, 1, LARGEST - 2, 257, 0, 0),
    (4, 1, LARGEST, 257, 8, 0),
    (4, 1, 1 << 63, 257, 12, 0),
];

/// Slots decoded in a run: the answer is the expected one, which is worked out by hand.
fn example(
    name: &str,
    (n, t): (u64, u64),
    run: u16,
    slots: &[u8],
    expected: Decoded,
    block: &[u8],
) {
    let k = slots.len() as u64 / n - FRONT as u64;
    let mut out = vec![255; block.len()];
    let r = decode(n, t, k, run, slots, &mut out);
    assert_eq!((r, &out[..]), (expected, block));
    let (number, named) = answer(r);
    println!("{name} {number} {named} {}", hex(&out));
}

/// n 4, t 1 and k 1: the run number and the piece of each slot.
fn example_slots(name: &str, run: u16, slots: [(u16, u8); 4], expected: Decoded, block: [u8; 2]) {
    let slots = slots.map(|(run, piece)| slot_with(run, &[piece]));
    example(name, (4, 1), run, &slots.concat(), expected, &block);
}

/// The pieces of a block with n 7, t 2 and k 1 in the slots that are present, of run 256; the others hold the bytes given for them.
fn example_silent(name: &str, present: impl Fn(u64) -> bool, absent: [u8; 4], expected: Decoded) {
    let block = [0x0a, 0x14, 0x1e];
    let slot = |i| {
        let mut piece = [0];
        encode(7, 2, 1, i, &block, &mut piece);
        if present(i) {
            slot_with(256, &piece)
        } else {
            absent.to_vec()
        }
    };
    let slots: Vec<u8> = (1..=7).flat_map(slot).collect();
    let left = match expected {
        Decoded::Block(_) => block,
        _ => [0; 3],
    };
    example(name, (7, 2), 256, &slots, expected, &left);
}

fn main() {
    for n in 4..=16 {
        for t in (1..).take_while(|t| 3 * t < n) {
            for k in [1, 2, 32, 128] {
                code(n, t, k);
                for manner in 1..=5 {
                    let seed = seed_of(n, t, k, manner);
                    Case {
                        n,
                        t,
                        k,
                        run: [0, 1, 256, 65535][(n + manner) % 4],
                        manner,
                        seed,
                    }
                    .play();
                }
            }
        }
    }
    for (n, t, k, number, size, len) in ENCODES {
        try_encode(n, t, k, number, size, len);
    }
    for (n, t, k, run, end, size) in DECODES {
        try_decode(n, t, k, run, end, size);
    }
    for number in 1..=4 {
        let mut piece = [0];
        encode(4, 1, 1, number, &[0x0a, 0x14], &mut piece);
        println!("c {:02x}", piece[0]);
    }
    examples();
    late_examples();
    silent_examples();
}

/// Examples d and e, d with slot 1 absent too; zeros, which code to zeros, with slot 1 absent; three stripes.
fn examples() {
    let (first, block) = (Decoded::Block(0b0001), [0x0a, 0x14]);
    let slots = [0x00, 0x22, 0x36, 0x5a].map(|piece| (1, piece));
    example_slots("d", 1, slots, first, block);
    let mut slots = [0x1e, 0x22, 0x36, 0x5a].map(|piece| slot_with(1, &[piece]));
    slots[0][0] = 0;
    example("d", (4, 1), 1, &slots.concat(), first, &block);
    let slots = [0x1e, 0x22, 0x37, 0x5b].map(|piece| (65535, piece));
    example_slots("e", 65535, slots, Decoded::Beyond, [0, 0]);
    let mut slots = [0; 4].map(|piece| slot_with(0, &[piece]));
    slots[0][0] = 0;
    example("zeros", (4, 1), 0, &slots.concat(), first, &[0, 0]);
    // three stripes 0a14: 4 is false in the first, 1 in the second, 2 in the third
    let slots = [
        [0x1e, 0x00, 0x1e],
        [0x22, 0x22, 0x00],
        [0x36, 0x36, 0x36],
        [0x00, 0x5a, 0x5a],
    ];
    let slots = slots.map(|piece| slot_with(0, &piece)).concat();
    let (apart, block) = (Decoded::Block(0b1011), [0x0a, 0x14].repeat(3));
    example("apart", (4, 1), 0, &slots, apart, &block);
}

/// Slots of other runs (document 02, U11), which differ in one byte of the number or in both.
fn late_examples() {
    let (named, block) = (Decoded::Block(0b0101), [0x0a, 0x14]);
    let slots = [(2, 0x1e), (258, 0x22), (257, 0x36), (258, 0x5a)];
    example_slots("late", 258, slots, named, block);
    let slots = [(2, 0x1f), (258, 0x22), (257, 0x37), (258, 0x5a)];
    example_slots("late, false", 258, slots, named, block);
    let slots = [(2, 0x1e), (513, 0x22), (257, 0x36), (258, 0x5a)];
    example_slots("too late", 258, slots, Decoded::Beyond, [0, 0]);
    // 0b14 has the pieces 1f 23 37 5b
    let slots = [(1, 0x1e), (2, 0x23), (2, 0x37), (1, 0x5a)];
    example_slots("run 1", 1, slots, Decoded::Block(0b0110), block);
    example_slots("run 2", 2, slots, Decoded::Block(0b1001), [0x0b, 0x14]);
}

/// Three of seven silent, and at most t + 1 present.
fn silent_examples() {
    let silent = Decoded::Block(0b010_0101);
    let absent = [0, 0, 1, 0xff];
    example_silent("silent", |i| ![1, 3, 6].contains(&i), absent, silent);
    let answers = [
        Decoded::Beyond,
        Decoded::Beyond,
        Decoded::Beyond,
        Decoded::Block(0b111_1000),
    ];
    for (count, expected) in (0..).zip(answers) {
        let name = format!("present {count}");
        example_silent(&name, |i| i <= count, [0; 4], expected);
    }
}
