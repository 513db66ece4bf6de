//! The code (document 01, 'Field and code'; decoding by document 02, U1, U2 and U11): coding by powers, decoding by trying sets of t + 1 present
//! slots, the row of marks for the slots that differ from the block, and the refusals of both.
use crate::field;
use crate::wire::{in_slot, FRONT};
use std::sync::OnceLock;

/// The products and inverses of `field`, looked up.
struct Tables {
    mul: Vec<[u8; 256]>,
    inv: [u8; 256],
}

fn tables() -> &'static Tables {
    static TABLES: OnceLock<Tables> = OnceLock::new();
    TABLES.get_or_init(|| Tables {
        mul: (0..=255)
            .map(|a| std::array::from_fn(|b| field::mul(a, b as u8)))
            .collect(),
        inv: std::array::from_fn(|a| field::inv(a as u8)),
    })
}

pub fn mul(a: u8, b: u8) -> u8 {
    tables().mul[usize::from(a)][usize::from(b)]
}

fn pow(a: u8, n: usize) -> u8 {
    (0..n).fold(1, |power, _| mul(power, a))
}

/// m0 + m1 i + .. + mt i^t.
pub fn value(stripe: &[u8], i: u8) -> u8 {
    stripe
        .iter()
        .enumerate()
        .fold(0, |sum, (d, &m)| field::add(sum, mul(m, pow(i, d))))
}

/// The product of two polynomials, coefficients from the lowest on.
pub fn product(a: &[u8], b: &[u8]) -> Vec<u8> {
    let mut out = vec![0; a.len() + b.len() - 1];
    for (i, &x) in a.iter().enumerate() {
        for (j, &y) in b.iter().enumerate() {
            out[i + j] = field::add(out[i + j], mul(x, y));
        }
    }
    out
}

/// The polynomial of degree below `points.len()` through the points (Lagrange).
fn through(points: &[(u8, u8)]) -> Vec<u8> {
    let mut out = vec![0; points.len()];
    for &(x, y) in points {
        let mut basis = vec![y];
        for &(other, _) in points.iter().filter(|p| p.0 != x) {
            let scale = tables().inv[usize::from(field::add(x, other))];
            basis = product(&basis, &[mul(scale, other), scale]);
        }
        for (o, b) in out.iter_mut().zip(basis) {
            *o = field::add(*o, b);
        }
    }
    out
}

/// The sets of `size` of the points, in dictionary order, until `test` answers something.
fn first_set<R>(
    points: &[(u8, u8)],
    size: usize,
    set: &mut Vec<(u8, u8)>,
    test: &impl Fn(&[(u8, u8)]) -> Option<R>,
) -> Option<R> {
    if size == 0 {
        return test(set);
    }
    for (i, &point) in points.iter().enumerate() {
        set.push(point);
        let found = first_set(&points[i + 1..], size - 1, set, test);
        set.pop();
        if found.is_some() {
            return found;
        }
    }
    None
}

/// The bytes of a stripe from its N present values, each with the number of its slot: twice the number of values that differ from the code
/// of these bytes is at most N - t - 1.
fn stripe(present: &[(u8, u8)], t: usize) -> Option<Vec<u8>> {
    first_set(present, t + 1, &mut Vec::new(), &|set| {
        let m = through(set);
        let differs = |&&(i, received): &&(u8, u8)| value(&m, i) != received;
        let differing = present.iter().filter(differs).count();
        (2 * differing + t + 1 <= present.len()).then_some(m)
    })
}

/// Rows 1 to 3 of 'Turned down'.
pub fn settings_refusal(n: u128, t: u128, k: u128) -> u8 {
    if !(4..=16).contains(&n) {
        1
    } else if t == 0 || 3 * t + 1 > n {
        2
    } else if !(1..=128).contains(&k) {
        3
    } else {
        0
    }
}

/// What coding leaves in the piece, and the number it returns: it tries 1, 2, 3, 4, 6.
pub fn encode(n: u64, t: u64, k: u64, number: u64, block: &[u8], piece: &mut [u8]) -> u8 {
    let (n, t, k, number) = (n.into(), t.into(), k.into(), number.into());
    let first = settings_refusal(n, t, k);
    if first != 0 {
        return first;
    }
    if !(1..=n).contains(&number) {
        return 4;
    }
    if block.len() as u128 != k * (t + 1) || piece.len() as u128 != k {
        return 6;
    }
    for (s, m) in block.chunks(t as usize + 1).enumerate() {
        piece[s] = value(m, number as u8);
    }
    0
}

/// Document 02, U1: the marks, the bit worth 1 for controller 1, of the slots whose piece is absent or differs, in any stripe, from the code of
/// the block.
fn named(pieces: &[Option<&[u8]>], t: usize, block: &[u8]) -> u16 {
    let is_named = |&(i, piece): &(u8, &Option<&[u8]>)| match piece {
        Some(piece) => block
            .chunks(t + 1)
            .zip(*piece)
            .any(|(m, &received)| value(m, i) != received),
        None => true,
    };
    (1..)
        .zip(pieces)
        .filter(is_named)
        .map(|(i, _)| 1 << (i - 1))
        .sum()
}

#[derive(Debug, PartialEq, Eq, Clone, Copy)]
pub enum Decoded {
    /// The row of marks; for the others it is empty.
    Block(u16),
    Beyond,
    Refused(u8),
}

/// What decoding leaves in the block, and its answer: it tries 1, 2, 3, 6. A slot of another run is absent.
pub fn decode(n: u64, t: u64, k: u64, run: u16, slots: &[u8], block: &mut [u8]) -> Decoded {
    let (n, t, k) = (n.into(), t.into(), k.into());
    let first = settings_refusal(n, t, k);
    if first != 0 {
        return Decoded::Refused(first);
    }
    if slots.len() as u128 != n * (FRONT as u128 + k) || block.len() as u128 != k * (t + 1) {
        return Decoded::Refused(6);
    }
    let (t, k) = (t as usize, k as usize);
    let pieces: Vec<Option<&[u8]>> = slots
        .chunks(FRONT + k)
        .map(|slot| in_slot(slot, run))
        .collect();
    let mut all = Vec::new();
    for s in 0..k {
        let present: Vec<(u8, u8)> = (1..)
            .zip(&pieces)
            .filter_map(|(i, piece)| Some((i, (*piece)?[s])))
            .collect();
        match stripe(&present, t) {
            Some(m) => all.extend(m),
            None => {
                block.fill(0);
                return Decoded::Beyond;
            }
        }
    }
    block.copy_from_slice(&all);
    Decoded::Block(named(&pieces, t, block))
}

#[cfg(test)]
mod tests {
    use super::*;
    use crate::wire::slot_with;

    /// The run of the slots that are decoded: 01 02.
    const RUN: u16 = 0x0201;

    fn decoded(values: [u8; 4]) -> (Decoded, [u8; 2]) {
        let slots = values.map(|value| slot_with(RUN, &[value])).concat();
        let mut block = [0xff; 2];
        (decode(4, 1, 1, RUN, &slots, &mut block), block)
    }

    #[test]
    fn example_c() {
        let pieces: Vec<u8> = (1..=4)
            .map(|i| {
                let mut piece = [0];
                assert_eq!(encode(4, 1, 1, i, &[0x0a, 0x14], &mut piece), 0);
                piece[0]
            })
            .collect();
        assert_eq!(pieces, [0x1e, 0x22, 0x36, 0x5a]);
    }

    /// The piece of controller 1 is 1e.
    #[test]
    fn example_d() {
        assert_eq!(
            decoded([0x00, 0x22, 0x36, 0x5a]),
            (Decoded::Block(0b0001), [0x0a, 0x14])
        );
    }

    #[test]
    fn example_e() {
        assert_eq!(decoded([0x1e, 0x22, 0x37, 0x5b]), (Decoded::Beyond, [0, 0]));
    }

    /// n and t, each that is taken.
    fn settings() -> impl Iterator<Item = (usize, usize)> {
        (4..=16).flat_map(|n| (1..=(n - 1) / 3).map(move |t| (n, t)))
    }

    /// A block of k stripes, bytes without a pattern.
    fn some_block(t: usize, k: usize) -> Vec<u8> {
        (1..=k * (t + 1))
            .map(|b| (b * b * b * 41 / 8) as u8)
            .collect()
    }

    /// The slots of all pieces of a block.
    fn slots(n: usize, t: usize, block: &[u8]) -> Vec<Vec<u8>> {
        let k = block.len() / (t + 1);
        let slot = |i| {
            let mut piece = vec![0; k];
            let (n, t, k) = (n as u64, t as u64, k as u64);
            assert_eq!(encode(n, t, k, i, block, &mut piece), 0);
            slot_with(RUN, &piece)
        };
        (1..=n as u64).map(slot).collect()
    }

    /// The answer to slots, and the block, lent with ff.
    fn answer(t: usize, slots: &[Vec<u8>]) -> (Decoded, Vec<u8>) {
        let (n, k) = (slots.len(), slots[0].len() - FRONT);
        let mut block = vec![0xff; k * (t + 1)];
        let (n, t, k) = (n as u64, t as u64, k as u64);
        let answer = decode(n, t, k, RUN, &slots.concat(), &mut block);
        (answer, block)
    }

    fn beyond(block: &[u8]) -> (Decoded, Vec<u8>) {
        (Decoded::Beyond, vec![0; block.len()])
    }

    /// The marks of the slots at these indices.
    fn marks(indices: impl IntoIterator<Item = usize>) -> u16 {
        indices.into_iter().fold(0, |marks, i| marks | 1 << i)
    }

    /// Pieces 1e, 22, 36 and 5a of example c, each false or absent in turn, and none.
    #[test]
    fn each_slot_is_named() {
        let pieces = [0x1e, 0x22, 0x36, 0x5a];
        let block = [0x0a, 0x14];
        assert_eq!(decoded(pieces), (Decoded::Block(0), block));
        for (i, row) in [0b0001, 0b0010, 0b0100, 0b1000].into_iter().enumerate() {
            for bit in 0..8 {
                let mut values = pieces;
                values[i] ^= 1 << bit;
                assert_eq!(decoded(values), (Decoded::Block(row), block));
            }
            let mut slots = pieces.map(|value| slot_with(RUN, &[value]));
            slots[i][0] = 0;
            assert_eq!(answer(1, &slots), (Decoded::Block(row), block.to_vec()));
        }
    }

    /// Three stripes 0a14: pieces of which one byte is false, each in another stripe. So three of four are named, and the block is found.
    #[test]
    fn false_in_one_stripe_each() {
        let slots = [
            [0x1e, 0x00, 0x1e],
            [0x22, 0x22, 0x00],
            [0x36, 0x36, 0x36],
            [0x00, 0x5a, 0x5a],
        ]
        .map(|piece| slot_with(RUN, &piece));
        let block = [0x0a, 0x14].repeat(3);
        assert_eq!(answer(1, &slots), (Decoded::Block(0b1011), block));
    }

    /// One false byte, in each piece in turn, in each of some stripes, the first and the last among them.
    #[test]
    fn each_stripe_counts() {
        let block = some_block(5, 128);
        let right = slots(16, 5, &block);
        for (i, s) in (0..16).flat_map(|i| [0, 1, 64, 126, 127].map(|s| (i, s))) {
            let mut slots = right.clone();
            slots[i][FRONT + s] ^= 0x80;
            let expected = (Decoded::Block(marks([i])), block.clone());
            assert_eq!(answer(5, &slots), expected, "{i} {s}");
        }
        assert_eq!(answer(5, &right), (Decoded::Block(0), block));
    }

    /// The pieces of a block of zeros are zeros: a slot that is absent and all 00 is named, a present one is not.
    #[test]
    fn absent_is_no_piece_of_zeros() {
        let slots = [1, 0, 1, 0xff].map(|first| vec![first, 1, 2, 0]);
        assert_eq!(answer(1, &slots), (Decoded::Block(0b1010), vec![0, 0]));
    }

    /// Document 02, U2.
    #[test]
    fn any_three_silent_of_seven() {
        let block = some_block(2, 5);
        let sets = (0..1u8 << 7).filter(|set| set.count_ones() == 3);
        assert_eq!(sets.clone().count(), 35);
        for set in sets {
            let mut slots = slots(7, 2, &block);
            for i in (0..7).filter(|i| set >> i & 1 == 1) {
                slots[i].fill(0);
            }
            let expected = (Decoded::Block(set.into()), block.clone());
            assert_eq!(answer(2, &slots), expected, "{set:b}");
        }
    }

    /// t 2: of five present pieces one may be false, of four none.
    #[test]
    fn one_false_of_those_present() {
        let block = some_block(2, 3);
        for wrong in 0..7 {
            let mut slots = slots(7, 2, &block);
            slots[wrong][FRONT + 1] ^= 0x40;
            for other in [1, 2] {
                slots[(wrong + other) % 7][0] = 0;
            }
            let row = marks([0, 1, 2].map(|other| (wrong + other) % 7));
            assert_eq!(answer(2, &slots), (Decoded::Block(row), block.clone()));
            slots[(wrong + 3) % 7][0] = 0;
            assert_eq!(answer(2, &slots), beyond(&block));
        }
    }

    /// n 16, t 1: seven false pieces are corrected, eight are not.
    #[test]
    fn seven_false_of_sixteen() {
        let block = some_block(1, 2);
        let mut slots = slots(16, 1, &block);
        for (i, slot) in (1..).zip(&mut slots[..7]) {
            slot[FRONT] ^= i;
            slot[FRONT + 1] ^= 0xff - i;
        }
        assert_eq!(answer(1, &slots), (Decoded::Block(0x7f), block.clone()));
        slots[12][FRONT + 1] ^= 0x80;
        assert_eq!(answer(1, &slots), beyond(&block));
    }

    /// As many false pieces as the rule allows, the first ones, are corrected, and one more gives another block.
    #[test]
    fn false_pieces_at_the_edge() {
        for (n, t) in settings() {
            let block = some_block(t, 1);
            for present in t + 1..=n {
                let most = (present - t - 1) / 2;
                let mut slots = slots(n, t, &block);
                for slot in &mut slots[present..] {
                    slot[0] = 0;
                }
                for slot in &mut slots[..most] {
                    slot[FRONT] ^= 0x11;
                }
                let row = marks((0..most).chain(present..n));
                let expected = (Decoded::Block(row), block.clone());
                assert_eq!(answer(t, &slots), expected, "{n} {t} {present}");
                slots[most][FRONT] ^= 0x11;
                assert_ne!(answer(t, &slots).1, block, "{n} {t} {present}");
            }
        }
    }

    /// All bytes of a stripe are tried: at most one pair is right, and it is the answer.
    #[test]
    fn right_bytes_of_all() {
        let block = [0x0a, 0x14];
        let (n, t) = (6, 1);
        for (present, wrong) in (0..=n).flat_map(|p| (0..=p).map(move |w| (p, w))) {
            let mut slots = slots(n, t, &block);
            for slot in &mut slots[present..] {
                slot[0] = 0;
            }
            for slot in &mut slots[..wrong] {
                slot[FRONT] ^= 0x35;
            }
            let differing = |m: &[u8; 2]| {
                let differs = |&i: &usize| value(m, i as u8 + 1) != slots[i][FRONT];
                (0..present).filter(differs).collect::<Vec<_>>()
            };
            let right = |m: &[u8; 2]| 2 * differing(m).len() + t + 1 <= present;
            let all = (0..=u16::MAX).map(u16::to_le_bytes);
            let expected = match all.filter(right).collect::<Vec<_>>()[..] {
                [] => beyond(&block),
                [m] => {
                    let row = marks(differing(&m).into_iter().chain(present..n));
                    (Decoded::Block(row), m.to_vec())
                }
                _ => panic!("more than one"),
            };
            assert_eq!(answer(t, &slots), expected, "{present} {wrong}");
        }
    }

    /// With t or fewer present there is no block, with t + 1 there is.
    #[test]
    fn few_present() {
        for (n, t) in settings() {
            let block = some_block(t, 2);
            for present in 0..=t + 1 {
                for first in [0, n - present] {
                    let mut slots = slots(n, t, &block);
                    let absent = (0..n).filter(|i| !(first..first + present).contains(i));
                    for i in absent.clone() {
                        slots[i].fill(0);
                    }
                    let expected = if present > t {
                        (Decoded::Block(marks(absent)), block.clone())
                    } else {
                        beyond(&block)
                    };
                    assert_eq!(answer(t, &slots), expected, "{n} {t} {present}");
                }
            }
        }
    }

    /// What stands behind another first byte than 01 is not read: false bytes do no harm there, and true ones do not help. The slot is named.
    #[test]
    fn absent_bytes_are_not_read() {
        let block = some_block(1, 2);
        for first in (0..=255).filter(|&byte| byte != 1) {
            let mut slots = slots(4, 1, &block);
            slots[0][0] = first;
            slots[2] = vec![first, 1, 2, 0xee, 0xee];
            let expected = (Decoded::Block(0b0101), block.clone());
            assert_eq!(answer(1, &slots), expected);
            slots[1][0] = first;
            assert_eq!(answer(1, &slots), beyond(&block));
        }
    }

    /// Document 02, U11: a slot whose run number differs in either byte is dropped and named, with a true piece and with a false one.
    #[test]
    fn another_run_is_absent() {
        let block = some_block(1, 2);
        for other in [0, RUN ^ 1, RUN ^ 0x100, RUN.swap_bytes(), u16::MAX] {
            for change in [0, 0xff] {
                let mut slots = slots(4, 1, &block);
                for i in [0, 2] {
                    slots[i][1..FRONT].copy_from_slice(&other.to_le_bytes());
                    slots[i][FRONT] ^= change;
                }
                let expected = (Decoded::Block(0b0101), block.clone());
                assert_eq!(answer(1, &slots), expected, "{other}");
                // one true piece determines nothing
                slots[3][1..FRONT].copy_from_slice(&other.to_le_bytes());
                assert_eq!(answer(1, &slots), beyond(&block), "{other}");
            }
        }
    }

    /// The same slots decoded with each of two run numbers: each has its own block, and the slots of the other are named.
    #[test]
    fn each_run_has_its_block() {
        let (first, second) = (some_block(1, 3), vec![0x33; 6]);
        let mut slots = slots(7, 1, &first);
        for (slot, other) in slots[2..5]
            .iter_mut()
            .zip(&self::slots(7, 1, &second)[2..5])
        {
            *slot = slot_with(RUN + 1, &other[FRONT..]);
        }
        let decoded = |run| {
            let mut block = vec![0xff; 6];
            let answer = decode(7, 1, 3, run, &slots.concat(), &mut block);
            (answer, block)
        };
        assert_eq!(decoded(RUN), (Decoded::Block(0b001_1100), first));
        assert_eq!(decoded(RUN + 1), (Decoded::Block(0b110_0011), second));
        assert_eq!(decoded(RUN + 2), (Decoded::Beyond, vec![0; 6]));
    }

    /// Slots of 1 + k bytes, without run numbers, are refused.
    #[test]
    fn lengths_of_slots() {
        for (length, number) in [(8, 6), (15, 6), (16, 0), (17, 6)] {
            let answer = decode(4, 1, 1, 0x0101, &vec![1; length], &mut [0; 2]);
            let expected = match number {
                0 => Decoded::Block(0),
                number => Decoded::Refused(number),
            };
            assert_eq!(answer, expected, "{length}");
        }
    }

    #[test]
    fn settings_refused_or_taken() {
        let code = |n: u64, t: u64, k: u64| {
            let block = vec![0; (k * (t + 1)) as usize];
            encode(n, t, k, 1, &block, &mut vec![0; k as usize])
        };
        assert_eq!(code(3, 1, 1), 1);
        assert_eq!(code(4, 0, 1), 2);
        assert_eq!(code(4, 2, 1), 2);
        assert_eq!(code(7, 2, 129), 3);
        assert_eq!(code(7, 2, 128), 0);
    }

    /// A polynomial of degree at most t goes through its values at any t + 1 points.
    #[test]
    fn interpolation() {
        let m = [7, 0, 255, 3, 128, 90];
        let points: Vec<(u8, u8)> = [16, 2, 9, 1, 12, 5]
            .iter()
            .map(|&x| (x, value(&m, x)))
            .collect();
        assert_eq!(through(&points), m);
    }
}
