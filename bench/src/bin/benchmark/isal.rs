//! Encoding beside the erasure code of Intel's ISA-L (Debian: libisal-dev), whose field is that of the library. Only with the feature `isal`.
//! ISA-L codes columns, a byte of each stripe, and works on many bytes at a time; the library codes a block stripe by stripe.
use crate::random::Random;
use crate::timing::{in_turns, print_table, ratio, Side, BEFORE};
use potekawhi::raw;
use reference::code;
use std::ffi::c_int;
use std::hint::black_box;

const N: usize = 16;
const T: usize = 5;

extern "C" {
    fn ec_init_tables(k: c_int, rows: c_int, a: *mut u8, gftbls: *mut u8);
    fn ec_encode_data(
        len: c_int,
        k: c_int,
        rows: c_int,
        gftbls: *mut u8,
        data: *mut *mut u8,
        coding: *mut *mut u8,
    );
}

/// A block, the same as t + 1 columns, its pieces by the reference, and what a call writes.
struct Case {
    k: usize,
    block: Vec<u8>,
    columns: Vec<Vec<u8>>,
    tables: Vec<u8>,
    pieces: Vec<Vec<u8>>,
    coded: Vec<Vec<u8>>,
}

/// The product of two elements: polynomials reduced by 11d.
fn product(a: u8, b: u8) -> u8 {
    let (mut a, mut sum) = (u16::from(a), 0);
    for bit in 0..8 {
        if b >> bit & 1 == 1 {
            sum ^= a;
        }
        a <<= 1;
        if a > 0xff {
            a ^= 0x11d;
        }
    }
    sum as u8
}

/// ISA-L's tables for the powers 0 to t of the points 1 to n.
fn tables() -> Vec<u8> {
    let mut powers = Vec::new();
    for point in 1..=N as u8 {
        let mut power = 1;
        for _ in 0..=T {
            powers.push(power);
            power = product(power, point);
        }
    }
    let mut tables = vec![0; 32 * (T + 1) * N];
    // SAFETY: `powers` has (t + 1) × n bytes, and `tables` 32 for each of them, as ISA-L asks.
    unsafe {
        ec_init_tables(
            T as c_int + 1,
            N as c_int,
            powers.as_mut_ptr(),
            tables.as_mut_ptr(),
        );
    }
    tables
}

impl Case {
    const LIBRARY: Side<Case> = (Case::encode, Case::test);
    const ISAL: Side<Case> = (Case::encode_by_isal, Case::test);

    fn new(random: &mut Random, k: usize) -> Case {
        let block = random.bytes(k * (T + 1));
        let column = |j| block.iter().skip(j).step_by(T + 1).copied().collect();
        let mut pieces = vec![vec![0; k]; N];
        for (piece, number) in pieces.iter_mut().zip(1..) {
            let answer = code::encode(N as u64, T as u64, k as u64, number, &block, piece);
            assert_eq!(answer, 0);
        }
        Case {
            k,
            columns: (0..=T).map(column).collect(),
            tables: tables(),
            coded: vec![vec![BEFORE; k]; N],
            pieces,
            block,
        }
    }

    fn clear(&mut self) {
        self.coded.iter_mut().for_each(|piece| piece.fill(BEFORE));
    }

    fn encode(&mut self) {
        self.clear();
        let block = black_box(&self.block);
        for (piece, number) in black_box(&mut self.coded).iter_mut().zip(1..) {
            assert_eq!(raw::encode(N, T, self.k, number, block, piece), 0);
        }
    }

    fn encode_by_isal(&mut self) {
        self.clear();
        let pointer = |bytes: &mut Vec<u8>| bytes.as_mut_ptr();
        let mut data: Vec<*mut u8> = self.columns.iter_mut().map(pointer).collect();
        let mut coding: Vec<*mut u8> = black_box(&mut self.coded).iter_mut().map(pointer).collect();
        // SAFETY: t + 1 columns and n pieces of k bytes each, and the tables for them; ISA-L writes the pieces only.
        unsafe {
            ec_encode_data(
                self.k as c_int,
                T as c_int + 1,
                N as c_int,
                self.tables.as_mut_ptr(),
                data.as_mut_ptr(),
                coding.as_mut_ptr(),
            );
        }
    }

    fn test(&self) {
        assert_eq!(self.coded, self.pieces);
    }
}

/// Table 6: encoding beside ISA-L as k grows.
pub fn against_isal() {
    let mut random = Random::new(6);
    let mut rows = Vec::new();
    for k in (0..=7).map(|power| 1 << power) {
        let mut cases = [Case::new(&mut random, k)];
        let [library, isal] = in_turns(&mut cases, [Case::LIBRARY, Case::ISAL]);
        let length = (k * (T + 1)) as f64;
        let mut row = vec![k.to_string()];
        row.extend(library.cells(length));
        row.extend(isal.cells(length));
        row.push(ratio(&library, &isal));
        rows.push(row);
    }
    let heading =
        "6. Encoding all 16 pieces beside ISA-L's erasure code, n 16, t 5. Nanoseconds for a byte of the block.
ISA-L gets the block as t + 1 columns, and its tables, made outside the time. Pieces are filled with a5 before each call, within the time.";
    let names = "k | library | min | max | ISA-L | min | max | library / ISA-L";
    print_table(heading, names, &rows);
}
