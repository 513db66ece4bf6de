//! Coding and the star beside an earlier version of the library, in one run: one from request U11 of document 02 on, whose decoding takes a run number
//! as today's does. Only with the feature `earlier`; build.rs gives the functions of that version their other names.
use crate::coding::Case;
use crate::random::Random;
use crate::stars;
use crate::timing::{in_turns, print_table, ratio, Side, Times};

extern "C" {
    fn earlier_encode(
        n: usize,
        t: usize,
        k: usize,
        number: usize,
        block: *const u8,
        block_length: usize,
        piece: *mut u8,
        piece_length: usize,
    ) -> u8;
    fn earlier_decode(
        n: usize,
        t: usize,
        k: usize,
        run: u16,
        slots: *const u8,
        slots_length: usize,
        block: *mut u8,
        block_length: usize,
        named: *mut u16,
    ) -> u8;
    fn earlier_star(
        n: usize,
        t: usize,
        rows: *const u8,
        rows_length: usize,
        sets: *mut u8,
        sets_length: usize,
    ) -> u8;
}

fn encode(n: usize, t: usize, k: usize, number: usize, block: &[u8], piece: &mut [u8]) -> u8 {
    // SAFETY: the pointers and lengths are those of slices, of which the written one overlaps no other.
    unsafe {
        earlier_encode(
            n,
            t,
            k,
            number,
            block.as_ptr(),
            block.len(),
            piece.as_mut_ptr(),
            piece.len(),
        )
    }
}

fn decode(
    n: usize,
    t: usize,
    k: usize,
    run: u16,
    slots: &[u8],
    block: &mut [u8],
    named: &mut u16,
) -> u8 {
    // SAFETY: the pointers and lengths are those of slices and of a number, of which those written overlap no other.
    unsafe {
        earlier_decode(
            n,
            t,
            k,
            run,
            slots.as_ptr(),
            slots.len(),
            block.as_mut_ptr(),
            block.len(),
            named,
        )
    }
}

fn star(n: usize, t: usize, rows: &[u8], sets: &mut [u8]) -> u8 {
    // SAFETY: the pointers and lengths are those of slices, of which the written one overlaps no other.
    unsafe {
        earlier_star(
            n,
            t,
            rows.as_ptr(),
            rows.len(),
            sets.as_mut_ptr(),
            sets.len(),
        )
    }
}

/// Each by the earlier version and by this one.
const ENCODE: [Side<Case>; 2] = [
    (|case| case.encode_by(encode), Case::test_coded),
    Case::ENCODE,
];
const DECODE: [Side<Case>; 2] = [
    (|case| case.decode_by(decode), Case::test_named),
    Case::LIBRARY,
];

/// Table 7: encoding and decoding beside the earlier version.
pub fn against_earlier() {
    let (t, k) = (5, 128);
    let mut random = Random::new(7);
    let mut case = |k, wrong: &[usize]| Case::new(&mut random, t, k, wrong);
    let shortest = in_turns(&mut [case(1, &[])], ENCODE);
    let longest = in_turns(&mut [case(k, &[])], ENCODE);
    let none = in_turns(&mut [case(k, &[])], DECODE);
    let wrong = in_turns(&mut [case(k, &[0, 1, 2, 3, 4])], DECODE);
    let silent = in_turns(&mut [case(k, &[]).without(0..t)], DECODE);
    let rows = [
        ("encode, k 1, ns", shortest, 1.0),
        ("encode, us", longest, 1e3),
        ("decode, none false, us", none, 1e3),
        ("decode, 1 to 5 false, us", wrong, 1e3),
        ("decode, 1 to 5 silent, us", silent, 1e3),
    ];
    let rows = rows.map(|(name, times, unit)| row(name, times, unit));
    let heading =
        "7. Coding beside an earlier version of the library, n 16, t 5, k 128 where the row does not say 1. Encoding is of all 16 pieces.
The false pieces are false in every byte. Both versions' decoding writes the marks of the false and the silent.
Pieces and block are filled with a5 before each call, on both sides, within the time.";
    print_table(heading, NAMES, &rows);
}

const NAMES: &str = " | earlier | min | max | now | min | max | earlier / now";

/// A row of a table: the times of both versions.
fn row(name: &str, [earlier, now]: [Times; 2], unit: f64) -> Vec<String> {
    let mut row = vec![name.to_string()];
    row.extend(earlier.cells(unit));
    row.extend(now.cells(unit));
    row.push(ratio(&earlier, &now));
    row
}

/// Table 8: the star of 16 controllers, t 5, beside the earlier version.
pub fn stars_against_earlier() {
    const STAR: [Side<stars::Case>; 2] = [
        (|case| case.find_by(star), stars::Case::test),
        stars::Case::LIBRARY,
    ];
    let rows: Vec<_> = stars::sixteen()
        .into_iter()
        .map(|(name, mut cases)| row(name, in_turns(&mut cases, STAR), 1e3))
        .collect();
    let heading =
        "8. Finding the star beside an earlier version of the library, n 16, t 5. Microseconds. The graphs are those of table 3.
The answer is filled with a5 before each call, on both sides, within the time.";
    print_table(heading, NAMES, &rows);
}
