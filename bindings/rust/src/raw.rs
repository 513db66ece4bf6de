//! The functions of include/potekawhi.h as they are, over numbers and slices. Nothing is tested before a call: every number and every
//! length may be given, as the header says. A slice is a valid pointer that is not null, and two slices of one call do not overlap where
//! one of them is written, so that the functions here are safe to call. This is the only module with unsafe code.

/// The header. Its numbers are the only ones written by hand; here they are read from it.
const HEADER: &[u8] = include_bytes!("../../../include/potekawhi.h");

/// The number that the header defines as `name`: the digits behind the name and a space, where these follow `#define` and a space.
const fn defined(name: &str) -> usize {
    let words = [b"#define ", name.as_bytes(), b" "];
    let mut start = 0;
    loop {
        let (mut at, mut word, mut same) = (start, 0, true);
        while word < words.len() {
            let mut i = 0;
            while i < words[word].len() {
                same = same && HEADER[at] == words[word][i];
                at += 1;
                i += 1;
            }
            word += 1;
        }
        if same {
            let mut number = 0;
            while HEADER[at].is_ascii_digit() {
                number = 10 * number + (HEADER[at] - b'0') as usize;
                at += 1;
            }
            return number;
        }
        start += 1;
    }
}

/// Constants with the numbers that the header defines, under the names there without `POTEKAWHI_`.
macro_rules! from_header {
    ($($type:ty: $($name:ident),+;)+) => {
        $($(
            #[doc = concat!("`POTEKAWHI_", stringify!($name), "`.")]
            pub const $name: $type = {
                let number = defined(concat!("POTEKAWHI_", stringify!($name)));
                assert!(number <= <$type>::MAX as usize);
                number as $type
            };
        )+)+
    };
}

from_header! {
    usize: STATE_LENGTH, ROWS_LENGTH, PAIRS_LENGTH, SETS_LENGTH;
    u8: OK, BAD_N, BAD_T, BAD_K, BAD_NUMBER, BAD_SENDER, BAD_LENGTH, BAD_STATE, FINISHED, BEYOND;
    u8: OUTCOME_OPEN, OUTCOME_AGREED, OUTCOME_NONE, OUTCOME_BEYOND;
}

extern "C" {
    fn potekawhi_start(
        n: usize,
        t: usize,
        k: usize,
        own: usize,
        sender: usize,
        run: u16,
        block: *const u8,
        block_length: usize,
        state: *mut u8,
        state_length: usize,
    ) -> u8;
    fn potekawhi_step(
        state: *mut u8,
        state_length: usize,
        block: *mut u8,
        block_length: usize,
        inbox: *const u8,
        inbox_length: usize,
        outbox: *mut u8,
        outbox_length: usize,
    ) -> u8;
    fn potekawhi_next_call(state: *const u8, state_length: usize) -> usize;
    fn potekawhi_outcome(state: *const u8, state_length: usize) -> u8;
    fn potekawhi_final_block(
        state: *const u8,
        state_length: usize,
        block: *const u8,
        block_length: usize,
        final_block: *mut u8,
        final_block_length: usize,
    ) -> u8;
    fn potekawhi_named(state: *const u8, state_length: usize) -> u16;
    fn potekawhi_message(
        inbox: *const u8,
        inbox_length: usize,
        run: u16,
        length: usize,
        j: usize,
        offset: *mut usize,
    ) -> usize;
    fn potekawhi_encode(
        n: usize,
        t: usize,
        k: usize,
        number: usize,
        block: *const u8,
        block_length: usize,
        piece: *mut u8,
        piece_length: usize,
    ) -> u8;
    fn potekawhi_decode(
        n: usize,
        t: usize,
        k: usize,
        run: u16,
        slots: *const u8,
        slots_length: usize,
        block: *mut u8,
        block_length: usize,
        named: *mut u16,
    ) -> u8;
    fn potekawhi_star(
        n: usize,
        t: usize,
        rows: *const u8,
        rows_length: usize,
        sets: *mut u8,
        sets_length: usize,
    ) -> u8;
    fn potekawhi_missing_pairs(
        n: usize,
        rows: *const u8,
        rows_length: usize,
        pairs: *mut u8,
        pairs_length: usize,
    ) -> u8;
    fn potekawhi_star_of_pairs(
        n: usize,
        t: usize,
        pairs: *const u8,
        pairs_length: usize,
        sets: *mut u8,
        sets_length: usize,
    ) -> u8;
    fn potekawhi_block_length(n: usize, t: usize, k: usize) -> usize;
    fn potekawhi_message_length(n: usize, t: usize, k: usize, c: usize) -> usize;
    fn potekawhi_inbox_length(n: usize, t: usize, k: usize, c: usize) -> usize;
    fn potekawhi_outbox_length(n: usize, t: usize, k: usize, c: usize) -> usize;
    fn potekawhi_calls(t: usize) -> usize;
}

/// `potekawhi_start`.
#[allow(clippy::too_many_arguments)] // those of the header
pub fn start(
    n: usize,
    t: usize,
    k: usize,
    own: usize,
    sender: usize,
    run: u16,
    block: &[u8],
    state: &mut [u8],
) -> u8 {
    // SAFETY: the pointers and lengths are those of slices, of which the written one overlaps no other.
    unsafe {
        potekawhi_start(
            n,
            t,
            k,
            own,
            sender,
            run,
            block.as_ptr(),
            block.len(),
            state.as_mut_ptr(),
            state.len(),
        )
    }
}

/// `potekawhi_step`.
pub fn step(state: &mut [u8], block: &mut [u8], inbox: &[u8], outbox: &mut [u8]) -> u8 {
    // SAFETY: the pointers and lengths are those of slices, of which the written ones overlap no other.
    unsafe {
        potekawhi_step(
            state.as_mut_ptr(),
            state.len(),
            block.as_mut_ptr(),
            block.len(),
            inbox.as_ptr(),
            inbox.len(),
            outbox.as_mut_ptr(),
            outbox.len(),
        )
    }
}

/// `potekawhi_next_call`.
pub fn next_call(state: &[u8]) -> usize {
    // SAFETY: the pointer and the length are those of a slice, which is only read.
    unsafe { potekawhi_next_call(state.as_ptr(), state.len()) }
}

/// `potekawhi_outcome`.
pub fn outcome(state: &[u8]) -> u8 {
    // SAFETY: the pointer and the length are those of a slice, which is only read.
    unsafe { potekawhi_outcome(state.as_ptr(), state.len()) }
}

/// `potekawhi_final_block`.
pub fn final_block(state: &[u8], block: &[u8], final_block: &mut [u8]) -> u8 {
    // SAFETY: the pointers and lengths are those of slices, of which the written one overlaps no other.
    unsafe {
        potekawhi_final_block(
            state.as_ptr(),
            state.len(),
            block.as_ptr(),
            block.len(),
            final_block.as_mut_ptr(),
            final_block.len(),
        )
    }
}

/// `potekawhi_named`.
pub fn named(state: &[u8]) -> u16 {
    // SAFETY: the pointer and the length are those of a slice, which is only read.
    unsafe { potekawhi_named(state.as_ptr(), state.len()) }
}

/// `potekawhi_message`: answers the length and writes the offset.
pub fn message(inbox: &[u8], run: u16, length: usize, j: usize, offset: &mut usize) -> usize {
    // SAFETY: the pointer and the length are those of a slice, which is only read; the offset is a number of its own.
    unsafe { potekawhi_message(inbox.as_ptr(), inbox.len(), run, length, j, offset) }
}

/// `potekawhi_encode`.
pub fn encode(n: usize, t: usize, k: usize, number: usize, block: &[u8], piece: &mut [u8]) -> u8 {
    // SAFETY: the pointers and lengths are those of slices, of which the written one overlaps no other.
    unsafe {
        potekawhi_encode(
            n,
            t,
            k,
            number,
            block.as_ptr(),
            block.len(),
            piece.as_mut_ptr(),
            piece.len(),
        )
    }
}

/// `potekawhi_decode`: writes the block and the marks.
pub fn decode(
    n: usize,
    t: usize,
    k: usize,
    run: u16,
    slots: &[u8],
    block: &mut [u8],
    named: &mut u16,
) -> u8 {
    // SAFETY: the pointers and lengths are those of slices, of which the written one overlaps no other; the marks are a number of their own.
    unsafe {
        potekawhi_decode(
            n,
            t,
            k,
            run,
            slots.as_ptr(),
            slots.len(),
            block.as_mut_ptr(),
            block.len(),
            named,
        )
    }
}

/// `potekawhi_star`.
pub fn star(n: usize, t: usize, rows: &[u8], sets: &mut [u8]) -> u8 {
    // SAFETY: the pointers and lengths are those of slices, of which the written one overlaps no other.
    unsafe {
        potekawhi_star(
            n,
            t,
            rows.as_ptr(),
            rows.len(),
            sets.as_mut_ptr(),
            sets.len(),
        )
    }
}

/// `potekawhi_missing_pairs`.
pub fn missing_pairs(n: usize, rows: &[u8], pairs: &mut [u8]) -> u8 {
    // SAFETY: the pointers and lengths are those of slices, of which the written one overlaps no other.
    unsafe {
        potekawhi_missing_pairs(
            n,
            rows.as_ptr(),
            rows.len(),
            pairs.as_mut_ptr(),
            pairs.len(),
        )
    }
}

/// `potekawhi_star_of_pairs`.
pub fn star_of_pairs(n: usize, t: usize, pairs: &[u8], sets: &mut [u8]) -> u8 {
    // SAFETY: the pointers and lengths are those of slices, of which the written one overlaps no other.
    unsafe {
        potekawhi_star_of_pairs(
            n,
            t,
            pairs.as_ptr(),
            pairs.len(),
            sets.as_mut_ptr(),
            sets.len(),
        )
    }
}

/// `potekawhi_block_length`.
pub fn block_length(n: usize, t: usize, k: usize) -> usize {
    // SAFETY: numbers only.
    unsafe { potekawhi_block_length(n, t, k) }
}

/// `potekawhi_message_length`.
pub fn message_length(n: usize, t: usize, k: usize, c: usize) -> usize {
    // SAFETY: numbers only.
    unsafe { potekawhi_message_length(n, t, k, c) }
}

/// `potekawhi_inbox_length`.
pub fn inbox_length(n: usize, t: usize, k: usize, c: usize) -> usize {
    // SAFETY: numbers only.
    unsafe { potekawhi_inbox_length(n, t, k, c) }
}

/// `potekawhi_outbox_length`.
pub fn outbox_length(n: usize, t: usize, k: usize, c: usize) -> usize {
    // SAFETY: numbers only.
    unsafe { potekawhi_outbox_length(n, t, k, c) }
}

/// `potekawhi_calls`.
pub fn calls(t: usize) -> usize {
    // SAFETY: numbers only.
    unsafe { potekawhi_calls(t) }
}
