//! Rounds, calls, message lengths and slots (document 01, 'The house', 'Rounds'; slots with a run number by document 02, U11). Numbers are wide, so
//! that nothing overflows.

/// The rows of document 01's table of rounds, from 1: the row of round c, by listing all rounds of a run.
pub fn round_row(t: u128, c: u128) -> usize {
    if c < 1 || c > 3 * t + 8 {
        return 0;
    }
    if c <= 3 {
        return c as usize;
    }
    if c == 3 * t + 7 {
        return 7;
    }
    if c == 3 * t + 8 {
        return 8;
    }
    let p = (c - 1) / 3;
    assert!(p >= 1 && p <= t + 1);
    match c - 3 * p {
        1 => 4,
        2 => 5,
        3 => 6,
        _ => unreachable!(),
    }
}

/// The calls, from 1: 1, 2, 3, 4, after 3p + 1, after 3p + 2, after 3p + 3 within the vote, 3t + 7, 3t + 8, last.
pub fn call_row(t: u128, c: u128) -> usize {
    if c < 1 || c > 3 * t + 9 {
        return 0;
    }
    if c <= 4 {
        return c as usize;
    }
    if c >= 3 * t + 7 {
        return (c - (3 * t + 7)) as usize + 8;
    }
    // call c reads round c - 1
    match round_row(t, c - 1) {
        4 => 5,
        5 => 6,
        6 => 7,
        _ => unreachable!(),
    }
}

pub fn settings_hold(n: u128, t: u128, k: u128) -> bool {
    (4..=16).contains(&n) && t >= 1 && 3 * t + 1 <= n && (1..=128).contains(&k)
}

pub fn block_length(n: u128, t: u128, k: u128) -> u128 {
    if settings_hold(n, t, k) {
        k * (t + 1)
    } else {
        0
    }
}

/// The length column of the table.
pub fn message_length(n: u128, t: u128, k: u128, c: u128) -> u128 {
    if !settings_hold(n, t, k) {
        return 0;
    }
    match round_row(t, c) {
        1 => k * (t + 1),
        2 => 2 * k,
        3 => 2,
        4 => 2 * n,
        5 => 4 * n,
        6 => 2 * n,
        7 => k,
        8 => k,
        _ => 0,
    }
}

/// The bytes of a slot in front of its message: the first byte and the two of the run number.
pub const FRONT: usize = 3;

/// n slots.
pub fn box_length(n: u128, t: u128, k: u128, c: u128) -> u128 {
    match message_length(n, t, k, c) {
        0 => 0,
        len => n * (FRONT as u128 + len),
    }
}

/// The message of a slot in a run; none if the slot is absent: its first byte is not 01, or its run number, low byte first, is another one.
pub fn in_slot(slot: &[u8], run: u16) -> Option<&[u8]> {
    match slot {
        [1, low, high, message @ ..] if [*low, *high] == run.to_le_bytes() => Some(message),
        _ => None,
    }
}

/// A slot with a message, written in full.
pub fn slot_with(run: u16, message: &[u8]) -> Vec<u8> {
    [&[1], &run.to_le_bytes()[..], message].concat()
}

/// The message of slot j; the empty part if there is none.
pub fn message(inbox: &[u8], run: u16, len: u128, j: u128) -> &[u8] {
    let width = FRONT as u128 + len;
    let end = j * width;
    if j == 0 || end > inbox.len() as u128 {
        return &[];
    }
    in_slot(&inbox[(end - width) as usize..end as usize], run).unwrap_or_default()
}

/// Slot j of an outbox written with a message, or nothing where that can't be.
pub fn send_one(outbox: &mut [u8], run: u16, len: usize, j: usize, m: &[u8]) {
    let width = FRONT + len;
    if j == 0 || j * width > outbox.len() || m.len() != len {
        return;
    }
    outbox[(j - 1) * width..j * width].copy_from_slice(&slot_with(run, m));
}

#[cfg(test)]
mod tests {
    use super::*;

    #[test]
    fn example_j() {
        assert_eq!((0..100).filter(|&c| round_row(1, c) > 0).count(), 11);
        assert_eq!((0..100).filter(|&c| round_row(5, c) > 0).count(), 23);
    }
    /// 258 is 02 01, the low byte first. A slot that carries a number which differs in either byte is absent, and so is one with another first
    /// byte.
    #[test]
    fn slots_of_a_run() {
        let mut outbox = [7; 15];
        send_one(&mut outbox, 258, 2, 2, &[5, 6]);
        assert_eq!(outbox[5..10], [1, 2, 1, 5, 6]);
        assert_eq!([&outbox[..5], &outbox[10..]].concat(), [7; 10]);
        assert_eq!(message(&outbox, 258, 2, 2), [5, 6]);
        for other in (0..=u16::MAX).filter(|&run| run != 258) {
            assert!(message(&outbox, other, 2, 2).is_empty(), "{other}");
        }
        for first in (0..=255).filter(|&byte| byte != 1) {
            outbox[5] = first;
            assert!(message(&outbox, 258, 2, 2).is_empty(), "{first}");
        }
    }

    #[test]
    fn each_run_number_is_read_as_written() {
        for run in 0..=u16::MAX {
            assert_eq!(in_slot(&slot_with(run, &[9]), run), Some(&[9][..]));
            assert_eq!(in_slot(&slot_with(run, &[9]), run ^ 1), None);
            assert_eq!(in_slot(&slot_with(run, &[9]), run ^ 0x100), None);
        }
    }

    /// Messages of round 1 have 2 bytes, so that each slot of its boxes has 5.
    #[test]
    fn lengths_of_boxes() {
        assert_eq!(message_length(4, 1, 1, 1), 2);
        assert_eq!(box_length(4, 1, 1, 1), 20);
        assert_eq!(box_length(16, 5, 128, 1), 16 * (3 + 768));
        assert_eq!((box_length(4, 1, 1, 0), box_length(4, 1, 1, 12)), (0, 0));
    }
}
