//! The message of a slot: random inboxes, run numbers, lengths and slot numbers, also huge ones.
use crate::compare::{Lent, Same, Tally};
use crate::inputs::{slot, EDGES};
use crate::random::Random;
use potekawhi::raw;
use reference::wire::{self, FRONT};

#[derive(Default)]
pub struct Counts {
    pub present: u64,
    pub absent: u64,
    /// Absent ones whose first byte is 01.
    pub other_run: u64,
}

pub fn case(tally: &mut Tally, random: &mut Random, counts: &mut Counts) -> Same<()> {
    let length = match random.below(8) {
        0 => 0,
        1 => random.pick(&EDGES),
        _ => random.within(1, 40),
    };
    let slots = random.within(0, 17);
    let run = random.run();
    let mut inbox = Vec::new();
    for _ in 0..slots {
        let message = random.bytes(length.min(40));
        inbox.extend(slot(random, run, &message, 6));
    }
    match random.below(4) {
        0 => {
            let more = random.below(40);
            inbox.extend(wire::slot_with(run, &[1; 40])[..more].to_vec());
        }
        1 => inbox.truncate(random.within(0, inbox.len())),
        _ => {}
    }
    for _ in 0..8 {
        let j = match random.below(8) {
            0 => 0,
            1 => random.pick(&EDGES),
            // a slot number whose end wraps around
            2 => (usize::MAX / length.saturating_add(FRONT)).wrapping_add(random.within(0, 3)),
            _ => random.within(1, slots + 2),
        };
        let lent = Lent::new(random, &inbox);
        let mut offset = random.number() as usize;
        let answer = raw::message(lent.bytes(), run, length, j, &mut offset);
        let message = wire::message(&inbox, run, length as u128, j as u128);
        let place = |text| {
            let bytes = inbox.len();
            format!("inbox {bytes}, run {run}, length {length}, j {j}: {text}")
        };
        // where the reference's part starts; 0 where there is none
        let held = j != 0 && j as u128 * (FRONT as u128 + length as u128) <= inbox.len() as u128;
        let slot = |j: usize| &inbox[(j - 1) * (FRONT + length)..][..FRONT];
        let present = held && wire::in_slot(slot(j), run).is_some();
        let start = if present {
            (j - 1) * (FRONT + length) + FRONT
        } else {
            0
        };
        tally
            .same("message's length", answer, message.len())
            .map_err(place)?;
        tally
            .same("message's offset", offset, start)
            .map_err(place)?;
        tally
            .same_bytes("message", &inbox[offset..offset + answer], message)
            .map_err(place)?;
        tally
            .same_lent("message's inbox", &lent, &inbox)
            .map_err(place)?;
        match present {
            true => counts.present += 1,
            false => counts.absent += 1,
        }
        counts.other_run += u64::from(held && !present && slot(j)[0] == 1);
    }
    Ok(())
}
