//! Differential tests of the proved library against the reference, which share no code. Arguments: a seed, and a factor, which may be a
//! fraction, by which the numbers of cases are multiplied. It prints a line for each kind of test and a last line with the number of
//! comparisons and of differences; the exit code is 1 if there is a difference.
mod coding;
mod compare;
mod damaged;
mod faulty;
mod inputs;
mod lengths;
mod messages;
mod random;
mod stars;
mod starts;
mod state;
mod system;
mod systems;

use compare::{Same, Tally};
use random::Random;
use std::process::ExitCode;
use std::time::Instant;

/// The numbers of cases at factor 1.
const SYSTEMS: u64 = 12_000;
const DAMAGED: u64 = 200_000;
const STARTS: u64 = starts::COMBINATIONS;
const ENCODES: u64 = 40_000;
const DECODES: u64 = 50_000;
const PARTLY: u64 = 11 * coding::EVERY_CHOICE;
const STARS: u64 = 5_250;
const MESSAGES: u64 = 40_000;

struct Run {
    seed: u64,
    factor: f64,
    tally: Tally,
    differences: u64,
    kinds: u64,
    since: Instant,
}

impl Run {
    /// The cases of a kind. A case ends at its first difference; the first one of the kind is printed.
    fn cases(
        &mut self,
        kind: &str,
        count: u64,
        mut case: impl FnMut(&mut Tally, &mut Random, u64) -> Same<()>,
    ) {
        self.kinds += 1;
        let mut differences = 0;
        for number in 1..=(count as f64 * self.factor) as u64 {
            let mut random = Random::new(self.seed, self.kinds, number);
            if let Err(text) = case(&mut self.tally, &mut random, number) {
                if differences == 0 {
                    println!("{kind}: seed {}, case {number}: {text}", self.seed);
                }
                differences += 1;
            }
        }
        self.differences += differences;
    }

    fn line(&mut self, text: String) {
        println!("{text} ({:.1} s)", self.since.elapsed().as_secs_f64());
        self.since = Instant::now();
    }
}

fn main() -> ExitCode {
    let arguments: Vec<String> = std::env::args().skip(1).collect();
    let seed = arguments.first().map_or(Some(1), |text| text.parse().ok());
    let factor = arguments.get(1).map_or(Some(1.0), |text| text.parse().ok());
    let (Some(seed), Some(factor), ..=2) = (seed, factor, arguments.len()) else {
        eprintln!("usage: differential [SEED [FACTOR]]");
        return ExitCode::from(2);
    };
    println!("seed {seed}, factor {factor}");
    let mut run = Run {
        seed,
        factor,
        tally: Tally::default(),
        differences: 0,
        kinds: 0,
        since: Instant::now(),
    };

    let mut systems = systems::Counts::default();
    run.cases("systems", SYSTEMS, |tally, random, _| {
        systems::case(tally, random, &mut systems)
    });
    run.line(format!(
        "systems: {}, of them {} with at most t faulty controllers: {} of these with a correct sender, {} without a sender and with one block at all \
         starts, {} without a sender and with several, of which {} agreed; runs of correct controllers: {}, agreed {}, none {}, beyond {}; calls {}, \
         outside a core {}; refused steps {}; with at most t faulty, runs that name somebody {}, systems in which not all name the same {}, that agreed \
         on a block held by t + 1 after call 2 and no more {}, with a correct controller outside the core {}; with more than t, runs that name a \
         correct controller {}; systems run again {}, slots of another run that came to correct controllers {}, of them late ones of the run before {}, \
         with at most t faulty runs that name somebody by such a slot {}",
        systems.systems,
        systems.within_t,
        systems.correct_sender,
        systems.alike,
        systems.unlike,
        systems.unlike_agreed,
        systems.runs,
        systems.agreed,
        systems.none,
        systems.beyond,
        systems.calls,
        systems.outside,
        systems.refused,
        systems.naming,
        systems.naming_apart,
        systems.fewest_holders,
        systems.correct_outside,
        systems.naming_correct,
        systems.second_runs,
        systems.other_run,
        systems.late,
        systems.naming_other_run
    ));

    let mut damaged = damaged::Counts::default();
    run.cases("damaged states", DAMAGED, |tally, random, _| {
        damaged::case(tally, random, &systems.snapshots, &mut damaged)
    });
    run.line(format!(
        "damaged states: {}; steps carried out {}, by kind of call {:?}; refused 6: {}, 7: {}, 8: {}; on states that name somebody: calls but \
         the last {}, last calls {}, refused {}; carried out with slots of another run {}",
        damaged.states,
        damaged.numbers[0],
        damaged.calls,
        damaged.numbers[6],
        damaged.numbers[7],
        damaged.numbers[8],
        damaged.naming[0],
        damaged.naming[1],
        damaged.naming[2],
        damaged.other_run
    ));

    let mut starts = starts::Counts::default();
    run.cases("starts", STARTS, |tally, random, number| {
        starts::case(tally, random, number, &mut starts)
    });
    run.line(format!(
        "starts: carried out {}, refused 1 to 6: {:?}",
        starts.numbers[0],
        &starts.numbers[1..]
    ));

    let mut coding = coding::Counts::default();
    run.cases("encode", ENCODES, |tally, random, _| {
        coding::encode(tally, random, &mut coding)
    });
    let all = coding::EVERY_PIECE;
    run.cases("encode, every piece", all, |tally, random, number| {
        coding::encode_piece(tally, random, number, &mut coding)
    });
    run.line(format!(
        "encode: {} pieces, {} refused",
        coding.pieces, coding.encode_refused
    ));
    run.cases("decode", DECODES, |tally, random, _| {
        coding::decode(tally, random, &mut coding)
    });
    let every_count = coding::every_count();
    let all = every_count.len() as u64;
    run.cases("decode, every count", all, |tally, random, number| {
        coding::decode_count(tally, random, every_count[number as usize - 1], &mut coding)
    });
    run.cases("decode, some stripes", PARTLY, |tally, random, number| {
        coding::decode_partly(tally, random, number, &mut coding)
    });
    run.line(format!(
        "decode: {} blocks, of them {} with more than t false pieces and {} with more than t absent, {} with marks, {} with more than t, {} with \
         that of a slot whose first piece byte is true, {} with pieces false in some stripes only, {} with more of these than a stripe may have, {} with \
         the mark of a slot of another run, {} of one that has the true piece; {} beyond, of them {} with at most t present, {} of these with more of \
         any run; {} refused",
        coding.blocks,
        coding.many_false,
        coding.many_absent,
        coding.marked,
        coding.many_marked,
        coding.marked_later,
        coding.partly,
        coding.many_partly,
        coding.other_run,
        coding.other_run_true,
        coding.beyonds,
        coding.few_present,
        coding.few_of_run,
        coding.decode_refused
    ));

    let mut stars = stars::Counts::default();
    run.cases("star", STARS, |tally, random, number| {
        stars::case(tally, random, number, &mut stars)
    });
    run.line(format!(
        "star: {} with a core, {} without, {} refused; of any 120 bits {}",
        stars.cores, stars.without, stars.refused, stars.bits
    ));

    let mut messages = messages::Counts::default();
    run.cases("message", MESSAGES, |tally, random, _| {
        messages::case(tally, random, &mut messages)
    });
    run.line(format!(
        "message: {} present, {} absent or not held, {} of them of another run",
        messages.present, messages.absent, messages.other_run
    ));

    let before = run.tally.comparisons;
    let factor = std::mem::replace(&mut run.factor, 1.0);
    run.cases("lengths", 1, |tally, _, _| lengths::all(tally));
    run.factor = factor;
    let lengths = run.tally.comparisons - before;
    run.line(format!("lengths: {lengths} compared"));

    println!(
        "{} comparisons, {} differences",
        run.tally.comparisons, run.differences
    );
    ExitCode::from(u8::from(run.differences > 0))
}
