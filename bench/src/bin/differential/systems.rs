//! Whole systems: every controller is run on both sides from start to end; the faulty ones too, whose slots are then replaced. Some are run again, and
//! then slots of the first run come late.
use crate::compare::{self, wrong_length, Same, Start, Tally};
use crate::faulty::{self, Behaviour};
use crate::inputs::of_another_run;
use crate::random::Random;
use crate::state;
use crate::system::{Controller, System};
use potekawhi::raw;
use reference::controller::Outcome;

/// A state before a call, with what it is lent.
#[derive(Clone)]
pub struct Snapshot {
    pub bytes: Vec<u8>,
    pub block: Vec<u8>,
    pub inbox: Vec<u8>,
}

/// How many systems and calls there were, and how they ended.
#[derive(Default)]
pub struct Counts {
    pub systems: u64,
    pub within_t: u64,
    pub correct_sender: u64,
    /// Within t, without a sender: systems whose correct controllers started with one block, and with several; of the latter, those that agreed.
    pub alike: u64,
    pub unlike: u64,
    pub unlike_agreed: u64,
    pub runs: u64,
    pub calls: u64,
    pub refused: u64,
    pub agreed: u64,
    pub none: u64,
    pub beyond: u64,
    /// Calls 3t + 8 of controllers outside a core.
    pub outside: u64,
    /// Within t: runs of correct controllers that name somebody, and systems in which they do not all name the same.
    pub naming: u64,
    pub naming_apart: u64,
    /// Beyond t: runs of correct controllers that name a correct one.
    pub naming_correct: u64,
    /// Within t: systems that agreed on a block which t + 1 correct controllers held after call 2, and no more.
    pub fewest_holders: u64,
    /// Within t, with a core: systems in which some correct controller is not in it.
    pub correct_outside: u64,
    /// Systems that have a run before them; slots of another run that arrive at correct controllers, and those of them that carry the number of that
    /// run; within t and agreed, runs of correct controllers that name somebody by such a slot.
    pub second_runs: u64,
    pub other_run: u64,
    pub late: u64,
    pub naming_other_run: u64,
    pub snapshots: Vec<Snapshot>,
}

const MOST_SNAPSHOTS: usize = 20_000;

impl Counts {
    /// Now and then keeps what a step is given.
    fn snapshot(&mut self, random: &mut Random, bytes: &[u8], block: &[u8], inbox: &[u8]) {
        if self.snapshots.len() < MOST_SNAPSHOTS && random.one_in(40) {
            self.snapshots.push(Snapshot {
                bytes: bytes.to_vec(),
                block: block.to_vec(),
                inbox: inbox.to_vec(),
            });
        }
    }
}

/// A run of a system.
struct Run {
    system: System,
    /// How each controller behaves if it is faulty.
    behaviours: Vec<Behaviour>,
    /// The block of each controller after call 2.
    held: Vec<Vec<u8>>,
    /// For each controller the marks of the slots of another run in the last round.
    other_run: Vec<u16>,
    /// The number of the run before.
    before: Option<u16>,
}

impl Run {
    fn new(random: &mut Random, system: System, before: Option<u16>) -> Run {
        // mostly faulty from the first round on, else all from one later round on
        let first = if random.one_in(5) {
            random.within(2, 3 * system.t + 8)
        } else {
            1
        };
        let behaviours = (0..system.n)
            .map(|_| Behaviour::new(random, first, before.is_some()))
            .collect();
        Run {
            system,
            behaviours,
            held: Vec::new(),
            other_run: vec![0; 16],
            before,
        }
    }

    /// Counts the slots of another run in the inbox of a correct controller, and keeps their marks.
    fn note_other_run(&mut self, counts: &mut Counts, i: usize, inbox: &[u8]) {
        let (n, run) = (self.system.n, self.system.run);
        let mut marks = 0;
        for (j, slot) in inbox.chunks((inbox.len() / n).max(1)).enumerate() {
            if of_another_run(slot, run) {
                marks |= 1 << j;
                counts.other_run += 1;
                let late = self.before.map(u16::to_le_bytes);
                counts.late += u64::from(late.is_some_and(|run| slot[1..3] == run));
            }
        }
        self.other_run[i] = marks;
    }

    /// The inbox of each controller after a round.
    fn inboxes(&self, random: &mut Random, round: usize) -> Vec<Vec<u8>> {
        let mut inboxes = vec![Vec::new(); self.system.n];
        for from in 1..=self.system.n {
            let slots = if self.system.is_faulty(from) {
                faulty::slots(
                    random,
                    &self.behaviours[from - 1],
                    &self.system,
                    round,
                    from,
                )
            } else {
                (1..=self.system.n)
                    .map(|to| self.system.sent(round, from, to).to_vec())
                    .collect()
            };
            for (inbox, slot) in inboxes.iter_mut().zip(slots) {
                inbox.extend(slot);
            }
        }
        inboxes
    }

    fn start(&mut self, tally: &mut Tally, random: &mut Random) -> Same<()> {
        for own in 1..=self.system.n {
            let block = self.system.first_block(random, own);
            let settings = Start {
                n: self.system.n,
                t: self.system.t,
                k: self.system.k,
                own,
                sender: self.system.sender,
                run: self.system.run,
            };
            let (number, state, bytes) =
                compare::start(tally, random, settings, &block, state::LENGTH)
                    .map_err(|text| format!("controller {own}: {text}"))?;
            tally.holds("a start with right settings is carried out", number == 0)?;
            self.system.controllers.push(Controller {
                state,
                bytes,
                block,
            });
        }
        Ok(())
    }

    /// A step with a wrong length, which changes nothing.
    fn refused(
        &mut self,
        tally: &mut Tally,
        random: &mut Random,
        i: usize,
        inbox: &[u8],
        outbox: usize,
    ) -> Same<()> {
        let controller = &self.system.controllers[i];
        let mut bytes = controller.bytes.clone();
        let mut block = controller.block.clone();
        let mut inbox = inbox.to_vec();
        let mut outbox = outbox;
        let which = random.within(1, 15);
        if which & 1 == 1 {
            block.resize(wrong_length(random, block.len()), 1);
        }
        if which & 2 == 2 {
            inbox.resize(wrong_length(random, inbox.len()), 1);
        }
        if which & 4 == 4 {
            outbox = wrong_length(random, outbox);
        }
        if which & 8 == 8 {
            bytes.resize(wrong_length(random, bytes.len()), 0);
        }
        let after = compare::step(
            tally,
            random,
            &controller.state,
            &bytes,
            &block,
            &inbox,
            outbox,
        )?;
        tally.same("a step with a wrong length", after.number, 6)
    }

    /// The state and block that a step left are those of the next one; a refused step left them as they were.
    fn call(
        &mut self,
        tally: &mut Tally,
        random: &mut Random,
        counts: &mut Counts,
        c: usize,
    ) -> Same<()> {
        let inboxes = match c {
            1 => vec![Vec::new(); self.system.n],
            _ => self.inboxes(random, c - 1),
        };
        let mut outboxes = Vec::new();
        for (i, inbox) in inboxes.iter().enumerate() {
            let place = |text| format!("controller {}, call {c}: {text}", i + 1);
            let outbox = self.system.controllers[i].state.box_length(c);
            if !self.system.is_faulty(i + 1) {
                self.note_other_run(counts, i, inbox);
            }
            if random.one_in(16) {
                counts.refused += 1;
                self.refused(tally, random, i, inbox, outbox)
                    .map_err(place)?;
            }
            let controller = &mut self.system.controllers[i];
            counts.snapshot(random, &controller.bytes, &controller.block, inbox);
            let Controller {
                state,
                bytes,
                block,
            } = controller;
            let after =
                compare::step(tally, random, state, bytes, block, inbox, outbox).map_err(place)?;
            tally
                .holds("a step of a run is carried out", after.number == 0)
                .map_err(place)?;
            counts.calls += 1;
            let core = after.state.core;
            if c == 3 * self.system.t + 8 && core != 0 && core >> i & 1 == 0 {
                counts.outside += 1;
            }
            *controller = Controller {
                state: after.state,
                bytes: after.bytes,
                block: after.block,
            };
            outboxes.push(after.outbox);
        }
        self.system.outboxes.push(outboxes);
        if c == 2 {
            let blocks = self.system.controllers.iter().map(|c| c.block.clone());
            self.held = blocks.collect();
        }
        if c >= 3 * self.system.t + 7 && self.within_t() {
            self.cores(tally, counts, c)?;
        }
        Ok(())
    }

    fn within_t(&self) -> bool {
        self.system.faulty.count_ones() as usize <= self.system.t
    }

    /// If the sender is correct, every correct controller is in the core of each, from call 3t + 7 on.
    fn cores(&self, tally: &mut Tally, counts: &mut Counts, c: usize) -> Same<()> {
        let System { n, sender, .. } = self.system;
        let correct = u16::MAX >> (16 - n) & !self.system.faulty;
        let mut outside = false;
        for i in (1..=n).filter(|&i| !self.system.is_faulty(i)) {
            let core = self.system.state(i).core;
            if sender != 0 && !self.system.is_faulty(sender) {
                tally.holds("all correct controllers in the core", correct & !core == 0)?;
            }
            outside |= core != 0 && correct & !core != 0;
        }
        counts.correct_outside += u64::from(outside && c == 3 * self.system.t + 9);
        Ok(())
    }

    /// A block that is agreed on was held by at least t + 1 correct controllers after call 2.
    fn holders(&self, tally: &mut Tally, counts: &mut Counts, agreed: &[u8]) -> Same<()> {
        let held = |i: &usize| !self.system.is_faulty(*i) && self.held[i - 1] == agreed;
        let holders = (1..=self.system.n).filter(held).count();
        counts.fewest_holders += u64::from(holders == self.system.t + 1);
        tally.holds("a block held by t + 1", holders > self.system.t)
    }

    /// A step after the last one is refused with 8, whatever is lent.
    fn after_the_end(
        &self,
        tally: &mut Tally,
        random: &mut Random,
        counts: &mut Counts,
    ) -> Same<()> {
        for Controller {
            state,
            bytes,
            block,
        } in &self.system.controllers
        {
            let length = random.below(20);
            let inbox = random.bytes(length);
            let outbox = random.below(20);
            let after = compare::step(tally, random, state, bytes, block, &inbox, outbox)?;
            tally.same("a step after the last one", after.number, 8)?;
            counts.snapshot(random, bytes, block, &inbox);
        }
        Ok(())
    }

    /// With at most t faulty controllers all correct ones end with one outcome and one block: with a correct sender the sender's, without a sender
    /// the one that all correct ones started with, if it was one; the marks in the library's states are of faulty ones only; and a block that is agreed
    /// on was held.
    fn agreement(&self, tally: &mut Tally, counts: &mut Counts) -> Same<()> {
        let correct: Vec<&Controller> = (1..=self.system.n)
            .filter(|&i| !self.system.is_faulty(i))
            .map(|i| &self.system.controllers[i - 1])
            .collect();
        for controller in &correct {
            counts.runs += 1;
            match controller.state.outcome {
                Outcome::Agreed => counts.agreed += 1,
                Outcome::None => counts.none += 1,
                Outcome::Beyond => counts.beyond += 1,
                Outcome::Open => return Err("a run that ended has outcome open".into()),
            }
        }
        let named: Vec<u16> = correct.iter().map(|c| raw::named(&c.bytes)).collect();
        let names_correct = |&&row: &&u16| row & !self.system.faulty != 0;
        let naming_correct = named.iter().filter(names_correct).count();
        if !self.within_t() {
            counts.naming_correct += naming_correct as u64;
            return Ok(());
        }
        counts.within_t += 1;
        tally.holds("no correct controller is named", naming_correct == 0)?;
        counts.naming += named.iter().filter(|&&row| row != 0).count() as u64;
        counts.naming_apart += u64::from(named.iter().any(|&row| row != named[0]));
        let first = correct[0];
        for other in &correct[1..] {
            let same = (first.state.outcome, &first.block) == (other.state.outcome, &other.block);
            tally.holds("one outcome and one block", same)?;
        }
        tally.holds(
            "an outcome within t",
            first.state.outcome != Outcome::Beyond,
        )?;
        if first.state.outcome == Outcome::Agreed {
            self.holders(tally, counts, &first.block)?;
            for (controller, named) in correct.iter().zip(&named) {
                let other_run = self.other_run[controller.state.own - 1];
                tally.holds("slots of another run are named", other_run & !named == 0)?;
                counts.naming_other_run += u64::from(other_run != 0);
            }
        }
        let ends_with =
            |block: &Vec<u8>| (first.state.outcome, &first.block) == (Outcome::Agreed, block);
        if self.system.sender == 0 {
            let mut started = correct
                .iter()
                .map(|c| &self.system.blocks[self.system.groups[c.state.own - 1]]);
            let block = started.next().expect("a correct controller");
            if started.all(|other| other == block) {
                counts.alike += 1;
                return tally.holds("the block that all started with", ends_with(block));
            }
            counts.unlike += 1;
            counts.unlike_agreed += u64::from(first.state.outcome == Outcome::Agreed);
        } else if !self.system.is_faulty(self.system.sender) {
            counts.correct_sender += 1;
            tally.holds("the sender's block", ends_with(&self.system.blocks[0]))?;
        }
        Ok(())
    }
}

/// One system, and of one in four the next run too.
pub fn case(tally: &mut Tally, random: &mut Random, counts: &mut Counts) -> Same<()> {
    let system = System::new(random);
    let first = whole(tally, random, counts, system, None)?;
    if random.one_in(4) {
        let before = first.run;
        let system = System::after(random, first);
        whole(tally, random, counts, system, Some(before))?;
        counts.second_runs += 1;
    }
    Ok(())
}

/// A run of a system; `before` is the number of the run before it.
fn whole(
    tally: &mut Tally,
    random: &mut Random,
    counts: &mut Counts,
    system: System,
    before: Option<u16>,
) -> Same<System> {
    let mut run = Run::new(random, system, before);
    let System {
        n,
        t,
        k,
        sender,
        faulty,
        ..
    } = run.system;
    let number = run.system.run;
    let mut whole = || {
        run.start(tally, random)?;
        for c in 1..=3 * t + 9 {
            run.call(tally, random, counts, c)?;
        }
        run.after_the_end(tally, random, counts)?;
        run.agreement(tally, counts)
    };
    whole().map_err(|text| {
        format!(
            "n {n}, t {t}, k {k}, sender {sender}, run {number} after {before:?}, faulty {faulty:016b}: {text}"
        )
    })?;
    counts.systems += 1;
    Ok(run.system)
}
