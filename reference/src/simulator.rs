//! The simulator (document 01, 'The house program'; document 02, U6 and U11): a file of a system is read, the system is played, its outcomes are
//! written.
use crate::controller::{start, step, Outcome, State};
use crate::wire;
use std::collections::{BTreeMap, BTreeSet};

/// The run number of all systems: the files do not say one.
pub const RUN: u16 = 0;
/// The longest input that is read.
pub const LONGEST: usize = 65_536;
/// Lines 1 and 3 of the input, and line 1 of the output.
pub const SETTINGS_NAMES: &str = "controllers,tolerance,stripes,sender,block";
pub const MESSAGE_NAMES: &str = "round,from,to,message";
pub const OUTCOME_NAMES: &str = "controller,outcome,block";

/// The input of document 01's example.
pub const EXAMPLE: &str = "controllers,tolerance,stripes,sender,block
4,1,1,1,0a14
round,from,to,message
1,1,2,0a14
1,1,3,0a14
1,1,4,0b14
2,1,2,1e22
2,1,3,1e36
3,1,0,0700
";

/// What a right file says.
#[derive(Debug, Clone, PartialEq, Eq)]
pub struct System {
    pub n: usize,
    pub t: usize,
    pub k: usize,
    /// 0 if there is none.
    pub sender: usize,
    pub block: Vec<u8>,
    /// Who stands under `from`.
    pub faulty: BTreeSet<usize>,
    /// The messages of the faulty, by round, from and to, the latter from 1 on.
    pub messages: BTreeMap<(usize, usize, usize), Vec<u8>>,
}

/// The input's output.
pub fn simulate(input: &[u8]) -> Vec<u8> {
    match read(input) {
        Ok(system) => outcomes(&system.play()).into_bytes(),
        Err(line) => format!("bad,{line}\n").into_bytes(),
    }
}

/// The system of a right file, or the number of the first wrong or missing line, or 0 if the file is too long.
pub fn read(input: &[u8]) -> Result<System, usize> {
    if input.len() > LONGEST {
        return Err(0);
    }
    let mut rest = input;
    if line(&mut rest) != Some(SETTINGS_NAMES.as_bytes()) {
        return Err(1);
    }
    let mut system = line(&mut rest).and_then(settings).ok_or(2usize)?;
    if line(&mut rest) != Some(MESSAGE_NAMES.as_bytes()) {
        return Err(3);
    }
    let mut number = 4usize;
    while !rest.is_empty() {
        line(&mut rest)
            .and_then(|line| system.add(line))
            .ok_or(number)?;
        number += 1;
    }
    Ok(system)
}

/// The next line, which a newline ends; `None` if there is no newline.
fn line<'a>(rest: &mut &'a [u8]) -> Option<&'a [u8]> {
    let end = rest.iter().position(|&b| b == b'\n')?;
    let line = &rest[..end];
    *rest = &rest[end + 1..];
    Some(line)
}

fn fields(line: &[u8]) -> Vec<&[u8]> {
    line.split(|&b| b == b',').collect()
}

/// A number from `low` to `high`, without a leading zero.
fn number(field: &[u8], low: usize, high: usize) -> Option<usize> {
    let digits = !field.is_empty() && field.iter().all(u8::is_ascii_digit);
    if !digits || field.len() > 1 && field[0] == b'0' {
        return None;
    }
    let value = field.iter().fold(0u128, |value, digit| {
        value
            .saturating_mul(10)
            .saturating_add((digit - b'0').into())
    });
    (low as u128..=high as u128)
        .contains(&value)
        .then_some(value as usize)
}

fn hex_digit(byte: u8) -> Option<u8> {
    match byte {
        b'0'..=b'9' => Some(byte - b'0'),
        b'a'..=b'f' => Some(byte - b'a' + 10),
        _ => None,
    }
}

/// Exactly `length` bytes, two lower-case digits each.
fn bytes(field: &[u8], length: usize) -> Option<Vec<u8>> {
    if field.len() != 2 * length {
        return None;
    }
    field
        .chunks(2)
        .map(|pair| Some(16 * hex_digit(pair[0])? + hex_digit(pair[1])?))
        .collect()
}

pub fn hex(bytes: &[u8]) -> String {
    bytes.iter().map(|b| format!("{b:02x}")).collect()
}

/// Line 2.
fn settings(line: &[u8]) -> Option<System> {
    let [n, t, k, sender, block] = fields(line)[..] else {
        return None;
    };
    let n = number(n, 4, 16)?;
    let t = number(t, 1, (n - 1) / 3)?;
    let k = number(k, 1, 32)?;
    Some(System {
        n,
        t,
        k,
        sender: number(sender, 0, n)?,
        block: bytes(block, k * (t + 1))?,
        faulty: BTreeSet::new(),
        messages: BTreeMap::new(),
    })
}

/// The lines of the outcomes.
fn outcomes(rows: &[Controller]) -> String {
    let mut text = format!("{OUTCOME_NAMES}\n");
    for row in rows {
        let outcome = match row.state.outcome {
            Outcome::Open => "open",
            Outcome::Agreed => "agreed",
            Outcome::None => "none",
            Outcome::Beyond => "beyond",
        };
        text += &format!("{},{outcome},{}\n", row.state.own, hex(&row.block));
    }
    text
}

impl System {
    pub fn rounds(&self) -> usize {
        3 * self.t + 8
    }

    pub fn message_length(&self, round: usize) -> usize {
        let (n, t, k) = (self.n as u128, self.t as u128, self.k as u128);
        wire::message_length(n, t, k, round as u128) as usize
    }

    /// A line from the fourth on; `None` if it is wrong.
    fn add(&mut self, line: &[u8]) -> Option<()> {
        let [round, from, to, message] = fields(line)[..] else {
            return None;
        };
        let round = number(round, 1, self.rounds())?;
        let from = number(from, 1, self.n)?;
        let receivers = match number(to, 0, self.n)? {
            0 => 1..=self.n,
            to => to..=to,
        };
        let message = bytes(message, self.message_length(round))?;
        self.faulty.insert(from);
        for to in receivers {
            let before = self.messages.insert((round, from, to), message.clone());
            if before.is_some() {
                return None;
            }
        }
        Some(())
    }

    /// The correct controllers after the last call.
    pub fn play(&self) -> Vec<Controller> {
        let correct = (1..=self.n).filter(|i| !self.faulty.contains(i));
        let mut run = Run::new(self, correct);
        for c in 1..=self.rounds() + 1 {
            run.call(self, c);
        }
        run.controllers
    }
}

/// A controller with the block lent to it and the outbox of its last call.
pub struct Controller {
    pub state: State,
    pub block: Vec<u8>,
    outbox: Vec<u8>,
}

/// Controllers that make their calls in step. The faulty ones among them do not send, the messages of the system go in their place.
pub struct Run {
    controllers: Vec<Controller>,
}

impl Run {
    /// The controllers of the given numbers, each started with the system's block.
    pub fn new(system: &System, numbers: impl Iterator<Item = usize>) -> Run {
        let &System {
            n, t, k, sender, ..
        } = system;
        let controllers = numbers.map(|own| {
            let (number, state) = start(n, t, k, own, sender, RUN, &system.block);
            assert_eq!(number, 0);
            Controller {
                state,
                block: system.block.clone(),
                outbox: Vec::new(),
            }
        });
        Run {
            controllers: controllers.collect(),
        }
    }

    pub fn controller(&self, own: usize) -> &Controller {
        let found = self.controllers.iter().find(|c| c.state.own == own);
        found.expect("a controller that plays")
    }

    /// Slot `to` of the outbox that `from` filled for a round.
    pub fn slot(&self, system: &System, round: usize, from: usize, to: usize) -> &[u8] {
        let width = wire::FRONT + system.message_length(round);
        &self.controller(from).outbox[(to - 1) * width..to * width]
    }

    /// What arrives at `to` in a round.
    fn inbox(&self, system: &System, round: usize, to: usize) -> Vec<u8> {
        let slot = |from: usize| match system.messages.get(&(round, from, to)) {
            Some(message) => wire::slot_with(RUN, message),
            None if system.faulty.contains(&from) => {
                vec![0; wire::FRONT + system.message_length(round)]
            }
            None => self.slot(system, round, from, to).to_vec(),
        };
        (1..=system.n).flat_map(slot).collect()
    }

    /// Call c of each controller.
    pub fn call(&mut self, system: &System, c: usize) {
        let inbox = |to: &Controller| match c {
            1 => Vec::new(),
            _ => self.inbox(system, c - 1, to.state.own),
        };
        let inboxes: Vec<Vec<u8>> = self.controllers.iter().map(inbox).collect();
        for (controller, inbox) in self.controllers.iter_mut().zip(inboxes) {
            let mut outbox = vec![0xff; controller.state.box_length(c)];
            let (number, state) =
                step(controller.state, &mut controller.block, &inbox, &mut outbox);
            assert_eq!((number, state.next), (0, c + 1));
            controller.state = state;
            controller.outbox = outbox;
        }
    }
}

#[cfg(test)]
mod tests {
    use super::*;

    fn output(input: &str) -> String {
        String::from_utf8(simulate(input.as_bytes())).unwrap()
    }

    /// The example with each `from` replaced by `to`.
    fn changed(from: &str, to: &str) -> String {
        assert!(EXAMPLE.contains(from));
        output(&EXAMPLE.replace(from, to))
    }

    #[test]
    fn example() {
        let expected = "controller,outcome,block
2,agreed,0a14
3,agreed,0a14
4,agreed,0a14
";
        assert_eq!(output(EXAMPLE), expected);
    }

    /// Controller 1, the faulty one, is silent in the last round, and so all name it; if all are correct, nobody is named.
    #[test]
    fn whom_they_name() {
        let names = |input: &str| -> Vec<u16> {
            let correct = read(input.as_bytes()).unwrap().play();
            correct.iter().map(|c| c.state.named).collect()
        };
        assert_eq!(names(EXAMPLE), [0b0001; 3]);
        // its true piece is 1e
        assert_eq!(names(&(EXAMPLE.to_string() + "11,1,0,1e\n")), [0; 3]);
        let one = EXAMPLE.to_string() + "11,1,2,1e\n11,1,3,1f\n";
        assert_eq!(names(&one), [0, 0b0001, 0b0001]);
        let start: String = EXAMPLE.split_inclusive('\n').take(3).collect();
        assert_eq!(names(&start), [0; 4]);
    }

    /// Of the example 2 and 3, t + 1 controllers, hold the block after call 2; 4 was sent another, and is not in the core. If all are correct, all are.
    #[test]
    fn who_held_the_block() {
        let system = read(EXAMPLE.as_bytes()).unwrap();
        let mut run = Run::new(&system, 2..=4);
        for c in 1..=system.rounds() + 1 {
            run.call(&system, c);
            let block = |own| hex(&run.controller(own).block);
            if c >= 2 {
                let other = if c <= system.rounds() { "0b14" } else { "0a14" };
                assert_eq!([block(2), block(3), block(4)], ["0a14", "0a14", other]);
            }
            let core = if c >= 3 * system.t + 7 { 0b0111 } else { 0 };
            assert!(run.controllers.iter().all(|r| r.state.core == core), "{c}");
        }
        let start: String = EXAMPLE.split_inclusive('\n').take(3).collect();
        let correct = read(start.as_bytes()).unwrap().play();
        assert!(correct.iter().all(|c| c.state.core == 0b1111));
    }

    #[test]
    fn all_correct_or_all_faulty() {
        let start: String = EXAMPLE.split_inclusive('\n').take(3).collect();
        let rows: String = (1..=4).map(|i| format!("{i},agreed,0a14\n")).collect();
        assert_eq!(output(&start), format!("{OUTCOME_NAMES}\n{rows}"));
        let lines: String = (1..=4).map(|i| format!("3,{i},{i},0000\n")).collect();
        assert_eq!(output(&(start + &lines)), format!("{OUTCOME_NAMES}\n"));
    }

    #[test]
    fn missing_lines_and_a_last_line_without_newline() {
        for (end, _) in EXAMPLE.match_indices('\n') {
            let number = EXAMPLE[..end].lines().count();
            assert_eq!(output(&EXAMPLE[..end]), format!("bad,{number}\n"));
        }
        let cut = |lines| {
            EXAMPLE
                .split_inclusive('\n')
                .take(lines)
                .collect::<String>()
        };
        assert_eq!(output(""), "bad,1\n");
        assert_eq!(output(&cut(1)), "bad,2\n");
        assert_eq!(output(&cut(2)), "bad,3\n");
        assert!(output(&cut(3)).starts_with("controller"));
        assert_eq!(output(&(EXAMPLE.to_string() + "\n")), "bad,10\n");
        assert_eq!(output("\n"), "bad,1\n");
    }

    /// Without a sender the blocks of round 1 are not read: all correct controllers keep the file's, and so nobody is left out.
    #[test]
    fn no_sender() {
        let expected = changed("4,1,1,1,0a14", "4,1,1,0,0a14");
        let rows: String = (2..=4).map(|i| format!("{i},agreed,0a14\n")).collect();
        assert_eq!(expected, format!("{OUTCOME_NAMES}\n{rows}"));
        let input = EXAMPLE.replace("4,1,1,1,0a14", "4,1,1,0,0a14");
        let cores = read(input.as_bytes()).unwrap().play();
        assert!(cores.iter().all(|c| c.state.core & 0b1110 == 0b1110));
        // with sender 1 controller 4 has another block than 2 and 3
        let cores = read(EXAMPLE.as_bytes()).unwrap().play();
        assert!(cores.iter().all(|c| c.state.core & 0b1110 == 0b0110));
    }

    #[test]
    fn wrong_settings() {
        assert_eq!(changed("controllers", "Controllers"), "bad,1\n");
        for values in [
            "3,1,1,1,0a14",
            "17,1,1,1,0a14",
            "4,0,1,1,0a",
            "6,2,1,1,0a1414",
            "4,1,0,1,",
            "4,1,33,1,0a14",
            "4,1,1,00,0a14",
            "4,1,1,5,0a14",
            "4,1,1,1,0A14",
            "4,1,1,1,0a1",
            "4,1,1,1,0a",
            "4,1,1,1,0a1400",
            "04,1,1,1,0a14",
            "18446744073709551620,1,1,1,0a14",
            "4,1,1,18446744073709551617,0a14",
            "4,1,1,1,0a14,",
            "",
        ] {
            assert_eq!(changed("4,1,1,1,0a14", values), "bad,2\n", "{values}");
        }
        assert_eq!(changed("round,", "rounds,"), "bad,3\n");
    }

    #[test]
    fn wrong_messages() {
        for line in [
            "0,1,2,1e22",
            "12,1,2,1e22",
            "12,1,2,",
            "2,0,2,1e22",
            "2,5,2,1e22",
            "2,1,5,1e22",
            "2,1,2,1e",
            "2,1,2,1e2200",
            "2,1,2,",
            "2,1,2,1E22",
            "02,1,2,1e22",
            "2,1,02,1e22",
            "2,1,2,1e22\r",
            "2,+1,2,1e22",
            "2,1,18446744073709551618,1e22",
            "1,1,4,0b14",
            "1,1,0,0a14",
            "",
        ] {
            assert_eq!(changed("2,1,2,1e22", line), "bad,7\n", "{line}");
        }
        assert_eq!(output(&(EXAMPLE.to_string() + "3,1,4,0700\n")), "bad,10\n");
        assert_eq!(output(&(EXAMPLE.to_string() + "3,1,0,0700\n")), "bad,10\n");
        assert!(output(&(EXAMPLE.to_string() + "3,2,0,0700\n")).starts_with("controller"));
    }

    #[test]
    fn too_long() {
        let long = "x".repeat(LONGEST);
        assert_eq!(output(&long), "bad,1\n");
        assert_eq!(output(&(long + "\n")), "bad,0\n");
    }
}
