//! Files of systems for the program simulator_cases, each with the reference's output (document 01, 'The house program'). Given a folder,
//! it writes data/NAME.txt for each file, args (the names, one to a line) and stdout (for each file its name, then its output). What a file
//! is meant to give is written here and compared with the reference.
use reference::code::encode;
use reference::simulator::{
    hex, simulate, Controller, Run, System, EXAMPLE, LONGEST, MESSAGE_NAMES, OUTCOME_NAMES,
    SETTINGS_NAMES,
};
use reference::wire::{round_row, FRONT};
use std::collections::{BTreeMap, BTreeSet};
use std::{env, fs, path::Path};

struct File {
    name: String,
    input: Vec<u8>,
    output: Vec<u8>,
}

struct Files(Vec<File>);

impl Files {
    fn add(&mut self, name: &str, input: Vec<u8>, expected: &str) {
        let output = simulate(&input);
        assert_eq!(String::from_utf8_lossy(&output), expected, "{name}");
        let name = format!("{name}.txt");
        assert!(self.0.iter().all(|file| file.name != name), "{name}");
        assert!(self.0.iter().all(|file| file.input != input), "{name}");
        self.0.push(File {
            name,
            input,
            output,
        });
    }

    /// A file whose first wrong or missing line is `line`.
    fn wrong(&mut self, name: &str, input: impl AsRef<[u8]>, line: usize) {
        self.add(
            &format!("bad_{name}"),
            input.as_ref().to_vec(),
            &format!("bad,{line}\n"),
        );
    }

    /// A file of a system in which the correct controllers are the given ones, with outcome and block.
    fn right(&mut self, name: &str, input: String, rows: &[(usize, &str, &[u8])]) {
        let rows: String = rows
            .iter()
            .map(|(i, outcome, block)| format!("{i},{outcome},{}\n", hex(block)))
            .collect();
        self.add(
            name,
            input.into_bytes(),
            &format!("{OUTCOME_NAMES}\n{rows}"),
        );
    }

    /// A file in which all the given ones agree on a block.
    fn agreed(&mut self, name: &str, input: String, correct: &[usize], block: &[u8]) {
        let rows: Vec<_> = correct.iter().map(|&i| (i, "agreed", block)).collect();
        self.right(name, input, &rows);
    }

    fn write(&self, folder: &Path) {
        let data = folder.join("data");
        fs::create_dir_all(&data).unwrap();
        let (mut args, mut stdout) = (String::new(), Vec::new());
        for file in &self.0 {
            fs::write(data.join(&file.name), &file.input).unwrap();
            args += &format!("{}\n", file.name);
            stdout.extend(format!("{}\n", file.name).into_bytes());
            stdout.extend(&file.output);
        }
        fs::write(folder.join("args"), args).unwrap();
        fs::write(folder.join("stdout"), stdout).unwrap();
        let held = fs::read_dir(&data).unwrap().count();
        assert_eq!(held, self.0.len(), "the folder data holds other files");
    }
}

// Systems.

/// A system before its run: no messages yet.
fn system(n: usize, t: usize, sender: usize, block: &[u8], faulty: &[usize]) -> System {
    System {
        n,
        t,
        k: block.len() / (t + 1),
        sender,
        block: block.to_vec(),
        faulty: faulty.iter().copied().collect(),
        messages: BTreeMap::new(),
    }
}

/// Lines 1 to 3.
fn head(system: &System) -> String {
    let &System {
        n, t, k, sender, ..
    } = system;
    let block = hex(&system.block);
    format!("{SETTINGS_NAMES}\n{n},{t},{k},{sender},{block}\n{MESSAGE_NAMES}\n")
}

fn message_line(round: usize, from: usize, to: usize, message: &[u8]) -> String {
    format!("{round},{from},{to},{}\n", hex(message))
}

/// The file of a system. A message that goes to all alike stands once, under `to` 0.
fn text(system: &System) -> String {
    let mut lines = head(system);
    let groups: BTreeSet<_> = system.messages.keys().map(|&(c, i, _)| (c, i)).collect();
    for (round, from) in groups {
        let sent: Vec<_> = (1..=system.n)
            .filter_map(|to| Some((to, system.messages.get(&(round, from, to))?)))
            .collect();
        if sent.len() == system.n && sent.iter().all(|(_, m)| *m == sent[0].1) {
            lines += &message_line(round, from, 0, sent[0].1);
            continue;
        }
        for (to, message) in sent {
            lines += &message_line(round, from, to, message);
        }
    }
    lines
}

/// What a faulty controller decides a message by.
struct Choice<'a> {
    system: &'a System,
    /// The round, and the row of its kind in document 01's table.
    round: usize,
    kind: usize,
    from: usize,
    to: usize,
    length: usize,
    /// What it would send if it were correct; zeros where that is silence.
    honest: Vec<u8>,
}

impl Choice<'_> {
    /// Bytes without a pattern, the same in each run of this program.
    fn noise(&self, seed: u64) -> Vec<u8> {
        let place = (self.round * 17 + self.from) * 17 + self.to;
        let mut x = seed.wrapping_mul(0x9e37_79b9_7f4a_7c15) ^ place as u64;
        let mut byte = || {
            x = x
                .wrapping_mul(6_364_136_223_846_793_005)
                .wrapping_add(1_442_695_040_888_963_407);
            (x >> 40) as u8
        };
        byte();
        byte();
        (0..self.length).map(|_| byte()).collect()
    }

    fn king(&self) -> bool {
        self.kind == 6 && self.round == 3 * self.from + 3
    }

    /// What is due in this round from one who holds a block.
    fn by_block(&self, block: &[u8]) -> Vec<u8> {
        let own = piece(self.system, block, self.from);
        let other = piece(self.system, block, self.to);
        match self.kind {
            1 => block.to_vec(),
            2 => [own, other].concat(),
            7 => other,
            8 => own,
            _ => unreachable!(),
        }
    }
}

fn piece(system: &System, block: &[u8], j: usize) -> Vec<u8> {
    let (n, t, k) = (system.n as u64, system.t as u64, system.k as u64);
    let mut piece = vec![0; system.k];
    assert_eq!(encode(n, t, k, j as u64, block, &mut piece), 0);
    piece
}

fn marks(numbers: &[usize]) -> Vec<u8> {
    let marks: u16 = numbers.iter().map(|i| 1 << (i - 1)).sum();
    marks.to_le_bytes().to_vec()
}

/// The cores of the correct controllers, as marks.
fn cores(system: &System) -> Vec<Vec<u8>> {
    let core = |c: Controller| c.state.core.to_le_bytes().to_vec();
    system.play().into_iter().map(core).collect()
}

/// The system with the messages that the faulty choose. They make the calls of correct ones besides, and so know what those would send.
fn with_choices(mut system: System, choose: impl Fn(&Choice) -> Option<Vec<u8>>) -> System {
    let mut run = Run::new(&system, 1..=system.n);
    for round in 1..=system.rounds() {
        run.call(&system, round);
        let mut messages = BTreeMap::new();
        for &from in &system.faulty {
            for to in 1..=system.n {
                let choice = Choice {
                    system: &system,
                    round,
                    kind: round_row(system.t as u128, round as u128),
                    from,
                    to,
                    length: system.message_length(round),
                    honest: run.slot(&system, round, from, to)[FRONT..].to_vec(),
                };
                if let Some(message) = choose(&choice) {
                    messages.insert((round, from, to), message);
                }
            }
        }
        system.messages.extend(messages);
    }
    let senders: BTreeSet<_> = system.messages.keys().map(|key| key.1).collect();
    assert_eq!(senders, system.faulty);
    system
}

const BLOCK: [u8; 6] = [0x10, 0x20, 0x30, 0x40, 0x50, 0x60];
const OTHER_BLOCK: [u8; 6] = [0x10, 0x21, 0x30, 0x4f, 0x50, 0x61];

/// Controllers 4 and 6 send nothing that is read.
fn silent(files: &mut Files) {
    let system = system(7, 2, 1, &BLOCK, &[]);
    let lines = message_line(1, 4, 0, &[0; 6]) + &message_line(1, 6, 1, &[0; 6]);
    files.agreed("silent", head(&system) + &lines, &[1, 2, 3, 5, 7], &BLOCK);
}

/// More than t are faulty, three of seven, but only by silence in the last round: the four pieces that are present give the block (document
/// 02, U2).
fn silent_at_the_end(files: &mut Files) {
    let system = with_choices(system(7, 2, 1, &BLOCK, &[2, 4, 7]), |c| match c.kind {
        1 | 8 => None,
        6 => c.king().then(|| c.honest.clone()),
        _ => Some(c.honest.clone()),
    });
    files.agreed("silent_at_the_end", text(&system), &[1, 3, 5, 6], &BLOCK);
}

/// Sender 4 sends one block to 1, 2, 3, 5 and another to 6, and supports each towards those who hold it; 7 supports the other one towards
/// all. The four and the sender make up the core, so that 6 ends with their block.
fn two_faced_sender(files: &mut Files) {
    let system = with_choices(system(7, 2, 4, &BLOCK, &[4, 7]), |c| {
        let (block, holders): (&[u8], &[usize]) = match (c.from, c.to) {
            (7, _) | (_, 6 | 7) => (&OTHER_BLOCK, &[4, 6, 7]),
            _ => (&BLOCK, &[1, 2, 3, 4, 5]),
        };
        match c.kind {
            1 if c.from == 7 => None,
            1 | 2 | 7 | 8 => Some(c.by_block(block)),
            3 => Some(marks(holders)),
            4 | 5 if c.from == 4 => Some(c.honest.clone()),
            _ => None,
        }
    });
    assert_eq!(cores(&system), vec![marks(&[1, 2, 3, 4, 5]); 5]);
    files.agreed("two_faced_sender", text(&system), &[1, 2, 3, 5, 6], &BLOCK);
}

/// Kings 1 and 2 say 1 of every bit to the odd ones and 0 to the even ones, in marks, votes and as kings; their pieces are false. The third
/// king is the correct sender.
fn lying_kings(files: &mut Files) {
    let system = with_choices(system(7, 2, 3, &BLOCK, &[1, 2]), |c| {
        let value = if c.to % 2 == 1 { 0xff } else { 0 };
        let half = c.length / 2;
        match c.kind {
            _ if c.to <= 2 => None,
            1 => None,
            3 | 4 => Some(vec![value; c.length]),
            // zeros seen, then ones seen
            5 => Some([vec![!value; half], vec![value; half]].concat()),
            6 => c.king().then(|| vec![value; c.length]),
            _ => Some(c.noise(1)),
        }
    });
    files.agreed("lying_kings", text(&system), &[3, 4, 5, 6, 7], &BLOCK);
}

/// King 3, the last and the only correct one, decides. Sender 1 and 2 support one block towards 3 to 6 and another towards 7, but 3, 5 and
/// 7 alone get their marks. They keep these three at 1 and 4 and 6 at 0, as kings too; in the last phase 5 alone sees one, and two of the
/// five come to hold a 1, king 3 among them or not. With a 1 the core is 1 to 6, and 7 gets false pieces from two of them; with a 0 there
/// is none.
fn last_king(one: bool) -> System {
    with_choices(system(7, 2, 1, &BLOCK, &[1, 2]), |c| {
        let raised: &[usize] = match (c.round, one) {
            (10, _) => &[5],
            (11, true) => &[3, 4],
            (11, false) => &[4, 6],
            _ => &[3, 5, 7],
        };
        let value = if raised.contains(&c.to) { 0xff } else { 0 };
        let seen = |value: u8| [[!value; 14], [value; 14]].concat();
        match c.kind {
            _ if c.to <= 2 => None,
            1 if c.from == 2 => None,
            1 | 2 if c.to == 7 => Some(c.by_block(&OTHER_BLOCK)),
            1 | 2 => Some(c.by_block(&BLOCK)),
            3 if value == 0 => None,
            3 => Some(marks(&[1, 2, 3, 4, 5, 6])),
            // one short of n - t zeros, or of n - t ones
            4 if c.round == 10 && value == 0 => (c.from == 1 && !one).then(|| vec![0xff; 14]),
            4 => Some(vec![value; 14]),
            5 if c.round == 11 && value == 0 => (c.from == 1).then(|| seen(0)),
            5 => (value != 0).then(|| seen(value)),
            // in round 12 king 3 sends
            6 if c.round == 12 => Some(vec![if one { 0 } else { 0xff }; 14]),
            6 => c.king().then(|| vec![value; 14]),
            _ => Some(c.by_block(&OTHER_BLOCK)),
        }
    })
}

fn last_kings(files: &mut Files) {
    let one = last_king(true);
    assert_eq!(cores(&one), vec![marks(&[1, 2, 3, 4, 5, 6]); 5]);
    files.agreed("last_king_one", text(&one), &[3, 4, 5, 6, 7], &BLOCK);
    let rows = [3, 4, 5, 6, 7].map(|i| (i, "none", &[0; 6][..]));
    files.right("last_king_zero", text(&last_king(false)), &rows);
}

/// Sender 2 sends each a block of its own. It and 1 say 1 of every bit to all, but t ones do not exceed t: no core.
fn none(files: &mut Files) {
    let system = with_choices(system(7, 2, 2, &BLOCK, &[1, 2]), |c| match c.kind {
        1 => (c.from == 2).then(|| BLOCK.iter().map(|b| b ^ c.to as u8).collect()),
        3 | 4 => Some(vec![0xff; c.length]),
        5 => Some([[0; 14], [0xff; 14]].concat()),
        6 => c.king().then(|| vec![0xff; c.length]),
        _ => None,
    });
    let rows = [3, 4, 5, 6, 7].map(|i| (i, "none", &[0; 6][..]));
    files.right("none", text(&system), &rows);
}

/// Sender 1 sends 3 to 6 one block and 7 another. It and 2 mark all, but of their two pieces one is false, the second or the first: nobody
/// marks them, and four holders of a block are too few for a core.
fn false_pieces(files: &mut Files) {
    let system = with_choices(system(7, 2, 1, &BLOCK, &[1, 2]), |c| match c.kind {
        1 if c.from == 2 => None,
        1 if c.to == 7 => Some(OTHER_BLOCK.to_vec()),
        1 => Some(BLOCK.to_vec()),
        2 => {
            let mut pieces = c.by_block(&BLOCK);
            pieces[if c.from == 1 { 3 } else { 0 }] ^= 1;
            Some(pieces)
        }
        3 => Some(marks(&[1, 2, 3, 4, 5, 6, 7])),
        4 | 5 => Some(c.honest.clone()),
        6 => c.king().then(|| c.honest.clone()),
        _ => None,
    });
    let rows = [3, 4, 5, 6, 7].map(|i| (i, "none", &[0; 6][..]));
    files.right("false_pieces", text(&system), &rows);
}

/// There is no sender (document 02, U6), and 2 and 5 are faulty from round 1 on: they send blocks, which nobody reads. In round 2 they support
/// another block than the one that all correct controllers start with towards 6 and 7, and in rounds 3t + 7 and 3t + 8 towards all; in the votes
/// they lie.
fn without_sender(files: &mut Files) {
    let system = with_choices(system(7, 2, 0, &BLOCK, &[2, 5]), |c| match c.kind {
        1 => Some(if c.to < 4 { &BLOCK } else { &OTHER_BLOCK }.to_vec()),
        2 if c.to < 6 => Some(c.by_block(&BLOCK)),
        2 | 7 | 8 => Some(c.by_block(&OTHER_BLOCK)),
        3 => Some(marks(if c.to < 6 {
            &[1, 2, 3, 4, 5]
        } else {
            &[2, 5, 6, 7]
        })),
        6 => c.king().then(|| c.noise(6)),
        _ => Some(c.noise(6)),
    });
    files.agreed("without_sender", text(&system), &[1, 3, 4, 6, 7], &BLOCK);
}

/// More than t are faulty, two of four: sender 1 sends 3 and 4 different blocks, king 2 of the last phase gives each a matrix with a core,
/// and both send each the pieces of its own block. The two correct ones end with different blocks.
fn beyond_t(files: &mut Files) {
    let blocks = [&[0x0a, 0x14][..], &[0x0b, 0x14]];
    let system = with_choices(system(4, 1, 1, blocks[0], &[1, 2]), |c| {
        let (block, core) = match c.to {
            3 => (blocks[0], marks(&[1, 2, 3])),
            4 => (blocks[1], marks(&[1, 2, 4])),
            _ => return None,
        };
        match c.kind {
            1 if c.from == 1 => Some(c.by_block(block)),
            6 if c.king() && c.from == 2 => Some(core.repeat(4)),
            8 => Some(c.by_block(block)),
            _ => None,
        }
    });
    let rows = [(3, "agreed", blocks[0]), (4, "agreed", blocks[1])];
    files.right("beyond_t", text(&system), &rows);
}

/// More than t are faulty, three of seven, the kings of all phases. The sender is correct, and yet the last king gives 6 a matrix
/// without a core, and the pieces that 7 gets are false.
fn beyond_t_outcomes(files: &mut Files) {
    let system = with_choices(system(7, 2, 5, &BLOCK, &[1, 2, 3]), |c| {
        match (c.kind, c.to) {
            (_, 1..=3) => None,
            (6, _) if c.king() && c.from == 3 => Some(vec![if c.to == 6 { 0 } else { 0xff }; 14]),
            (8, 4 | 5) => Some(c.by_block(&BLOCK)),
            (8, 7) => Some(c.noise(2)),
            _ => None,
        }
    });
    let rows = [
        (4, "agreed", &BLOCK[..]),
        (5, "agreed", &BLOCK),
        (6, "none", &[0; 6]),
        (7, "beyond", &[0; 6]),
    ];
    files.right("beyond_t_outcomes", text(&system), &rows);
}

/// A message that differs from the honest one in a way drawn for each receiver.
fn falsified(c: &Choice, seed: u64) -> Vec<u8> {
    let noise = c.noise(seed);
    let mask = c.noise(seed + 1);
    let manner = (c.noise(seed + 2)[0] ^ mask[0]) % 5;
    let bytes = c.honest.iter().zip(noise).zip(mask);
    bytes
        .map(|((&honest, noise), mask)| match manner {
            0 => 0,
            1 => 0xff,
            2 => !honest,
            3 => honest ^ (noise & mask),
            _ => noise,
        })
        .collect()
}

/// Sender 3 sends 2 and 9 another block. It, 1 and 15 support the block of the others in rounds 2 and 3; all five lie in the votes, three
/// of them as kings, and in the last rounds.
fn sixteen(files: &mut Files) {
    let block: Vec<u8> = (0..24).map(|b| 0xa0 + b).collect();
    let other: Vec<u8> = (0..24).map(|b| 0x50 + 3 * b).collect();
    let faulty = [1, 3, 6, 10, 15];
    let system = with_choices(system(16, 5, 3, &block, &faulty), |c| {
        let some = c.noise(7)[0] % 5 < 2;
        match c.kind {
            1 if c.from == 3 && [2, 9].contains(&c.to) => Some(other.clone()),
            1 => (c.from == 3).then(|| block.clone()),
            2 | 3 if [1, 3, 15].contains(&c.from) => Some(c.honest.clone()),
            6 => c.king().then(|| falsified(c, 3)),
            _ if faulty.contains(&c.to) => None,
            2 | 3 => Some(falsified(c, 3)),
            _ => some.then(|| falsified(c, 3)),
        }
    });
    let correct = [2, 4, 5, 7, 8, 9, 11, 12, 13, 14, 16];
    files.agreed("sixteen", text(&system), &correct, &block);
}

/// Of items of the given lengths, the indices of some that have a sum.
fn subset(lengths: &[usize], sum: usize) -> Vec<usize> {
    // by which item a sum is first reached, with items before it
    let mut by = vec![None; sum + 1];
    for (i, &length) in lengths.iter().enumerate() {
        for s in (length..=sum).rev() {
            let before = s - length;
            if by[s].is_none() && (before == 0 || by[before].is_some_and(|b| b < i)) {
                by[s] = Some(i);
            }
        }
    }
    let mut indices = Vec::new();
    let mut rest = sum;
    while rest > 0 {
        let i = by[rest].expect("a sum that can be reached");
        indices.push(i);
        rest -= lengths[i];
    }
    indices
}

/// The file of a system without some messages of rounds 3p + 2, so that it has exactly `size` bytes.
fn cut_to(system: &System, size: usize) -> String {
    let mut system = system.clone();
    let row = |round: usize| round_row(system.t as u128, round as u128);
    let mut keys: Vec<_> = system.messages.keys().copied().collect();
    keys.retain(|key| row(key.0) == 5);
    // all rounds, senders and receivers in turn
    keys.sort_by_key(|&(round, from, to)| ((7 * round + 3 * from + 5 * to) % 11, to, round, from));
    let line = |&(c, i, j): &(usize, usize, usize)| {
        message_line(c, i, j, &system.messages[&(c, i, j)]).len()
    };
    let lengths: Vec<usize> = keys.iter().map(line).collect();
    for i in subset(&lengths, text(&system).len() - size) {
        system.messages.remove(&keys[i]);
    }
    let text = text(&system);
    assert_eq!(text.len(), size);
    text
}

/// The largest n, t, k and file. Five faulty ones, the kings of the first five phases, lie to each correct one differently in all rounds
/// from 2 on. Of rounds 3p + 2 there are as many messages as fit.
fn sixteen_largest(files: &mut Files) {
    let block: Vec<u8> = (0..192u8).map(|b| b.wrapping_mul(29) ^ 0x3c).collect();
    let faulty = [1, 2, 3, 4, 5];
    let system = with_choices(system(16, 5, 16, &block, &faulty), |c| match c.kind {
        // one who does not send in this round
        1 => (c.from == 1).then(|| vec![0xee; c.length]),
        _ if faulty.contains(&c.to) => None,
        6 => (c.king() || c.round == 21).then(|| falsified(c, 5)),
        _ => Some(falsified(c, 5)),
    });
    let correct: Vec<usize> = (6..=16).collect();
    files.agreed(
        "sixteen_largest",
        cut_to(&system, LONGEST),
        &correct,
        &block,
    );
    let longer = cut_to(&system, LONGEST + 1);
    files.wrong("too_long_right", &longer, 0);
    files.wrong(
        "too_long_wrong",
        longer.replace("controllers,", "Controllers,"),
        0,
    );
    let lines = longer.lines().count();
    files.wrong("longest_tail", &longer[..LONGEST], lines);
}

/// Files at the edge of what is right.
fn edges(files: &mut Files) {
    let small = head(&system(4, 1, 1, &[0x0a, 0x14], &[]));
    let block = &[0x0a, 0x14];
    files.agreed("ok_three_lines", small.clone(), &[1, 2, 3, 4], block);
    let each = |i: usize| message_line(3, i, 5 - i, &[0; 2]);
    let all: String = (1..=4).map(each).collect();
    files.right("ok_all_faulty", small.clone() + &all, &[]);
    let lines = "1,4,0,ffff\n6,4,0,ffffffffffffffff\n9,4,1,ffffffffffffffff\n";
    files.agreed("ok_not_sending", small.clone() + lines, &[1, 2, 3], block);
    files.agreed(
        "ok_to_itself",
        small.clone() + "3,2,2,0000\n",
        &[1, 3, 4],
        block,
    );
    let lines = "11,3,4,00\n10,3,4,00\n";
    files.agreed("ok_last_rounds", small.clone() + lines, &[1, 2, 4], block);
    // no sender (document 02, U6): nobody reads the blocks of round 1, and all correct controllers start with the file's; nobody faulty, and one
    let unsent = small.replace("4,1,1,1,", "4,1,1,0,");
    files.agreed("ok_no_sender", unsent.clone(), &[1, 2, 3, 4], block);
    files.agreed(
        "ok_no_sender_block_sent",
        unsent + "1,4,0,0c14\n",
        &[1, 2, 3],
        block,
    );
    let unsent = EXAMPLE.replace("4,1,1,1,", "4,1,1,0,");
    files.agreed("ok_no_sender_document_01", unsent, &[2, 3, 4], block);
    // a sender that sends nothing that is read: all others hold zeros
    files.agreed(
        "ok_silent_sender",
        small.clone() + "11,1,1,00\n",
        &[2, 3, 4],
        &[0; 2],
    );
    let lines: Vec<&str> = EXAMPLE.split_inclusive('\n').skip(3).collect();
    let unsorted: String = lines.into_iter().rev().collect();
    files.agreed("ok_unsorted", small + &unsorted, &[2, 3, 4], block);
    let split: String = (1..=4).map(|to| format!("3,1,{to},0700\n")).collect();
    let split = EXAMPLE.replace("3,1,0,0700\n", &split);
    files.agreed("ok_each_for_all", split, &[2, 3, 4], block);
}

fn larger_edges(files: &mut Files) {
    let block: Vec<u8> = (0..64).collect();
    let lines = message_line(2, 2, 0, &[0x77; 64]);
    let largest = head(&system(4, 1, 1, &block, &[])) + &lines;
    files.agreed("ok_stripes_32", largest, &[1, 3, 4], &block);
    let others: Vec<usize> = (1..=16).filter(|&i| i != 7).collect();
    let start = head(&system(16, 1, 16, &[0x0a, 0x14], &[]));
    let lines = message_line(3, 7, 0, &[0; 2]) + &message_line(4, 7, 16, &[0xff; 32]);
    files.agreed(
        "ok_sixteen_tolerance_1",
        start + &lines,
        &others,
        &[0x0a, 0x14],
    );
    let start = head(&system(16, 5, 1, &BLOCK, &[]));
    let others: Vec<usize> = (1..=15).collect();
    files.agreed("ok_two_digits", start + "23,16,16,00\n", &others, &BLOCK);
    let lines: String = LENGTHS
        .iter()
        .map(|&(round, length)| message_line(round, 7, 0, &vec![0; length]))
        .collect();
    let start = head(&system(7, 2, 1, &LENGTHS_BLOCK, &[]));
    files.agreed(
        "ok_lengths",
        start + &lines,
        &[1, 2, 3, 4, 5, 6],
        &LENGTHS_BLOCK,
    );
}

// Wrong files.

/// Document 01's example with one line changed, which is the wrong one: name, number, line.
const LINES: &[(&str, usize, &str)] = &[
    // names
    ("names_1_short", 1, "controllers,tolerance,stripes,sender"),
    (
        "names_1_upper_case",
        1,
        "Controllers,tolerance,stripes,sender,block",
    ),
    (
        "names_1_space",
        1,
        "controllers,tolerance,stripes,sender,block ",
    ),
    (
        "names_1_carriage_return",
        1,
        "controllers,tolerance,stripes,sender,block\r",
    ),
    (
        "names_1_nul",
        1,
        "controllers,tolerance,stripes,sender,block\0",
    ),
    ("names_1_blank", 1, ""),
    ("names_3_short", 3, "round,from,to"),
    ("names_3_space", 3, "round, from,to,message"),
    ("names_3_carriage_return", 3, "round,from,to,message\r"),
    ("names_3_values", 3, "1,1,1,0a14"),
    ("names_3_blank", 3, ""),
    // the line of settings: its form
    ("settings_blank", 2, ""),
    ("settings_leading_zero_controllers", 2, "04,1,1,1,0a14"),
    ("settings_leading_zero_tolerance", 2, "4,01,1,1,0a14"),
    ("settings_leading_zero_stripes", 2, "4,1,01,1,0a14"),
    ("settings_leading_zero_sender", 2, "4,1,1,01,0a14"),
    ("settings_sender_00", 2, "4,1,1,00,0a14"),
    ("settings_empty_controllers", 2, ",1,1,1,0a14"),
    ("settings_empty_sender", 2, "4,1,1,,0a14"),
    ("settings_empty_block", 2, "4,1,1,1,"),
    ("settings_missing_comma", 2, "4,1,1,10a14"),
    ("settings_extra_field", 2, "4,1,1,1,0a14,0a14"),
    ("settings_extra_comma", 2, "4,1,1,1,0a14,"),
    ("settings_space", 2, "4, 1,1,1,0a14"),
    ("settings_plus", 2, "+4,1,1,1,0a14"),
    ("settings_minus", 2, "4,-1,1,1,0a14"),
    ("settings_carriage_return", 2, "4,1,1,1,0a14\r"),
    ("settings_upper_case", 2, "4,1,1,1,0A14"),
    ("settings_odd", 2, "4,1,1,1,0a1"),
    ("settings_not_hex", 2, "4,1,1,1,0g14"),
    ("settings_block_short", 2, "4,1,1,1,0a"),
    ("settings_block_long", 2, "4,1,1,1,0a1400"),
    // its ranges
    ("settings_controllers_3", 2, "3,1,1,1,0a14"),
    ("settings_controllers_17", 2, "17,1,1,1,0a14"),
    ("settings_controllers_260", 2, "260,1,1,1,0a14"),
    ("settings_tolerance_0", 2, "4,0,1,1,0a"),
    ("settings_tolerance_2_of_4", 2, "4,2,1,1,0a1414"),
    ("settings_tolerance_2_of_6", 2, "6,2,1,1,0a1414"),
    ("settings_stripes_0", 2, "4,1,0,1,"),
    ("settings_sender_5", 2, "4,1,1,5,0a14"),
    ("settings_sender_17_of_16", 2, "16,1,1,17,0a14"),
    ("settings_sender_minus_0", 2, "4,1,1,-0,0a14"),
    // 2 to the 64, which is 0 of 64 bits, and the numbers after it
    (
        "settings_huge_0_controllers",
        2,
        "18446744073709551616,1,1,1,0a14",
    ),
    (
        "settings_huge_4_controllers",
        2,
        "18446744073709551620,1,1,1,0a14",
    ),
    (
        "settings_huge_0_tolerance",
        2,
        "4,18446744073709551616,1,1,0a",
    ),
    (
        "settings_huge_1_tolerance",
        2,
        "4,18446744073709551617,1,1,0a14",
    ),
    ("settings_huge_0_stripes", 2, "4,1,18446744073709551616,1,"),
    (
        "settings_huge_1_stripes",
        2,
        "4,1,18446744073709551617,1,0a14",
    ),
    (
        "settings_huge_0_sender",
        2,
        "4,1,1,18446744073709551616,0a14",
    ),
    (
        "settings_huge_1_sender",
        2,
        "4,1,1,18446744073709551617,0a14",
    ),
    // message lines: their form, at the first, a middle one and the last
    ("leading_zero_first_round", 4, "01,1,2,0a14"),
    ("leading_zero_middle_from", 7, "2,01,2,1e22"),
    ("leading_zero_middle_to", 7, "2,1,02,1e22"),
    ("leading_zero_last_to", 9, "3,1,00,0700"),
    ("empty_first_round", 4, ",1,2,0a14"),
    ("empty_middle_from", 6, "1,,4,0b14"),
    ("empty_middle_to", 7, "2,1,,1e22"),
    ("empty_last_message", 9, "3,1,0,"),
    ("missing_comma_first", 4, "1,1,20a14"),
    ("missing_comma_middle", 6, "11,4,0b14"),
    ("missing_comma_last", 9, "3,1,00700"),
    ("extra_field_first", 4, "1,1,2,0a14,0a14"),
    ("extra_comma_middle", 6, "1,1,4,0b14,"),
    ("extra_comma_last", 9, "3,1,0,,0700"),
    ("space_first", 4, " 1,1,2,0a14"),
    ("space_middle", 7, "2,1, 2,1e22"),
    ("space_last", 9, "3,1,0,0700 "),
    ("plus_first", 4, "+1,1,2,0a14"),
    ("plus_middle", 7, "2,+1,2,1e22"),
    ("plus_last", 9, "3,1,+0,0700"),
    ("minus_first", 4, "-1,1,2,0a14"),
    ("minus_middle", 7, "2,-1,2,1e22"),
    ("minus_last", 9, "3,1,-0,0700"),
    ("carriage_return_first", 4, "1,1,2,0a14\r"),
    ("carriage_return_middle", 6, "1,1,4,0b14\r"),
    ("carriage_return_last", 9, "3,1,0,0700\r"),
    ("upper_case_first", 4, "1,1,2,0A14"),
    ("upper_case_middle", 7, "2,1,2,1E22"),
    ("upper_case_last", 9, "3,1,0,0F00"),
    ("odd_first", 4, "1,1,2,0a1"),
    ("odd_middle", 6, "1,1,4,0b140"),
    ("odd_last", 9, "3,1,0,700"),
    ("not_hex_first", 4, "1,1,2,0a1g"),
    ("not_hex_middle", 6, "1,1,4,0x14"),
    ("not_hex_last", 9, "3,1,0,07`0"),
    ("message_short_middle", 6, "1,1,4,0b"),
    ("message_long_last", 9, "3,1,0,070000"),
    ("nul_first", 4, "1,1,2,0a14\0"),
    ("nul_middle", 7, "2,1,2,\x001e2"),
    ("nul_last", 9, "3,1,0,07\x000"),
    ("blank_first", 4, ""),
    ("blank_middle", 6, ""),
    ("blank_last", 9, ""),
    ("names_first", 4, "round,from,to,message"),
    // their ranges
    ("round_0_first", 4, "0,1,2,0a14"),
    ("round_0_last_empty", 9, "0,1,0,"),
    ("round_12_middle", 7, "12,1,2,22"),
    ("round_12_last_empty", 9, "12,1,0,"),
    ("from_0_first", 4, "1,0,2,0a14"),
    ("from_0_last", 9, "3,0,0,0700"),
    ("from_5_middle", 6, "1,5,4,0b14"),
    ("to_5_first", 4, "1,1,5,0a14"),
    ("to_5_middle", 6, "1,1,5,0b14"),
    ("to_5_last", 9, "3,1,5,0700"),
    ("to_256", 9, "3,1,256,0700"),
    ("huge_0_round", 7, "18446744073709551616,1,2,1e22"),
    ("huge_1_round", 4, "18446744073709551617,1,2,0a14"),
    ("huge_0_from", 7, "2,18446744073709551616,2,1e22"),
    ("huge_1_from", 4, "1,18446744073709551617,2,0a14"),
    ("huge_0_to", 9, "3,1,18446744073709551616,0700"),
    ("huge_1_to", 7, "2,1,18446744073709551617,1e22"),
    // 2 to the 128, plus 1
    (
        "huge_of_39_digits",
        4,
        "340282366920938463463374607431768211457,1,2,0a14",
    ),
    // given twice
    ("twice_first", 5, "1,1,2,0a14"),
    ("twice_middle_other_message", 7, "1,1,2,0b14"),
    ("twice_last", 9, "2,1,3,1e36"),
    ("all_after_one_first", 5, "1,1,0,0a14"),
    ("all_after_one_middle", 6, "1,1,0,0b14"),
    ("all_after_one_last", 9, "2,1,0,1e22"),
];

/// The length of each kind of round where n is 7, t 2, k 3 (document 01, 'Rounds').
const LENGTHS: [(usize, usize); 8] = [
    (1, 9),
    (2, 6),
    (3, 2),
    (4, 14),
    (5, 28),
    (6, 14),
    (13, 3),
    (14, 3),
];
const LENGTHS_BLOCK: [u8; 9] = [1, 2, 3, 4, 5, 6, 7, 8, 9];

/// Document 01's example with line `number` changed.
fn changed(number: usize, line: &[u8]) -> Vec<u8> {
    let mut lines: Vec<&[u8]> = EXAMPLE.lines().map(str::as_bytes).collect();
    lines[number - 1] = line;
    lines
        .iter()
        .flat_map(|line| [line, &b"\n"[..]].concat())
        .collect()
}

/// The first lines of the example.
fn lines(count: usize) -> String {
    EXAMPLE.split_inclusive('\n').take(count).collect()
}

fn wrong_lines(files: &mut Files) {
    for &(name, number, line) in LINES {
        files.wrong(name, changed(number, line.as_bytes()), number);
    }
    files.wrong("byte_ff_names", changed(1, b"\xff"), 1);
    files.wrong("byte_ff_settings", changed(2, b"4,1,1,1,0a\xff4"), 2);
    files.wrong("byte_ff_first", changed(4, b"1,1,2,0a1\xff"), 4);
    files.wrong("byte_ff_middle", changed(7, b"2,1,2,1e\xff2"), 7);
    files.wrong("byte_ff_last", changed(9, b"3,1,0,0700\xff"), 9);
    let block = "0a".repeat(66);
    let stripes = format!("4,1,33,1,{block}");
    files.wrong(
        "settings_stripes_33",
        lines(3).replace("4,1,1,1,0a14", &stripes),
        2,
    );
    let start = head(&system(7, 2, 1, &LENGTHS_BLOCK, &[]));
    for (round, length) in LENGTHS {
        let line = |length| start.clone() + &message_line(round, 7, 0, &vec![0; length]);
        files.wrong(&format!("short_round_{round}"), line(length - 1), 4);
        files.wrong(&format!("long_round_{round}"), line(length + 1), 4);
    }
}

fn wrong_files(files: &mut Files) {
    files.wrong("missing_1", "", 1);
    files.wrong("missing_2", lines(1), 2);
    files.wrong("missing_3", lines(2), 3);
    files.wrong("newline", "\n", 1);
    for number in [1, 2, 3, 4, 9] {
        let input = lines(number);
        let cut = &input[..input.len() - 1];
        files.wrong(&format!("tail_{number}"), cut, number);
    }
    files.wrong("tail_space", lines(9) + " ", 10);
    files.wrong("blank_end", lines(9) + "\n", 10);
    let all_first = EXAMPLE.replace("1,1,2,0a14", "1,1,0,0a14");
    files.wrong("one_after_all_first", all_first, 5);
    files.wrong("one_after_all_last", lines(9) + "3,1,1,0000\n", 10);
    files.wrong("all_twice", lines(9) + "3,1,0,0000\n", 10);
    // of two wrong lines the first counts
    let two = |first, second| {
        EXAMPLE
            .replace("1,1,3,0a14", first)
            .replace("2,1,3,1e36", second)
    };
    files.wrong("two_form_twice", two("1,1,3,0a1", "2,1,2,1e22"), 5);
    files.wrong("two_twice_form", two("1,1,2,0a14", "2,1,3,1E36"), 5);
    let cut = EXAMPLE.replace("4,1,1,1,", "4,1,1,9,");
    files.wrong("two_range_tail", &cut[..cut.len() - 1], 2);
}

fn main() {
    let folder = env::args().nth(1).expect("a folder");
    let mut files = Files(Vec::new());
    let block = &[0x0a, 0x14];
    files.agreed("document_01", EXAMPLE.to_string(), &[2, 3, 4], block);
    silent(&mut files);
    silent_at_the_end(&mut files);
    two_faced_sender(&mut files);
    lying_kings(&mut files);
    last_kings(&mut files);
    none(&mut files);
    false_pieces(&mut files);
    without_sender(&mut files);
    beyond_t(&mut files);
    beyond_t_outcomes(&mut files);
    sixteen(&mut files);
    sixteen_largest(&mut files);
    // a message given to all and then to one
    let wrong = lines(9) + "3,1,2,0700\n";
    files.add("wrong", wrong.into_bytes(), "bad,10\n");
    edges(&mut files);
    larger_edges(&mut files);
    wrong_lines(&mut files);
    wrong_files(&mut files);
    files.write(Path::new(&folder));
}
