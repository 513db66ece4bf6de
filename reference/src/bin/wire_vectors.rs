//! The expected output of the program wire_cases, from the reference.
use reference::wire::*;

fn line(n: u128, t: u128, k: u128, c: u128) {
    let phase = if c == 0 { 0 } else { (c - 1) / 3 };
    let inbox = if c == 0 {
        0
    } else {
        box_length(n, t, k, c - 1)
    };
    println!(
        "c {c} {} {} {phase} {} {inbox} {}",
        round_row(t, c),
        call_row(t, c),
        message_length(n, t, k, c),
        box_length(n, t, k, c)
    );
}

fn table(n: u128, t: u128, k: u128, last: u128) {
    let known = (1..=5).contains(&t);
    let rounds = if known { 3 * t + 8 } else { 0 };
    let calls = if known { 3 * t + 9 } else { 0 };
    println!(
        "settings {n} {t} {k} {rounds} {calls} {}",
        block_length(n, t, k)
    );
    for c in 0..last {
        line(n, t, k, c);
    }
}

fn bytes(name: &str, s: &[u8]) {
    let list: String = s.iter().map(|b| format!(" {b}")).collect();
    println!("{name}{list}");
}

/// A read of slot j: where the message starts, 0 where there is none, and its bytes.
fn read(name: &str, inbox: &[u8], run: u16, len: u128, j: u128) {
    let found = message(inbox, run, len, j);
    let offset = if found.is_empty() {
        0
    } else {
        (j as usize - 1) * (FRONT + len as usize) + FRONT
    };
    bytes(&format!("{name} {offset}:"), found);
}

fn main() {
    let largest = u64::MAX as u128;
    table(4, 1, 1, 14);
    table(7, 2, 2, 17);
    table(10, 3, 32, 20);
    table(13, 4, 100, 23);
    table(16, 5, 128, 26);
    table(16, 1, 128, 14);
    table(3, 1, 1, 3);
    table(17, 1, 1, 3);
    table(4, 0, 1, 3);
    table(4, 2, 1, 3);
    table(7, 2, 129, 3);
    table(7, 2, 0, 3);
    table(largest, 1, 1, 3);
    table(16, largest, 1, 3);
    table(16, 5, largest, 3);
    line(16, 5, 128, largest);
    line(16, largest, 128, largest);

    let inbox = [
        slot_with(1, &[5, 6]),
        vec![2, 1, 0, 7, 8],
        slot_with(256, &[9, 10]),
        vec![0, 0, 0, 11, 12],
        slot_with(65535, &[13, 14]),
        slot_with(0, &[15, 16]),
        slot_with(257, &[17, 18]),
    ];
    for run in [0, 1, 255, 256, 257, 65280, 65535] {
        for j in [1, 2, 3, 4, 5, 6, 7, 0, 8] {
            read(&format!("slot {run} {j}"), &inbox.concat(), run, 2, j);
        }
    }
    let two = [slot_with(5, &[6, 7]), slot_with(5, &[8, 9])].concat();
    read("not whole", &two[..9], 5, 2, 2);
    read("longer", &[&two[..], &[1]].concat(), 5, 2, 2);
    read("no bytes", &[], 5, 2, 1);
    read("two bytes", &two[..2], 5, 0, 1);
    read("too long", &two[..5], 5, 3, 1);
    for (name, less) in [(" but two", 2), (" but one", 1), ("", 0)] {
        let name = format!("largest length{name}");
        read(&name, &two[..5], 5, largest - less, 1);
    }
    read("largest number", &two[..5], 5, 2, largest);
    let five = slot_with(5, &[6, 7, 8, 9, 10]);
    read("number that wraps", &five, 5, 5, (1 << 61) + 1);

    let mut outbox = [7u8; 20];
    send_one(&mut outbox, 258, 2, 2, &[5, 6]);
    bytes("one", &outbox);
    send_one(&mut outbox, 258, 2, 5, &[8, 9]);
    bytes("past", &outbox);
    send_one(&mut outbox, 258, 2, 0, &[8, 9]);
    bytes("zero", &outbox);
    send_one(&mut outbox, 258, 2, 1, &[8, 9, 10]);
    bytes("too long", &outbox);
    send_one(&mut outbox, 0, 2, 3, &[5, 6]);
    bytes("run 0", &outbox);
    // three slots are not the twenty bytes
    bytes("not three", &outbox);
    for run in [256, 65535] {
        for j in 1..=4 {
            send_one(&mut outbox, run, 2, j, &[8, 9]);
        }
        bytes("all", &outbox);
    }
    // a slot of run 2, byte for byte
    outbox[5..10].copy_from_slice(&[1, 2, 0, 5, 6]);
    bytes("relayed", &outbox);
    outbox.fill(0);
    bytes("silence", &outbox);
    outbox[..3].copy_from_slice(&[1, 2, 3]);
    bytes("copy", &outbox);
}
