//! The bindings: the header's numbers beside the library's, refusals, lengths, runs, marks, and the parts by themselves.
use potekawhi::{
    decode, encode, message, missing_pairs, raw, star, star_of_pairs, Controller, Decoded, Marks,
    Outcome, Refusal, Settings,
};

const SETTINGS: Settings = Settings {
    n: 4,
    t: 1,
    k: 1,
    sender: 1,
};

/// The run number in these tests, 02 01 in a slot.
const RUN: u16 = 0x0102;

/// A slot with a message in that run.
fn slot(message: &[u8]) -> Vec<u8> {
    [&[1, 2, 1], message].concat()
}

/// The length of a state that the header defines is the library's: a state has that length and no other. The marks are bytes 115 and 116, the run number
/// the last two, the low ones first.
#[test]
fn length_in_the_header() {
    for length in 0..2 * raw::STATE_LENGTH {
        let taken = raw::outcome(&vec![0; length]) == 0;
        assert_eq!(taken, length == raw::STATE_LENGTH);
        let named = raw::named(&vec![0xff; length]);
        assert_eq!(named, if taken { 0xffff } else { 0 });
    }
    let mut state = [0xff; raw::STATE_LENGTH];
    (state[115], state[116]) = (0x21, 0x04);
    assert_eq!((state.len(), raw::named(&state)), (119, 0x0421));
    for run in [0, 1, 256, RUN, 65535] {
        let mut state = [0xff; raw::STATE_LENGTH];
        assert_eq!(raw::start(4, 1, 1, 1, 1, run, &[7; 2], &mut state), raw::OK);
        assert_eq!(state[117..], run.to_le_bytes());
        assert_eq!(
            raw::step(&mut state, &mut [7; 2], &[], &mut [9; 20]),
            raw::OK
        );
        assert_eq!(state[117..], run.to_le_bytes());
    }
}

/// So are the lengths of rows, missing pairs and sets, and the number for beyond.
#[test]
fn numbers_in_the_header() {
    for length in 0..64 {
        let rows = vec![0; length];
        let taken = raw::missing_pairs(4, &rows, &mut [0; raw::PAIRS_LENGTH]) == 0;
        assert_eq!(taken, length == raw::ROWS_LENGTH);
        let taken = raw::star_of_pairs(4, 1, &rows, &mut [0; raw::SETS_LENGTH]) == 0;
        assert_eq!(taken, length == raw::PAIRS_LENGTH);
        let mut sets = vec![0; length];
        let taken = raw::star(4, 1, &[0; raw::ROWS_LENGTH], &mut sets) == 0;
        assert_eq!(taken, length == raw::SETS_LENGTH);
    }
    let slots = [0x1e, 0x22, 0x37, 0x5b]
        .map(|piece| slot(&[piece]))
        .concat();
    assert_eq!(
        raw::decode(4, 1, 1, RUN, &slots, &mut [7; 2], &mut 7),
        raw::BEYOND
    );
}

/// Document 01's numbers, 1 to 8.
#[test]
fn refusal_numbers() {
    let rows = [
        Refusal::N,
        Refusal::T,
        Refusal::K,
        Refusal::Number,
        Refusal::Sender,
        Refusal::Length,
        Refusal::State,
        Refusal::Finished,
    ];
    assert_eq!(rows.map(Refusal::number), [1, 2, 3, 4, 5, 6, 7, 8]);
    assert_eq!(Refusal::K.to_string(), "k is not 1 to 128");
}

/// Every row, and of several the first. A refused start leaves the block.
#[test]
fn refused_starts() {
    let refused = |settings, own, length| {
        let mut block = vec![7; length];
        let refusal = Controller::start(settings, own, RUN, &mut block).unwrap_err();
        assert_eq!(block, vec![7; length]);
        refusal
    };
    assert_eq!(refused(Settings { n: 3, ..SETTINGS }, 1, 2), Refusal::N);
    assert_eq!(refused(Settings { n: 17, ..SETTINGS }, 1, 2), Refusal::N);
    assert_eq!(refused(Settings { t: 0, ..SETTINGS }, 1, 1), Refusal::T);
    assert_eq!(refused(Settings { t: 2, ..SETTINGS }, 1, 3), Refusal::T);
    assert_eq!(refused(Settings { k: 0, ..SETTINGS }, 1, 0), Refusal::K);
    assert_eq!(refused(Settings { k: 129, ..SETTINGS }, 1, 258), Refusal::K);
    assert_eq!(refused(SETTINGS, 0, 2), Refusal::Number);
    assert_eq!(refused(SETTINGS, 5, 2), Refusal::Number);
    let sender = |sender| Settings { sender, ..SETTINGS };
    assert_eq!(refused(sender(5), 1, 2), Refusal::Sender);
    assert_eq!(refused(sender(usize::MAX), 1, 2), Refusal::Sender);
    assert_eq!(refused(sender(0), 0, 2), Refusal::Number);
    assert_eq!(refused(sender(0), 1, 3), Refusal::Length);
    assert_eq!(refused(SETTINGS, 1, 1), Refusal::Length);
    assert_eq!(refused(SETTINGS, 1, 3), Refusal::Length);
    assert_eq!(refused(sender(5), 5, 3), Refusal::Number);
}

#[test]
fn lengths_of_a_run() {
    assert_eq!(SETTINGS.calls(), 12);
    assert_eq!(SETTINGS.block_length(), 2);
    let lengths = [2, 2, 2, 8, 16, 8, 8, 16, 8, 1, 1];
    for (i, length) in lengths.into_iter().enumerate() {
        let round = i + 1;
        assert_eq!(SETTINGS.message_length(round), length);
        assert_eq!(SETTINGS.outbox_length(round), 4 * (3 + length));
        assert_eq!(SETTINGS.inbox_length(round + 1), 4 * (3 + length));
        // the slots fill the box, one behind the other
        let mut end = 0;
        for j in 1..=4 {
            assert_eq!(SETTINGS.slot(round, j), end..end + 3 + length);
            end += 3 + length;
        }
        assert_eq!(end, SETTINGS.outbox_length(round));
    }
    assert_eq!(
        (SETTINGS.inbox_length(1), SETTINGS.outbox_length(12)),
        (0, 0)
    );
    assert_eq!(Settings { n: 3, ..SETTINGS }.block_length(), 0);
    assert_eq!(Settings { n: 0, ..SETTINGS }.slot(1, 1), 0..0);
    for (round, j) in [(0, 1), (12, 1), (1, 0), (1, 5), (1, usize::MAX)] {
        assert!(SETTINGS.slot(round, j).is_empty());
    }
    let largest = Settings {
        n: usize::MAX,
        ..SETTINGS
    };
    assert_eq!(largest.slot(1, usize::MAX), 0..0);
}

/// A wrong length changes nothing, and the step can be made again.
#[test]
fn refused_steps() {
    let (mut block, mut copy) = ([7; 2], [7; 2]);
    let mut controller = Controller::start(SETTINGS, 1, RUN, &mut block).unwrap();
    let before = Controller::start(SETTINGS, 1, RUN, &mut copy).unwrap();
    let mut outbox = [9; 20];
    for (inbox, length) in [(1, 20), (0, 19), (0, 0)] {
        let refused = controller.step(&vec![0; inbox], &mut outbox[..length]);
        assert_eq!(refused, Err(Refusal::Length));
        assert_eq!((&controller, outbox), (&before, [9; 20]));
    }
    assert_eq!(controller.step(&[], &mut outbox), Ok(()));
    assert_eq!(outbox[..], slot(&[7, 7]).repeat(4));
    assert_eq!(controller.next_call(), 2);
}

/// With every slot absent no core is found: marks of its own alone, and zeros of the others.
#[test]
fn a_run_that_hears_nothing() {
    let mut block = [7; 2];
    let mut controller = Controller::start(SETTINGS, 2, RUN, &mut block).unwrap();
    assert_eq!(controller.settings(), SETTINGS);
    for call in 1..=12 {
        assert_eq!(controller.next_call(), call);
        assert_eq!(
            (controller.outcome(), controller.final_block()),
            (Outcome::Open, None)
        );
        assert!(controller.named().is_empty());
        let inbox = vec![0; controller.inbox_length()];
        let mut outbox = vec![9; controller.outbox_length()];
        assert_eq!(controller.step(&inbox, &mut outbox), Ok(()));
    }
    assert_eq!((controller.next_call(), controller.inbox_length()), (13, 0));
    assert_eq!(controller.outcome(), Outcome::None);
    assert_eq!(controller.final_block(), Some(&[0, 0][..]));
    assert!(controller.named().is_empty());
    assert_eq!(controller.step(&[], &mut []), Err(Refusal::Finished));
    assert_eq!(block, [0, 0]);
}

/// Four controllers after their last call, each started with its block; `faulty` changes what arrives at each in a round.
fn played(
    settings: Settings,
    run: u16,
    blocks: &mut [[u8; 2]; 4],
    mut faulty: impl FnMut(usize, &mut [Vec<u8>]),
) -> Vec<Controller<'_>> {
    let mut controllers: Vec<Controller> = blocks
        .iter_mut()
        .zip(1..)
        .map(|(block, own)| Controller::start(settings, own, run, block).unwrap())
        .collect();
    let mut inboxes = vec![Vec::new(); 4];
    for call in 1..=12 {
        let mut arriving = vec![vec![0; settings.inbox_length(call + 1)]; 4];
        for from in 1..=4 {
            let mut outbox = vec![9; settings.outbox_length(call)];
            let controller = &mut controllers[from - 1];
            assert!(controller.named().is_empty());
            assert_eq!(controller.step(&inboxes[from - 1], &mut outbox), Ok(()));
            for to in 1..=4 {
                let slot = &outbox[settings.slot(call, to)];
                arriving[to - 1][settings.slot(call, from)].copy_from_slice(slot);
            }
        }
        faulty(call, &mut arriving);
        inboxes = arriving;
    }
    controllers
}

/// Without a sender nobody sends in round 1, and controller 4, which is faulty, is not heard there. If 1, 2 and 3 start with one block they end with
/// it; if each starts with another, they end with none.
#[test]
fn runs_without_a_sender() {
    let settings = Settings {
        sender: 0,
        ..SETTINGS
    };
    let faulty = |call, arriving: &mut [Vec<u8>]| {
        if call == 1 {
            for (to, inbox) in arriving.iter_mut().enumerate() {
                assert_eq!(*inbox, [0; 20]);
                inbox[15..].copy_from_slice(&slot(&[0x0b, to as u8]));
            }
        }
    };
    let mut blocks = [[0x0a, 0x14]; 4];
    blocks[3] = [7; 2];
    for controller in &played(settings, RUN, &mut blocks, faulty)[..3] {
        assert_eq!(controller.outcome(), Outcome::Agreed);
        assert_eq!(controller.final_block(), Some(&[0x0a, 0x14][..]));
    }
    let mut blocks = [[1, 2], [3, 5], [7, 11], [13, 17]];
    for controller in &played(settings, RUN, &mut blocks, faulty)[..3] {
        assert_eq!(controller.outcome(), Outcome::None);
        assert_eq!(controller.final_block(), Some(&[0, 0][..]));
        assert!(controller.named().is_empty());
    }
}

/// Controller 4 is faulty: in the last round it sends its true piece to 1, a false one to 2 and none to 3. A step that is refused after the end
/// leaves what each names.
#[test]
fn a_run_that_names_one() {
    let mut blocks = [[0x0a, 0x14], [7; 2], [7; 2], [7; 2]];
    let mut controllers = played(SETTINGS, RUN, &mut blocks, |call, arriving| {
        if call == 11 {
            let place = SETTINGS.slot(11, 4);
            assert_eq!(arriving[0][place.clone()], slot(&[0x5a]));
            arriving[1][place.clone()].copy_from_slice(&slot(&[0x5b]));
            arriving[2][place].copy_from_slice(&[0, 2, 1, 0x5a]);
        }
    });
    let expected = [Marks(0), Marks(0b1000), Marks(0b1000)];
    for (controller, named) in controllers.iter_mut().zip(expected) {
        assert_eq!(controller.outcome(), Outcome::Agreed);
        assert_eq!(controller.final_block(), Some(&[0x0a, 0x14][..]));
        assert_eq!(controller.named(), named);
        assert_eq!(controller.step(&[], &mut []), Err(Refusal::Finished));
        assert_eq!(controller.named(), named);
    }
}

/// Controller 4 is correct in a run, and in the next one repeats all that it sent, with the number of the first: it is read as silent, so the others name
/// it. With the number of the second what it repeats counts.
#[test]
fn late_messages() {
    for (first, second) in [(0, 1), (0, 256), (1, 0), (65535, 0), (RUN, 0x0201)] {
        let mut blocks = [[0x0a, 0x14], [7; 2], [7; 2], [7; 2]];
        let mut sent = Vec::new();
        let controllers = played(SETTINGS, first, &mut blocks, |round, arriving| {
            let of_4 = |inbox: &Vec<u8>| inbox[SETTINGS.slot(round, 4)].to_vec();
            sent.push(arriving.iter().map(of_4).collect::<Vec<_>>());
        });
        assert!(controllers.iter().all(|c| c.named().is_empty()));
        for (number, named) in [(first, Marks(0b1000)), (second, Marks(0))] {
            let mut blocks = [[0x0a, 0x14], [7; 2], [7; 2], [7; 2]];
            let late = |round: usize, arriving: &mut [Vec<u8>]| {
                for (inbox, slot) in arriving.iter_mut().zip(&sent[round - 1]) {
                    let place = &mut inbox[SETTINGS.slot(round, 4)];
                    place.copy_from_slice(slot);
                    if let [1, low, high, ..] = place {
                        [*low, *high] = number.to_le_bytes();
                    }
                }
            };
            for controller in &played(SETTINGS, second, &mut blocks, late)[..3] {
                assert_eq!(controller.outcome(), Outcome::Agreed);
                assert_eq!(controller.final_block(), Some(&[0x0a, 0x14][..]));
                assert_eq!(controller.named(), named);
            }
        }
    }
}

/// The numbers of marks, and numbers that no controller has.
#[test]
fn marks() {
    let all = |marks: Marks| marks.iter().collect::<Vec<_>>();
    assert_eq!(all(Marks(0)), []);
    assert_eq!(all(Marks(0x8021)), [1, 6, 16]);
    assert_eq!(all(Marks(0xffff)), (1..=16).collect::<Vec<_>>());
    assert!(Marks(0).is_empty() && Marks::default().is_empty());
    assert!(!Marks(0x8000).is_empty());
    assert_eq!((Marks(0).len(), Marks(0x8021).len()), (0, 3));
    for number in [0, 17, 18, 64, 65, usize::MAX] {
        assert!(!Marks(0xffff).contains(number));
    }
    for number in 1..=16 {
        assert_eq!(Marks(0x8021).contains(number), [1, 6, 16].contains(&number));
    }
    assert_eq!(format!("{:?}", Marks(0x8021)), "{1, 6, 16}");
}

#[test]
fn messages() {
    let inbox = [1, 2, 1, 10, 20, 2, 2, 1, 30, 40, 1, 2, 1, 50, 60];
    assert_eq!(message(&inbox, RUN, 2, 3), Some(&inbox[13..15]));
    for run in [0, 1, 2, 0x0101, 0x0100, 0x0201, 65535] {
        assert_eq!(message(&inbox, run, 2, 3), None);
    }
    for (length, j) in [
        (2, 0),
        (2, 2),
        (2, 4),
        (2, usize::MAX),
        (usize::MAX, 1),
        (usize::MAX - 2, 1),
        (0, 1),
    ] {
        assert_eq!(message(&inbox, RUN, length, j), None);
    }
}

/// Examples c, d and e of document 01.
#[test]
fn code() {
    let mut pieces = [0; 4];
    for (i, piece) in pieces.chunks_mut(1).enumerate() {
        assert_eq!(encode(4, 1, 1, i + 1, &[0x0a, 0x14], piece), Ok(()));
    }
    assert_eq!(pieces, [0x1e, 0x22, 0x36, 0x5a]);
    let refused = |k, number, block: &[u8]| {
        let mut piece = [9];
        let refusal = encode(4, 1, k, number, block, &mut piece).unwrap_err();
        assert_eq!(piece, [9]);
        refusal
    };
    assert_eq!(refused(1, 5, &[0x0a, 0x14]), Refusal::Number);
    assert_eq!(refused(1, 1, &[0x0a]), Refusal::Length);
    assert_eq!(refused(129, 1, &[0x0a]), Refusal::K);
    let slots = |values: [u8; 4]| values.map(|value| slot(&[value])).concat();
    let right = [0x00, 0x22, 0x36, 0x5a];
    let mut block = [9; 2];
    assert_eq!(
        decode(4, 1, 1, RUN, &slots(right)[1..], &mut block),
        Err(Refusal::Length)
    );
    assert_eq!(
        decode(4, 2, 1, RUN, &slots(right), &mut block),
        Err(Refusal::T)
    );
    assert_eq!(block, [9; 2]);
    assert_eq!(
        decode(4, 1, 1, RUN, &slots(right), &mut block),
        Ok(Decoded::Block(Marks(0b0001)))
    );
    assert_eq!(block, [0x0a, 0x14]);
    let wrong = slots([0x1e, 0x22, 0x37, 0x5b]);
    assert_eq!(
        decode(4, 1, 1, RUN, &wrong, &mut block),
        Ok(Decoded::Beyond)
    );
    assert_eq!(block, [0; 2]);
}

/// A slot whose run number differs in either byte is dropped and named, with its true piece; with three of them there is no block.
#[test]
fn slots_of_another_run() {
    for other in [0, 2, 0x0101, 0x0100, 0x0201, 65535_u16] {
        let mut slots = [0x1e, 0x22, 0x36, 0x5a].map(|piece| slot(&[piece]));
        let answers = [
            (2, Decoded::Block(Marks(0b0100)), [0x0a, 0x14]),
            (0, Decoded::Block(Marks(0b0101)), [0x0a, 0x14]),
            (3, Decoded::Beyond, [0, 0]),
        ];
        for (late, answer, left) in answers {
            slots[late][1..3].copy_from_slice(&other.to_le_bytes());
            let mut block = [9; 2];
            let decoded = decode(4, 1, 1, RUN, &slots.concat(), &mut block);
            assert_eq!((decoded, block), (Ok(answer), left), "{other}");
        }
    }
}

/// The marks that decoding writes: three stripes 0a14 of which each has another false value; none for beyond; refused, they stay.
#[test]
fn marks_of_decoding() {
    let mut slots = [
        [1, 2, 1, 0x1e, 0x00, 0x1e],
        [1, 2, 1, 0x22, 0x22, 0x00],
        [1, 2, 1, 0x36, 0x36, 0x36],
        [1, 2, 1, 0x00, 0x5a, 0x5a],
    ];
    let mut block = [9; 6];
    let mut decode = |slots: &[u8]| {
        let mut named = 0x1234;
        let number = raw::decode(4, 1, 3, RUN, slots, &mut block, &mut named);
        (number, named, block)
    };
    let (number, named, left) = decode(&slots.concat()[1..]);
    assert_eq!((number, named, left), (raw::BAD_LENGTH, 0x1234, [9; 6]));
    let (number, named, left) = decode(&slots.concat());
    assert_eq!((number, named), (raw::OK, 0b1011));
    assert_eq!(left, [0x0a, 0x14, 0x0a, 0x14, 0x0a, 0x14]);
    // all true, though 3 is absent
    slots[0] = [1, 2, 1, 0x1e, 0x1e, 0x1e];
    slots[1] = [1, 2, 1, 0x22, 0x22, 0x22];
    slots[2] = [2, 2, 1, 0x36, 0x36, 0x36];
    slots[3] = [1, 2, 1, 0x5a, 0x5a, 0x5a];
    let (number, named, left) = decode(&slots.concat());
    assert_eq!((number, named), (raw::OK, 0b0100));
    assert_eq!(left, [0x0a, 0x14, 0x0a, 0x14, 0x0a, 0x14]);
    // of three present none may be false
    slots[3][5] = 0;
    let answer = decode(&slots.concat());
    assert_eq!(answer, (raw::BEYOND, 0, [0; 6]));
}

/// Document 02, U2: absent slots are dropped. Seven controllers, t 2: any three are silent, and what stands in their slots is not read; of
/// five present pieces one may be false; two determine nothing. The silent and the false are marked (U1).
#[test]
fn silent_slots() {
    let expected = [0x0a, 0x14, 0x1e];
    let mut all = [[1, 2, 1, 0]; 7];
    for i in 0..7 {
        let piece = &mut all[i][3..];
        assert_eq!(encode(7, 2, 1, i + 1, &expected, piece), Ok(()));
    }
    for silent in 0..1u8 << 7 {
        let mut slots = all;
        for i in (0..7).filter(|i| silent >> i & 1 == 1) {
            slots[i][0] = 0;
            slots[i][3] ^= 0xff;
        }
        let (answer, left) = if silent.count_ones() <= 4 {
            (Decoded::Block(Marks(silent.into())), expected)
        } else {
            (Decoded::Beyond, [0; 3])
        };
        let mut block = [9; 3];
        let decoded = decode(7, 2, 1, RUN, &slots.concat(), &mut block);
        assert_eq!((decoded, block), (Ok(answer), left));
    }
    let mut slots = all;
    (slots[0][0], slots[3][0], slots[4][3]) = (0, 0, !slots[4][3]);
    let mut block = [9; 3];
    assert_eq!(
        decode(7, 2, 1, RUN, &slots.concat(), &mut block),
        Ok(Decoded::Block(Marks(0b001_1001)))
    );
    assert_eq!(block, expected);
    slots[1][0] = 0;
    assert_eq!(
        decode(7, 2, 1, RUN, &slots.concat(), &mut block),
        Ok(Decoded::Beyond)
    );
}

/// Examples g and h of document 01: the pairs that are not neighbours, in rows and as bits. The bits of numbers past 4 are set.
#[test]
fn stars() {
    let star_without = |pairs: &[(usize, usize)]| {
        let mut rows = [0xffff; 16];
        for (i, j) in pairs {
            rows[i - 1] &= !(1 << (j - 1));
        }
        let mut bits = missing_pairs(4, &rows);
        let found = star(4, 1, &rows).unwrap();
        assert_eq!(star_of_pairs(4, 1, &bits), Ok(found));
        // (1, 5) to (1, 16) are the places 3 to 14, the last pairs the places up to 119
        bits[0] |= 0xf8;
        bits[14] = 0xff;
        assert_eq!(star_of_pairs(4, 1, &bits), Ok(found));
        found
    };
    let found = star_without(&[(1, 4), (2, 4), (3, 4)]).unwrap();
    assert_eq!((found.c, found.d, found.f, found.e), (6, 7, 7, 7));
    assert_eq!(
        star_without(&[(1, 2), (1, 3), (1, 4), (2, 4), (3, 4)]),
        None
    );
    assert_eq!(star(3, 1, &[0; 16]), Err(Refusal::N));
    assert_eq!(star(4, 2, &[0; 16]), Err(Refusal::T));
    assert_eq!(star_of_pairs(17, 5, &[0; 15]), Err(Refusal::N));
    assert_eq!(star_of_pairs(16, 6, &[0; 15]), Err(Refusal::T));
    assert_eq!(missing_pairs(16, &[0; 16]), [0xff; 15]);
    assert_eq!(missing_pairs(17, &[0; 16]), [0xff; 15]);
}
