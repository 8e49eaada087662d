//! Which direct calls are made.

use crate::compare::{Cases, Expected};
use crate::direct::*;
use crate::large;
use crate::limits;
use crate::random::Random;
use crate::small::{LETTERS, letters, patterns};

/// Every small state: also those that no session reaches.
pub fn small(to: &mut dyn Cases) {
    for capacity in 0..=3 {
        let storage = b"wxyz"[..capacity].to_vec();
        for held in 0..=capacity {
            for call in WRITER_CALLS {
                let slices: Vec<_> = match call {
                    FLUSH | FLUSH_BUF => vec![vec![]],
                    LINE_WRITE | LINE_WRITE_ALL => (0..=capacity + 2).flat_map(patterns).collect(),
                    _ => (0..=capacity + 2).map(|n| letters(n, 0)).collect(),
                };
                for slice in slices {
                    for newline in [false, true] {
                        let mut storage = storage.clone();
                        if newline && held > 0 {
                            storage[held - 1] = b'\n';
                        }
                        // Room that ends a write, and room enough; one byte is out already.
                        for room in [1, 8] {
                            let mut case = WriterCall {
                                call,
                                storage: storage.clone(),
                                held,
                                script: vec![7],
                                used: 1,
                                medium: vec![b'-'; 1 + room],
                                out: 1,
                                slice: slice.clone(),
                            };
                            writer_scripts(to, &mut case);
                        }
                    }
                }
            }
        }
        for filled in 0..=capacity {
            for pos in 0..=filled {
                reader_calls(to, &storage, pos, filled);
            }
        }
    }
}

fn writer_scripts(to: &mut dyn Cases, case: &mut WriterCall) {
    let (expected, asked) = case.expected_to_end();
    to.add(case.request(), Expected::Exactly(expected));
    if asked && case.script.len() < 3 {
        for letter in LETTERS {
            case.script.push(letter);
            writer_scripts(to, case);
            case.script.pop();
        }
    }
}

fn reader_calls(to: &mut dyn Cases, storage: &[u8], pos: usize, filled: usize) {
    let capacity = storage.len() as i64;
    for call in READER_CALLS {
        let sizes: Vec<i64> = match call {
            READ => (0..=capacity + 2).collect(),
            PEEK | CONSUME | BUFFER_CONSUME | BUFFER_UNCONSUME => {
                (0..=capacity + 1).chain([-1]).collect()
            }
            SEEK => (-capacity - 1..=capacity + 1).chain([i64::MIN, i64::MAX]).collect(),
            _ => vec![0],
        };
        for size in sizes {
            let mut case = ReaderCall {
                call,
                storage: storage.to_vec(),
                pos,
                filled,
                script: vec![7],
                used: 1,
                stock: b"0abcd".to_vec(),
                taken: 1,
                size,
                destination: vec![],
            };
            if call == READ {
                case.destination = vec![b'*'; size as usize];
            }
            reader_scripts(to, &mut case);
        }
    }
}

fn reader_scripts(to: &mut dyn Cases, case: &mut ReaderCall) {
    let (expected, asked) = case.expected_to_end();
    to.add(case.request(), Expected::Exactly(expected));
    if asked && case.script.len() < 3 {
        for letter in LETTERS {
            case.script.push(letter);
            reader_scripts(to, case);
            case.script.pop();
        }
    }
}

/// A state of any size; one in four is at a limit or over it, and refused unchanged if over.
pub fn random(to: &mut dyn Cases, random: &mut Random) {
    let capacity = large::capacity(random);
    let script = large::script(random, capacity);
    let used = random.to(script.len());
    let storage = large::bytes(random, capacity, 8);
    let size = random.pick(&[0, 1, capacity, 2 * capacity, 4 * capacity]) + random.to(9);
    let device = large::bytes(random, size, 8);
    let moved = random.to(device.len());
    let filled = random.to(capacity);
    let spoiled = random.one_in(4);
    if random.one_in(2) {
        let edge = random.pick(&[capacity, capacity - filled, 2 * capacity, 1]);
        let length = (edge + 1).saturating_sub(random.below(3));
        let rarity = random.pick(&[0, 2, 16]);
        let mut case = WriterCall {
            call: random.pick(&WRITER_CALLS),
            storage,
            held: filled,
            script,
            used,
            medium: device,
            out: moved,
            slice: large::bytes(random, length, rarity),
        };
        if spoiled {
            for _ in 0..=random.below(2) {
                writer_fault(&mut case, random.below(WRITER_FAULTS), random.below(2));
            }
        }
        let expected = Expected::Exactly(case.expected());
        to.add(case.request(), expected);
    } else {
        let pos = random.to(filled);
        let edge = random.pick(&[capacity, filled - pos, pos, 1]);
        let length = (edge + 1).saturating_sub(random.below(3));
        let call = random.pick(&READER_CALLS);
        let mut size = length as i64;
        if call == SEEK && random.one_in(2) {
            size = -size;
        }
        if random.one_in(32) {
            size = random.pick(&[i64::MIN, i64::MIN + 1, i64::MAX, -1]);
        }
        let mut case = ReaderCall {
            call,
            storage,
            pos,
            filled,
            script,
            used,
            stock: device,
            taken: moved,
            size,
            destination: vec![b'*'; if call == READ { length } else { 0 }],
        };
        if spoiled {
            for _ in 0..=random.below(2) {
                reader_fault(&mut case, random.below(READER_FAULTS), random.below(2));
            }
        }
        let expected = Expected::Exactly(case.expected());
        to.add(case.request(), expected);
    }
}

const WRITER_FAULTS: usize = 7;

/// Brings one thing to its limit, or `over` it.
fn writer_fault(case: &mut WriterCall, fault: usize, over: usize) {
    match fault {
        0 => case.storage.resize(limits::CAPACITY + over, 1),
        1 => case.script.resize(limits::SCRIPT + over, 2),
        2 => case.medium.resize(limits::BYTES + over, 3),
        3 => case.slice.resize(limits::BYTES + over, 4),
        4 => case.held = case.storage.len() + over,
        5 => case.out = case.medium.len() + over,
        _ => case.used = case.script.len() + over,
    }
}

const READER_FAULTS: usize = 8;

fn reader_fault(case: &mut ReaderCall, fault: usize, over: usize) {
    match fault {
        0 => case.storage.resize(limits::CAPACITY + over, 1),
        1 => case.script.resize(limits::SCRIPT + over, 2),
        2 => case.stock.resize(limits::BYTES + over, 3),
        3 if case.call == READ => case.destination.resize(limits::BYTES + over, 4),
        3 => case.size = (case.storage.len() + over) as i64,
        4 => case.filled = case.storage.len() + over,
        5 => case.pos = case.filled + over,
        6 => case.taken = case.stock.len() + over,
        _ => case.used = case.script.len() + over,
    }
}

/// Each limit and each pair of them, met or passed by one or by far: which refusal comes first,
/// and that it changes nothing.
pub fn refusals(to: &mut dyn Cases) {
    let far = 100_000;
    let pairs = |faults: usize| {
        (0..faults).flat_map(move |first| (first..faults).map(move |second| (first, second)))
    };
    let overs = [(0, 0), (1, 1), (0, 1), (1, 0)];
    for call in WRITER_CALLS {
        let start = WriterCall {
            call,
            storage: b"abcd".to_vec(),
            held: 2,
            script: vec![1, 65_536, 0],
            used: 1,
            medium: b"123".to_vec(),
            out: 1,
            slice: b"xyz".to_vec(),
        };
        let mut ask =
            |case: &WriterCall| to.add(case.request(), Expected::Exactly(case.expected()));
        for (first, second) in pairs(WRITER_FAULTS) {
            for (over, also) in overs {
                let mut case = start.clone();
                writer_fault(&mut case, first, over);
                writer_fault(&mut case, second, also);
                ask(&case);
            }
        }
        for fault in 4..WRITER_FAULTS {
            let mut case = start.clone();
            writer_fault(&mut case, fault, far);
            ask(&case);
        }
    }
    for call in READER_CALLS {
        let start = ReaderCall {
            call,
            storage: b"abcd".to_vec(),
            pos: 1,
            filled: 2,
            script: vec![1, 65_536, 0],
            used: 1,
            stock: b"123".to_vec(),
            taken: 1,
            size: 1,
            destination: if call == READ { b"****".to_vec() } else { vec![] },
        };
        let mut ask =
            |case: &ReaderCall| to.add(case.request(), Expected::Exactly(case.expected()));
        for (first, second) in pairs(READER_FAULTS) {
            for (over, also) in overs {
                let mut case = start.clone();
                reader_fault(&mut case, first, over);
                reader_fault(&mut case, second, also);
                ask(&case);
            }
        }
        for fault in 4..READER_FAULTS {
            let mut case = start.clone();
            reader_fault(&mut case, fault, far);
            ask(&case);
        }
    }
}
