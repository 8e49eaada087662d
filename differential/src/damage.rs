//! Sessions and traces with faults, and those that just pass.

use crate::compare::Cases;
use crate::large;
use crate::limits;
use crate::numbers::put;
use crate::random::Random;

/// The limits, each at its edge and passed by one, and the faults that document 01 names.
pub fn named(to: &mut dyn Cases) {
    for input in edges().into_iter().chain(forms()) {
        to.input(&input);
    }
}

fn numbers(values: &[u32]) -> Vec<u8> {
    let mut bytes = Vec::new();
    values.iter().for_each(|&value| put(&mut bytes, value));
    bytes
}

fn edges() -> Vec<Vec<u8>> {
    let with = |values: &[u32], zeros: usize, after: &[u32]| {
        let mut bytes = numbers(values);
        bytes.resize(bytes.len() + zeros, 0);
        bytes.extend_from_slice(&numbers(after));
        bytes
    };
    let mut all = Vec::new();
    for over in 0..=1 {
        let big = |n: usize| (n + over) as u32;
        for kind in 0..=2 {
            let none: &[u32] = if kind == 2 { &[0, 0] } else { &[0] };
            all.push(with(&[kind, big(limits::CAPACITY), 0], 0, none));
            all.push(with(&[kind, 4, big(limits::SCRIPT)], limits::SCRIPT + over, none));
        }
        // Calls: flush for a writer, fill for a reader (whose number is 7).
        let calls = vec![2; limits::CALLS + over];
        all.push(with(&[0, 1, 0, big(limits::CALLS)], 0, &calls));
        let calls = vec![7; limits::CALLS + over];
        all.push(with(&[2, 1, 0, 0, big(limits::CALLS)], 0, &calls));
        all.push(with(&[2, 4, 1, 9, big(limits::BYTES)], limits::BYTES + over, &[1, 3, 4]));
        for call in 0..=1 {
            let bytes = limits::BYTES + over;
            all.push(with(&[0, 4, 1, 65_535, 1, call, big(limits::BYTES)], bytes, &[]));
        }
        all.push(with(&[2, 4, 1, 9, 2, 7, 7, 1, 3, big(limits::BYTES)], 0, &[]));
        // Too long in all: a session of two long writes, cut or filled to the edge.
        let mut long = with(&[0, 4, 0, 2, 0, 16_384], 16_384, &[0, 16_370]);
        long.resize(limits::SESSION + over, 0);
        all.push(long);
        let mut trace = with(&[3, 4, 0, 16_384], 16_384, &[]);
        trace.resize(limits::SESSION + over, 0);
        all.push(trace);
        // Traces.
        all.push(with(&[3, big(limits::CAPACITY), 0, 0], 0, &[]));
        let flushes = [1, 0].repeat(limits::TRACE_CALLS + over);
        all.push(with(&[3, 4, big(limits::TRACE_CALLS)], 0, &[&flushes[..], &[0]].concat()));
        all.push(with(&[3, 4, 1, 0, big(limits::BYTES)], limits::BYTES + over, &[0, 3, 0]));
        let two = &[0, 10_000, 0, big(6_384)];
        all.push(with(&[3, 4, 2, 0, 10_000], 10_000, two));
        let mut total = with(&[3, 4, 2, 0, 10_000], 10_000, two);
        total.resize(total.len() + 6_384 + over, 0);
        total.extend_from_slice(&numbers(&[0, 6_384, 0]));
        all.push(total);
        all.push(with(&[3, 4, 0, big(limits::BYTES)], limits::BYTES + over, &[]));
        let code = limits::CODE.wrapping_add(over as u32);
        all.push(with(&[3, 4, 1, 1, 3, code, 0], 0, &[]));
        all.push(with(&[3, 4, 1, 1, 3, over as u32, 0], 0, &[]));
    }
    all.push(vec![0; 40_000]);
    all
}

/// Numbers in every faulty form, at every place where a number stands.
fn forms() -> Vec<Vec<u8>> {
    let whole: [&[u8]; 5] = [
        &[0, 4, 2, 1, 0x85, 0x80, 4, 3, 0, 3, 97, 98, 99, 2, 1, 1, 10],
        &[1, 4, 1, 9, 2, 0, 3, 97, 10, 99, 2],
        &[2, 4, 1, 9, 3, 97, 98, 99, 6, 3, 2, 4, 3, 5, 1, 6, 0, 1, 6, 1, 2, 7],
        &[3, 4, 2, 0, 3, 97, 98, 99, 0, 3, 1, 3, 5, 2, 97, 98],
        &[3, 1, 3, 0, 1, 97, 1, 1, 2, 1, 0, 0],
    ];
    let wrong: [&[u8]; 10] = [
        &[0x80],
        &[0x80, 0],
        &[0xff, 0xff],
        &[0x80, 0x80, 0x80, 0x80, 0x80],
        &[0x80, 0x80, 0x80, 0x80, 0x10],
        &[0x80, 0x80, 0x80, 0x80, 0x00],
        &[0xff, 0xff, 0xff, 0xff, 0x0f],
        &[0xff, 0xff, 0xff, 0xff, 0x8f, 0],
        &[4],
        &[8],
    ];
    let mut all = vec![vec![]];
    for session in whole {
        all.push(session.to_vec());
        for at in 0..session.len() {
            all.push(session[..at].to_vec());
            for form in wrong {
                all.push([&session[..at], form].concat());
                all.push([&session[..at], form, &session[at + 1..]].concat());
            }
            for byte in 0..=9 {
                all.push([&session[..at], &[byte], &session[at + 1..]].concat());
            }
        }
        for surplus in [0, 0x80, 0xff] {
            all.push([session, &[surplus]].concat());
        }
    }
    all
}

/// A random session, cut at every byte where it is short, or changed in one or two places.
pub fn random(to: &mut dyn Cases, random: &mut Random) {
    let mut bytes = large::session(random).bytes();
    if random.one_in(4) && bytes.len() <= 64 {
        (0..bytes.len()).for_each(|at| to.input(&bytes[..at]));
        return;
    }
    spoil(&mut bytes, random);
    to.input(&bytes);
}

pub fn spoil(bytes: &mut Vec<u8>, random: &mut Random) {
    for _ in 0..=random.below(2) {
        // Near the start the structure is, further on mostly plain bytes.
        let reach = if random.one_in(2) { bytes.len().min(12) } else { bytes.len() };
        let at = random.to(reach).min(bytes.len());
        let byte = match random.below(4) {
            0 => random.word() as u8,
            1 => random.pick(&[0x80, 0xff, 0x0f, 0x10, 0x7f]),
            _ => random.to(9) as u8,
        };
        match random.below(4) {
            0 => bytes.insert(at, byte),
            1 => bytes.truncate(at),
            2 if at < bytes.len() => drop(bytes.remove(at)),
            _ if at < bytes.len() => bytes[at] = byte,
            _ => bytes.push(byte),
        }
    }
}
