//! Random sessions over the whole range, with lengths at every boundary of the state the real code
//! is in when the call comes.

use crate::device::Device;
use crate::limits;
use crate::oracle::{RealReader, RealWriter};
use crate::random::Random;
use crate::session::{Call, Kind, Session};

/// How a card behaves.
#[derive(Clone, Copy)]
enum Card {
    Healthy,
    Slow,
    Hostile,
}

pub fn session(random: &mut Random) -> Session {
    match random.below(3) {
        0 => writer(random, Kind::Writer),
        1 => writer(random, Kind::LineWriter),
        _ => reader(random),
    }
}

pub fn capacity(random: &mut Random) -> usize {
    match random.below(8) {
        0 => random.to(3),
        1 => random.pick(&[4, 8, 16, 63, 64, 65, 127, 128, 129, 255, 256, 1_023, 1_024]),
        2 => random.to(limits::CAPACITY),
        _ => random.to(24),
    }
}

pub fn script(random: &mut Random, capacity: usize) -> Vec<u32> {
    let length = match random.below(64) {
        0 => random.to(limits::SCRIPT),
        1..24 => random.to(4),
        _ => random.to(40),
    };
    let card = random.pick(&[Card::Healthy, Card::Healthy, Card::Slow, Card::Hostile]);
    (0..length).map(|_| reply(random, card, capacity)).collect()
}

fn reply(random: &mut Random, card: Card, capacity: usize) -> u32 {
    let edge = |random: &mut Random| (capacity + 1).saturating_sub(random.below(3)) as u32;
    match (card, random.below(16)) {
        (Card::Healthy, 0..12) => 65_535,
        (Card::Healthy, 12) => limits::INTERRUPTED,
        (Card::Slow, 0..8) => 1 + random.to(capacity / 2) as u32,
        (Card::Slow, 8..11) => edge(random),
        (Card::Hostile, 0..3) => 0,
        (Card::Hostile, 3..6) => limits::INTERRUPTED,
        (Card::Hostile, 6..8) => limits::INTERRUPTED + 1 + random.to(9) as u32,
        (_, 15) => match random.below(4) {
            0 => limits::INTERRUPTED + 1 + random.below(limits::CODE as usize) as u32,
            1 => u32::MAX,
            2 => limits::INTERRUPTED + 1,
            _ => 0,
        },
        (_, 14) => random.to(65_535) as u32,
        _ => edge(random),
    }
}

/// A length near one of the edges.
fn near(random: &mut Random, edges: &[usize]) -> usize {
    match random.below(8) {
        0 => random.to(2),
        1 => random.to(2 * edges[0] + 2),
        _ => (random.pick(edges) + 1).saturating_sub(random.below(3)),
    }
}

/// Bytes in which about one in `rarity` is a newline; 0 for none.
pub fn bytes(random: &mut Random, n: usize, rarity: usize) -> Vec<u8> {
    let mut byte = || {
        let word = random.word();
        if rarity > 0 && ((word >> 32) as usize).is_multiple_of(rarity) {
            b'\n'
        } else {
            word as u8
        }
    };
    (0..n).map(|_| byte()).collect()
}

fn writer(random: &mut Random, kind: Kind) -> Session {
    let capacity = capacity(random);
    let script = script(random, capacity);
    let mut writer = RealWriter::new(kind, capacity, Device::writing(script.clone()));
    let rarity = random.pick(&[0, 1, 2, 4, 8, 64, 1_024]);
    // Now and then the medium is filled.
    let filling = random.one_in(128);
    let count = if random.one_in(256) { random.to(limits::CALLS) } else { random.to(12) };
    let mut session = Session { kind, capacity, script, stock: vec![], calls: vec![] };
    let mut size = session.bytes().len() + 1;
    while session.calls.len() < count {
        let spare = capacity - writer.plain().buffer().len();
        let length = match () {
            () if filling && random.one_in(2) => limits::BYTES - random.to(9_000),
            () => near(random, &[capacity, spare]),
        };
        let slice = bytes(random, length.min(limits::BYTES), rarity);
        size += slice.len() + 4;
        if size > limits::SESSION {
            break;
        }
        let call = match random.below(8) {
            0..4 => Call::Write(slice),
            4..7 => Call::WriteAll(slice),
            _ => Call::Flush,
        };
        writer.run(&call);
        session.calls.push(call);
    }
    drop(writer.into_parts());
    session
}

fn reader(random: &mut Random) -> Session {
    let capacity = capacity(random);
    let script = script(random, capacity);
    let length = match random.below(32) {
        0 => limits::BYTES - random.to(2),
        1..12 => random.to(6),
        _ => random.to(4 * capacity + 8).min(limits::BYTES),
    };
    let stock = bytes(random, length, 16);
    let device = Device::reading(script.clone(), stock.clone());
    let mut reader = RealReader::new(capacity, device);
    let count = if random.one_in(256) { random.to(limits::CALLS) } else { random.to(16) };
    let mut session = Session { kind: Kind::Reader, capacity, script, stock, calls: vec![] };
    let mut size = session.bytes().len() + 1;
    let mut destination = vec![];
    while session.calls.len() < count {
        let (pos, filled) = (reader.pos(), reader.filled());
        let call = match random.below(16) {
            0..6 => Call::Read(near(random, &[capacity, filled - pos]).min(limits::BYTES)),
            6..9 => Call::Peek(near(random, &[capacity, filled - pos])),
            9..11 if random.one_in(16) => Call::Consume(u32::MAX as usize - random.to(2)),
            9..11 => Call::Consume(near(random, &[filled - pos, capacity])),
            11..14 if random.one_in(16) => Call::Seek(random.pick(&[-1, 1]) * 0xffff_ffff),
            11 => Call::Seek(near(random, &[filled - pos, capacity]) as i64),
            12..14 => Call::Seek(-(near(random, &[pos, filled]) as i64)),
            _ => Call::Fill,
        };
        let mut encoded = vec![];
        call.put(&mut encoded);
        size += encoded.len();
        if size > limits::SESSION {
            break;
        }
        destination.resize(if let Call::Read(n) = call { n } else { 0 }, 0);
        reader.run(&call, &mut destination);
        session.calls.push(call);
    }
    session
}
