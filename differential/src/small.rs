//! Every session of the small worlds: capacity 0 to 3, slices to capacity + 2, scripts to 3.

use crate::compare::Cases;
use crate::oracle;
use crate::session::{Call, Kind, Session};

/// The replies: accept 0, 1, 2 and more than anything here, interrupted, error 5.
pub const LETTERS: [u32; 6] = [0, 1, 2, 65_535, 65_536, 65_541];

pub const SCRIPT: usize = 3;

/// Sessions of `depth` calls of the plain writer.
pub fn writer(to: &mut dyn Cases, depth: usize) {
    for capacity in 0..=3 {
        let slices: Vec<_> = (0..=capacity + 2).map(|n| letters(n, 0)).collect();
        let calls = writer_calls(&slices);
        sequences(to, &start(Kind::Writer, capacity, 0), &vec![&calls[..]; depth]);
    }
}

/// Two calls of the line writer, with newlines at every choice of places. If not `deep`, the first
/// is a `write` of at most capacity + 1, to keep the run short.
pub fn line_writer(to: &mut dyn Cases, deep: bool) {
    for capacity in 0..=3 {
        let slices: Vec<_> = (0..=capacity + 2).flat_map(patterns).collect();
        let calls = writer_calls(&slices);
        let first = if deep { &calls[..] } else { &calls[..(1 << (capacity + 2)) - 1] };
        sequences(to, &start(Kind::LineWriter, capacity, 0), &[first, &calls]);
    }
}

/// Sessions of two calls of the reader; if `deep`, of three where the stock is long.
pub fn reader(to: &mut dyn Cases, deep: bool) {
    for capacity in 0..=3 {
        let calls = reader_calls(capacity);
        for stock in 0..=capacity + 2 {
            let depth = if deep && stock == capacity + 2 { 3 } else { 2 };
            sequences(to, &start(Kind::Reader, capacity, stock), &vec![&calls[..]; depth]);
        }
    }
}

fn start(kind: Kind, capacity: usize, stock: usize) -> Session {
    Session { kind, capacity, script: vec![], stock: letters(stock, 0), calls: vec![] }
}

/// `n` bytes a, b, c .. with a newline where `newlines` has a bit.
pub fn letters(n: usize, newlines: usize) -> Vec<u8> {
    (0..n).map(|i| if newlines >> i & 1 == 1 { b'\n' } else { b'a' + i as u8 }).collect()
}

/// The slices of `n` bytes with every choice of newlines.
pub fn patterns(n: usize) -> impl Iterator<Item = Vec<u8>> {
    (0..1 << n).map(move |newlines| letters(n, newlines))
}

fn writer_calls(slices: &[Vec<u8>]) -> Vec<Call> {
    let writes = slices.iter().cloned().map(Call::Write);
    let all = slices.iter().cloned().map(Call::WriteAll);
    writes.chain(all).chain([Call::Flush]).collect()
}

fn reader_calls(capacity: usize) -> Vec<Call> {
    let most = capacity as i64 + 1;
    let mut calls = vec![Call::Fill];
    calls.extend((0..=capacity + 2).map(Call::Read));
    calls.extend((0..=capacity + 1).map(Call::Peek));
    calls.extend((0..=capacity + 1).map(Call::Consume));
    calls.extend((-most..=most).map(Call::Seek));
    calls
}

/// All sequences with one call of each list. Shorter ones are their beginnings.
fn sequences(to: &mut dyn Cases, start: &Session, lists: &[&[Call]]) {
    let mut session = start.clone();
    let mut at = vec![0; lists.len()];
    while !to.over() {
        session.calls = at.iter().zip(lists).map(|(&i, list)| list[i].clone()).collect();
        scripts(to, &mut session);
        // Counts up, the last call first.
        let Some(i) = (0..at.len()).rev().find(|&i| at[i] + 1 < lists[i].len()) else { return };
        at[i] += 1;
        at[i + 1..].fill(0);
    }
}

/// The session with its script and all longer ones. A script is only made longer where the run
/// asked for more: replies that are never taken change nothing.
fn scripts(to: &mut dyn Cases, session: &mut Session) {
    let (lines, asked) = oracle::run_to_end(session);
    to.lines(&session.bytes(), lines);
    if asked && session.script.len() < SCRIPT {
        for letter in LETTERS {
            session.script.push(letter);
            scripts(to, session);
            session.script.pop();
        }
    }
}
