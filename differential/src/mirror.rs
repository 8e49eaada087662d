//! A stand-in for the port, so that the driver can be tested without it: document 01's text as a
//! plain model, with slips that can be planted to see that the driver finds them. It shares the
//! driver's session reader, and is no evidence about the port.

use crate::answer::Answer;
use crate::direct::{self, ReaderCall, WriterCall};
use crate::hex;
use crate::limits;
use crate::numbers::Fault;
use crate::port::Port;
use crate::request::Parts;
use crate::session::{self, Call, Input, Kind, Session};
use crate::trace::{self, Claim, Trace, Traced};
use std::io::Write;

/// What can be planted.
#[derive(Clone, Copy, Debug, PartialEq, Eq)]
pub enum Slip {
    None,
    /// Document 01's three: of the first two writes, of the drain, of interrupted.
    StoresWhatFillsEmptyBuffer,
    SendsWhatFillsSpare,
    DrainsOnlyWhenDone,
    RetriesDirectWrite,
    RetriesRead,
    // One or more in each module.
    FlushHandsUpInterrupted,
    WriteAllSaysZero,
    EmptyWriteAllCalls,
    CountsNoCallAtScriptEnd,
    LineKeepsLongTail,
    LineIgnoresNewlineInWindow,
    LineForgetsCompletedLine,
    ReadBypassesOnlyAbove,
    PeekForgetsShift,
    FailedFillKeepsFilled,
    SeekOnMissesTheEnd,
    ConsumePassesTheEnd,
    // Only direct calls show these.
    DrainClearsTheRest,
    ReadClearsTheRest,
    LengthBeforeState,
    StateUnchecked,
    // Sessions and traces.
    BackByNothing,
    LongNumber,
    JudgeSaysPossible,
    JudgeSaysImpossible,
    ZeroAfterWholeFlush,
    StoppedFlushKeepsAll,
}

impl Slip {
    const PLANTED: [Slip; 27] = [
        Slip::StoresWhatFillsEmptyBuffer,
        Slip::SendsWhatFillsSpare,
        Slip::DrainsOnlyWhenDone,
        Slip::RetriesDirectWrite,
        Slip::RetriesRead,
        Slip::FlushHandsUpInterrupted,
        Slip::WriteAllSaysZero,
        Slip::EmptyWriteAllCalls,
        Slip::CountsNoCallAtScriptEnd,
        Slip::LineKeepsLongTail,
        Slip::LineIgnoresNewlineInWindow,
        Slip::LineForgetsCompletedLine,
        Slip::ReadBypassesOnlyAbove,
        Slip::PeekForgetsShift,
        Slip::FailedFillKeepsFilled,
        Slip::SeekOnMissesTheEnd,
        Slip::ConsumePassesTheEnd,
        Slip::DrainClearsTheRest,
        Slip::ReadClearsTheRest,
        Slip::LengthBeforeState,
        Slip::StateUnchecked,
        Slip::BackByNothing,
        Slip::LongNumber,
        Slip::JudgeSaysPossible,
        Slip::JudgeSaysImpossible,
        Slip::ZeroAfterWholeFlush,
        Slip::StoppedFlushKeepsAll,
    ];

    /// All that the runs can find: without the std files there are no direct calls.
    pub fn planted() -> impl Iterator<Item = Slip> {
        let direct = |slip: &Slip| {
            use Slip::*;
            matches!(
                slip,
                DrainClearsTheRest | ReadClearsTheRest | LengthBeforeState | StateUnchecked
            )
        };
        Self::PLANTED.into_iter().filter(move |slip| real::io::LAID_OPEN || !direct(slip))
    }
}

/// What a device call moved, or why it moved nothing.
type Reply = Result<usize, Answer>;

struct State {
    slip: Slip,
    storage: Vec<u8>,
    /// For a writer `filled` is what it holds, and `pos` is 0.
    pos: usize,
    filled: usize,
    script: Vec<u32>,
    used: usize,
    calls: usize,
    /// Medium or stock, and the bytes out or taken.
    device: Vec<u8>,
    moved: usize,
}

impl State {
    fn reply(&mut self) -> Reply {
        let Some(&n) = self.script.get(self.used) else {
            self.calls += usize::from(self.slip != Slip::CountsNoCallAtScriptEnd);
            return Err(Answer::Error(0));
        };
        self.calls += 1;
        self.used += 1;
        match n.checked_sub(65_536) {
            None => Ok(n as usize),
            Some(0) => Err(Answer::Interrupted),
            Some(code) => Err(Answer::Error(code)),
        }
    }

    fn send(&mut self, offered: &[u8]) -> Reply {
        let n = self.reply()?.min(offered.len()).min(self.device.len() - self.moved);
        self.device[self.moved..][..n].copy_from_slice(&offered[..n]);
        self.moved += n;
        Ok(n)
    }

    fn capacity(&self) -> usize {
        self.storage.len()
    }

    fn keep(&mut self, bytes: &[u8]) {
        self.storage[self.filled..][..bytes.len()].copy_from_slice(bytes);
        self.filled += bytes.len();
    }

    fn flush_buf(&mut self) -> Result<(), Answer> {
        let mut sent = 0;
        let outcome = loop {
            if sent == self.filled {
                break Ok(());
            }
            let rest = self.storage[sent..self.filled].to_vec();
            match self.send(&rest) {
                Ok(0) => break Err(Answer::Zero),
                Ok(n) => sent += n,
                Err(Answer::Interrupted) if self.slip != Slip::FlushHandsUpInterrupted => {}
                Err(failure) => break Err(failure),
            }
        };
        if self.slip == Slip::DrainsOnlyWhenDone && outcome.is_err() {
            return outcome;
        }
        if sent > 0 {
            self.storage.copy_within(sent..self.filled, 0);
            self.filled -= sent;
            if self.slip == Slip::DrainClearsTheRest {
                self.storage[self.filled..].fill(0);
            }
        }
        outcome
    }

    /// Flushes for a slice where there is need; then whether it goes straight to the device.
    fn straight(&mut self, length: usize) -> Result<bool, Answer> {
        let spare = self.capacity() - self.filled;
        if length < spare {
            return Ok(false);
        }
        if length > spare || self.slip == Slip::SendsWhatFillsSpare {
            self.flush_buf()?;
        }
        let over = usize::from(self.slip == Slip::StoresWhatFillsEmptyBuffer && length > 0);
        Ok(length >= self.capacity() + over)
    }

    fn write(&mut self, slice: &[u8]) -> Reply {
        if !self.straight(slice.len())? {
            self.keep(slice);
            return Ok(slice.len());
        }
        loop {
            match self.send(slice) {
                Err(Answer::Interrupted) if self.slip == Slip::RetriesDirectWrite => {}
                other => return other,
            }
        }
    }

    fn send_all(&mut self, mut slice: &[u8]) -> Result<(), Answer> {
        if self.slip == Slip::EmptyWriteAllCalls && slice.is_empty() {
            self.send(slice)?;
        }
        while !slice.is_empty() {
            match self.send(slice) {
                Ok(0) if self.slip == Slip::WriteAllSaysZero => return Err(Answer::Zero),
                Ok(0) => return Err(Answer::Whole),
                Ok(n) => slice = &slice[n..],
                Err(Answer::Interrupted) => {}
                Err(failure) => return Err(failure),
            }
        }
        Ok(())
    }

    fn write_all(&mut self, slice: &[u8]) -> Result<(), Answer> {
        if self.straight(slice.len())? {
            return self.send_all(slice);
        }
        self.keep(slice);
        Ok(())
    }

    fn flush(&mut self) -> Result<(), Answer> {
        self.flush_buf()?;
        self.reply().map(drop)
    }

    fn flush_completed_line(&mut self) -> Result<(), Answer> {
        let ends = self.filled > 0 && self.storage[self.filled - 1] == b'\n';
        if ends && self.slip != Slip::LineForgetsCompletedLine { self.flush_buf() } else { Ok(()) }
    }

    fn line_write(&mut self, slice: &[u8]) -> Reply {
        let Some(e) = slice.iter().rposition(|&b| b == b'\n').map(|i| i + 1) else {
            self.flush_completed_line()?;
            return self.write(slice);
        };
        self.flush_buf()?;
        let f = self.send(&slice[..e])?;
        if f == 0 {
            return Ok(0);
        }
        let capacity = self.capacity();
        let kept = if f == e {
            let tail = &slice[e..];
            match tail.len() >= capacity {
                true if self.slip == Slip::LineKeepsLongTail => &tail[..capacity],
                true => return Ok(f),
                false => tail,
            }
        } else if e - f <= capacity {
            &slice[f..e]
        } else {
            let window = &slice[f..][..capacity];
            match window.iter().rposition(|&b| b == b'\n') {
                Some(i) if self.slip != Slip::LineIgnoresNewlineInWindow => &window[..=i],
                _ => window,
            }
        };
        self.keep(kept);
        Ok(f + kept.len())
    }

    fn line_write_all(&mut self, slice: &[u8]) -> Result<(), Answer> {
        let Some(e) = slice.iter().rposition(|&b| b == b'\n').map(|i| i + 1) else {
            self.flush_completed_line()?;
            return self.write_all(slice);
        };
        if self.filled == 0 {
            self.send_all(&slice[..e])?;
        } else {
            self.write_all(&slice[..e])?;
            self.flush_buf()?;
        }
        self.write_all(&slice[e..])
    }

    /// Gives the next of the stock, at most `room` bytes.
    fn give(&mut self, room: usize) -> Result<Vec<u8>, Answer> {
        let reply = loop {
            match self.reply() {
                Err(Answer::Interrupted) if self.slip == Slip::RetriesRead => {}
                other => break other?,
            }
        };
        let n = reply.min(room).min(self.device.len() - self.moved);
        let bytes = self.device[self.moved..][..n].to_vec();
        self.moved += n;
        Ok(bytes)
    }

    fn buffered(&self) -> Vec<u8> {
        self.storage[self.pos..self.filled].to_vec()
    }

    fn fill(&mut self) -> Result<(), Answer> {
        if self.pos < self.filled {
            return Ok(());
        }
        let (pos, filled) = (self.pos, self.filled);
        (self.pos, self.filled) = (0, 0);
        match self.give(self.capacity()) {
            Ok(bytes) => self.keep(&bytes),
            Err(failure) => {
                if self.slip == Slip::FailedFillKeepsFilled {
                    (self.pos, self.filled) = (pos, filled);
                }
                return Err(failure);
            }
        }
        Ok(())
    }

    fn read(&mut self, destination: &mut [u8]) -> Reply {
        let over = usize::from(self.slip == Slip::ReadBypassesOnlyAbove);
        let bytes = if self.pos == self.filled && destination.len() >= self.capacity() + over {
            (self.pos, self.filled) = (0, 0);
            self.give(destination.len())?
        } else {
            self.fill()?;
            let n = destination.len().min(self.filled - self.pos);
            let bytes = self.storage[self.pos..][..n].to_vec();
            self.pos += n;
            bytes
        };
        destination[..bytes.len()].copy_from_slice(&bytes);
        if self.slip == Slip::ReadClearsTheRest {
            destination[bytes.len()..].fill(0);
        }
        Ok(bytes.len())
    }

    fn backshift(&mut self) {
        self.storage.copy_within(self.pos..self.filled, 0);
        self.filled -= self.pos;
        self.pos = 0;
    }

    fn read_more(&mut self) -> Reply {
        let bytes = self.give(self.capacity() - self.filled)?;
        self.keep(&bytes);
        Ok(bytes.len())
    }

    fn peek(&mut self, n: usize) -> Reply {
        if n > self.capacity() {
            return Err(Answer::Refused(3));
        }
        while self.filled - self.pos < n {
            if self.pos > 0 && self.slip != Slip::PeekForgetsShift {
                self.backshift();
            }
            if self.read_more()? == 0 {
                return Ok(self.filled - self.pos);
            }
        }
        Ok(n)
    }

    fn consume(&mut self, n: usize) {
        let over = usize::from(self.slip == Slip::ConsumePassesTheEnd);
        self.pos += n.min((self.filled - self.pos + over).min(self.capacity() - self.pos));
        self.filled = self.filled.max(self.pos);
    }

    fn seek(&mut self, offset: i64) -> Result<(), Answer> {
        let size = usize::try_from(offset.unsigned_abs()).unwrap();
        let over = usize::from(self.slip == Slip::SeekOnMissesTheEnd && size > 0);
        if offset < 0 && size <= self.pos {
            self.pos -= size;
        } else if offset >= 0 && size + over <= self.filled - self.pos {
            self.pos += size;
        } else {
            return Err(Answer::Refused(4));
        }
        Ok(())
    }

    fn unfit(&self, own: Option<u8>) -> Option<u8> {
        let unfit = self.filled > self.capacity()
            || self.pos > self.filled
            || self.moved > self.device.len()
            || self.used > self.script.len();
        if self.capacity() > limits::CAPACITY {
            Some(1)
        } else if self.script.len() > limits::SCRIPT || self.device.len() > limits::BYTES {
            Some(5)
        } else if self.slip == Slip::LengthBeforeState && own == Some(2) {
            Some(2)
        } else if unfit {
            Some(if self.slip == Slip::StateUnchecked { 5 } else { 8 })
        } else {
            own
        }
    }
}

fn counted(result: Reply) -> Answer {
    result.map_or_else(|failure| failure, Answer::Count)
}

fn done(result: Result<(), Answer>) -> Answer {
    result.map_or_else(|failure| failure, |()| Answer::Done)
}

fn lines(slip: Slip, input: &[u8]) -> Vec<u8> {
    let mut to = Vec::new();
    match session::check(input) {
        // Reads on where it must stop: whatever it says then is another place.
        Err(Fault(place)) if overlooks(slip, input, place) => {
            writeln!(to, "refused 6 at {}", place + 1).unwrap()
        }
        Err(Fault(place)) => writeln!(to, "refused 6 at {place}").unwrap(),
        Ok(Input::Trace(bytes)) => to = judge(slip, bytes),
        Ok(Input::Session(session)) => run(slip, &session, &mut to),
    }
    to
}

fn overlooks(slip: Slip, input: &[u8], place: usize) -> bool {
    let (before, fault) = input.split_at(place.min(input.len()));
    match slip {
        Slip::BackByNothing => before.ends_with(&[6, 1]) && fault.starts_with(&[0]),
        Slip::LongNumber => fault.starts_with(&[0x80, 0]),
        _ => false,
    }
}

fn run(slip: Slip, session: &Session, to: &mut Vec<u8>) {
    let reading = session.kind == Kind::Reader;
    let mut state = State {
        slip,
        storage: vec![0; session.capacity],
        pos: 0,
        filled: 0,
        script: session.script.clone(),
        used: 0,
        calls: 0,
        device: if reading { session.stock.clone() } else { vec![0; limits::BYTES] },
        moved: 0,
    };
    writeln!(to, "session {} capacity {}", session.kind as u8, session.capacity).unwrap();
    for call in &session.calls {
        state.calls = 0;
        let line = session.kind == Kind::LineWriter;
        let mut shown = vec![];
        let (name, answer) = match call {
            Call::Write(slice) if line => ("write", counted(state.line_write(slice))),
            Call::Write(slice) => ("write", counted(state.write(slice))),
            Call::WriteAll(slice) if line => ("write_all", done(state.line_write_all(slice))),
            Call::WriteAll(slice) => ("write_all", done(state.write_all(slice))),
            Call::Flush => ("flush", done(state.flush())),
            Call::Read(n) => {
                let mut destination = vec![0; *n];
                let answer = counted(state.read(&mut destination));
                shown = destination[..answer.count()].to_vec();
                ("read", answer)
            }
            Call::Peek(n) => {
                let answer = counted(state.peek(*n));
                shown = state.buffered()[..answer.count()].to_vec();
                ("peek", answer)
            }
            Call::Consume(n) => {
                state.consume(*n);
                ("consume", Answer::Done)
            }
            Call::Seek(offset) => ("seek_relative", done(state.seek(*offset))),
            Call::Fill => match state.fill() {
                Ok(()) => {
                    shown = state.buffered();
                    ("fill", Answer::Count(shown.len()))
                }
                Err(failure) => ("fill", failure),
            },
        };
        let State { calls, pos, filled, moved, .. } = state;
        if reading {
            write!(to, "{name} {answer} calls {calls} pos {pos} filled {filled} bytes ").unwrap();
            hex::put(to, &shown);
            to.push(b'\n');
        } else {
            writeln!(to, "{name} {answer} calls {calls} held {filled} out {moved}").unwrap();
        }
    }
    let held = hex::text(&state.buffered());
    if reading {
        writeln!(to, "end held {held} taken {}", state.moved).unwrap();
    } else {
        let out = hex::text(&state.device[..state.moved]);
        writeln!(to, "end held {held} out {out}").unwrap();
    }
}

fn judge(slip: Slip, trace: &[u8]) -> Vec<u8> {
    let line = match trace::check(trace) {
        Err(Fault(place)) => format!("judge refused 7 at {place}\n"),
        Ok(trace) if possible(slip, &trace) => "judge possible\n".into(),
        Ok(_) => "judge impossible\n".into(),
    };
    line.into_bytes()
}

/// The judge as a walk over the held counts that some replies could have left.
fn possible(slip: Slip, trace: &Trace) -> bool {
    match slip {
        Slip::JudgeSaysPossible => return true,
        Slip::JudgeSaysImpossible => return false,
        _ => {}
    }
    let capacity = trace.capacity;
    let mut reached = vec![false; capacity + 1];
    reached[0] = true;
    let mut answered = vec![];
    for call in &trace.calls {
        let mut next = vec![false; capacity + 1];
        for held in (0..=capacity).filter(|&held| reached[held]) {
            let (flushes, ends) = match call {
                Traced::Flush(claim) => (true, !matches!(claim, Claim::Zero)),
                Traced::Write(slice, claim) => {
                    let n = slice.len();
                    let flushes = held + n > capacity;
                    if n < capacity && *claim == Claim::Ok(n as u32) {
                        next[if flushes { n } else { held + n }] = true;
                    }
                    let straight = n >= capacity
                        && match claim {
                            Claim::Ok(m) => *m as usize <= n,
                            Claim::Zero => false,
                            _ => true,
                        };
                    (flushes, straight)
                }
            };
            let (Traced::Flush(claim) | Traced::Write(_, claim)) = call;
            next[0] |= ends;
            if flushes && matches!(claim, Claim::Zero | Claim::Error(_)) {
                let least = usize::from(slip != Slip::ZeroAfterWholeFlush);
                let least = if slip == Slip::StoppedFlushKeepsAll { held.max(1) } else { least };
                (least..=held).for_each(|left| next[left] = true);
            }
        }
        if let Traced::Write(slice, Claim::Ok(m)) = call {
            answered.extend_from_slice(&slice[..slice.len().min(*m as usize)]);
        }
        reached = next;
    }
    let missing = answered.len().checked_sub(trace.card.len());
    answered.starts_with(&trace.card) && missing.is_some_and(|n| n <= capacity && reached[n])
}

fn writer_call(slip: Slip, parts: Parts) -> Vec<u8> {
    let asked = WriterCall::read(parts);
    let mut state = State {
        slip,
        storage: asked.storage,
        pos: 0,
        filled: asked.held,
        script: asked.script,
        used: asked.used,
        calls: 0,
        device: asked.medium,
        moved: asked.out,
    };
    let slice = &asked.slice;
    let sliced = !matches!(asked.call, direct::FLUSH | direct::FLUSH_BUF);
    let answer = match state.unfit((sliced && slice.len() > limits::BYTES).then_some(2)) {
        Some(number) => Answer::Refused(number),
        None => match asked.call {
            direct::WRITE => counted(state.write(slice)),
            direct::WRITE_ALL => done(state.write_all(slice)),
            direct::FLUSH => done(state.flush()),
            direct::FLUSH_BUF => done(state.flush_buf()),
            direct::LINE_WRITE => counted(state.line_write(slice)),
            _ => done(state.line_write_all(slice)),
        },
    };
    let State { storage, filled, script, used, calls, device, moved, .. } = state;
    let after =
        WriterCall { storage, held: filled, script, used, medium: device, out: moved, ..asked };
    after.answer(answer, calls)
}

fn reader_call(slip: Slip, parts: Parts) -> Vec<u8> {
    let mut asked = ReaderCall::read(parts);
    let mut state = State {
        slip,
        storage: asked.storage,
        pos: asked.pos,
        filled: asked.filled,
        script: asked.script,
        used: asked.used,
        calls: 0,
        device: asked.stock,
        moved: asked.taken,
    };
    let n = asked.size as usize;
    let mut shown = vec![];
    let long = asked.call == direct::READ && asked.destination.len() > limits::BYTES;
    let answer = match state.unfit(long.then_some(2)) {
        Some(number) => Answer::Refused(number),
        None => match asked.call {
            direct::READ => counted(state.read(&mut asked.destination)),
            direct::PEEK => {
                let answer = counted(state.peek(n));
                shown = state.buffered()[..answer.count()].to_vec();
                answer
            }
            direct::SEEK => done(state.seek(asked.size)),
            direct::FILL | direct::BUFFER_FILL => match state.fill() {
                Ok(()) => {
                    shown = state.buffered();
                    Answer::Count(shown.len())
                }
                Err(failure) => failure,
            },
            direct::BUFFER_UNCONSUME => {
                state.pos = state.pos.saturating_sub(n);
                Answer::Done
            }
            direct::BUFFER_BACKSHIFT => {
                state.backshift();
                Answer::Done
            }
            direct::BUFFER_READ_MORE => counted(state.read_more()),
            _ => {
                state.consume(n);
                Answer::Done
            }
        },
    };
    let State { storage, pos, filled, script, used, calls, device, moved, .. } = state;
    let after =
        ReaderCall { storage, pos, filled, script, used, stock: device, taken: moved, ..asked };
    after.answer(answer, calls, &shown)
}

pub struct Mirror(pub Slip);

impl Port for Mirror {
    fn name(&self) -> String {
        "the driver's stand-in for it".into()
    }

    fn answers(&mut self, requests: &[Vec<u8>]) -> Vec<Vec<u8>> {
        let answer = |request: &Vec<u8>| match request.split_first().unwrap() {
            (b's', session) => lines(self.0, session),
            (b'j', trace) => judge(self.0, trace),
            (b'w', call) => writer_call(self.0, Parts(call)),
            (_, call) => reader_call(self.0, Parts(call)),
        };
        requests.iter().map(answer).collect()
    }
}
