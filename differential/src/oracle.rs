//! Runs a session on the real code and prints document 01's lines.

use crate::answer::Answer;
use crate::device::Device;
use crate::hex;
use crate::numbers::Fault;
use crate::session::{self, Call, Input, Kind, Session};
use crate::trace;
use real::io::{BufRead, BufReader, BufWriter, LineWriter, Read, Write};
use std::sync::atomic::{AtomicU64, Ordering::Relaxed};

/// Which code the real code is.
pub const CODE: &str = real::CODE;

/// A running writer of either kind.
pub enum RealWriter {
    Plain(BufWriter<Device>),
    Line(LineWriter<Device>),
}

impl RealWriter {
    pub fn new(kind: Kind, capacity: usize, device: Device) -> Self {
        let mut writer = match kind {
            Kind::Writer => Self::Plain(BufWriter::with_capacity(capacity, device)),
            Kind::LineWriter => Self::Line(LineWriter::with_capacity(capacity, device)),
            Kind::Reader => panic!("a reader is no writer"),
        };
        // A Vec may have more room than was asked for; the comparison needs it exact.
        assert_eq!(writer.plain().capacity(), capacity);
        writer
    }

    pub fn plain(&mut self) -> &mut BufWriter<Device> {
        match self {
            Self::Plain(writer) => writer,
            Self::Line(writer) => writer.plain(),
        }
    }

    pub fn device(&mut self) -> &mut Device {
        self.plain().get_mut()
    }

    pub fn run(&mut self, call: &Call) -> Answer {
        let writer: &mut dyn Write = match self {
            Self::Plain(writer) => writer,
            Self::Line(writer) => writer,
        };
        match call {
            Call::Write(slice) => Answer::counted(writer.write(slice)),
            Call::WriteAll(slice) => Answer::done(writer.write_all(slice)),
            Call::Flush => Answer::done(writer.flush()),
            _ => panic!("a reader's call"),
        }
    }

    /// The bytes held and the device. Rust's flush on drop then meets an empty device in its place.
    pub fn into_parts(mut self) -> (Vec<u8>, Device) {
        let held = self.plain().buffer().to_vec();
        (held, std::mem::take(self.device()))
    }
}

pub struct RealReader {
    pub reader: BufReader<Device>,
    /// Where the storage begins. BufReader shows pos and filled to nobody, but its buffered part
    /// begins pos bytes after this.
    base: *const u8,
}

impl RealReader {
    pub fn new(capacity: usize, device: Device) -> Self {
        let reader = BufReader::with_capacity(capacity, device);
        assert_eq!(reader.capacity(), capacity);
        let base = reader.buffer().as_ptr();
        Self { reader, base }
    }

    pub fn pos(&self) -> usize {
        self.reader.buffer().as_ptr().addr() - self.base.addr()
    }

    pub fn filled(&self) -> usize {
        self.pos() + self.reader.buffer().len()
    }

    /// All of the storage, once a fill has been offered it.
    pub fn storage(&self) -> Vec<u8> {
        // SAFETY: the storage is a box of the reader's, so it stands still; offering it to the
        // device initialised all of it.
        unsafe { std::slice::from_raw_parts(self.base, self.reader.capacity()) }.to_vec()
    }

    /// The answer and the bytes read or shown. `destination` is a `read`'s, as long as its size.
    pub fn run(&mut self, call: &Call, destination: &mut [u8]) -> (Answer, Vec<u8>) {
        let shown = |result: real::io::Result<&[u8]>| match result {
            Ok(bytes) => (Answer::Count(bytes.len()), bytes.to_vec()),
            Err(error) => (Answer::failed(error), Vec::new()),
        };
        match *call {
            Call::Read(_) => {
                let answer = Answer::counted(self.reader.read(destination));
                (answer, destination[..answer.count()].to_vec())
            }
            // The Rust asserts this.
            Call::Peek(n) if n > self.reader.capacity() => (Answer::Refused(3), Vec::new()),
            Call::Peek(n) => shown(self.reader.peek(n)),
            Call::Consume(n) => {
                self.reader.consume(n);
                (Answer::Done, Vec::new())
            }
            Call::Seek(offset) => (Answer::done(self.reader.seek_relative(offset)), Vec::new()),
            Call::Fill => shown(self.reader.fill_buf()),
            _ => panic!("a writer's call"),
        }
    }
}

/// The lines of a session; of a trace only those of a faulty one, since the judge has no Rust.
pub fn lines(input: &[u8]) -> Option<Vec<u8>> {
    match session::check(input) {
        Err(Fault(place)) => Some(format!("refused 6 at {place}\n").into_bytes()),
        Ok(Input::Session(session)) => Some(run(&session)),
        Ok(Input::Trace(bytes)) => match trace::check(bytes) {
            Err(Fault(place)) => Some(format!("judge refused 7 at {place}\n").into_bytes()),
            Ok(_) => None,
        },
    }
}

pub fn run(session: &Session) -> Vec<u8> {
    run_to_end(session).0
}

/// The lines, and whether the run asked for more replies than the script has.
pub fn run_to_end(session: &Session) -> (Vec<u8>, bool) {
    let mut to = Vec::with_capacity(128);
    let Session { kind, capacity, .. } = *session;
    writeln!(to, "session {} capacity {capacity}", kind as u8).unwrap();
    let device = match kind {
        Kind::Reader => run_reader(session, &mut to),
        _ => run_writer(session, &mut to),
    };
    (to, device.calls > device.used)
}

fn name(call: &Call) -> &'static str {
    match call {
        Call::Write(_) => "write",
        Call::WriteAll(_) => "write_all",
        Call::Flush => "flush",
        Call::Read(_) => "read",
        Call::Peek(_) => "peek",
        Call::Consume(_) => "consume",
        Call::Seek(_) => "seek_relative",
        Call::Fill => "fill",
    }
}

fn run_writer(session: &Session, to: &mut Vec<u8>) -> Device {
    let device = Device::writing(session.script.clone());
    let mut writer = RealWriter::new(session.kind, session.capacity, device);
    let mut ledger = Ledger::default();
    for call in &session.calls {
        let before = writer.device().calls;
        let answer = writer.run(call);
        ledger.add(call, answer);
        let calls = writer.device().calls - before;
        let out = writer.device().medium.len();
        let held = writer.plain().buffer().len();
        writeln!(to, "{} {answer} calls {calls} held {held} out {out}", name(call)).unwrap();
    }
    let (held, device) = writer.into_parts();
    ledger.check(session, &device.medium, &held);
    to.extend_from_slice(b"end held ");
    hex::put(to, &held);
    to.extend_from_slice(b" out ");
    hex::put(to, &device.medium);
    to.push(b'\n');
    device
}

fn run_reader(session: &Session, to: &mut Vec<u8>) -> Device {
    let device = Device::reading(session.script.clone(), session.stock.clone());
    let mut reader = RealReader::new(session.capacity, device);
    let mut destination = Vec::new();
    for call in &session.calls {
        let size = if let Call::Read(n) = *call { n } else { 0 };
        destination.resize(size, 0);
        let before = reader.reader.get_ref().calls;
        let (answer, bytes) = reader.run(call, &mut destination);
        let calls = reader.reader.get_ref().calls - before;
        let (pos, filled) = (reader.pos(), reader.filled());
        let name = name(call);
        write!(to, "{name} {answer} calls {calls} pos {pos} filled {filled} bytes ").unwrap();
        hex::put(to, &bytes);
        to.push(b'\n');
    }
    to.extend_from_slice(b"end held ");
    hex::put(to, reader.reader.buffer());
    let device = reader.reader.into_inner();
    writeln!(to, " taken {}", device.taken).unwrap();
    device
}

/// The sessions at whose end the ledger was checked.
pub static LEDGERS: AtomicU64 = AtomicU64::new(0);

/// The answered prefixes in call order. It speaks of `write` and `flush` only: a `write_all` that
/// fails says nothing of what it took.
#[derive(Default)]
struct Ledger {
    answered: Vec<u8>,
    void: bool,
}

impl Ledger {
    fn add(&mut self, call: &Call, answer: Answer) {
        match call {
            Call::Write(slice) => self.answered.extend_from_slice(&slice[..answer.count()]),
            Call::WriteAll(slice) if answer == Answer::Done => {
                self.answered.extend_from_slice(slice)
            }
            Call::WriteAll(_) => self.void = true,
            _ => {}
        }
    }

    fn check(&self, session: &Session, medium: &[u8], held: &[u8]) {
        if self.void {
            return;
        }
        if !medium.iter().chain(held).eq(&self.answered) {
            panic!("the ledger fails on the real code: session {}", hex::text(&session.bytes()));
        }
        LEDGERS.fetch_add(1, Relaxed);
    }
}
