//! Direct calls: what sessions cannot show. All of the storage, of the medium and of the
//! destination, from a state of the driver's choice, and the refusals 1, 2, 5 and 8.

use crate::answer::Answer;
use crate::device::Device;
use crate::limits;
use crate::oracle::{RealReader, RealWriter};
use crate::request::{Parts, put, put_bytes, put_script};
use crate::session::Call;
use real::io::{Buffer, LineWriter, flush_buf, storage, writer_over};

/// The numbers of a writer's calls in a request.
pub const WRITE: u32 = 0;
pub const WRITE_ALL: u32 = 1;
pub const FLUSH: u32 = 2;
pub const FLUSH_BUF: u32 = 3;
pub const LINE_WRITE: u32 = 4;
pub const LINE_WRITE_ALL: u32 = 5;
pub const WRITER_CALLS: [u32; 6] = [WRITE, WRITE_ALL, FLUSH, FLUSH_BUF, LINE_WRITE, LINE_WRITE_ALL];

/// The numbers of a reader's calls; the last five are the buffer's own. The port's `unconsume`,
/// `backshift` and `read_more` are not public: there only `seek_relative` and `peek` reach them.
pub const READ: u32 = 0;
pub const PEEK: u32 = 1;
pub const CONSUME: u32 = 2;
pub const SEEK: u32 = 3;
pub const FILL: u32 = 4;
pub const BUFFER_CONSUME: u32 = 5;
pub const BUFFER_UNCONSUME: u32 = 6;
pub const BUFFER_BACKSHIFT: u32 = 7;
pub const BUFFER_READ_MORE: u32 = 8;
pub const BUFFER_FILL: u32 = 9;
pub const READER_CALLS: [u32; 7] = [READ, PEEK, CONSUME, SEEK, FILL, BUFFER_CONSUME, BUFFER_FILL];

#[derive(Clone, Debug)]
pub struct WriterCall {
    pub call: u32,
    pub storage: Vec<u8>,
    pub held: usize,
    pub script: Vec<u32>,
    pub used: usize,
    pub medium: Vec<u8>,
    pub out: usize,
    pub slice: Vec<u8>,
}

#[derive(Clone, Debug)]
pub struct ReaderCall {
    pub call: u32,
    pub storage: Vec<u8>,
    pub pos: usize,
    pub filled: usize,
    pub script: Vec<u32>,
    pub used: usize,
    pub stock: Vec<u8>,
    pub taken: usize,
    /// What `peek`, `consume`, `unconsume` ask for, or the offset of `seek_relative`.
    pub size: i64,
    pub destination: Vec<u8>,
}

/// Which refusal applies, in document 01's order; `own` is the call's own.
fn refusal(
    capacity: usize,
    (script, used): (usize, usize),
    (device, moved): (usize, usize),
    (pos, filled): (usize, usize),
    own: Option<u8>,
) -> Option<u8> {
    if capacity > limits::CAPACITY {
        Some(1)
    } else if script > limits::SCRIPT || device > limits::BYTES {
        Some(5)
    } else if filled > capacity || pos > filled || moved > device || used > script {
        Some(8)
    } else {
        own
    }
}

fn put_answer(to: &mut Vec<u8>, answer: Answer) {
    let (number, value) = match answer {
        Answer::Count(n) => (0, n as u32),
        Answer::Done => (1, 0),
        Answer::Interrupted => (2, 0),
        Answer::Zero => (3, 0),
        Answer::Whole => (4, 0),
        Answer::Error(code) => (5, code),
        Answer::Refused(number) => (6, u32::from(number)),
    };
    put(to, number);
    put(to, value);
}

impl WriterCall {
    pub fn request(&self) -> Vec<u8> {
        let mut to = vec![b'w'];
        put(&mut to, self.call);
        put_bytes(&mut to, &self.storage);
        put(&mut to, self.held as u32);
        put_script(&mut to, &self.script);
        put(&mut to, self.used as u32);
        put_bytes(&mut to, &self.medium);
        put(&mut to, self.out as u32);
        put_bytes(&mut to, &self.slice);
        to
    }

    /// A request read back.
    pub fn read(mut parts: Parts) -> Self {
        Self {
            call: parts.number(),
            storage: parts.bytes(),
            held: parts.count(),
            script: parts.script(),
            used: parts.count(),
            medium: parts.bytes(),
            out: parts.count(),
            slice: parts.bytes(),
        }
    }

    /// The answer to it, once the call has left its state and bytes here.
    pub fn answer(&self, answer: Answer, calls: usize) -> Vec<u8> {
        let mut to = Vec::new();
        put_answer(&mut to, answer);
        for number in [calls, self.held, self.out, self.used] {
            put(&mut to, number as u32);
        }
        to.extend_from_slice(&self.storage);
        to.extend_from_slice(&self.medium);
        to
    }

    fn refusal(&self) -> Option<u8> {
        let sliced = !matches!(self.call, FLUSH | FLUSH_BUF);
        refusal(
            self.storage.len(),
            (self.script.len(), self.used),
            (self.medium.len(), self.out),
            (0, self.held),
            (sliced && self.slice.len() > limits::BYTES).then_some(2),
        )
    }

    /// What the port must answer: the real code's doing, or the refusal with nothing changed.
    pub fn expected(&self) -> Vec<u8> {
        self.expected_to_end().0
    }

    /// The same, and whether the call asked for more replies than the script has.
    pub fn expected_to_end(&self) -> (Vec<u8>, bool) {
        let mut after = self.clone();
        let (answer, calls) = match self.refusal() {
            Some(number) => (Answer::Refused(number), 0),
            None => after.run(),
        };
        (after.answer(answer, calls), self.used + calls > after.used)
    }

    fn run(&mut self) -> (Answer, usize) {
        let device = Device {
            script: self.script.clone(),
            used: self.used,
            medium: self.medium[..self.out].to_vec(),
            size: self.medium.len(),
            ..Device::default()
        };
        let over = writer_over(device, &self.storage, self.held);
        let mut writer = match self.call {
            LINE_WRITE | LINE_WRITE_ALL => RealWriter::Line(LineWriter::over(over)),
            _ => RealWriter::Plain(over),
        };
        let slice = self.slice.clone();
        let answer = match self.call {
            WRITE | LINE_WRITE => writer.run(&Call::Write(slice)),
            WRITE_ALL | LINE_WRITE_ALL => writer.run(&Call::WriteAll(slice)),
            FLUSH => writer.run(&Call::Flush),
            FLUSH_BUF => Answer::done(flush_buf(writer.plain())),
            other => panic!("no writer's call {other}"),
        };
        self.storage = storage(writer.plain());
        let (held, device) = writer.into_parts();
        self.held = held.len();
        self.used = device.used;
        self.out = device.medium.len();
        self.medium[..self.out].copy_from_slice(&device.medium);
        (answer, device.calls)
    }
}

impl ReaderCall {
    pub fn request(&self) -> Vec<u8> {
        let mut to = vec![b'r'];
        put(&mut to, self.call);
        put_bytes(&mut to, &self.storage);
        put(&mut to, self.pos as u32);
        put(&mut to, self.filled as u32);
        put_script(&mut to, &self.script);
        put(&mut to, self.used as u32);
        put_bytes(&mut to, &self.stock);
        put(&mut to, self.taken as u32);
        to.extend_from_slice(&self.size.to_le_bytes());
        put_bytes(&mut to, &self.destination);
        to
    }

    /// A request read back.
    pub fn read(mut parts: Parts) -> Self {
        Self {
            call: parts.number(),
            storage: parts.bytes(),
            pos: parts.count(),
            filled: parts.count(),
            script: parts.script(),
            used: parts.count(),
            stock: parts.bytes(),
            taken: parts.count(),
            size: parts.size(),
            destination: parts.bytes(),
        }
    }

    /// The answer to it, once the call has left its state and bytes here.
    pub fn answer(&self, answer: Answer, calls: usize, shown: &[u8]) -> Vec<u8> {
        let mut to = Vec::new();
        put_answer(&mut to, answer);
        for number in [calls, self.pos, self.filled, self.used, self.taken] {
            put(&mut to, number as u32);
        }
        to.extend_from_slice(&self.storage);
        to.extend_from_slice(&self.destination);
        to.extend_from_slice(shown);
        to
    }

    fn refusal(&self) -> Option<u8> {
        let own = match self.call {
            READ => (self.destination.len() > limits::BYTES).then_some(2),
            PEEK => (self.size as u64 > self.storage.len() as u64).then_some(3),
            // `-offset` overflows in the Rust.
            SEEK => (self.size == i64::MIN).then_some(4),
            _ => None,
        };
        refusal(
            self.storage.len(),
            (self.script.len(), self.used),
            (self.stock.len(), self.taken),
            (self.pos, self.filled),
            own,
        )
    }

    pub fn expected(&self) -> Vec<u8> {
        self.expected_to_end().0
    }

    pub fn expected_to_end(&self) -> (Vec<u8>, bool) {
        let mut after = self.clone();
        let (answer, calls, shown) = match self.refusal() {
            Some(number) => (Answer::Refused(number), 0, Vec::new()),
            None if self.call >= BUFFER_CONSUME => after.run_buffer(),
            None => after.run_reader(),
        };
        (after.answer(answer, calls, &shown), self.used + calls > after.used)
    }

    /// `pos + amt` overflows in the Rust; no more than is filled can matter.
    fn amount(&self) -> usize {
        (self.size as u64).min(self.filled as u64) as usize
    }

    fn device(&self) -> Device {
        Device {
            script: self.script.clone(),
            used: self.used,
            stock: self.stock.clone(),
            taken: self.taken,
            prime: Some((self.storage.clone(), self.filled)),
            ..Device::default()
        }
    }

    fn run_reader(&mut self) -> (Answer, usize, Vec<u8>) {
        let mut reader = RealReader::new(self.storage.len(), self.device());
        reader.run(&Call::Fill, &mut []);
        reader.run(&Call::Consume(self.pos), &mut []);
        let call = match self.call {
            READ => Call::Read(self.destination.len()),
            PEEK => Call::Peek(self.size as usize),
            CONSUME => Call::Consume(self.amount()),
            SEEK => Call::Seek(self.size),
            FILL => Call::Fill,
            other => panic!("no reader's call {other}"),
        };
        let (answer, bytes) = reader.run(&call, &mut self.destination);
        let shown = if self.call == READ { Vec::new() } else { bytes };
        (self.pos, self.filled) = (reader.pos(), reader.filled());
        self.storage = reader.storage();
        let device = reader.reader.into_inner();
        (self.used, self.taken) = (device.used, device.taken);
        (answer, device.calls, shown)
    }

    fn run_buffer(&mut self) -> (Answer, usize, Vec<u8>) {
        let mut device = self.device();
        let mut buffer = Buffer::with_capacity(self.storage.len());
        let base = buffer.buffer().as_ptr();
        buffer.fill_buf(&mut device).unwrap();
        buffer.consume(self.pos);
        let mut shown = Vec::new();
        let answer = match self.call {
            BUFFER_CONSUME => {
                buffer.consume(self.amount());
                Answer::Done
            }
            BUFFER_UNCONSUME => {
                buffer.unconsume(self.amount());
                Answer::Done
            }
            BUFFER_BACKSHIFT => {
                buffer.backshift();
                Answer::Done
            }
            BUFFER_READ_MORE => Answer::counted(buffer.read_more(&mut device)),
            BUFFER_FILL => match buffer.fill_buf(&mut device) {
                Ok(bytes) => {
                    shown = bytes.to_vec();
                    Answer::Count(shown.len())
                }
                Err(error) => Answer::failed(error),
            },
            other => panic!("no buffer's call {other}"),
        };
        (self.pos, self.filled) = (buffer.pos(), buffer.filled());
        // SAFETY: the first fill has initialised every byte of the storage, which `buffer` owns.
        self.storage = unsafe { std::slice::from_raw_parts(base, self.storage.len()) }.to_vec();
        (self.used, self.taken) = (device.used, device.taken);
        (answer, device.calls, shown)
    }
}

#[cfg(test)]
mod tests {
    use super::*;

    fn held_abc(call: u32, slice: &[u8], script: &[u32]) -> WriterCall {
        WriterCall {
            call,
            storage: b"abc0".to_vec(),
            held: 3,
            script: script.to_vec(),
            used: 0,
            medium: b"-----".to_vec(),
            out: 0,
            slice: slice.to_vec(),
        }
    }

    fn numbers(values: &[u32], bytes: &[u8]) -> Vec<u8> {
        let mut to = Vec::new();
        values.iter().for_each(|&value| put(&mut to, value));
        to.extend_from_slice(bytes);
        to
    }

    #[test]
    fn bench_sheet_storage() {
        if !real::io::LAID_OPEN {
            return;
        }
        // Row 3: ok 2, calls 3, held 2, out 3, used 3, storage dec0, medium abc.
        let row = held_abc(WRITE, b"de", &[1, 65_536, 2]);
        assert_eq!(row.expected(), numbers(&[0, 2, 3, 2, 3, 3], b"dec0abc--"));
        // Row 4: zero, calls 2, held 1, out 2, used 2, storage cbc0, medium ab.
        let row = held_abc(FLUSH, b"", &[2, 0]);
        assert_eq!(row.expected(), numbers(&[3, 0, 2, 1, 2, 2], b"cbc0ab---"));
    }

    #[test]
    fn refusals_in_order() {
        let mut call = held_abc(WRITE, &[7; 16_385], &[]);
        let refused = |call: &WriterCall| (call.expected()[0], call.expected()[4]);
        assert_eq!(refused(&call), (6, 2));
        call.used = 1;
        assert_eq!(refused(&call), (6, 8));
        call.medium = vec![0; 16_385];
        assert_eq!(refused(&call), (6, 5));
        call.storage = vec![0; 1_025];
        assert_eq!(refused(&call), (6, 1));
    }

    #[test]
    fn seek_by_the_lowest_offset() {
        let call = ReaderCall {
            call: SEEK,
            storage: b"abcd".to_vec(),
            pos: 2,
            filled: 3,
            script: vec![],
            used: 0,
            stock: vec![],
            taken: 0,
            size: i64::MIN,
            destination: vec![],
        };
        assert_eq!(call.expected(), numbers(&[6, 4, 0, 2, 3, 0, 0], b"abcd"));
    }
}
