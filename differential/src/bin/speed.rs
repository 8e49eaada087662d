//! How long the calls take, the Rust and the port side by side on the same scripted device. It is
//! no test: it compares only times. Each call of either side goes through one function that is not
//! inlined: the port's is a C call, so the Rust gets a function of its own.

#![feature(real_code)]

use differential::library::{self, Reader, Told, Writer};
use differential::{judge, oracle};
use real::io::{BufReader, BufWriter, LineWriter, Read, Result, Write};
use std::hint::black_box;
use std::time::{Duration, Instant};

const CAPACITY: usize = 1_024;
const BYTES: usize = 16_384;
const REPLIES: usize = 4_096;

/// The scripted device, with no more state than the port's.
struct Card {
    script: Vec<u32>,
    used: usize,
    medium: Vec<u8>,
    out: usize,
    stock: Vec<u8>,
    taken: usize,
}

impl Card {
    /// One that accepts all that it is offered.
    fn new() -> Self {
        Self {
            script: vec![65_535; REPLIES],
            used: 0,
            medium: vec![0; BYTES],
            out: 0,
            stock: vec![b's'; BYTES],
            taken: 0,
        }
    }

    /// The same from the start.
    fn rewind(&mut self) {
        (self.used, self.out, self.taken) = (0, 0, 0);
    }

    fn accepted(&mut self) -> Result<usize> {
        let Some(&reply) = self.script.get(self.used) else {
            return Err(std::io::ErrorKind::Other.into());
        };
        self.used += 1;
        match reply {
            0..=65_535 => Ok(reply as usize),
            65_536 => Err(std::io::ErrorKind::Interrupted.into()),
            _ => Err(std::io::ErrorKind::Other.into()),
        }
    }
}

impl Write for Card {
    fn write(&mut self, offered: &[u8]) -> Result<usize> {
        let n = self.accepted()?.min(offered.len()).min(self.medium.len() - self.out);
        self.medium[self.out..][..n].copy_from_slice(&offered[..n]);
        self.out += n;
        Ok(n)
    }

    fn flush(&mut self) -> Result<()> {
        self.accepted().map(drop)
    }
}

impl Read for Card {
    fn read(&mut self, room: &mut [u8]) -> Result<usize> {
        let n = self.accepted()?.min(room.len()).min(self.stock.len() - self.taken);
        room[..n].copy_from_slice(&self.stock[self.taken..][..n]);
        self.taken += n;
        Ok(n)
    }
}

/// Bytes that the compiler knows nothing about. What is hidden is one pointer: a slice's two words
/// would be stored apart and loaded together, which stalls the side that is compiled so.
fn hidden(bytes: &Vec<u8>) -> &[u8] {
    black_box::<&Vec<u8>>(bytes)
}

fn hidden_mut(bytes: &mut Vec<u8>) -> &mut [u8] {
    black_box::<&mut Vec<u8>>(bytes)
}

#[inline(never)]
fn write<W: Write>(writer: &mut W, slice: &[u8]) -> Result<usize> {
    writer.write(slice)
}

#[inline(never)]
fn flush<W: Write>(writer: &mut W) -> Result<()> {
    writer.flush()
}

#[inline(never)]
fn read<R: Read>(reader: &mut R, destination: &mut [u8]) -> Result<usize> {
    reader.read(destination)
}

/// What a case calls.
#[derive(Clone, Copy)]
enum Side {
    Writer,
    LineWriter,
    Reader,
}

/// One round makes as many calls as fill the medium or empty the stock, and flushes a writer. Both
/// sides start every round on the buffer of the round before.
struct Case {
    name: &'static str,
    side: Side,
    /// What is written; a read has room for as much.
    slice: Vec<u8>,
}

impl Case {
    fn calls(&self) -> usize {
        BYTES / self.slice.len()
    }

    /// A round of the Rust's calls.
    fn rust(&self) -> Box<dyn FnMut() + '_> {
        let card = Card::new();
        match self.side {
            Side::Writer => {
                let mut writer = BufWriter::with_capacity(CAPACITY, card);
                Box::new(move || {
                    self.rust_writes(&mut writer);
                    writer.get_mut().rewind();
                })
            }
            Side::LineWriter => {
                let mut writer = LineWriter::with_capacity(CAPACITY, card);
                Box::new(move || {
                    self.rust_writes(&mut writer);
                    writer.plain().get_mut().rewind();
                })
            }
            Side::Reader => {
                let mut reader = BufReader::with_capacity(CAPACITY, card);
                let mut destination = self.slice.clone();
                Box::new(move || {
                    for _ in 0..self.calls() {
                        black_box(read(&mut reader, hidden_mut(&mut destination)).unwrap());
                    }
                    reader.get_mut().rewind();
                })
            }
        }
    }

    fn rust_writes<W: Write>(&self, writer: &mut W) {
        for _ in 0..self.calls() {
            black_box(write(writer, hidden(&self.slice)).unwrap());
        }
        flush(writer).unwrap();
    }

    /// A round of the port's.
    fn port(&self) -> Box<dyn FnMut() + '_> {
        match self.side {
            Side::Writer => self.port_writes(library::write),
            Side::LineWriter => self.port_writes(library::line_write),
            Side::Reader => {
                let Card { script, stock, .. } = Card::new();
                let (mut storage, mut destination) = (vec![0; CAPACITY], self.slice.clone());
                Box::new(move || {
                    let mut reader = Reader::default();
                    for _ in 0..self.calls() {
                        let room = hidden_mut(&mut destination);
                        let told = library::read(&mut reader, &mut storage, &script, &stock, room);
                        black_box(counted(told));
                    }
                })
            }
        }
    }

    fn port_writes(
        &self,
        write: impl Fn(&mut Writer, &mut [u8], &[u32], &mut [u8], &[u8]) -> Told + 'static,
    ) -> Box<dyn FnMut() + '_> {
        let Card { script, mut medium, .. } = Card::new();
        let mut storage = vec![0; CAPACITY];
        Box::new(move || {
            let mut writer = Writer::default();
            for _ in 0..self.calls() {
                let slice = hidden(&self.slice);
                black_box(counted(write(&mut writer, &mut storage, &script, &mut medium, slice)));
            }
            counted(library::flush(&mut writer, &mut storage, &script, &mut medium));
        })
    }
}

/// An ok's count.
fn counted(told: Told) -> usize {
    assert!(told.number == 0);
    told.value
}

/// Nanoseconds of one run of each: the best of many short tries, which take turns so that whatever
/// else the machine does meets all of them.
fn best<const N: usize>(mut runs: [&mut dyn FnMut(); N]) -> [f64; N] {
    let mut best = [f64::INFINITY; N];
    for _ in 0..200 {
        for (run, best) in runs.iter_mut().zip(&mut best) {
            let (start, mut count) = (Instant::now(), 0);
            while start.elapsed() < Duration::from_millis(2) {
                run();
                count += 1;
            }
            *best = best.min(start.elapsed().as_secs_f64() * 1e9 / f64::from(count));
        }
    }
    best
}

fn cases() -> [Case; 9] {
    let plain = |name, side, n| Case { name, side, slice: vec![b'w'; n] };
    let mut lines = vec![b'w'; 4_096];
    lines[3_196] = b'\n';
    let mut short = vec![b'w'; 64];
    short[63] = b'\n';
    [
        plain("writes of 16 bytes", Side::Writer, 16),
        plain("writes of 100 bytes", Side::Writer, 100),
        plain("large writes, 4,096 bytes", Side::Writer, 4_096),
        Case { name: "line writes, lines of 64 bytes", side: Side::LineWriter, slice: short },
        plain("line writes, 1,000 bytes without a newline", Side::LineWriter, 1_000),
        Case {
            name: "line writes, 4,096 bytes with a newline 900 before the end",
            side: Side::LineWriter,
            slice: lines,
        },
        plain("reads of 16 bytes", Side::Reader, 16),
        plain("reads of 100 bytes", Side::Reader, 100),
        plain("large reads, 4,096 bytes", Side::Reader, 4_096),
    ]
}

fn main() {
    println!("the Rust: {}", oracle::CODE);
    println!("nanoseconds for a call; capacity {CAPACITY}, medium and stock {BYTES}");
    for case in cases() {
        let [rust, port] = best([&mut case.rust(), &mut case.port()]);
        let (rust, port) = (rust / case.calls() as f64, port / case.calls() as f64);
        println!("{}: Rust {rust:.1}, port {port:.1}, ratio {:.2}", case.name, port / rust);
    }
    let trace = judge::largest().bytes();
    let mut output = [0; 64];
    let judged = library::judge(&trace, &mut output);
    assert_eq!(&output[..judged], b"judge possible\n");
    let [port] = best([&mut || _ = black_box(library::judge(hidden(&trace), &mut output))]);
    println!("the judge on a largest trace ({} bytes): port {port:.0}", trace.len());
}
