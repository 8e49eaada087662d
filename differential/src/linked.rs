//! The port as a library that is linked into the driver: requests are taken apart here, and each
//! becomes one call of an exported function.

use crate::answer::Answer;
use crate::direct::{self, ReaderCall, WriterCall};
use crate::library::{self, Reader, Told, Writer};
use crate::port::Port;
use crate::request::Parts;

pub struct Linked {
    output: Vec<u8>,
}

impl Linked {
    #[expect(clippy::new_without_default, reason = "four megabytes are no default")]
    pub fn new() -> Self {
        // The longest lines are 1,024 of `peek`, each with 1,024 bytes in hex: 2 MiB and a bit.
        Self { output: vec![0; 4 << 20] }
    }

    fn text(&mut self, call: fn(&[u8], &mut [u8]) -> usize, input: &[u8]) -> Vec<u8> {
        let end = call(input, &mut self.output);
        self.output[..end].to_vec()
    }
}

impl Port for Linked {
    fn name(&self) -> String {
        "its libraries, linked".into()
    }

    fn answers(&mut self, requests: &[Vec<u8>]) -> Vec<Vec<u8>> {
        let answer = |request: &Vec<u8>| match request.split_first().unwrap() {
            (b's', session) => self.text(library::session, session),
            (b'j', trace) => self.text(library::judge, trace),
            (b'w', call) => write(WriterCall::read(Parts(call))),
            (_, call) => read(ReaderCall::read(Parts(call))),
        };
        requests.iter().map(answer).collect()
    }
}

impl Told {
    /// Ok has one number with a count and without; the call knows which.
    fn answer(self, counted: bool) -> Answer {
        match self.number {
            0 if counted => Answer::Count(self.value),
            0 => Answer::Done,
            1 => Answer::Interrupted,
            2 => Answer::Zero,
            3 => Answer::Error(self.value as u32),
            4 => Answer::Whole,
            _ => Answer::Refused(self.value as u8),
        }
    }
}

fn write(mut call: WriterCall) -> Vec<u8> {
    let mut state = Writer { held: call.held, out: call.out, used: call.used };
    let (storage, script, medium) = (&mut call.storage, &call.script, &mut call.medium);
    let told = match call.call {
        direct::WRITE => library::write(&mut state, storage, script, medium, &call.slice),
        direct::WRITE_ALL => library::write_all(&mut state, storage, script, medium, &call.slice),
        direct::FLUSH => library::flush(&mut state, storage, script, medium),
        direct::FLUSH_BUF => library::flush_buf(&mut state, storage, script, medium),
        direct::LINE_WRITE => library::line_write(&mut state, storage, script, medium, &call.slice),
        _ => library::line_write_all(&mut state, storage, script, medium, &call.slice),
    };
    let counted = matches!(call.call, direct::WRITE | direct::LINE_WRITE);
    (call.held, call.out, call.used) = (state.held, state.out, state.used);
    call.answer(told.answer(counted), told.calls)
}

fn read(mut call: ReaderCall) -> Vec<u8> {
    let ReaderCall { pos, filled, taken, used, .. } = call;
    let mut state = Reader { pos, filled, taken, used };
    let (storage, script, stock) = (&mut call.storage, &call.script, &call.stock);
    let size = call.size as usize;
    let destination = &mut call.destination;
    let (told, counted) = match call.call {
        direct::READ => (library::read(&mut state, storage, script, stock, destination), true),
        direct::PEEK => (library::peek(&mut state, storage, script, stock, size), true),
        // The buffer's own consume and fill are the reader's.
        direct::CONSUME | direct::BUFFER_CONSUME => {
            (library::consume(&mut state, storage, script, stock, size), false)
        }
        direct::SEEK => {
            (library::seek_relative(&mut state, storage, script, stock, call.size), false)
        }
        _ => (library::fill_buf(&mut state, storage, script, stock), true),
    };
    (call.pos, call.filled, call.taken, call.used) =
        (state.pos, state.filled, state.taken, state.used);
    let answer = told.answer(counted);
    let shown = match answer.count() {
        0 => vec![],
        _ if call.call == direct::READ => vec![],
        count => call.storage[call.pos..][..count].to_vec(),
    };
    call.answer(answer, told.calls, &shown)
}
