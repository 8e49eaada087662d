//! Asks the port in batches, compares, counts, and keeps the smallest mismatch.

use crate::port::Port;
use crate::session::{Call, Input, Session, check};
use crate::{hex, oracle, request};

/// Where cases go: to be compared, or into the stored sample.
pub trait Cases {
    /// A request to the port, and what it must answer.
    fn add(&mut self, request: Vec<u8>, expected: Expected);

    /// Nothing more need be asked.
    fn over(&self) -> bool;

    fn lines(&mut self, input: &[u8], lines: Vec<u8>) {
        self.add(request::session(input), Expected::Exactly(lines));
    }

    /// Any input at all: what is expected of it is worked out here.
    fn input(&mut self, input: &[u8]) {
        let expected = oracle::lines(input).map_or(Expected::Verdict, Expected::Exactly);
        self.add(request::session(input), expected);
    }
}

pub enum Expected {
    Exactly(Vec<u8>),
    /// A well-formed trace whose verdict the driver does not know.
    Verdict,
}

impl Expected {
    fn fits(&self, answer: &[u8]) -> bool {
        match self {
            Self::Exactly(bytes) => answer == bytes,
            Self::Verdict => matches!(answer, b"judge possible\n" | b"judge impossible\n"),
        }
    }

    fn text(&self) -> String {
        match self {
            Self::Exactly(bytes) => readable(bytes),
            Self::Verdict => "either verdict".into(),
        }
    }
}

struct Mismatch {
    request: Vec<u8>,
    expected: Expected,
    answer: Option<Vec<u8>>,
}

pub struct Comparison<'p> {
    port: &'p mut dyn Port,
    waiting: Vec<(Vec<u8>, Expected)>,
    waiting_bytes: usize,
    /// Stop at the first batch that fails: what the driver's own test wants.
    hasty: bool,
    stopped: bool,
    pub passed: u64,
    pub failed: u64,
    smallest: Option<Mismatch>,
}

impl<'p> Comparison<'p> {
    pub fn new(port: &'p mut dyn Port, hasty: bool) -> Self {
        let waiting = Vec::new();
        Self {
            port,
            waiting,
            waiting_bytes: 0,
            hasty,
            stopped: false,
            passed: 0,
            failed: 0,
            smallest: None,
        }
    }

    /// Compares all that waits.
    pub fn settle(&mut self) {
        let waiting = std::mem::take(&mut self.waiting);
        self.waiting_bytes = 0;
        if self.over() {
            return;
        }
        let (requests, expected): (Vec<_>, Vec<_>) = waiting.into_iter().unzip();
        let mut answers = self.port.answers(&requests).into_iter();
        for (request, expected) in requests.into_iter().zip(expected) {
            let answer = answers.next();
            if answer.as_ref().is_some_and(|answer| expected.fits(answer)) {
                self.passed += 1;
                continue;
            }
            self.failed += 1;
            self.stopped |= answer.is_none();
            let size = |request: &[u8]| (request.len(), request.to_vec());
            if self.smallest.as_ref().is_none_or(|old| size(&request) < size(&old.request)) {
                self.smallest = Some(Mismatch { request, expected, answer });
            }
            if self.stopped {
                return;
            }
        }
    }

    /// Prints the smallest mismatch, made smaller where that is possible.
    pub fn report(&mut self) {
        self.settle();
        let Some(mut found) = self.smallest.take() else { return };
        if !self.stopped {
            while let Some(smaller) = self.smaller(&found.request) {
                found = smaller;
            }
        }
        let (letter, bytes) = found.request.split_first().unwrap();
        match letter {
            b's' => println!("MISMATCH on the session {}", hex::text(bytes)),
            _ => println!("MISMATCH on the direct call {}", hex::text(&found.request)),
        }
        println!("expected:\n{}", found.expected.text());
        match found.answer {
            Some(answer) => println!("the port:\n{}", readable(&answer)),
            None => println!("the port stopped"),
        }
    }

    /// A smaller session that the port still gets wrong.
    fn smaller(&mut self, request: &[u8]) -> Option<Mismatch> {
        let Some((b's', bytes)) = request.split_first() else { return None };
        let Ok(Input::Session(session)) = check(bytes) else { return None };
        for session in simpler(&session) {
            let request = request::session(&session.bytes());
            let expected = Expected::Exactly(oracle::run(&session));
            let answer = self.port.answers(std::slice::from_ref(&request)).pop();
            if !answer.as_ref().is_some_and(|answer| expected.fits(answer)) {
                self.stopped |= answer.is_none();
                return Some(Mismatch { request, expected, answer });
            }
        }
        None
    }
}

impl Cases for Comparison<'_> {
    fn add(&mut self, request: Vec<u8>, expected: Expected) {
        assert!(request.len() <= request::MOST);
        self.waiting_bytes += request.len();
        self.waiting.push((request, expected));
        if self.waiting.len() >= 2_048 || self.waiting_bytes >= 1 << 20 {
            self.settle();
        }
    }

    fn over(&self) -> bool {
        self.stopped || self.hasty && self.failed > 0
    }
}

/// Sessions with one thing less.
fn simpler(session: &Session) -> Vec<Session> {
    let mut all = Vec::new();
    let mut changed = |change: &dyn Fn(&mut Session)| {
        let mut other = session.clone();
        change(&mut other);
        if other != *session {
            all.push(other);
        }
    };
    for i in 0..session.calls.len() {
        changed(&|s| drop(s.calls.remove(i)));
    }
    for i in 0..session.script.len() {
        changed(&|s| _ = s.script.remove(i));
    }
    for i in 0..session.calls.len() {
        for shorter in [|n: usize| n / 2, |n: usize| n.saturating_sub(1)] {
            changed(&|s| match &mut s.calls[i] {
                Call::Write(slice) | Call::WriteAll(slice) => slice.truncate(shorter(slice.len())),
                Call::Read(n) | Call::Peek(n) | Call::Consume(n) => *n = shorter(*n),
                _ => {}
            });
        }
    }
    for shorter in [|n: usize| n / 2, |n: usize| n.saturating_sub(1)] {
        changed(&|s| s.capacity = shorter(s.capacity));
        changed(&|s| s.stock.truncate(shorter(s.stock.len())));
    }
    all
}

/// Lines as they are; the answer to a direct call in hex.
fn readable(bytes: &[u8]) -> String {
    match std::str::from_utf8(bytes) {
        Ok(text) if text.ends_with('\n') => text.trim_end().to_string(),
        _ => hex::text(bytes),
    }
}
