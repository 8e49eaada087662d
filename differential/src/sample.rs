//! A fixed sample of the oracle's answers, for a program that replays it with no Rust at hand: the
//! input and the output of the port's program `answers`, each request and each answer after its
//! length (32 bits, lowest byte first).

use crate::compare::{Cases, Expected};
use crate::random::Random;
use crate::request::put_bytes;
use crate::{damage, direct_worlds, judge, large, oracle, small, stored};

/// Takes every `stride`-th request that is at most `longest` bytes.
struct Collector {
    cases: Vec<(Vec<u8>, Vec<u8>)>,
    longest: usize,
    stride: usize,
    seen: usize,
}

impl Cases for Collector {
    fn add(&mut self, request: Vec<u8>, expected: Expected) {
        let Expected::Exactly(answer) = expected else {
            return;
        };
        if request.len() <= self.longest {
            if self.seen.is_multiple_of(self.stride) {
                self.cases.push((request, answer));
            }
            self.seen += 1;
        }
    }

    fn over(&self) -> bool {
        false
    }
}

impl Collector {
    fn part(&mut self, longest: usize, stride: usize, mut run: impl FnMut(&mut dyn Cases)) {
        (self.longest, self.stride, self.seen) = (longest, stride, 0);
        run(self);
    }
}

/// The stored sessions, and of each part of the runs some, spread evenly.
fn cases() -> Vec<(Vec<u8>, Vec<u8>)> {
    let mut random = Random::new(1);
    let mut all = Collector { cases: vec![], longest: 0, stride: 1, seen: 0 };
    all.part(1_000, 1, stored::cases);
    all.part(1_000, 1, judge::rows);
    all.part(1_100, 3, damage::named);
    all.part(100, 41, |to| small::writer(to, 2));
    all.part(100, 599, |to| small::line_writer(to, false));
    all.part(100, 97, |to| small::reader(to, false));
    all.part(100, 97, |to| judge::small(to, 2));
    all.part(200, 97, direct_worlds::small);
    all.part(200, 11, direct_worlds::refusals);
    let random = &mut random;
    for (longest, count) in [(72, 2_500), (600, 40)] {
        all.part(longest, 1, |to| {
            for _ in 0..count {
                let session = large::session(random);
                to.lines(&session.bytes(), oracle::run(&session));
            }
        });
    }
    all.part(60, 3, |to| (0..600).for_each(|_| damage::random(to, random)));
    all.part(120, 1, |to| (0..200).for_each(|_| judge::large(to, random)));
    all.cases
}

/// How many cases, the requests and the answers.
pub fn files() -> (usize, Vec<u8>, Vec<u8>) {
    let cases = cases();
    let (mut requests, mut answers) = (vec![], vec![]);
    for (request, answer) in &cases {
        put_bytes(&mut requests, request);
        put_bytes(&mut answers, answer);
    }
    (cases.len(), requests, answers)
}
