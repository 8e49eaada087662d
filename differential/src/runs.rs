//! The runs, part by part.

use crate::compare::{Cases, Comparison};
use crate::random::Random;
use crate::{damage, direct_worlds, judge, large, oracle, small, stored};
use std::time::Instant;

pub struct Plan {
    pub seed: u64,
    /// Random sessions; a share of it is added in damaged ones, traces and direct calls.
    pub sessions: u64,
    /// Longer sequences of calls in the small worlds.
    pub deep: bool,
    /// Calls of the small traces.
    pub traced: usize,
    pub quiet: bool,
}

impl Plan {
    pub fn usual(seed: u64) -> Self {
        Self { seed, sessions: 200_000, deep: false, traced: 3, quiet: false }
    }

    /// Enough to find a slip: for the driver's own test.
    pub fn quick(seed: u64) -> Self {
        Self { sessions: 2_000, traced: 2, quiet: true, ..Self::usual(seed) }
    }
}

/// Runs all parts, and prints what each did.
pub fn all(to: &mut Comparison, plan: &Plan) {
    let mut random = Random::new(plan.seed);
    let mut part = |name: &str, run: &mut dyn FnMut(&mut Comparison, &mut Random)| {
        if to.over() {
            return;
        }
        let (start, before) = (Instant::now(), to.passed + to.failed);
        run(to, &mut random);
        to.settle();
        if !plan.quiet {
            let (count, time) = (to.passed + to.failed - before, start.elapsed().as_secs_f64());
            println!("{name}: {count} compared in {time:.1} s");
        }
    };
    let each = |count: u64, to: &mut Comparison, run: &mut dyn FnMut(&mut Comparison)| {
        for _ in 0..count {
            if to.over() {
                break;
            }
            run(to);
        }
    };
    part("stored sessions", &mut |to, _| stored::cases(to));
    part("bench sheet's and long traces", &mut |to, _| {
        judge::rows(to);
        judge::long(to);
    });
    part("faults and limits", &mut |to, _| damage::named(to));
    part("small writers", &mut |to, _| small::writer(to, if plan.deep { 3 } else { 2 }));
    part("small line writers", &mut |to, _| small::line_writer(to, plan.deep));
    part("small readers", &mut |to, _| small::reader(to, plan.deep));
    part("small traces", &mut |to, _| judge::small(to, plan.traced));
    if real::io::LAID_OPEN {
        part("refused direct calls", &mut |to, _| direct_worlds::refusals(to));
        part("small direct calls", &mut |to, _| direct_worlds::small(to));
    } else if !plan.quiet {
        println!("direct calls: left out, they need the std files");
    }
    part("random sessions", &mut |to, random| {
        each(plan.sessions, to, &mut |to| {
            let session = large::session(random);
            to.lines(&session.bytes(), oracle::run(&session));
        })
    });
    part("random damaged sessions", &mut |to, random| {
        each(plan.sessions / 10, to, &mut |to| damage::random(to, random))
    });
    part("random traces by brute force", &mut |to, random| {
        each(plan.sessions / 200, to, &mut |to| judge::middle(to, random))
    });
    part("random traces", &mut |to, random| {
        each(plan.sessions / 10, to, &mut |to| judge::large(to, random))
    });
    if real::io::LAID_OPEN {
        part("random direct calls", &mut |to, random| {
            each(plan.sessions / 10, to, &mut |to| direct_worlds::random(to, random))
        });
    }
}
