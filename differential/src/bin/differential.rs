//! Compares the port with the Rust. See README.md for the ways to start it.

use differential::compare::Comparison;
use differential::mirror::{Mirror, Slip};
use differential::oracle;
use differential::port::{Piped, Port};
use differential::runs::{self, Plan};
use differential::sample;
use std::io::{Read, Write};
use std::process::ExitCode;
use std::sync::atomic::Ordering;
use std::time::Instant;

const USAGE: &str = "differential [--seed N] [--sessions N] [--deep] PORT
PORT is one of
  --linked          the port's static library (built with the feature `linked`)
  --piped COMMAND.. a program of the port that answers requests on its standard input
  --mirror          the driver's own stand-in
  --self-test       the stand-in with a slip planted, one after the other: each must be found
  --serve           be such a program, with the stand-in's answers
  --sample IN OUT   write the stored sample, requests and answers, which a program replays";

fn main() -> ExitCode {
    let mut plan = Plan::usual(1);
    let mut words = std::env::args().skip(1);
    let number = |words: &mut dyn Iterator<Item = String>| {
        words.next().and_then(|word| word.parse().ok()).expect("a number")
    };
    while let Some(word) = words.next() {
        match word.as_str() {
            "--seed" => plan.seed = number(&mut words),
            "--sessions" => plan.sessions = number(&mut words),
            "--deep" => plan.deep = true,
            "--mirror" => return compare(&mut Mirror(Slip::None), &plan),
            "--serve" => return serve(),
            "--sample" => {
                return sample(&words.next().expect("a file"), &words.next().expect("a file"));
            }
            "--self-test" => return self_test(plan.seed),
            "--piped" => {
                let command: Vec<String> = words.collect();
                let mut port = Piped::start(&command).expect("the port's program starts");
                return compare(&mut port, &plan);
            }
            #[cfg(feature = "linked")]
            "--linked" => return compare(&mut differential::linked::Linked::new(), &plan),
            _ => break,
        }
    }
    eprintln!("{USAGE}");
    ExitCode::from(2)
}

fn compare(port: &mut dyn Port, plan: &Plan) -> ExitCode {
    println!("the port: {}; the Rust: {}", port.name(), oracle::CODE);
    println!("seed {}, {} random sessions", plan.seed, plan.sessions);
    let start = Instant::now();
    let mut comparison = Comparison::new(port, false);
    runs::all(&mut comparison, plan);
    comparison.report();
    let ledgers = oracle::LEDGERS.load(Ordering::Relaxed);
    println!("the ledger held on the real code in {ledgers} sessions");
    println!("{:.1} s", start.elapsed().as_secs_f64());
    verdict(comparison.passed, comparison.failed)
}

/// The last line.
fn verdict(passed: u64, failed: u64) -> ExitCode {
    println!("{passed} passed, {failed} failed");
    if passed > 0 && failed == 0 { ExitCode::SUCCESS } else { ExitCode::FAILURE }
}

fn self_test(seed: u64) -> ExitCode {
    println!("the Rust: {}", oracle::CODE);
    let (mut passed, mut failed) = (0, 0);
    for slip in Slip::planted() {
        let mut port = Mirror(slip);
        let mut comparison = Comparison::new(&mut port, true);
        runs::all(&mut comparison, &Plan::quick(seed));
        let found = comparison.failed > 0;
        println!("{slip:?}: {}", if found { "found" } else { "NOT FOUND" });
        comparison.report();
        if found { passed += 1 } else { failed += 1 }
    }
    verdict(passed, failed)
}

/// Answers requests as the port's program does, to try the pipes without it.
fn serve() -> ExitCode {
    let (mut requests, mut answers) = (std::io::stdin().lock(), std::io::stdout().lock());
    let mut length = [0; 4];
    while requests.read_exact(&mut length).is_ok() {
        let mut request = vec![0; u32::from_le_bytes(length) as usize];
        requests.read_exact(&mut request).expect("a whole request");
        let answer = Mirror(Slip::None).answers(&[request]).remove(0);
        answers.write_all(&(answer.len() as u32).to_le_bytes()).unwrap();
        answers.write_all(&answer).unwrap();
        answers.flush().unwrap();
    }
    ExitCode::SUCCESS
}

fn sample(requests: &str, answers: &str) -> ExitCode {
    let (count, asked, answered) = sample::files();
    std::fs::write(requests, &asked).expect("the requests can be written");
    std::fs::write(answers, &answered).expect("the answers can be written");
    println!("{count} cases, {} and {} bytes, from {}", asked.len(), answered.len(), oracle::CODE);
    ExitCode::SUCCESS
}
