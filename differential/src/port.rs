//! The port: linked into the driver (`linked.rs`), or a program of it at the other end of two pipes.

use std::io::{self, BufReader, Read, Write};
use std::process::{Child, ChildStdin, ChildStdout, Command, Stdio};

pub trait Port {
    /// How it is reached.
    fn name(&self) -> String;

    /// The answers to these requests (see `request.rs`), in order; fewer where the port stopped.
    fn answers(&mut self, requests: &[Vec<u8>]) -> Vec<Vec<u8>>;
}

/// A program that reads a request after its length (32 bits, lowest byte first) and writes its
/// answer after its length, again and again until its input ends.
pub struct Piped {
    child: Child,
    requests: Option<ChildStdin>,
    answers: BufReader<ChildStdout>,
}

impl Piped {
    pub fn start(command: &[String]) -> io::Result<Self> {
        let mut child = Command::new(&command[0])
            .args(&command[1..])
            .stdin(Stdio::piped())
            .stdout(Stdio::piped())
            .spawn()?;
        let requests = child.stdin.take();
        let answers = BufReader::with_capacity(1 << 16, child.stdout.take().unwrap());
        Ok(Self { child, requests, answers })
    }

    fn answer(&mut self) -> io::Result<Vec<u8>> {
        let mut length = [0; 4];
        self.answers.read_exact(&mut length)?;
        let mut answer = vec![0; u32::from_le_bytes(length) as usize];
        self.answers.read_exact(&mut answer)?;
        Ok(answer)
    }
}

impl Port for Piped {
    fn name(&self) -> String {
        "its program, over pipes".into()
    }

    fn answers(&mut self, requests: &[Vec<u8>]) -> Vec<Vec<u8>> {
        let mut frames = Vec::new();
        for request in requests {
            frames.extend_from_slice(&(request.len() as u32).to_le_bytes());
            frames.extend_from_slice(request);
        }
        let mut sink = self.requests.take().unwrap();
        // Requests go out on a thread of their own: the port may wait for its answers to be read.
        let (answers, sink) = std::thread::scope(|scope| {
            let sent = scope.spawn(move || {
                // A port that has stopped is noticed by its missing answers.
                let _ = sink.write_all(&frames).and_then(|()| sink.flush());
                sink
            });
            let answers: Vec<_> = requests.iter().map_while(|_| self.answer().ok()).collect();
            (answers, sent.join().unwrap())
        });
        self.requests = Some(sink);
        answers
    }
}

impl Drop for Piped {
    fn drop(&mut self) {
        // The end of its input ends the program.
        self.requests = None;
        let _ = self.child.wait();
    }
}
