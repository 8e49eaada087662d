//! Reads one session from standard input and prints the real code's lines. With `--hex` the
//! session is hex text with comments.

use differential::{hex, oracle};
use std::io::{Read, Write};

fn main() {
    let mut input = Vec::new();
    std::io::stdin().lock().read_to_end(&mut input).unwrap();
    if std::env::args().nth(1).as_deref() == Some("--hex") {
        let text = String::from_utf8(input).expect("hex text");
        input = hex::read(&text).expect("pairs of hex digits");
    }
    let lines = oracle::lines(&input);
    let lines = lines.unwrap_or_else(|| b"a well-formed trace: the Rust has no judge\n".to_vec());
    std::io::stdout().write_all(&lines).unwrap();
}
