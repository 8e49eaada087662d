//! Lower case hex; `-` for no bytes.

pub fn put(to: &mut Vec<u8>, bytes: &[u8]) {
    const DIGITS: &[u8; 16] = b"0123456789abcdef";
    if bytes.is_empty() {
        to.push(b'-');
    }
    for &byte in bytes {
        to.push(DIGITS[usize::from(byte >> 4)]);
        to.push(DIGITS[usize::from(byte & 15)]);
    }
}

pub fn text(bytes: &[u8]) -> String {
    let mut to = Vec::new();
    put(&mut to, bytes);
    String::from_utf8(to).unwrap()
}

/// Reads pairs of digits; spaces, line ends, and what follows `#` on a line are passed over.
pub fn read(text: &str) -> Option<Vec<u8>> {
    let lines = text.lines().map(|line| line.split('#').next().unwrap());
    let digits: Vec<u8> = lines
        .flat_map(|line| line.chars())
        .filter(|c| !c.is_whitespace())
        .map(|c| c.to_digit(16).map(|d| d as u8))
        .collect::<Option<_>>()?;
    digits
        .len()
        .is_multiple_of(2)
        .then(|| digits.chunks(2).map(|pair| pair[0] << 4 | pair[1]).collect())
}
