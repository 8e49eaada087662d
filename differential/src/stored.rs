//! The sessions that are kept in the repository with their lines.

use crate::compare::Cases;
use crate::{hex, oracle};
use std::fs;
use std::path::Path;

/// Name, session and lines, in the order of names.
pub fn all() -> Vec<(String, Vec<u8>, Vec<u8>)> {
    let folder = Path::new(env!("CARGO_MANIFEST_DIR")).join("../sessions");
    let mut all = Vec::new();
    for entry in fs::read_dir(&folder).expect("the folder of sessions") {
        let path = entry.unwrap().path();
        if path.extension().is_some_and(|ending| ending == "hex") {
            let text = fs::read_to_string(&path).unwrap();
            let session = hex::read(&text).expect("pairs of hex digits");
            let lines = fs::read(path.with_extension("out")).unwrap();
            all.push((path.file_stem().unwrap().to_string_lossy().into(), session, lines));
        }
    }
    all.sort();
    all
}

/// Each against its stored lines, which the real code must print too.
pub fn cases(to: &mut dyn Cases) {
    for (name, session, lines) in all() {
        if let Some(real) = oracle::lines(&session) {
            assert!(real == lines, "the real code prints other lines for the session {name}");
        }
        to.lines(&session, lines);
    }
}
