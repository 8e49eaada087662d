//! Finds the four std files and makes, out of tree, the module tree around them: links, no copies.
//! Where they are not found the crate falls back on the installed standard library.

use std::path::{Path, PathBuf};
use std::{env, fs};

const FILES: [&str; 4] =
    ["bufwriter.rs", "linewritershim.rs", "bufreader.rs", "bufreader/buffer.rs"];

/// The folder that holds `library/std/..`: named by STD_FILES, or beside the repository.
fn folder() -> PathBuf {
    println!("cargo::rerun-if-env-changed=STD_FILES");
    match env::var_os("STD_FILES") {
        Some(folder) => PathBuf::from(folder),
        None => {
            Path::new(&env::var("CARGO_MANIFEST_DIR").unwrap()).join("../../../shared/docs/src")
        }
    }
}

/// A sum by which a reader can tell the files apart (FNV-1a).
fn sum(bytes: &[u8], start: u64) -> u64 {
    bytes.iter().fold(start, |h, &b| (h ^ b as u64).wrapping_mul(0x100_0000_01b3))
}

fn main() {
    println!("cargo::rerun-if-changed=build.rs");
    let buffered = folder().join("library/std/src/io/buffered");
    println!("cargo::rerun-if-changed={}", buffered.display());
    if !FILES.iter().all(|file| buffered.join(file).is_file()) {
        println!("cargo::rustc-env=REAL_CODE=std::io of the installed toolchain");
        return;
    }

    let tree = Path::new(&env::var("OUT_DIR").unwrap()).join("buffered");
    let _ = fs::remove_dir_all(&tree);
    fs::create_dir_all(tree.join("bufreader")).unwrap();
    let mut all = 0xcbf2_9ce4_8422_2325;
    for file in FILES {
        let source = buffered.join(file).canonicalize().unwrap();
        println!("cargo::rerun-if-changed={}", source.display());
        all = sum(&fs::read(&source).unwrap(), all);
        std::os::unix::fs::symlink(source, tree.join(file)).unwrap();
    }
    // The reader keeps its buffer module private, so that file is compiled a second time alone.
    fs::write(
        tree.join("mod.rs"),
        "#[path = \"bufreader/buffer.rs\"]\npub mod buffer;\n\
         pub mod bufreader;\npub mod bufwriter;\npub mod linewritershim;\n",
    )
    .unwrap();
    // A path attribute takes only a literal, so the one line that names the tree is made here.
    fs::write(
        tree.join("../tree.rs"),
        format!("#[path = {:?}]\nmod buffered;\n", tree.join("mod.rs")),
    )
    .unwrap();
    println!("cargo::rustc-cfg=std_files");
    println!("cargo::rustc-env=REAL_CODE=the four std files, unchanged, sum {all:016x}");
}
