//! Finds the port's static libraries, its calls, the line writer's and its sessions, where the driver is to be linked with them.

use std::env;
use std::path::Path;

fn main() {
    println!("cargo::rerun-if-changed=build.rs");
    println!("cargo::rerun-if-env-changed=PORT_LIBRARY");
    if env::var_os("CARGO_FEATURE_LINKED").is_none() {
        return;
    }
    let usual = Path::new(&env::var("CARGO_MANIFEST_DIR").unwrap()).join("../target/staticlib");
    let folder = env::var_os("PORT_LIBRARY").map_or(usual, Into::into);
    println!("cargo::rustc-link-search=native={}", folder.display());
    for library in ["stackglow", "stackline", "session"] {
        println!("cargo::rerun-if-changed={}", folder.join(format!("lib{library}.a")).display());
        println!("cargo::rustc-link-lib=static={library}");
    }
}
