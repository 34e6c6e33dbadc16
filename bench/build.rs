//! Finds the original files, as the oracle does, and the object files of the proved desks, which DESK_OBJECT and
//! VALUE_OBJECT name.

use std::path::PathBuf;
use std::process::exit;

/// What an environment variable names, as a path from the root.
fn named(variable: &str) -> PathBuf {
    println!("cargo:rerun-if-env-changed={variable}");
    let given = std::env::var(variable).unwrap_or_default();
    match PathBuf::from(&given).canonicalize() {
        Ok(path) => path,
        Err(why) => {
            eprintln!("{variable} is `{given}`: {why}. bench/run sets it.");
            exit(1)
        }
    }
}

fn main() {
    let source = named("GGRS_SRC");
    for file in ["frame_info.rs", "input_queue.rs", "sync_layer.rs"] {
        println!("cargo:rerun-if-changed={}", source.join(file).display());
    }
    println!("cargo:rustc-env=GGRS_SRC={}", source.display());
    for object in [named("DESK_OBJECT"), named("VALUE_OBJECT")] {
        println!("cargo:rerun-if-changed={}", object.display());
        println!("cargo:rustc-link-arg={}", object.display());
    }
}
