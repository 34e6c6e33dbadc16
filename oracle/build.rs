//! Finds the original files, and tests that they are those of ggrs 0.13.0. GGRS_SRC names the folder that holds input_queue.rs; the
//! modules under src/original include the files from there.

use std::path::Path;
use std::process::{exit, Command};

const FILES: [&str; 5] = ["frame_info.rs", "input_queue.rs", "sync_layer.rs", "time_sync.rs", "network/compression.rs"];

fn stop(why: String) -> ! {
    eprintln!("{why}");
    eprintln!("Set GGRS_SRC to the folder of ggrs 0.13.0 that holds input_queue.rs.");
    exit(1)
}

/// Stops where a file's sha256 is not the one in original.sha256.
fn test(folder: &Path) {
    println!("cargo:rerun-if-changed=original.sha256");
    let pins = Path::new(env!("CARGO_MANIFEST_DIR")).join("original.sha256");
    let said =
        Command::new("sha256sum").args(["--check", "--strict", "--quiet"]).arg(pins).current_dir(folder).output();
    match said {
        Ok(said) if said.status.success() => {}
        Ok(said) => {
            let lines = String::from_utf8_lossy(&said.stdout).trim().to_string();
            stop(format!("The files in {} are not those of ggrs 0.13.0: {lines}", folder.display()))
        }
        Err(why) => stop(format!("sha256sum, which tests the original files, was not run: {why}.")),
    }
}

fn main() {
    println!("cargo:rerun-if-env-changed=GGRS_SRC");
    let given = std::env::var("GGRS_SRC").unwrap_or_default();
    if given.is_empty() {
        stop("GGRS_SRC is not set.".into());
    }
    let folder = match Path::new(&given).canonicalize() {
        Ok(folder) => folder,
        Err(why) => stop(format!("GGRS_SRC is {given}: {why}.")),
    };
    for file in FILES {
        let path = folder.join(file);
        if !path.is_file() {
            stop(format!("GGRS_SRC is {given}, and there is no {file} in it."));
        }
        println!("cargo:rerun-if-changed={}", path.display());
    }
    test(&folder);
    println!("cargo:rustc-env=GGRS_SRC={}", folder.display());
}
