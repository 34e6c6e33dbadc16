//! `generate SEED LINES KIND [WAY]` writes a random cue sheet of LINES lines for one part to standard output. The way `long` keeps
//! one setup in force, so that its frames go past a million where there are lines enough; `far` has many frames and lengths
//! at the ends of their types.

use std::io::{self, Write};
use std::process::exit;

mod delta;
mod desk;
mod layer;
mod model;
mod queue;
mod random;
mod sheet;
mod sync;

const USE: &str =
    "use: generate SEED LINES KIND [WAY], with KIND queue, delta, sync, layer or desk, and WAY long or far";

fn main() -> io::Result<()> {
    let given: Vec<String> = std::env::args().skip(1).collect();
    let [seed, lines, kind, ways @ ..] = given.as_slice() else { stop() };
    let (Ok(seed), Ok(lines)) = (seed.parse(), lines.parse()) else { stop() };
    let long = match ways {
        [] => false,
        [way] if way == "long" || way == "far" => way == "long",
        _ => stop(),
    };
    let mut sheet = sheet::Sheet::new(seed, lines);
    sheet.random.far = !ways.is_empty() && !long;
    match kind.as_str() {
        "queue" if long => queue::long(&mut sheet),
        "sync" if long => sync::long(&mut sheet),
        "layer" if long => layer::long(&mut sheet),
        "desk" if long => desk::long(&mut sheet),
        "queue" => queue::sheet(&mut sheet),
        // a packet has no frame and leaves nothing behind, so every sheet of them is a long one
        "delta" => delta::sheet(&mut sheet, seed),
        "sync" => sync::sheet(&mut sheet),
        "layer" => layer::sheet(&mut sheet),
        "desk" => desk::sheet(&mut sheet),
        _ => stop(),
    }
    io::stdout().lock().write_all(&sheet.finish())
}

fn stop() -> ! {
    eprintln!("{USE}");
    exit(2)
}
