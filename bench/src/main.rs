//! One night on the proved desk, lent and by value, and on ggrs, and single calls of the layer below: the time of each.
//!
//! `bench [FRAMES] [RUNS]`. Times are the CPU time of this thread, each the least of some runs that take turns.

mod by_value;
mod night;
mod ours;
mod theirs;
mod time;

// The original files look for these at the crate's root.
#[allow(dead_code)]
#[path = "../../oracle/src/original/frame_info.rs"]
mod frame_info;
#[allow(dead_code)]
#[path = "../../oracle/src/host.rs"]
mod host;
#[allow(dead_code)]
#[path = "../../oracle/src/original/input_queue.rs"]
mod input_queue;
#[allow(dead_code)]
#[path = "../../oracle/src/original/sync_layer.rs"]
mod sync_layer;
mod network {
    pub(crate) mod messages {
        pub(crate) use crate::host::ConnectionStatus;
    }
}
use host::{Config, Frame, GgrsRequest, InputPredictor, InputStatus, PlayerHandle, NULL_FRAME};

use night::{Desk, Ended};
use std::hint::black_box;
use std::process::exit;
use time::least;

const FRAMES: u32 = 100_000;
const RUNS: usize = 21;
const CALLS: u32 = 1_000_000;

fn number(at: usize, other: usize) -> usize {
    match std::env::args().nth(at).map(|given| given.parse()) {
        None => other,
        Some(Ok(given)) if given > 0 => given,
        Some(_) => {
            eprintln!("use: bench [FRAMES] [RUNS]");
            exit(2)
        }
    }
}

fn played<D: Desk>(frames: u32) -> Ended {
    night::play(&mut D::open(), frames)
}

/// All nights must end alike; a time of another night would say nothing.
fn nights(frames: u32, runs: usize) {
    let theirs = played::<theirs::Ggrs>(frames);
    for (which, ours) in [("lent", played::<ours::Lent>(frames)), ("by value", by_value::play(frames))] {
        if ours != theirs {
            eprintln!("The nights ended differently:\n  ours, {which} {ours:x?}\n  theirs {theirs:x?}");
            exit(1);
        }
    }
    println!("two seats, {frames} frames, {} corrections, {} frames played again", theirs.corrections, theirs.replayed);
    println!("all end with head {:08x}, kind {}, seal {:08x}", theirs.console[0], theirs.console[1], theirs.console[2]);
    let [lent, value, theirs] = least(
        runs,
        frames,
        [
            &mut || _ = black_box(played::<ours::Lent>(frames)),
            &mut || _ = black_box(by_value::play(frames)),
            &mut || _ = black_box(played::<theirs::Ggrs>(frames)),
        ],
    );
    row("a frame, lent desk", lent, theirs);
    row("a frame, desk by value", value, theirs);
}

fn calls(runs: usize) {
    let (mut ours, mut theirs) = (ours::Layer::open(), theirs::Layer::open());
    if ours.request() != theirs.request() || ours.saved() != theirs.saved() {
        eprintln!("The layers answer differently.");
        exit(1);
    }
    let [our_request, their_request] = least(
        runs,
        CALLS,
        [&mut || (0..CALLS).for_each(|_| _ = ours.request()), &mut || (0..CALLS).for_each(|_| _ = theirs.request())],
    );
    let [our_save, their_save] = least(
        runs,
        CALLS,
        [&mut || (0..CALLS).for_each(|i| ours.save(i)), &mut || (0..CALLS).for_each(|i| theirs.save(i))],
    );
    row("a request over two seats", our_request, their_request);
    row("a save", our_save, their_save);
}

fn row(what: &str, ours: f64, theirs: f64) {
    println!("{what:<26} ours {ours:8.2} ns   ggrs {theirs:8.2} ns   {:.3} of its time", ours / theirs);
}

fn main() {
    let (frames, runs) = (number(1, FRAMES as usize) as u32, number(2, RUNS));
    nights(frames, runs);
    calls(runs);
    println!("CPU time of the thread, the least of {runs} runs");
}
