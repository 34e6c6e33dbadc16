//! `sync` and `s.*`: the original TimeSync.

use crate::queue::not_below;
use crate::sheet::{Answers, Fields};
use crate::time_sync::TimeSync;

/// The untruncated half of the difference, in the original's own expression.
fn half(windows: &TimeSync) -> f32 {
    let (local, remote) = windows.averages();
    (remote - local) / 2.0
}

fn reading(windows: &TimeSync, out: &mut Answers) {
    let half = half(windows);
    if half as i32 != windows.average_frame_advantage() {
        return out.field("panic none, but the half is not the one that the original truncates");
    }
    if half == 0.0 {
        return out.field("even");
    }
    out.field(if half > 0.0 { "over" } else { "under" });
    out.word(half.abs().to_bits());
}

pub fn call(windows: &mut TimeSync, name: &[u8], fields: &mut Fields, out: &mut Answers) -> Option<()> {
    if name == b"s.advance" {
        let (frame, local, remote) = (fields.frame()?, fields.frame()?, fields.frame()?);
        fields.end()?;
        if out.result(not_below(frame)).is_some() {
            windows.advance_frame(frame, local, remote);
        }
        return Some(());
    }
    if !matches!(name, b"sync" | b"s.average" | b"s.averages" | b"s.reading") {
        return None;
    }
    fields.end()?;
    out.field(0);
    match name {
        b"sync" => *windows = TimeSync::new(),
        b"s.average" => out.field(windows.average_frame_advantage()),
        b"s.averages" => {
            let (local, remote) = windows.averages();
            out.word(local.to_bits());
            out.word(remote.to_bits());
        }
        _ => reading(windows, out),
    }
    Some(())
}
