//! The oracle: reads a cue sheet on standard input, makes its calls on the original ggrs code, writes the answers. With the word
//! `large` it takes lines of any length, and lends as much as a line asks for.

use std::io::{self, Read, Write};

mod delta;
mod desk;
#[cfg(test)]
mod differences;
mod host;
mod layer;
mod queue;
mod refusal;
mod sheet;
mod sync;

// The original files look for these at the crate's root.
#[allow(dead_code)]
#[path = "original/compression.rs"]
mod compression;
#[allow(dead_code)]
#[path = "original/frame_info.rs"]
mod frame_info;
#[allow(dead_code)]
#[path = "original/input_queue.rs"]
mod input_queue;
#[allow(dead_code)]
#[path = "original/sync_layer.rs"]
mod sync_layer;
#[path = "original/time_sync.rs"]
mod time_sync;
mod network {
    pub(crate) mod messages {
        pub(crate) use crate::host::ConnectionStatus;
    }
}
use host::{Config, Frame, GgrsRequest, InputPredictor, InputStatus, PlayerHandle, NULL_FRAME};

use sheet::{bound, Answers, Fields, LONGEST};

struct Oracle {
    desk: desk::Desk,
    layer: layer::Layer,
    queue: queue::Queue,
    windows: time_sync::TimeSync,
}

impl Oracle {
    /// Answers a line that has a field. None where it is `bad`.
    fn call(&mut self, name: &[u8], fields: &mut Fields, out: &mut Answers) -> Option<()> {
        match name {
            b"layer" => self.layer.call(name, fields, out),
            b"queue" => self.queue.call(name, fields, out),
            b"sync" => sync::call(&mut self.windows, name, fields, out),
            b"pack" | b"unpack" => delta::call(name, fields, out),
            _ if name.starts_with(b"l.") => self.layer.call(name, fields, out),
            _ if name.starts_with(b"q.") => self.queue.call(name, fields, out),
            _ if name.starts_with(b"s.") => sync::call(&mut self.windows, name, fields, out),
            _ => self.desk.call(name, fields, out),
        }
    }

    fn line(&mut self, line: &[u8], out: &mut Answers) {
        let mut fields = Fields::of(line);
        if line.len() <= bound(LONGEST) as usize {
            let Some(name) = fields.next() else { return };
            if name[0] == b'#' {
                return;
            }
            if self.call(name, &mut fields, out).is_some() {
                return out.end();
            }
        }
        out.field("bad");
        out.end();
    }
}

fn main() -> io::Result<()> {
    refusal::silence();
    if std::env::args().nth(1).as_deref() == Some("large") {
        sheet::lift_bounds();
    }
    let mut sheet = Vec::new();
    io::stdin().lock().read_to_end(&mut sheet)?;
    let mut oracle = Oracle {
        desk: desk::Desk::new(),
        layer: layer::Layer::new(),
        queue: queue::Queue::new(),
        windows: time_sync::TimeSync::new(),
    };
    let mut out = Answers::new();
    for line in sheet.split(|&b| b == b'\n') {
        oracle.line(line, &mut out);
    }
    io::stdout().lock().write_all(&out.text)
}
