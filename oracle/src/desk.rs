//! The old bench: the desk's rules, driven over the original SyncLayer as a Rust house would have written them.
//!
//! ggrs keeps states in its cells and no words, so the words served stand beside the layer, one row for each cell. None
//! of the original's assertions may fail under a desk: one that does is answered by `panic` and its text.

use crate::frame_info::PlayerInput;
use crate::host::{predict_with, ConnectionStatus, Frame, GgrsRequest, InputStatus, Words, NULL_FRAME};
use crate::layer::{fresh, state_in, State};
use crate::queue::{discard_loses, input_frame, not_below, placed, write_served, ADD_PANICS, LAST_FRAME};
use crate::refusal::{ask, no, No};
use crate::sheet::{Answers, Fields, Part};
use crate::sync_layer::SyncLayer;

const MOST_ROOM: u32 = 4096;

/// What settle corrected: the lowest mismatch and the number of frames played again, or -1 and 0.
type Report = (Frame, Frame);
type Served = Vec<(u32, InputStatus)>;

pub struct Desk {
    layer: SyncLayer<Words>,
    limit: u32,
    predictor: u32,
    console: State,
    /// The words served for the frame whose state the cell of the same number holds.
    rows: Vec<Vec<u32>>,
    /// A discard took the branch that points at the wrong slot. No call of a desk does.
    lost: bool,
}

/// One frame of the console.
fn step([head, _, seal]: State, words: &[u32]) -> State {
    let head = words.iter().fold(head, |head, &word| head.wrapping_add_signed(i32::from(word as i8)));
    let seal = words.iter().fold(seal, |seal, &word| seal.rotate_left(5) ^ word);
    [head, words[0] >> 8 & 1, seal]
}

impl Desk {
    pub fn new() -> Self {
        Desk::over(SyncLayer::new(1, 0), 0, 0)
    }

    fn over(layer: SyncLayer<Words>, limit: u32, predictor: u32) -> Self {
        let rows = vec![Vec::new(); limit as usize + 1];
        Desk { layer, limit, predictor, console: [0; 3], rows, lost: false }
    }

    fn setup(&mut self, limit: u32, predictor: u32, delays: &[u32]) -> Result<(), No> {
        *self = Desk::new();
        *self = Desk::over(fresh(limit, predictor, delays)?, limit, predictor);
        Ok(())
    }

    /// K, the least newest place.
    fn known(&self) -> Frame {
        self.layer.queues().iter().map(|queue| queue.newest()).min().unwrap_or(NULL_FRAME)
    }

    fn lowest_wrong(&self) -> Frame {
        self.layer.check_simulation_consistency(NULL_FRAME)
    }

    fn row(&mut self, frame: Frame) -> &mut Vec<u32> {
        let at = frame as usize % self.rows.len();
        &mut self.rows[at]
    }

    /// The original takes any first frame, and drops a later one out of turn without an error.
    fn take(&mut self, seat: u32, frame: Frame, word: u32) -> Result<Frame, No> {
        let seat = seat as usize;
        let Some(queue) = self.layer.queues().get(seat) else { return no(2) };
        input_frame(frame)?;
        if frame != queue.last_user() + 1 {
            return no(3);
        }
        let before = queue.clone();
        match ask(&ADD_PANICS, || self.layer.add_remote_input(seat, PlayerInput::new(frame, word))) {
            Ok(()) => placed(&before, &self.layer.queues()[seat]),
            Err(why) => {
                self.layer.put_back_one(seat, before);
                Err(why)
            }
        }
    }

    /// Saves, requests all seats, steps, and goes one frame on.
    fn serve(&mut self) -> Served {
        let frame = self.layer.current_frame();
        if let GgrsRequest::SaveGameState { cell, frame } = self.layer.save_current_state() {
            cell.save(frame, Some(self.console), None);
        }
        let on = || ConnectionStatus { disconnected: false, last_frame: NULL_FRAME };
        let statuses: Vec<_> = self.layer.queues().iter().map(|_| on()).collect();
        let served = self.layer.synchronized_inputs(&statuses);
        let words: Vec<u32> = served.iter().map(|&(word, _)| word).collect();
        self.console = step(self.console, &words);
        *self.row(frame) = words;
        self.layer.advance_frame();
        served
    }

    fn replay(&mut self, target: Frame) {
        if self.layer.current_frame() < target {
            self.serve();
            self.replay(target);
        }
    }

    fn correct(&mut self) -> Result<Report, No> {
        let (lowest, target) = (self.lowest_wrong(), self.layer.current_frame());
        if lowest == NULL_FRAME {
            return Ok((NULL_FRAME, 0));
        }
        if let GgrsRequest::LoadGameState { cell, .. } = self.layer.load_frame(lowest) {
            self.console = state_in(cell)?;
        }
        self.layer.reset_prediction();
        self.replay(target);
        Ok((lowest, target - lowest))
    }

    fn confirm(&mut self) {
        let known = self.known();
        if known == NULL_FRAME {
            return;
        }
        let capped = known.min(self.layer.current_frame());
        self.lost = capped > 0 && self.layer.queues().iter().any(|queue| discard_loses(queue, capped - 1));
        self.layer.set_last_confirmed_frame(known, false);
    }

    fn settle(&mut self) -> Result<Report, No> {
        ask(&[], || {
            let report = self.correct()?;
            self.confirm();
            Ok(report)
        })?
    }

    fn advance(&mut self) -> Result<(Report, Served), No> {
        let current = self.layer.current_frame();
        if current >= LAST_FRAME {
            return no(6);
        }
        if current - self.known() > self.limit as Frame {
            return no(5);
        }
        let report = self.settle()?;
        let served = ask(&[], || self.serve())?;
        Ok((report, served))
    }

    fn settled(&self, frame: Frame) -> bool {
        let (current, wrong) = (self.layer.current_frame(), self.lowest_wrong());
        (0..current).contains(&frame)
            && frame >= current - 1 - self.limit as Frame
            && frame <= self.known()
            && (wrong == NULL_FRAME || wrong > frame)
    }

    /// A settled frame's words, and the console after them.
    fn show(&mut self, frame: Frame) -> Result<(Vec<u32>, State), No> {
        not_below(frame)?;
        if !self.settled(frame) {
            return no(21);
        }
        let Some(cell) = self.layer.saved_state_by_frame(frame) else {
            return Err(No::Panic("none, but a settled frame is not in its cell".into()));
        };
        let before = state_in(cell)?;
        let words = self.row(frame).clone();
        let after = step(before, &words);
        Ok((words, after))
    }

    /// The log line without its newline, for which there must be room too.
    fn log(&mut self, frame: Frame, room: u32) -> Result<String, No> {
        let (words, [_, _, seal]) = self.show(frame)?;
        let fields: Vec<String> =
            [frame as u32].iter().chain(&words).chain(&[seal]).map(|word| format!("{word:08x}")).collect();
        let line = fields.join(" ");
        if (room as usize) < line.len() + 1 {
            return no(20);
        }
        Ok(line)
    }

    /// Answers one call, or gives None where the line is `bad`.
    pub fn call(&mut self, name: &[u8], fields: &mut Fields, out: &mut Answers) -> Option<()> {
        if name == b"desk" {
            let (limit, predictor, delays) = fields.setup()?;
            out.result(self.setup(limit, predictor, &delays));
            return Some(());
        }
        predict_with(self.predictor);
        match name {
            b"take" => {
                let (seat, frame, word) = (fields.number()?, fields.frame()?, fields.word()?);
                fields.end()?;
                self.answer(out, |desk| desk.take(seat, frame, word), |out, place| out.field(place));
            }
            b"show" => {
                let frame = fields.frame()?;
                fields.end()?;
                self.answer(out, |desk| desk.show(frame), write_shown);
            }
            b"log" => {
                let (frame, room) = (fields.frame()?, fields.number_up_to(MOST_ROOM)?);
                fields.end()?;
                self.answer(out, |desk| desk.log(frame, room), |out, line| out.field(line));
            }
            _ => return self.bare_call(name, fields, out),
        }
        Some(())
    }

    /// The calls without a field.
    fn bare_call(&mut self, name: &[u8], fields: &mut Fields, out: &mut Answers) -> Option<()> {
        if !matches!(name, b"settle" | b"advance" | b"now") {
            return None;
        }
        fields.end()?;
        match name {
            b"settle" => self.answer(out, Self::settle, write_report),
            b"advance" => self.answer(out, Self::advance, |out, (report, served)| {
                write_report(out, report);
                served.into_iter().for_each(|served| write_served(out, served));
            }),
            _ => self.answer(
                out,
                |desk| Ok(((desk.layer.current_frame(), desk.known()), desk.console)),
                |out, (frames, console)| {
                    write_report(out, frames);
                    console.into_iter().for_each(|word| out.word(word));
                },
            ),
        }
        Some(())
    }
}

fn write_report(out: &mut Answers, (frame, count): Report) {
    out.field(frame);
    out.field(count);
}

fn write_shown(out: &mut Answers, (words, after): (Vec<u32>, State)) {
    words.into_iter().chain(after).for_each(|word| out.word(word));
}

impl Part for Desk {
    fn lost(&self) -> bool {
        self.lost
    }
}
