//! `queue` and `q.*`: the original InputQueue.

use crate::frame_info::PlayerInput;
use crate::host::{predict_with, Frame, InputStatus, Words};
use crate::input_queue::InputQueue;
use crate::refusal::{ask, no, No};
use crate::sheet::{Answers, Fields, Part};

pub const LAST_FRAME: Frame = 1_000_000_000;
pub const MOST_DELAY: u32 = 60;
pub const PREDICTORS: u32 = 3;

pub const ADD_PANICS: [(&str, u32); 1] = [("self.length <= INPUT_QUEUE_LENGTH", 4)];
pub const REQUEST_PANICS: [(&str, u32); 2] =
    [("self.first_incorrect_frame == NULL_FRAME", 13), ("requested_frame >= self.inputs[self.tail].frame", 14)];
pub const CONFIRMED_PANICS: [(&str, u32); 1] = [("There is no confirmed input", 11)];

pub struct Queue {
    queue: InputQueue<Words>,
    predictor: u32,
    /// The original's queue points at the wrong slot, as document 01 says, and cannot be compared before the next setup.
    lost: bool,
}

/// An input's own tests, before any that asks the state: 7, 6.
pub fn input_frame(frame: Frame) -> Result<(), No> {
    match frame {
        ..=-1 => no(7),
        frame if frame > LAST_FRAME => no(6),
        _ => Ok(()),
    }
}

/// That a frame is not below 0.
pub fn not_below(frame: Frame) -> Result<(), No> {
    if frame < 0 {
        return no(7);
    }
    Ok(())
}

/// What an input did, read from the queue before and after it. The original drops an input out of turn and says
/// -1, as for a tossed one; but a tossed one moves the last user frame.
pub fn placed(before: &InputQueue<Words>, after: &InputQueue<Words>) -> Result<Frame, No> {
    if after.last_user() == before.last_user() {
        return no(3);
    }
    if after.newest() == before.newest() {
        return Ok(-1);
    }
    Ok(after.newest())
}

/// The place that the original answers and the one its state shows must be the same.
pub fn agreed(said: Frame, place: Frame) -> Result<Frame, No> {
    if said == place {
        return Ok(place);
    }
    Err(No::Panic(format!("none, but the place answered is {said} and the one stored {place}")))
}

/// Whether a discard to `frame` takes the branch that points at the wrong slot.
pub fn discard_loses(queue: &InputQueue<Words>, frame: Frame) -> bool {
    let capped = match queue.last_requested() {
        -1 => frame,
        requested => frame.min(requested),
    };
    capped >= queue.newest()
}

/// The fills announced by a delay change: first place, count, word.
pub fn announced(fills: &[PlayerInput<u32>]) -> (Frame, usize, u32) {
    match fills.first() {
        Some(first) => (first.frame, fills.len(), first.input),
        None => (-1, 0, 0),
    }
}

pub fn write_served(out: &mut Answers, (word, status): (u32, InputStatus)) {
    out.word(word);
    out.field(match status {
        InputStatus::Confirmed => 'c',
        InputStatus::Predicted => 'p',
        InputStatus::Disconnected => 'g',
    });
}

impl Queue {
    pub fn new() -> Self {
        Queue { queue: InputQueue::new(), predictor: 0, lost: false }
    }

    fn setup(&mut self, predictor: u32, delay: u32) -> Result<(), No> {
        *self = Queue::new();
        if predictor >= PREDICTORS || delay > MOST_DELAY {
            return no(1);
        }
        self.predictor = predictor;
        self.queue.set_frame_delay(delay as usize);
        Ok(())
    }

    fn add(&mut self, frame: Frame, word: u32) -> Result<Frame, No> {
        input_frame(frame)?;
        let before = self.queue.clone();
        let answered = ask(&ADD_PANICS, || self.queue.add_input(PlayerInput::new(frame, word)));
        let place = answered.and_then(|said| agreed(said, placed(&before, &self.queue)?));
        if place.is_err() {
            self.queue = before;
        }
        place
    }

    fn request(&mut self, frame: Frame) -> Result<(u32, InputStatus), No> {
        not_below(frame)?;
        let before = self.queue.clone();
        let answered = ask(&REQUEST_PANICS, || self.queue.input(frame));
        if answered.is_err() {
            self.queue = before;
        }
        answered
    }

    fn confirmed(&self, frame: Frame) -> Result<u32, No> {
        not_below(frame)?;
        ask(&CONFIRMED_PANICS, || self.queue.confirmed_input(frame).input)
    }

    fn discard(&mut self, frame: Frame) -> Result<(), No> {
        not_below(frame)?;
        self.lost = discard_loses(&self.queue, frame);
        self.queue.discard_confirmed_frames(frame);
        Ok(())
    }

    fn delay(&mut self, delay: u32) -> Result<(Frame, usize, u32), No> {
        if delay > MOST_DELAY {
            return no(1);
        }
        Ok(announced(&self.queue.set_frame_delay(delay as usize)))
    }

    fn reset(&mut self) -> Result<(), No> {
        self.queue.reset_prediction();
        Ok(())
    }

    fn wrong(&mut self) -> Result<Frame, No> {
        Ok(self.queue.first_incorrect_frame())
    }

    /// Answers one call, or gives None where the line is `bad`.
    pub fn call(&mut self, name: &[u8], fields: &mut Fields, out: &mut Answers) -> Option<()> {
        predict_with(self.predictor);
        match name {
            b"queue" => {
                let (predictor, delay) = (fields.number()?, fields.number()?);
                fields.end()?;
                out.result(self.setup(predictor, delay));
            }
            b"q.add" => {
                let (frame, word) = (fields.frame()?, fields.word()?);
                fields.end()?;
                self.answer(out, |q| q.add(frame, word), |out, place| out.field(place));
            }
            b"q.delay" => {
                let delay = fields.number()?;
                fields.end()?;
                self.answer(out, |q| q.delay(delay), write_announced);
            }
            b"q.reset" => {
                fields.end()?;
                self.answer(out, Self::reset, |_, ()| ());
            }
            b"q.wrong" => {
                fields.end()?;
                self.answer(out, Self::wrong, |out, frame| out.field(frame));
            }
            _ => return self.frame_call(name, fields, out),
        }
        Some(())
    }

    /// The calls with a frame and nothing else.
    fn frame_call(&mut self, name: &[u8], fields: &mut Fields, out: &mut Answers) -> Option<()> {
        if !matches!(name, b"q.request" | b"q.confirmed" | b"q.discard") {
            return None;
        }
        let frame = fields.frame()?;
        fields.end()?;
        match name {
            b"q.request" => self.answer(out, |q| q.request(frame), write_served),
            b"q.confirmed" => self.answer(out, |q| q.confirmed(frame), |out, word| out.word(word)),
            _ => self.answer(out, |q| q.discard(frame), |_, ()| ()),
        }
        Some(())
    }
}

pub fn write_announced(out: &mut Answers, (first, count, word): (Frame, usize, u32)) {
    out.field(first);
    out.field(count);
    out.word(word);
}

impl Part for Queue {
    fn lost(&self) -> bool {
        self.lost
    }
}
