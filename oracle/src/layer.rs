//! `layer` and `l.*`: the original SyncLayer, with the console's three words in its cells.

use crate::frame_info::PlayerInput;
use crate::host::{predict_with, ConnectionStatus, Frame, GgrsRequest, InputStatus, Words, NULL_FRAME};
use crate::queue::{
    agreed, announced, discard_loses, input_frame, not_below, placed, write_announced, write_served, ADD_PANICS,
    CONFIRMED_PANICS, LAST_FRAME, MOST_DELAY, PREDICTORS, REQUEST_PANICS,
};
use crate::refusal::{ask, no, No};
use crate::sheet::{Answers, Fields, Part};
use crate::sync_layer::{GameStateCell, SyncLayer};

const MOST_SEATS: usize = 4;
const MOST_LIMIT: u32 = 15;

const LOCAL_PANICS: [(&str, u32); 2] = [("left == right", 12), ADD_PANICS[0]];
const LOAD_PANICS: [(&str, u32); 3] =
    [("must load frame in the past", 8), ("outside of prediction window", 9), ("left == right", 10)];
const CONFIRM_PANICS: [(&str, u32); 1] = [("first_incorrect >= frame", 15)];

/// The console: head, kind, seal.
pub type State = [u32; 3];

pub struct Layer {
    layer: SyncLayer<Words>,
    predictor: u32,
    /// A queue of the original points at the wrong slot, and the layer cannot be compared before the next setup.
    lost: bool,
}

/// A fresh layer of the original, with one delay a seat: 1 where anything is out of range.
pub fn fresh(limit: u32, predictor: u32, delays: &[u32]) -> Result<SyncLayer<Words>, No> {
    let seats = (1..=MOST_SEATS).contains(&delays.len());
    if !seats || limit > MOST_LIMIT || predictor >= PREDICTORS || delays.iter().any(|&delay| delay > MOST_DELAY) {
        return no(1);
    }
    let mut layer = SyncLayer::new(delays.len(), limit as usize);
    for (seat, &delay) in delays.iter().enumerate() {
        layer.set_frame_delay(seat, delay as usize);
    }
    Ok(layer)
}

fn connections(statuses: &[Option<Frame>]) -> Vec<ConnectionStatus> {
    statuses
        .iter()
        .map(|gone| ConnectionStatus { disconnected: gone.is_some(), last_frame: gone.unwrap_or(NULL_FRAME) })
        .collect()
}

pub fn state_in(cell: GameStateCell<State>) -> Result<State, No> {
    cell.load().ok_or_else(|| No::Panic("none, but a cell that was saved holds no state".into()))
}

impl Layer {
    pub fn new() -> Self {
        Layer { layer: SyncLayer::new(1, 0), predictor: 0, lost: false }
    }

    fn seat(&self, seat: u32) -> Result<usize, No> {
        let seat = seat as usize;
        if seat >= self.layer.queues().len() {
            return no(2);
        }
        Ok(seat)
    }

    fn one_status_a_seat(&self, statuses: &[Option<Frame>]) -> Result<(), No> {
        if statuses.len() != self.layer.queues().len() {
            return no(2);
        }
        Ok(())
    }

    fn setup(&mut self, limit: u32, predictor: u32, delays: &[u32]) -> Result<(), No> {
        *self = Layer::new();
        self.layer = fresh(limit, predictor, delays)?;
        self.predictor = predictor;
        Ok(())
    }

    /// Makes a call that may stop halfway through the queues; where it does, they are put back.
    fn undoing<T>(&mut self, call: impl FnOnce(&mut SyncLayer<Words>) -> Result<T, No>) -> Result<T, No> {
        let before = self.layer.queues().to_vec();
        let answered = call(&mut self.layer);
        if answered.is_err() {
            self.layer.put_back(before);
        }
        answered
    }

    fn local(&mut self, seat: u32, frame: Frame, word: u32) -> Result<Frame, No> {
        let seat = self.seat(seat)?;
        input_frame(frame)?;
        self.undoing(|layer| {
            let before = layer.queues()[seat].clone();
            let said = ask(&LOCAL_PANICS, || layer.add_local_input(seat, PlayerInput::new(frame, word)))?;
            agreed(said, placed(&before, &layer.queues()[seat])?)
        })
    }

    /// The original's answer has no place here, so it is read from the queue.
    fn remote(&mut self, seat: u32, frame: Frame, word: u32) -> Result<Frame, No> {
        let seat = self.seat(seat)?;
        input_frame(frame)?;
        self.undoing(|layer| {
            let before = layer.queues()[seat].clone();
            ask(&ADD_PANICS, || layer.add_remote_input(seat, PlayerInput::new(frame, word)))?;
            placed(&before, &layer.queues()[seat])
        })
    }

    fn save(&mut self, state: State) -> Result<(), No> {
        if let GgrsRequest::SaveGameState { cell, frame } = self.layer.save_current_state() {
            cell.save(frame, Some(state), None);
        }
        Ok(())
    }

    fn load(&mut self, frame: Frame) -> Result<State, No> {
        not_below(frame)?;
        match ask(&LOAD_PANICS, || self.layer.load_frame(frame))? {
            GgrsRequest::LoadGameState { cell, frame: loaded } if loaded == frame => state_in(cell),
            _ => Err(No::Panic("none, but another frame was loaded".into())),
        }
    }

    fn advance(&mut self) -> Result<Frame, No> {
        if self.layer.current_frame() >= LAST_FRAME {
            return no(6);
        }
        self.layer.advance_frame();
        Ok(self.layer.current_frame())
    }

    fn request(&mut self, statuses: &[Option<Frame>]) -> Result<Vec<(u32, InputStatus)>, No> {
        self.one_status_a_seat(statuses)?;
        let connections = connections(statuses);
        self.undoing(|layer| ask(&REQUEST_PANICS, || layer.synchronized_inputs(&connections)))
    }

    fn confirmed(&self, frame: Frame, statuses: &[Option<Frame>]) -> Result<Vec<PlayerInput<u32>>, No> {
        self.one_status_a_seat(statuses)?;
        not_below(frame)?;
        ask(&CONFIRMED_PANICS, || self.layer.confirmed_inputs(frame, &connections(statuses)))
    }

    fn confirm(&mut self, frame: Frame, sparse: bool) -> Result<(), No> {
        not_below(frame)?;
        let mut capped = frame.min(self.layer.current_frame());
        if sparse {
            capped = capped.min(self.layer.last_saved_frame());
        }
        let wrong =
            || self.layer.queues().iter().map(|q| q.first_incorrect_frame()).filter(|&wrong| wrong != NULL_FRAME);
        // the original tests the highest mismatch alone: what only a lower one refuses is tested here
        if wrong().any(|wrong| capped > wrong) && wrong().any(|wrong| capped <= wrong) {
            return no(15);
        }
        let loses = capped > 0 && self.layer.queues().iter().any(|queue| discard_loses(queue, capped - 1));
        ask(&CONFIRM_PANICS, || self.layer.set_last_confirmed_frame(frame, sparse))?;
        self.lost = loses;
        Ok(())
    }

    fn saved(&self, frame: Frame) -> Result<State, No> {
        not_below(frame)?;
        match self.layer.saved_state_by_frame(frame) {
            Some(cell) => state_in(cell),
            None => no(10),
        }
    }

    fn latest(&self, start: Frame, end: Frame) -> Result<Frame, No> {
        not_below(start)?;
        not_below(end)?;
        Ok(self.layer.latest_saved_state_in_range(start, end).map_or(-1, |cell| cell.frame()))
    }

    fn delay(&mut self, seat: u32, delay: u32) -> Result<(Frame, usize, u32), No> {
        let seat = self.seat(seat)?;
        if delay > MOST_DELAY {
            return no(1);
        }
        Ok(announced(&self.layer.set_frame_delay(seat, delay as usize)))
    }

    /// Answers one call, or gives None where the line is `bad`.
    pub fn call(&mut self, name: &[u8], fields: &mut Fields, out: &mut Answers) -> Option<()> {
        if name == b"layer" {
            let (limit, predictor, delays) = fields.setup()?;
            out.result(self.setup(limit, predictor, &delays));
            return Some(());
        }
        predict_with(self.predictor);
        match name {
            b"l.local" | b"l.remote" | b"l.request" | b"l.confirmed" | b"l.delay" => self.seat_call(name, fields, out),
            b"l.save" | b"l.load" | b"l.saved" | b"l.latest" => self.state_call(name, fields, out),
            _ => self.frame_call(name, fields, out),
        }
    }

    /// The calls that name seats.
    fn seat_call(&mut self, name: &[u8], fields: &mut Fields, out: &mut Answers) -> Option<()> {
        match name {
            b"l.local" | b"l.remote" => {
                let (seat, frame, word) = (fields.number()?, fields.frame()?, fields.word()?);
                fields.end()?;
                let call = if name == b"l.local" { Self::local } else { Self::remote };
                self.answer(out, |l| call(l, seat, frame, word), |out, place| out.field(place))
            }
            b"l.request" => {
                let statuses = fields.statuses()?;
                self.answer(
                    out,
                    |l| l.request(&statuses),
                    |out, served| served.into_iter().for_each(|served| write_served(out, served)),
                )
            }
            b"l.confirmed" => {
                let (frame, statuses) = (fields.frame()?, fields.statuses()?);
                self.answer(out, |l| l.confirmed(frame, &statuses), write_confirmed)
            }
            _ => {
                let (seat, delay) = (fields.number()?, fields.number()?);
                fields.end()?;
                self.answer(out, |l| l.delay(seat, delay), write_announced)
            }
        }
        Some(())
    }

    /// The calls on saved states.
    fn state_call(&mut self, name: &[u8], fields: &mut Fields, out: &mut Answers) -> Option<()> {
        match name {
            b"l.save" => {
                let state = [fields.word()?, fields.word()?, fields.word()?];
                fields.end()?;
                self.answer(out, |l| l.save(state), |_, ()| ())
            }
            b"l.latest" => {
                let (start, end) = (fields.frame()?, fields.frame()?);
                fields.end()?;
                self.answer(out, |l| l.latest(start, end), |out, frame| out.field(frame))
            }
            _ => {
                let frame = fields.frame()?;
                fields.end()?;
                let load = name == b"l.load";
                self.answer(
                    out,
                    |l| if load { l.load(frame) } else { l.saved(frame) },
                    |out, state| state.into_iter().for_each(|word| out.word(word)),
                )
            }
        }
        Some(())
    }

    /// The calls on the layer as a whole.
    fn frame_call(&mut self, name: &[u8], fields: &mut Fields, out: &mut Answers) -> Option<()> {
        if name == b"l.confirm" {
            let (frame, sparse) = (fields.frame()?, fields.flag()?);
            fields.end()?;
            self.answer(out, |l| l.confirm(frame, sparse), |_, ()| ());
            return Some(());
        }
        if !matches!(name, b"l.advance" | b"l.consistent" | b"l.reset" | b"l.now") {
            return None;
        }
        fields.end()?;
        match name {
            b"l.advance" => self.answer(out, |l| l.advance(), |out, frame| out.field(frame)),
            b"l.consistent" => self.answer(
                out,
                |l| Ok(l.layer.check_simulation_consistency(NULL_FRAME)),
                |out, frame| out.field(frame),
            ),
            b"l.reset" => self.answer(out, Self::reset, |_, ()| ()),
            _ => self.answer(out, |l| Ok(l.now()), |out, frames| frames.into_iter().for_each(|frame| out.field(frame))),
        }
        Some(())
    }

    fn reset(&mut self) -> Result<(), No> {
        self.layer.reset_prediction();
        Ok(())
    }

    fn now(&self) -> [Frame; 3] {
        [self.layer.current_frame(), self.layer.last_saved_frame(), self.layer.last_confirmed_frame()]
    }
}

fn write_confirmed(out: &mut Answers, inputs: Vec<PlayerInput<u32>>) {
    for input in inputs {
        out.field(input.frame);
        out.word(input.input);
    }
}

impl Part for Layer {
    fn lost(&self) -> bool {
        self.lost
    }
}
