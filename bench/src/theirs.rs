//! ggrs's own sync layer, driven as the desk drives its parts, and no more than that: no words are kept for a log, and the
//! predictor is a type, as ggrs has it.

use crate::frame_info::PlayerInput;
use crate::host::{Config, ConnectionStatus, Frame, GgrsRequest, InputPredictor, InputStatus, NULL_FRAME};
use crate::night::{self, LIMIT, SEATS};
use crate::sync_layer::SyncLayer;
use std::hint::black_box;

type State = [u32; 3];

pub struct Repeat;

impl InputPredictor<u32> for Repeat {
    fn predict(previous: u32) -> u32 {
        previous
    }
}

pub struct Words;

impl Config for Words {
    type Input = u32;
    type InputPredictor = Repeat;
    type State = State;
}

fn step([head, _, seal]: State, words: &[(u32, InputStatus)]) -> State {
    let head = words.iter().fold(head, |head, &(word, _)| head.wrapping_add_signed(i32::from(word as i8)));
    let seal = words.iter().fold(seal, |seal, &(word, _)| seal.rotate_left(5) ^ word);
    [head, words[0].0 >> 8 & 1, seal]
}

fn all_on() -> [ConnectionStatus; SEATS] {
    std::array::from_fn(|_| ConnectionStatus { disconnected: false, last_frame: NULL_FRAME })
}

fn save(layer: &mut SyncLayer<Words>, console: State) {
    if let GgrsRequest::SaveGameState { cell, frame } = layer.save_current_state() {
        cell.save(frame, Some(console), None);
    }
}

pub struct Ggrs {
    layer: SyncLayer<Words>,
    statuses: [ConnectionStatus; SEATS],
    console: State,
    served: [u32; SEATS],
}

impl Ggrs {
    fn known(&self) -> Frame {
        self.layer.queues().iter().map(|queue| queue.newest()).min().unwrap_or(NULL_FRAME)
    }

    fn serve(&mut self) {
        save(&mut self.layer, self.console);
        let served = self.layer.synchronized_inputs(&self.statuses);
        self.console = step(self.console, &served);
        self.served = std::array::from_fn(|seat| served[seat].0);
        self.layer.advance_frame();
    }

    fn correct(&mut self) -> u32 {
        let (lowest, target) = (self.layer.check_simulation_consistency(NULL_FRAME), self.layer.current_frame());
        if lowest == NULL_FRAME {
            return 0;
        }
        if let GgrsRequest::LoadGameState { cell, .. } = self.layer.load_frame(lowest) {
            self.console = cell.load().expect("a saved cell has its state");
        }
        self.layer.reset_prediction();
        while self.layer.current_frame() < target {
            self.serve();
        }
        (target - lowest) as u32
    }
}

impl night::Desk for Ggrs {
    fn open() -> Self {
        let layer = SyncLayer::new(SEATS, LIMIT as usize);
        Ggrs { layer, statuses: all_on(), console: [0; 3], served: [0; SEATS] }
    }

    fn take(&mut self, seat: usize, frame: u32, word: u32) {
        self.layer.add_remote_input(seat, PlayerInput::new(frame as Frame, word));
    }

    fn advance(&mut self) -> u32 {
        assert!(self.layer.current_frame() - self.known() <= LIMIT as Frame);
        let again = self.correct();
        let known = self.known();
        if known != NULL_FRAME {
            self.layer.set_last_confirmed_frame(known, false);
        }
        self.serve();
        again
    }

    fn served(&self) -> [u32; SEATS] {
        self.served
    }

    fn console(&self) -> State {
        self.console
    }
}

/// A layer of which single calls are timed: two seats, at a frame that both have words for.
pub struct Layer {
    layer: SyncLayer<Words>,
    statuses: [ConnectionStatus; SEATS],
}

impl Layer {
    pub fn open() -> Self {
        let mut layer = SyncLayer::new(SEATS, LIMIT as usize);
        for seat in 0..SEATS {
            layer.add_remote_input(seat, PlayerInput::new(0, 7 + seat as u32));
        }
        Layer { layer, statuses: all_on() }
    }

    pub fn request(&mut self) -> [u32; SEATS] {
        let served = black_box(&mut self.layer).synchronized_inputs(&self.statuses);
        black_box(std::array::from_fn(|seat| served[seat].0))
    }

    pub fn save(&mut self, head: u32) {
        save(black_box(&mut self.layer), [head, 0, 0]);
    }

    pub fn saved(&mut self) -> State {
        self.save(5);
        self.layer.saved_state_by_frame(0).and_then(|cell| cell.load()).expect("it was saved")
    }
}
