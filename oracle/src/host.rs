//! What the original files import from the root of their crate, as far as they need it.

use crate::sync_layer::GameStateCell;
use std::sync::atomic::{AtomicU32, Ordering};

pub type Frame = i32;
pub type PlayerHandle = usize;
pub const NULL_FRAME: Frame = -1;

#[derive(Debug, Clone, Copy, PartialEq)]
pub enum InputStatus {
    Confirmed,
    Predicted,
    Disconnected,
}

pub trait InputPredictor<I> {
    fn predict(previous: I) -> I;
}

pub trait Config {
    type Input: Copy + PartialEq + Default;
    type InputPredictor: InputPredictor<Self::Input>;
    type State;
}

/// What the sync layer hands out, so that its caller fills or reads the cell.
pub enum GgrsRequest<T: Config> {
    SaveGameState { cell: GameStateCell<T::State>, frame: Frame },
    LoadGameState { cell: GameStateCell<T::State>, frame: Frame },
}

pub struct ConnectionStatus {
    pub disconnected: bool,
    pub last_frame: Frame,
}

/// Control words of 32 bits, and the predictor that is in force.
#[derive(Debug, Clone)]
pub struct Words;

impl Config for Words {
    type Input = u32;
    type InputPredictor = InForce;
    /// head, kind, seal
    type State = [u32; 3];
}

/// The original picks its predictor by type; a cue sheet picks one of three as it runs. So the number stands
/// beside the calls and is set before each of them.
pub struct InForce;

static PREDICTOR: AtomicU32 = AtomicU32::new(0);

pub fn predict_with(predictor: u32) {
    PREDICTOR.store(predictor, Ordering::Relaxed);
}

impl InputPredictor<u32> for InForce {
    fn predict(previous: u32) -> u32 {
        match PREDICTOR.load(Ordering::Relaxed) {
            0 => previous,
            1 => 0,
            _ => previous & !0xff,
        }
    }
}
