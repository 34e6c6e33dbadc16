//! The night: seat 0 is on time, seat 1 four frames late, and both change their words every fifth frame. So each change
//! is guessed wrong, and corrected four frames later.

pub const LIMIT: u32 = 8;
pub const SEATS: usize = 2;
const LATE: u32 = 4;

/// What a night ends with: the console, and how often and how far it went back.
#[derive(Debug, PartialEq)]
pub struct Ended {
    pub console: [u32; 3],
    pub corrections: u32,
    pub replayed: u32,
    /// Every word served, in order, drawn together.
    pub words: u32,
}

pub trait Desk {
    fn open() -> Self;
    fn take(&mut self, seat: usize, frame: u32, word: u32);
    /// The number of frames that were played again.
    fn advance(&mut self) -> u32;
    fn served(&self) -> [u32; SEATS];
    fn console(&self) -> [u32; 3];
}

fn word(seat: u32, frame: u32) -> u32 {
    (frame / 5).wrapping_mul(2_654_435_761).wrapping_add(seat)
}

/// The night's words as they come in, two a frame: seat 0's, and seat 1's of some frames before, 0 where there is none.
pub fn words(frames: u32) -> Vec<u32> {
    let late = |frame| if frame >= LATE { word(1, frame - LATE) } else { 0 };
    (0..frames).flat_map(|frame| [word(0, frame), late(frame)]).collect()
}

pub fn play<D: Desk>(desk: &mut D, frames: u32) -> Ended {
    let (mut corrections, mut replayed, mut words) = (0, 0, 0u32);
    for frame in 0..frames {
        desk.take(0, frame, word(0, frame));
        if frame >= LATE {
            desk.take(1, frame - LATE, word(1, frame - LATE));
        }
        let again = desk.advance();
        corrections += u32::from(again > 0);
        replayed += again;
        for word in desk.served() {
            words = words.rotate_left(1) ^ word;
        }
    }
    Ended { console: desk.console(), corrections, replayed, words }
}
