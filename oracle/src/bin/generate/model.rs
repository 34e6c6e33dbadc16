//! What the seats' queues look like after the calls made so far, as far as the next calls are chosen by them, and the
//! setup that they come from. Nothing is compared with this.

use crate::random::Random;
use crate::sheet::Field::Number;
use crate::sheet::Sheet;

pub struct Seat {
    pub predictor: u32,
    pub delay: u32,
    pub user: i32,
    pub newest: i32,
    pub word: u32,
    pub oldest: i32,
    pub requested: i32,
    pub guess: Option<u32>,
    pub wrong: i32,
    /// The original points at the wrong slot from here on.
    pub lost: bool,
}

impl Seat {
    pub fn new(predictor: u32, delay: u32) -> Self {
        let (user, newest, requested, wrong) = (-1, -1, -1, -1);
        Seat { predictor, delay, user, newest, word: 0, oldest: 0, requested, guess: None, wrong, lost: false }
    }

    pub fn held(&self) -> i32 {
        self.newest - self.oldest + 1
    }

    pub fn add(&mut self, frame: i32, word: u32) {
        let in_turn = self.user == -1 || frame == self.user + 1;
        if !(0..=1_000_000_000).contains(&frame) || !in_turn {
            return;
        }
        let place = frame + self.delay as i32;
        let more = place - self.newest;
        if more > 0 && self.held() + more > 128 {
            return;
        }
        self.user = frame;
        for left in (0..more).rev() {
            self.store(if left == 0 { word } else { self.word });
        }
    }

    fn store(&mut self, word: u32) {
        self.newest += 1;
        self.word = word;
        let Some(guess) = self.guess else { return };
        if self.wrong == -1 && guess != word {
            self.wrong = self.newest;
        }
        if self.wrong == -1 && self.newest == self.requested {
            self.guess = None;
        }
    }

    pub fn refuses(&self, frame: i32) -> bool {
        frame < 0 || self.wrong != -1 || frame < self.oldest
    }

    pub fn request(&mut self, frame: i32) {
        if self.refuses(frame) {
            return;
        }
        self.requested = frame;
        if self.guess.is_none() && frame > self.newest {
            self.guess = Some(match self.predictor {
                0 => self.word,
                1 => 0,
                _ => self.word & !0xff,
            });
        }
    }

    /// Where a discard to `frame` would end.
    pub fn capped(&self, frame: i32) -> i32 {
        if self.requested == -1 {
            return frame;
        }
        frame.min(self.requested)
    }

    pub fn discard(&mut self, frame: i32) {
        let to = self.capped(frame);
        if frame >= 0 && to >= self.newest {
            self.lost = true;
        }
        if to < self.newest {
            self.oldest = self.oldest.max(to);
        }
    }

    pub fn reset(&mut self) {
        self.requested = -1;
        self.wrong = -1;
        self.guess = None;
    }
}

/// The least newest place.
pub fn known(seats: &[Seat]) -> i32 {
    seats.iter().map(|seat| seat.newest).min().unwrap_or(-1)
}

/// The seats' mismatches.
pub fn wrongs(seats: &[Seat]) -> impl Iterator<Item = i32> + '_ {
    seats.iter().map(|seat| seat.wrong).filter(|&wrong| wrong != -1)
}

/// The fields of a setup with a list of delays.
pub struct Setup {
    pub limit: u32,
    pub predictor: u32,
    pub delays: Vec<u32>,
}

impl Setup {
    /// What is in force at the start, and after a refused setup.
    pub fn fresh() -> Self {
        Setup { limit: 0, predictor: 0, delays: vec![0] }
    }

    pub fn seats(&self) -> Vec<Seat> {
        self.delays.iter().map(|&delay| Seat::new(self.predictor, delay)).collect()
    }

    /// Makes the call; `refused` with one field out of range, a delay where `seat` says. Gives what is then in force.
    pub fn call(
        mut self,
        sheet: &mut Sheet,
        name: &str,
        refused: bool,
        seat: impl FnOnce(&mut Random) -> usize,
    ) -> Self {
        if refused {
            self.spoil(&mut sheet.random, seat);
        }
        let fields: Vec<_> =
            [self.limit, self.predictor].iter().chain(&self.delays).map(|&number| Number(number)).collect();
        sheet.call(name, &fields);
        if refused {
            Setup::fresh()
        } else {
            self
        }
    }

    fn spoil(&mut self, random: &mut Random, seat: impl FnOnce(&mut Random) -> usize) {
        match random.below(5) {
            0 => self.limit = random.pick(&[16, 17, 255, u32::MAX]),
            1 => self.predictor = random.pick(&[3, 4, u32::MAX]),
            2 => self.delays.clear(),
            3 => self.delays.resize(random.pick(&[5, 6, 40]), 0),
            _ => {
                let delay = random.pick(&[61, 62, u32::MAX]);
                let seat = seat(random);
                self.delays[seat] = delay;
            }
        }
    }
}
