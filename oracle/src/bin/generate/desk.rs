//! Sheets for the desk: nights with late and uneven hands, and with calls that are refused.

use crate::model::{known, wrongs, Seat, Setup};
use crate::queue::input_word;
use crate::random::Random;
use crate::sheet::Field::{Frame, Number, Word};
use crate::sheet::Sheet;

/// What the desk looks like after the calls made so far, as far as the next ones are chosen by it.
struct Desk {
    limit: i32,
    seats: Vec<Seat>,
    current: i32,
}

impl Desk {
    fn new(setup: &Setup) -> Self {
        Desk { limit: setup.limit as i32, seats: setup.seats(), current: 0 }
    }

    fn known(&self) -> i32 {
        known(&self.seats)
    }

    fn lowest_wrong(&self) -> Option<i32> {
        wrongs(&self.seats).min()
    }

    fn serve(&mut self) {
        self.seats.iter_mut().for_each(|seat| seat.request(self.current));
        self.current += 1;
    }

    fn settle(&mut self) {
        if let Some(lowest) = self.lowest_wrong() {
            let target = self.current;
            self.current = lowest;
            self.seats.iter_mut().for_each(Seat::reset);
            while self.current < target {
                self.serve();
            }
        }
        let confirmed = self.known().min(self.current);
        if confirmed > 0 {
            self.seats.iter_mut().for_each(|seat| seat.discard(confirmed - 1));
        }
    }

    fn advance(&mut self) {
        if self.current - self.known() <= self.limit {
            self.settle();
            self.serve();
        }
    }
}

/// How one hand sends its words.
struct Hand {
    /// How far its words are ahead of the current frame, below 0 for one that is late.
    lead: i32,
    /// One frame in so many it sends nothing, and makes up for it later.
    pauses: usize,
    /// The most words it sends between two advances.
    burst: usize,
}

struct Scene {
    length: usize,
    hands: Vec<Hand>,
    /// One frame in so many is settled before it is advanced.
    settles: usize,
    /// One call in so many is one that would not be made.
    slips: usize,
    /// Whether words change often, so that guesses are mostly wrong.
    restless: bool,
}

impl Scene {
    fn new(random: &mut Random, desk: &Desk) -> Self {
        Scene {
            length: match random.below(100) {
                0 => 1_500,
                1..=6 => 300,
                7..=25 => 80,
                _ => random.pick(&[3, 8, 15, 30]),
            },
            hands: desk.seats.iter().map(|seat| Hand::new(random, desk.limit, seat)).collect(),
            settles: random.pick(&[1, 2, 5, 1000]),
            slips: random.pick(&[3, 10, 30, 200]),
            restless: random.once_in(3),
        }
    }
}

impl Hand {
    fn new(random: &mut Random, limit: i32, seat: &Seat) -> Self {
        let lead = match random.below(10) {
            0..=3 => random.within(-limit - 1, 0),
            4..=6 => 0,
            7 => random.within(0, 6),
            8 => random.within(0, 60),
            _ => 140,
        };
        // a delay brings its words forward by itself
        let lead = if random.once_in(2) { lead - seat.delay as i32 } else { lead };
        Hand { lead, pauses: random.pick(&[2, 4, 10, 1000]), burst: random.pick(&[1, 2, 3, 20, 150]) }
    }
}

pub fn sheet(sheet: &mut Sheet) {
    let mut desk = Desk::new(&Setup::fresh());
    let mut bare = sheet.random.once_in(2);
    while !sheet.full() {
        if !bare {
            desk = setup(sheet);
        }
        bare = false;
        let scene = Scene::new(&mut sheet.random, &desk);
        let mut left = scene.length;
        while left > 0 && !sheet.full() {
            tick(sheet, &mut desk, &scene);
            left -= 1;
        }
    }
}

/// One desk for the whole sheet: some frames of a scene, then a run of frames with a word from each seat.
pub fn long(sheet: &mut Sheet) {
    let random = &mut sheet.random;
    let (limit, predictor) = (random.pick(&[0, 2, 8, 15]), random.below(3) as u32);
    let delays = (0..1 + random.below(2)).map(|_| random.below(4) as u32).collect();
    let mut desk = Desk::new(&Setup { limit, predictor, delays }.call(sheet, "desk", false, |_| 0));
    while !sheet.full() {
        let scene = Scene::new(&mut sheet.random, &desk);
        for _ in 0..12 {
            tick(sheet, &mut desk, &scene);
        }
        for _ in 0..100 {
            for seat in 0..desk.seats.len() {
                if desk.seats[seat].newest <= desk.current + 20 {
                    take_next(sheet, &mut desk, seat, &scene);
                }
            }
            sheet.call("advance", &[]);
            desk.advance();
        }
    }
}

fn delay(random: &mut Random) -> u32 {
    match random.below(4) {
        0 => 0,
        1 => 1 + random.below(5) as u32,
        _ => random.below(61) as u32,
    }
}

fn setup(sheet: &mut Sheet) -> Desk {
    let random = &mut sheet.random;
    let (limit, predictor) = (random.below(16) as u32, random.below(3) as u32);
    let seats = 1 + random.below(4);
    let delays = (0..seats).map(|_| delay(random)).collect();
    let refused = random.once_in(12);
    Desk::new(&Setup { limit, predictor, delays }.call(sheet, "desk", refused, |random| random.below(seats)))
}

/// One frame of a night: the hands' words, and the calls that follow.
fn tick(sheet: &mut Sheet, desk: &mut Desk, scene: &Scene) {
    for seat in 0..desk.seats.len() {
        hand(sheet, desk, seat, scene);
    }
    if sheet.random.once_in(3) {
        look(sheet, desk);
    }
    if sheet.random.once_in(scene.slips) {
        slip(sheet, desk);
    }
    if sheet.random.once_in(scene.settles) {
        sheet.call("settle", &[]);
        desk.settle();
    }
    if sheet.random.once_in(3) {
        look(sheet, desk);
    }
    // a refused one is tried now and then, most of all where a mismatch stands
    let refused = desk.current - desk.known() > desk.limit;
    if !refused || sheet.random.once_in(if desk.lowest_wrong().is_some() { 2 } else { 8 }) {
        sheet.call("advance", &[]);
        desk.advance();
    }
    if refused {
        push(sheet, desk, scene);
    }
}

fn hand(sheet: &mut Sheet, desk: &mut Desk, seat: usize, scene: &Scene) {
    let hand = &scene.hands[seat];
    if sheet.random.once_in(hand.pauses) {
        return;
    }
    for _ in 0..hand.burst {
        // it stops at its lead, and where its queue is full it tries a little longer
        let state = &desk.seats[seat];
        let full = state.held() >= 128 && !sheet.random.once_in(10);
        if state.user >= desk.current + hand.lead || full || sheet.full() {
            return;
        }
        take_next(sheet, desk, seat, scene);
    }
}

/// A night goes on: the seat that holds it up sends a word.
fn push(sheet: &mut Sheet, desk: &mut Desk, scene: &Scene) {
    for seat in 0..desk.seats.len() {
        if desk.seats[seat].newest == desk.known() && !sheet.random.once_in(3) {
            take_next(sheet, desk, seat, scene);
        }
    }
}

fn take_next(sheet: &mut Sheet, desk: &mut Desk, seat: usize, scene: &Scene) {
    let state = &mut desk.seats[seat];
    let word = match scene.restless {
        true => sheet.random.word() >> sheet.random.below(32),
        false => input_word(&mut sheet.random, state),
    };
    let frame = state.user + 1;
    sheet.call("take", &[Number(seat as u32), Frame(frame), Word(word)]);
    state.add(frame, word);
}

/// A call that asks and changes nothing.
fn look(sheet: &mut Sheet, desk: &Desk) {
    let random = &mut sheet.random;
    let frame = match random.below(12) {
        0 => random.limit(),
        1..=4 if random.far => random.limit(),
        1 | 2 => desk.known() + random.within(-1, 1),
        3 => desk.lowest_wrong().unwrap_or(desk.current) + random.within(-1, 0),
        4 => desk.current - 1 - desk.limit + random.within(-1, 1),
        _ => desk.current - 1 - random.within(0, desk.limit),
    };
    match random.below(5) {
        0 => sheet.call("now", &[]),
        1 | 2 => sheet.call("show", &[Frame(frame)]),
        _ => {
            let wants = 9 * (desk.seats.len() as u32 + 2);
            let room = match random.below(6) {
                0 => random.pick(&[0, 1, wants - 9, wants - 1]),
                1 => random.pick(&[wants + 1, 4095, 4096, 4097]),
                _ => wants,
            };
            sheet.call("log", &[Frame(frame), Number(room)]);
        }
    }
}

/// A word that is refused, or a call out of place.
fn slip(sheet: &mut Sheet, desk: &mut Desk) {
    let random = &mut sheet.random;
    let seat = random.below(desk.seats.len());
    let next = desk.seats[seat].user + 1;
    let (seat, frame) = match random.below(6) {
        0 => (random.pick(&[desk.seats.len() as u32, 4, 5, 255, u32::MAX]), random.pick(&[-1, 0, next, i32::MAX])),
        1 => (seat as u32, random.limit()),
        2 => (seat as u32, next - 1),
        3 => (seat as u32, next + random.within(1, 130)),
        4 => {
            sheet.call("settle", &[]);
            return desk.settle();
        }
        _ => {
            sheet.call("advance", &[]);
            return desk.advance();
        }
    };
    let word = random.word();
    sheet.call("take", &[Number(seat), Frame(frame), Word(word)]);
    // the first frame of a seat is 0 here
    if frame == next {
        if let Some(state) = desk.seats.get_mut(seat as usize) {
            state.add(frame, word);
        }
    }
}
