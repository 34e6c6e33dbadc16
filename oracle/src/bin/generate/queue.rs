//! Sheets for `queue` and `q.*`.

use crate::model::Seat;
use crate::random::Random;
use crate::sheet::Field::{Frame, Number, Word};
use crate::sheet::Sheet;

/// What one queue is put through, from its setup to the next.
struct Scene {
    length: usize,
    /// How many undiscarded words it is kept near.
    depth: i32,
    /// How far the requests run ahead of the newest place.
    lead: i32,
    /// One step in so many changes the delay.
    delays: usize,
    /// One frame in so many is wild.
    wild: usize,
    /// Whether a discard may reach the newest place.
    rash: bool,
}

impl Scene {
    fn new(random: &mut Random) -> Self {
        Scene {
            length: match random.below(200) {
                0 => 20_000,
                1..=4 => 2_500,
                5..=20 => 700,
                21..=60 => 200,
                _ => random.pick(&[3, 8, 20, 60]),
            },
            depth: random.pick(&[1, 2, 5, 30, 90, 120, 126, 127, 128, 129]),
            lead: random.pick(&[0, 1, 3, 10, 40]),
            delays: random.pick(&[4, 20, 20, 100, 10000]),
            wild: random.wild(&[5, 40, 40, 200]),
            rash: random.once_in(12),
        }
    }
}

pub fn sheet(sheet: &mut Sheet) {
    let mut seat = Seat::new(0, 0);
    let mut bare = sheet.random.once_in(2);
    while !sheet.full() {
        if !bare {
            seat = setup(sheet);
        }
        bare = false;
        let scene = Scene::new(&mut sheet.random);
        let mut left = scene.length;
        while left > 0 && !sheet.full() {
            step(sheet, &mut seat, &scene);
            left = if seat.lost { left.min(6) } else { left } - 1;
        }
    }
}

/// One queue for the whole sheet: some steps of a scene, then a run of words alone.
pub fn long(sheet: &mut Sheet) {
    let (predictor, delay) = (sheet.random.below(3) as u32, sheet.random.below(5) as u32);
    sheet.call("queue", &[Number(predictor), Number(delay)]);
    let mut seat = Seat::new(predictor, delay);
    while !sheet.full() {
        let scene = Scene { rash: false, ..Scene::new(&mut sheet.random) };
        for _ in 0..60 {
            step(sheet, &mut seat, &scene);
        }
        reset(sheet, &mut seat);
        for _ in 0..200 {
            if seat.held() > 64 {
                let frame = seat.newest - sheet.random.within(1, 40);
                sheet.call("q.discard", &[Frame(frame)]);
                seat.discard(frame);
            }
            let (frame, word) = (seat.user + 1, input_word(&mut sheet.random, &seat));
            sheet.call("q.add", &[Frame(frame), Word(word)]);
            seat.add(frame, word);
        }
    }
}

pub fn delay(random: &mut Random) -> u32 {
    match random.below(8) {
        0..=3 => 0,
        4 => 60,
        5 => random.below(61) as u32,
        _ => 1 + random.below(6) as u32,
    }
}

fn setup(sheet: &mut Sheet) -> Seat {
    let random = &mut sheet.random;
    let (mut predictor, mut delay) = (random.below(3) as u32, delay(random));
    let refused = random.once_in(15);
    if refused {
        match random.below(3) {
            0 => predictor = random.pick(&[3, 4, 255, 256, u32::MAX]),
            1 => delay = random.pick(&[61, 62, 128, 256, u32::MAX]),
            _ => (predictor, delay) = (3, 61),
        }
    }
    sheet.call("queue", &[Number(predictor), Number(delay)]);
    if refused {
        Seat::new(0, 0)
    } else {
        Seat::new(predictor, delay)
    }
}

fn step(sheet: &mut Sheet, seat: &mut Seat, scene: &Scene) {
    if seat.wrong != -1 && sheet.random.once_in(4) {
        return reset(sheet, seat);
    }
    if seat.held() > scene.depth && sheet.random.once_in(2) {
        return discard(sheet, seat, scene);
    }
    if sheet.random.once_in(scene.delays) {
        return change_delay(sheet, seat);
    }
    match sheet.random.below(100) {
        0..=52 => add(sheet, seat, scene),
        53..=79 => request(sheet, seat, scene),
        80..=88 => confirmed(sheet, seat, scene),
        89..=93 => discard(sheet, seat, scene),
        94 | 95 => reset(sheet, seat),
        _ => sheet.call("q.wrong", &[]),
    }
}

/// The frame of an input: mostly the next one.
pub fn input_frame(random: &mut Random, seat: &Seat, wild: usize) -> i32 {
    let next = seat.user + 1;
    if random.once_in(wild) {
        return match random.below(4) {
            0 => random.limit(),
            1 => next - 1,
            2 => next + random.within(1, 3),
            _ => random.within(-1, next + 130),
        };
    }
    if seat.user != -1 || random.once_in(2) {
        return next;
    }
    match random.below(4) {
        0 => random.within(0, 6),
        1 => random.within(0, 130),
        2 => random.limit(),
        _ => 128 - seat.delay as i32 + random.within(-3, 3),
    }
}

/// Words repeat often, so that guesses are often right; some differ from the newest in the jog alone.
pub fn input_word(random: &mut Random, seat: &Seat) -> u32 {
    match random.below(16) {
        0..=6 => seat.word,
        7 | 8 => seat.guess.unwrap_or(0),
        9 | 10 => seat.word & !0xff | random.word() & 0xff,
        11 => seat.word ^ 1 << random.below(32),
        12 => random.word(),
        _ => random.pick(&[0, 0, 1, 0x80, 0xff, 0x100, 0x105, 0x1ff, 0xffff_ff00, u32::MAX, 0x8000_0000]),
    }
}

fn add(sheet: &mut Sheet, seat: &mut Seat, scene: &Scene) {
    let frame = input_frame(&mut sheet.random, seat, scene.wild);
    let word = input_word(&mut sheet.random, seat);
    sheet.call("q.add", &[Frame(frame), Word(word)]);
    seat.add(frame, word);
}

fn request(sheet: &mut Sheet, seat: &mut Seat, scene: &Scene) {
    let random = &mut sheet.random;
    let frame = match random.below(16) {
        _ if random.once_in(scene.wild) => random.limit(),
        0..=5 => seat.newest + 1 + random.within(0, scene.lead),
        6..=8 => seat.newest + random.within(-2, 1),
        9 => seat.oldest + random.within(-1, 1),
        10..=12 => seat.requested.saturating_add(1),
        _ => random.within(seat.oldest, seat.newest.max(seat.oldest)),
    };
    sheet.call("q.request", &[Frame(frame)]);
    seat.request(frame);
}

fn confirmed(sheet: &mut Sheet, seat: &Seat, scene: &Scene) {
    let random = &mut sheet.random;
    let frame = match random.below(8) {
        _ if random.once_in(scene.wild) => random.limit(),
        0 => seat.newest + random.within(-1, 2),
        1 => seat.oldest + random.within(-2, 1),
        2 => seat.newest - 128 + random.within(-1, 2),
        3 => seat.newest + 128 * random.within(-2, 2),
        _ => seat.newest - random.within(0, 130),
    };
    sheet.call("q.confirmed", &[Frame(frame)]);
}

fn discard(sheet: &mut Sheet, seat: &mut Seat, scene: &Scene) {
    let random = &mut sheet.random;
    let frame = match random.below(8) {
        _ if random.once_in(scene.wild) => random.limit(),
        0..=3 => seat.newest - scene.depth + 1,
        4 => seat.oldest + random.within(-2, 2),
        5 => seat.newest + random.within(-2, 2),
        6 => seat.requested.saturating_add(random.within(-1, 1)),
        _ => random.within(0, seat.newest.max(0)),
    };
    if frame >= 0 && seat.capped(frame) >= seat.newest && !scene.rash {
        // what would lose the queue becomes the most that does not
        let frame = seat.newest - 1;
        sheet.call("q.discard", &[Frame(frame)]);
        return seat.discard(frame);
    }
    sheet.call("q.discard", &[Frame(frame)]);
    seat.discard(frame);
}

fn reset(sheet: &mut Sheet, seat: &mut Seat) {
    sheet.call("q.reset", &[]);
    seat.reset();
}

/// A new delay, or one out of range.
pub fn new_delay(random: &mut Random, seat: &Seat) -> u32 {
    match random.below(10) {
        0 => random.pick(&[61, 62, 255, 256, u32::MAX]),
        1 => random.pick(&[0, 60]),
        2 => random.below(61) as u32,
        _ => (seat.delay as i32 + random.within(-3, 3)).clamp(0, 60) as u32,
    }
}

fn change_delay(sheet: &mut Sheet, seat: &mut Seat) {
    let delay = new_delay(&mut sheet.random, seat);
    sheet.call("q.delay", &[Number(delay)]);
    if delay <= 60 {
        seat.delay = delay;
    }
}
