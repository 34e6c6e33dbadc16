//! Sheets for `layer` and `l.*`: sessions much as a desk would run them, with calls left out, misplaced and wild.

use crate::model::{known, wrongs, Seat, Setup};
use crate::queue::{delay, input_frame, input_word, new_delay};
use crate::random::Random;
use crate::sheet::Field::{self, Frame, Number, Text, Word};
use crate::sheet::Sheet;

/// What the layer looks like after the calls made so far, as far as the next ones are chosen by it.
struct Layer {
    limit: i32,
    seats: Vec<Seat>,
    slots: Vec<i32>,
    current: i32,
    saved: i32,
    lost: bool,
}

impl Layer {
    fn new(setup: &Setup) -> Self {
        Layer {
            limit: setup.limit as i32,
            seats: setup.seats(),
            slots: vec![-1; setup.limit as usize + 1],
            current: 0,
            saved: -1,
            lost: false,
        }
    }

    fn known(&self) -> i32 {
        known(&self.seats)
    }

    fn lowest_wrong(&self) -> Option<i32> {
        wrongs(&self.seats).min()
    }

    fn highest_wrong(&self) -> Option<i32> {
        wrongs(&self.seats).max()
    }

    /// A seat's mismatch, whether there is one or not.
    fn any_wrong(&self, random: &mut Random) -> i32 {
        self.seats[random.below(self.seats.len())].wrong
    }

    fn holds(&self, frame: i32) -> bool {
        frame >= 0 && self.slots[frame as usize % self.slots.len()] == frame
    }

    fn loadable(&self, frame: i32) -> bool {
        frame < self.current && frame >= self.current - self.limit && self.holds(frame)
    }

    /// A confirm's frame after its caps.
    fn capped(&self, frame: i32, sparse: bool) -> i32 {
        let frame = frame.min(self.current);
        if sparse {
            frame.min(self.saved)
        } else {
            frame
        }
    }

    fn loses(&self, capped: i32) -> bool {
        capped > 0 && self.seats.iter().any(|seat| seat.capped(capped - 1) >= seat.newest)
    }
}

struct Scene {
    length: usize,
    /// One call in so many is left out, or is another one than it should be.
    slips: usize,
    /// One frame in so many is wild.
    wild: usize,
    /// How far the seats' words may run ahead of the current frame.
    ahead: i32,
    /// One chance in so many to correct a mismatch is taken.
    lazy: usize,
    /// One frame in so many confirms.
    confirms: usize,
    /// Whether a confirm may reach a newest place.
    rash: bool,
}

impl Scene {
    fn new(random: &mut Random) -> Self {
        Scene {
            length: match random.below(100) {
                0 => 1_000,
                1..=6 => 200,
                7..=25 => 50,
                _ => random.pick(&[2, 5, 10, 15]),
            },
            slips: random.pick(&[2, 5, 20, 20, 100]),
            wild: random.wild(&[5, 30, 100, 100]),
            ahead: random.pick(&[0, 0, 1, 3, 20, 140]),
            lazy: random.pick(&[1, 1, 3, 12]),
            confirms: random.pick(&[1, 2, 2, 4, 200]),
            rash: random.once_in(12),
        }
    }
}

pub fn sheet(sheet: &mut Sheet) {
    let mut layer = Layer::new(&Setup::fresh());
    let mut bare = sheet.random.once_in(2);
    while !sheet.full() {
        if !bare {
            layer = setup(sheet);
        }
        bare = false;
        let scene = Scene::new(&mut sheet.random);
        // with nothing saved yet
        if sheet.random.once_in(4) {
            confirm(sheet, &mut layer, &scene);
        }
        let mut left = scene.length;
        while left > 0 && !sheet.full() {
            tick(sheet, &mut layer, &scene);
            left = if layer.lost { 0 } else { left - 1 };
        }
    }
}

/// One layer for the whole sheet: some ticks of a scene, then a run of frames with words alone.
pub fn long(sheet: &mut Sheet) {
    let random = &mut sheet.random;
    let (limit, predictor) = (random.pick(&[0, 2, 8, 15]), random.below(3) as u32);
    let delays = (0..1 + random.below(2)).map(|_| random.below(4) as u32).collect();
    let mut layer = Layer::new(&Setup { limit, predictor, delays }.call(sheet, "layer", false, |_| 0));
    while !sheet.full() {
        let scene = Scene { rash: false, ..Scene::new(&mut sheet.random) };
        for _ in 0..8 {
            tick(sheet, &mut layer, &scene);
        }
        reset(sheet, &mut layer);
        for turn in 0..100 {
            run_on(sheet, &mut layer);
            if turn % 20 == 0 && layer.known() > 0 {
                sheet.call("l.confirm", &[Frame(layer.known()), Text("0".into())]);
                let capped = layer.capped(layer.known(), false);
                layer.seats.iter_mut().for_each(|seat| seat.discard(capped - 1));
            }
        }
    }
}

/// A frame with its words, and no request, so that no guess stands.
fn run_on(sheet: &mut Sheet, layer: &mut Layer) {
    for seat in 0..layer.seats.len() {
        let state = &mut layer.seats[seat];
        if state.newest > layer.current + 20 || state.held() > 100 {
            continue;
        }
        let (frame, word) = (state.user + 1, input_word(&mut sheet.random, state));
        sheet.call("l.remote", &[Number(seat as u32), Frame(frame), Word(word)]);
        state.add(frame, word);
    }
    if layer.current <= layer.known() + layer.limit {
        advance(sheet, layer);
    }
}

fn setup(sheet: &mut Sheet) -> Layer {
    let random = &mut sheet.random;
    let limit = random.pick(&[0, 1, 2, 2, 3, 5, 8, 15]);
    let predictor = random.below(3) as u32;
    let seats = random.pick(&[1, 2, 2, 2, 3, 4]);
    let delays = (0..seats).map(|_| delay(random)).collect();
    let refused = random.once_in(15);
    Layer::new(&Setup { limit, predictor, delays }.call(sheet, "layer", refused, |_| 0))
}

/// One frame of a session.
fn tick(sheet: &mut Sheet, layer: &mut Layer, scene: &Scene) {
    for seat in 0..layer.seats.len() {
        for _ in 0..sheet.random.below(3) {
            if layer.seats[seat].user < layer.current + scene.ahead {
                input(sheet, layer, seat, scene);
            }
        }
    }
    if layer.lowest_wrong().is_some() && sheet.random.once_in(scene.lazy) {
        correct(sheet, layer, scene);
    }
    if sheet.random.once_in(scene.confirms) {
        confirm(sheet, layer, scene);
    }
    if sheet.random.once_in(2) {
        probe(sheet, layer, scene);
    }
    if sheet.random.once_in(scene.slips) {
        slip(sheet, layer, scene);
    }
    // mostly no further than the limit
    if layer.current - layer.known() <= layer.limit || sheet.random.once_in(scene.slips) {
        frame(sheet, layer, scene);
    }
}

fn input(sheet: &mut Sheet, layer: &mut Layer, seat: usize, scene: &Scene) {
    let random = &mut sheet.random;
    let state = &mut layer.seats[seat];
    let local = if state.user + 1 == layer.current { random.once_in(2) } else { random.once_in(20) };
    let frame = match state.user {
        _ if local && random.once_in(2) => layer.current,
        -1 if !random.once_in(scene.wild) => 0,
        _ => input_frame(random, state, scene.wild),
    };
    let word = input_word(random, state);
    sheet.call(if local { "l.local" } else { "l.remote" }, &[Number(seat as u32), Frame(frame), Word(word)]);
    if !local || frame == layer.current {
        state.add(frame, word);
    }
}

/// Save, request, advance; now and then one is left out.
fn frame(sheet: &mut Sheet, layer: &mut Layer, scene: &Scene) {
    if !sheet.random.once_in(scene.slips * 3) {
        save(sheet, layer);
    }
    if !sheet.random.once_in(scene.slips * 3) {
        request(sheet, layer, scene);
    }
    if !sheet.random.once_in(scene.slips * 3) {
        advance(sheet, layer);
    }
}

fn save(sheet: &mut Sheet, layer: &mut Layer) {
    let state: Vec<Field> = (0..3).map(|_| Word(sheet.random.word() >> sheet.random.below(32))).collect();
    sheet.call("l.save", &state);
    layer.saved = layer.current;
    let slots = layer.slots.len();
    layer.slots[layer.current as usize % slots] = layer.current;
}

fn advance(sheet: &mut Sheet, layer: &mut Layer) {
    sheet.call("l.advance", &[]);
    layer.current += 1;
}

fn reset(sheet: &mut Sheet, layer: &mut Layer) {
    sheet.call("l.reset", &[]);
    layer.seats.iter_mut().for_each(Seat::reset);
}

/// The statuses of the seats, None for `on`. The number of them is now and then wrong.
fn statuses(random: &mut Random, layer: &Layer, near: i32) -> Vec<Option<i32>> {
    let mut many = layer.seats.len();
    if random.once_in(25) {
        many = random.pick(&[0, many - 1, many + 1, 5]);
    }
    let all_on = !random.once_in(4);
    let gone = |random: &mut Random| match random.below(6) {
        0 => Some(random.limit()),
        1 | 2 => Some(near.saturating_add(random.within(-3, 1))),
        _ => None,
    };
    (0..many).map(|_| if all_on { None } else { gone(random) }).collect()
}

fn status_fields(statuses: &[Option<i32>]) -> Vec<Field> {
    let text = |status: &Option<i32>| match status {
        None => Text("on".into()),
        Some(frame) => Text(format!("gone:{frame}")),
    };
    statuses.iter().map(text).collect()
}

fn request(sheet: &mut Sheet, layer: &mut Layer, scene: &Scene) {
    let given = match sheet.random.once_in(scene.slips) {
        true => statuses(&mut sheet.random, layer, layer.current),
        false => vec![None; layer.seats.len()],
    };
    if !request_with(sheet, layer, &given) && sheet.random.once_in(scene.lazy + 1) {
        unmoved(sheet, layer);
    }
}

/// Whether the request is accepted.
fn request_with(sheet: &mut Sheet, layer: &mut Layer, given: &[Option<i32>]) -> bool {
    sheet.call("l.request", &status_fields(given));
    let current = layer.current;
    let asked = |seat: usize| given[seat].is_none_or(|last| last >= current);
    let refuses = |(seat, state): (usize, &Seat)| asked(seat) && state.refuses(current);
    if given.len() != layer.seats.len() || layer.seats.iter().enumerate().any(refuses) {
        return false;
    }
    for (seat, state) in layer.seats.iter_mut().enumerate() {
        if asked(seat) {
            state.request(current);
        }
    }
    true
}

/// After a refused request no seat may be predicting that was not before. A word that no guess has would show it,
/// once the seats that refused are left out.
fn unmoved(sheet: &mut Sheet, layer: &mut Layer) {
    for (seat, state) in layer.seats.iter_mut().enumerate() {
        let (frame, word) = (state.user + 1, sheet.random.word());
        sheet.call("l.remote", &[Number(seat as u32), Frame(frame), Word(word)]);
        state.add(frame, word);
    }
    sheet.call("l.consistent", &[]);
    let given: Vec<Option<i32>> =
        layer.seats.iter().map(|state| if state.refuses(layer.current) { Some(-1) } else { None }).collect();
    request_with(sheet, layer, &given);
}

fn load(sheet: &mut Sheet, layer: &mut Layer, frame: i32) -> bool {
    sheet.call("l.load", &[Frame(frame)]);
    let loaded = layer.loadable(frame);
    if loaded {
        layer.current = frame;
    }
    if sheet.random.once_in(4) {
        sheet.call("l.now", &[]);
    }
    loaded
}

/// Goes back to the lowest mismatch and plays on from there to where it was.
fn correct(sheet: &mut Sheet, layer: &mut Layer, scene: &Scene) {
    let Some(lowest) = layer.lowest_wrong() else { return };
    let target = layer.current;
    sheet.call("l.consistent", &[]);
    let loaded = load(sheet, layer, lowest);
    if !sheet.random.once_in(scene.slips * 3) {
        reset(sheet, layer);
    }
    if loaded && !sheet.random.once_in(scene.slips * 3) {
        while layer.current < target && !sheet.full() {
            if !sheet.random.once_in(scene.slips * 3) {
                save(sheet, layer);
            }
            request(sheet, layer, scene);
            advance(sheet, layer);
        }
    }
}

fn confirm(sheet: &mut Sheet, layer: &mut Layer, scene: &Scene) {
    let random = &mut sheet.random;
    let sparse = random.once_in(3);
    let mut frame = match random.below(8) {
        _ if random.once_in(scene.wild) => random.limit(),
        0 => layer.current + random.within(-2, 2),
        1 | 2 => layer.any_wrong(random) + random.within(-1, 1),
        // above one mismatch and not above another
        4..=7 if layer.highest_wrong() > layer.lowest_wrong() => layer.highest_wrong().unwrap_or(0),
        3 => random.within(0, layer.current.max(0)),
        _ => layer.known(),
    };
    let wrong =
        |layer: &Layer, frame: i32| layer.lowest_wrong().is_some_and(|wrong| layer.capped(frame, sparse) > wrong);
    if !scene.rash && frame >= 0 && !wrong(layer, frame) && layer.loses(layer.capped(frame, sparse)) {
        // what would lose a queue becomes the most that does not
        frame = layer.known().max(0);
    }
    sheet.call("l.confirm", &[Frame(frame), Text(u8::from(sparse).to_string())]);
    if frame < 0 || wrong(layer, frame) {
        return;
    }
    let capped = layer.capped(frame, sparse);
    layer.lost = layer.loses(capped);
    if sheet.random.once_in(4) {
        sheet.call("l.now", &[]);
    }
    if capped > 0 {
        layer.seats.iter_mut().for_each(|seat| seat.discard(capped - 1));
    }
}

/// A call that asks and changes nothing.
fn probe(sheet: &mut Sheet, layer: &Layer, scene: &Scene) {
    let random = &mut sheet.random;
    let about = |random: &mut Random| match random.once_in(scene.wild) {
        true => random.limit(),
        false => layer.current + random.within(-layer.limit - 2, 2),
    };
    match random.below(6) {
        0 => sheet.call("l.now", &[]),
        1 => sheet.call("l.consistent", &[]),
        2 => {
            let frame = about(random);
            sheet.call("l.saved", &[Frame(frame)]);
        }
        3 => {
            let (start, end) = (about(random), about(random));
            let ends = if random.once_in(4) { (end, start) } else { (start.min(end), start.max(end)) };
            sheet.call("l.latest", &[Frame(ends.0), Frame(ends.1)]);
        }
        _ => {
            let frame = match random.below(4) {
                _ if random.once_in(scene.wild) => random.limit(),
                0 => layer.known() + random.within(-130, 1),
                _ => layer.known() + random.within(-3, 1),
            };
            let given = statuses(random, layer, frame);
            sheet.call("l.confirmed", &[vec![Frame(frame)], status_fields(&given)].concat());
        }
    }
}

/// A call that the session would not make here.
fn slip(sheet: &mut Sheet, layer: &mut Layer, scene: &Scene) {
    let seat = sheet.random.below(layer.seats.len());
    match sheet.random.below(10) {
        0 | 1 => {
            let frame = match sheet.random.once_in(scene.wild) {
                true => sheet.random.limit(),
                false => layer.current + sheet.random.within(-layer.limit - 2, 1),
            };
            load(sheet, layer, frame);
        }
        2 => reset(sheet, layer),
        3 => advance(sheet, layer),
        4 => save(sheet, layer),
        5 => request(sheet, layer, scene),
        6 => stranger(sheet, layer),
        7 => input(sheet, layer, seat, scene),
        _ => change_delay(sheet, layer, seat),
    }
}

fn change_delay(sheet: &mut Sheet, layer: &mut Layer, seat: usize) {
    let delay = new_delay(&mut sheet.random, &layer.seats[seat]);
    sheet.call("l.delay", &[Number(seat as u32), Number(delay)]);
    if delay <= 60 {
        layer.seats[seat].delay = delay;
    }
}

/// A seat that there is not, with other fields that would be refused too.
fn stranger(sheet: &mut Sheet, layer: &Layer) {
    let random = &mut sheet.random;
    let seat = random.pick(&[layer.seats.len() as u32, 4, 5, 255, u32::MAX]);
    let frame = if random.once_in(2) { random.limit() } else { layer.current };
    match random.below(3) {
        0 => sheet.call("l.delay", &[Number(seat), Number(random_delay(frame))]),
        1 => sheet.call("l.local", &[Number(seat), Frame(frame), Word(1)]),
        _ => sheet.call("l.remote", &[Number(seat), Frame(frame), Word(1)]),
    }
}

/// In range or not, by the frame.
fn random_delay(frame: i32) -> u32 {
    if frame % 2 == 0 {
        60
    } else {
        61
    }
}
