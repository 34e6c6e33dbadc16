//! The proved desk, on lists that are lent to it, through the C face of its crate.

use crate::night::{self, LIMIT, SEATS};
use std::hint::black_box;

// A lent list is a pointer and a length.
extern "C" {
    fn desk_setup(
        state: *mut u32,
        state_length: usize,
        seats: *mut u32,
        seats_length: usize,
        slots: *mut u32,
        slots_length: usize,
        limit: u32,
        predictor: u32,
        delays: *const u32,
        delays_length: usize,
    ) -> u32;
    fn desk_take(
        state: *const u32,
        state_length: usize,
        seats: *mut u32,
        seats_length: usize,
        words: *mut u32,
        words_length: usize,
        seat: u32,
        frame: i32,
        word: u32,
        said: *mut u32,
        said_length: usize,
    ) -> u32;
    fn desk_advance(
        state: *mut u32,
        state_length: usize,
        seats: *mut u32,
        seats_length: usize,
        words: *const u32,
        words_length: usize,
        slots: *mut u32,
        slots_length: usize,
        served: *mut u32,
        served_length: usize,
        statuses: *mut u32,
        statuses_length: usize,
        said: *mut u32,
        said_length: usize,
    ) -> u32;
    fn layer_request(
        state: *const u32,
        state_length: usize,
        seats: *mut u32,
        seats_length: usize,
        words: *const u32,
        words_length: usize,
        disconnected: *const bool,
        disconnected_length: usize,
        last_frame: *const i32,
        last_frame_length: usize,
        inputs: *mut u32,
        inputs_length: usize,
        statuses: *mut u32,
        statuses_length: usize,
    ) -> u32;
    fn layer_save(
        state: *mut u32,
        state_length: usize,
        slots: *mut u32,
        slots_length: usize,
        head: u32,
        kind: u32,
        seal: u32,
    ) -> u32;
}

/// Lists as long as the face asks for: four seats of eight numbers and 128 words, sixteen slots of sixteen.
pub struct Lent {
    state: [u32; 7],
    seats: [u32; 32],
    words: [u32; 512],
    slots: [u32; 256],
    served: [u32; SEATS],
    statuses: [u32; SEATS],
    said: [u32; 2],
}

impl night::Desk for Lent {
    fn open() -> Self {
        let mut desk = Lent {
            state: [0; 7],
            seats: [0; 32],
            words: [0; 512],
            slots: [0; 256],
            served: [0; SEATS],
            statuses: [0; SEATS],
            said: [0; 2],
        };
        let delays = [0; SEATS];
        let (state, seats, slots) = (&mut desk.state, &mut desk.seats, &mut desk.slots);
        // SAFETY: the lists are as long as the promise asks
        let no = unsafe {
            desk_setup(
                state.as_mut_ptr(),
                state.len(),
                seats.as_mut_ptr(),
                seats.len(),
                slots.as_mut_ptr(),
                slots.len(),
                LIMIT,
                0,
                delays.as_ptr(),
                delays.len(),
            )
        };
        assert_eq!(no, 0);
        desk
    }

    fn take(&mut self, seat: usize, frame: u32, word: u32) {
        // SAFETY: the desk came from its setup, and the lists are as long as the promise asks
        let no = unsafe {
            desk_take(
                self.state.as_ptr(),
                self.state.len(),
                self.seats.as_mut_ptr(),
                self.seats.len(),
                self.words.as_mut_ptr(),
                self.words.len(),
                seat as u32,
                frame as i32,
                word,
                self.said.as_mut_ptr(),
                self.said.len(),
            )
        };
        assert_eq!(no, 0);
    }

    fn advance(&mut self) -> u32 {
        // SAFETY: the desk came from its setup, and the lists are as long as the promise asks
        let no = unsafe {
            desk_advance(
                self.state.as_mut_ptr(),
                self.state.len(),
                self.seats.as_mut_ptr(),
                self.seats.len(),
                self.words.as_ptr(),
                self.words.len(),
                self.slots.as_mut_ptr(),
                self.slots.len(),
                self.served.as_mut_ptr(),
                self.served.len(),
                self.statuses.as_mut_ptr(),
                self.statuses.len(),
                self.said.as_mut_ptr(),
                self.said.len(),
            )
        };
        assert_eq!(no, 0);
        self.said[1]
    }

    fn served(&self) -> [u32; SEATS] {
        self.served
    }

    fn console(&self) -> [u32; 3] {
        [self.state[4], self.state[5], self.state[6]]
    }
}

/// A layer of which single calls are timed: two seats, at a frame that both have words for.
pub struct Layer {
    state: [u32; 6],
    lists: Lent,
    on: [bool; SEATS],
    last: [i32; SEATS],
}

impl Layer {
    /// A layer and a desk have their seats, words and slots alike, so the desk fills them.
    pub fn open() -> Self {
        let mut lists: Lent = night::Desk::open();
        for seat in 0..SEATS {
            night::Desk::take(&mut lists, seat, 0, 7 + seat as u32);
        }
        Layer { state: [SEATS as u32, LIMIT, 0, 0, 0, 0], lists, on: [false; SEATS], last: [-1; SEATS] }
    }

    pub fn request(&mut self) -> [u32; SEATS] {
        let lists = black_box(&mut self.lists);
        // SAFETY: a fresh layer with words for its frame; a list that is too short is answered by 20
        let no = unsafe {
            layer_request(
                self.state.as_ptr(),
                self.state.len(),
                lists.seats.as_mut_ptr(),
                lists.seats.len(),
                lists.words.as_ptr(),
                lists.words.len(),
                self.on.as_ptr(),
                self.on.len(),
                self.last.as_ptr(),
                self.last.len(),
                lists.served.as_mut_ptr(),
                lists.served.len(),
                lists.statuses.as_mut_ptr(),
                lists.statuses.len(),
            )
        };
        assert_eq!(no, 0);
        black_box(lists.served)
    }

    pub fn save(&mut self, head: u32) {
        let slots = black_box(&mut self.lists.slots);
        // SAFETY: a fresh layer; a list that is too short is answered by 20
        let no = unsafe { layer_save(self.state.as_mut_ptr(), self.state.len(), slots.as_mut_ptr(), slots.len(), head, 0, 0) };
        assert_eq!(no, 0);
    }

    /// Frame 0's slot is the first: its frame, then the console.
    pub fn saved(&mut self) -> [u32; 3] {
        self.save(5);
        let slots = &self.lists.slots;
        [slots[1], slots[2], slots[3]]
    }
}
