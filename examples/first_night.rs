//! A first night through the C face, from Rust: one seat with delay 1, two words, three frames, and the log of each.
//!
//!     examples/archive desk_face
//!     rustc --edition 2021 examples/first_night.rs -C link-arg=target/staticlib/libdesk_face.a -o first_night && ./first_night
//!
//! The archive is for Linux on x86-64.

// A list is a pointer and a length. Every function answers a number of docs/RULES.md, 0 for done.
#[rustfmt::skip]
extern "C" {
    fn desk_setup(state: *mut u32, state_length: usize, seats: *mut u32, seats_length: usize, slots: *mut u32, slots_length: usize,
        limit: u32, predictor: u32, delays: *const u32, delays_length: usize) -> u32;
    fn desk_take(state: *const u32, state_length: usize, seats: *mut u32, seats_length: usize, words: *mut u32, words_length: usize,
        seat: u32, frame: i32, word: u32, said: *mut u32, said_length: usize) -> u32;
    fn desk_advance(state: *mut u32, state_length: usize, seats: *mut u32, seats_length: usize, words: *const u32,
        words_length: usize, slots: *mut u32, slots_length: usize, served: *mut u32, served_length: usize,
        statuses: *mut u32, statuses_length: usize, said: *mut u32, said_length: usize) -> u32;
    fn desk_log(state: *const u32, state_length: usize, seats: *const u32, seats_length: usize, slots: *const u32,
        slots_length: usize, frame: i32, line: *mut u8, line_length: usize, said: *mut u32, said_length: usize) -> u32;
}

/// The desk, in lists of the caller's; as long as the largest desk needs them.
struct Desk {
    state: [u32; 7],
    seats: [u32; 32],
    words: [u32; 512],
    slots: [u32; 256],
}

/// 0 is done; any other number says why not.
fn done(no: u32) -> Result<(), String> {
    if no == 0 {
        return Ok(());
    }
    Err(format!("refused: {no}"))
}

#[rustfmt::skip]
impl Desk {
    fn setup(limit: u32, predictor: u32, delays: &[u32]) -> Result<Self, String> {
        let mut d = Desk { state: [0; 7], seats: [0; 32], words: [0; 512], slots: [0; 256] };
        // SAFETY, here and below: each pointer comes with the length of its own list
        done(unsafe {
            desk_setup(d.state.as_mut_ptr(), 7, d.seats.as_mut_ptr(), 32, d.slots.as_mut_ptr(), 256, limit, predictor,
                delays.as_ptr(), delays.len())
        })?;
        Ok(d)
    }

    fn take(&mut self, seat: u32, frame: i32, word: u32) -> Result<(), String> {
        let mut said = [0];
        done(unsafe {
            desk_take(self.state.as_ptr(), 7, self.seats.as_mut_ptr(), 32, self.words.as_mut_ptr(), 512, seat, frame, word,
                said.as_mut_ptr(), 1)
        })
    }

    fn advance(&mut self) -> Result<(), String> {
        let (mut served, mut statuses, mut said) = ([0; 4], [0; 4], [0; 2]);
        done(unsafe {
            desk_advance(self.state.as_mut_ptr(), 7, self.seats.as_mut_ptr(), 32, self.words.as_ptr(), 512,
                self.slots.as_mut_ptr(), 256, served.as_mut_ptr(), 4, statuses.as_mut_ptr(), 4, said.as_mut_ptr(), 2)
        })
    }

    fn log(&self, frame: i32) -> Result<String, String> {
        let (mut line, mut said) = ([0; 54], [0]);
        done(unsafe {
            desk_log(self.state.as_ptr(), 7, self.seats.as_ptr(), 32, self.slots.as_ptr(), 256, frame, line.as_mut_ptr(), 54,
                said.as_mut_ptr(), 1)
        })?;
        Ok(String::from_utf8_lossy(&line[..said[0] as usize]).into_owned())
    }
}

fn main() -> Result<(), String> {
    let mut desk = Desk::setup(2, 0, &[1])?;
    for (frame, word) in [Some(0x105), Some(0x1ff), None].into_iter().enumerate() {
        if let Some(word) = word {
            desk.take(0, frame as i32, word)?;
        }
        desk.advance()?;
    }
    for frame in 0..3 {
        print!("{}", desk.log(frame)?);
    }
    Ok(())
}
