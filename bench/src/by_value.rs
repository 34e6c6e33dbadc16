//! The proved desk by value. It is a struct, which C has no layout for, so its face plays the whole night in one call.

use crate::night::{self, Ended};

// A lent list is a pointer and a length.
extern "C" {
    fn value_night(words: *const u32, words_length: usize, frames: u32, said: *mut u32, said_length: usize) -> u32;
}

/// Laying out the words is timed too: the other desks' words are made as the night goes on.
pub fn play(frames: u32) -> Ended {
    let words = night::words(frames);
    let mut said = [0; 7];
    // SAFETY: a list that is too short is answered by 20
    let refused = unsafe { value_night(words.as_ptr(), words.len(), frames, said.as_mut_ptr(), said.len()) };
    assert_eq!(refused, 0);
    let [head, kind, seal, corrections, replayed, words, _] = said;
    Ended { console: [head, kind, seal], corrections, replayed, words }
}
