//! Refusals. A panic of the original becomes the number that document 01 gives in its place.

use std::panic::{catch_unwind, set_hook, take_hook, AssertUnwindSafe};
use std::sync::atomic::{AtomicBool, Ordering};

static ASKING: AtomicBool = AtomicBool::new(false);

pub enum No {
    Number(u32),
    /// The original panicked where document 01 has no number. This is never expected; the text goes into the answer.
    Panic(String),
}

pub fn no<T>(number: u32) -> Result<T, No> {
    Err(No::Number(number))
}

/// Makes a call of the original. `numbers` gives the number for each of its panics, found by a part of the message.
pub fn ask<T>(numbers: &[(&str, u32)], call: impl FnOnce() -> T) -> Result<T, No> {
    ASKING.store(true, Ordering::Relaxed);
    let answered = catch_unwind(AssertUnwindSafe(call));
    ASKING.store(false, Ordering::Relaxed);
    answered.map_err(|said| {
        let said = match said.downcast::<String>() {
            Ok(text) => *text,
            Err(said) => said.downcast_ref::<&str>().map_or(String::new(), |text| text.to_string()),
        };
        match numbers.iter().find(|(part, _)| said.contains(part)) {
            Some((_, number)) => No::Number(*number),
            None => No::Panic(said.replace('\n', " ")),
        }
    })
}

/// A panic of the original prints nothing, since it is answered.
pub fn silence() {
    let loud = take_hook();
    set_hook(Box::new(move |said| {
        if !ASKING.load(Ordering::Relaxed) {
            loud(said);
        }
    }));
}
