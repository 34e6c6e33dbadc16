//! The lines of a cue sheet: fields read, answers written.

use std::sync::atomic::{AtomicBool, Ordering};

pub const LONGEST: u32 = 4096;

static LIFTED: AtomicBool = AtomicBool::new(false);

/// From here on lines, and what is lent to a call, may be of any length.
pub fn lift_bounds() {
    LIFTED.store(true, Ordering::Relaxed);
}

/// A bound of cue sheets, as far as it is not lifted.
pub fn bound(most: u32) -> u32 {
    if LIFTED.load(Ordering::Relaxed) {
        return u32::MAX;
    }
    most
}

/// The fields of one line. Each reader takes the next field, and gives None where it is missing or not of its kind.
pub struct Fields<'a> {
    rest: &'a [u8],
}

impl<'a> Fields<'a> {
    pub fn of(line: &'a [u8]) -> Self {
        Fields { rest: line }
    }

    pub fn next(&mut self) -> Option<&'a [u8]> {
        let start = self.rest.iter().position(|&b| b != b' ')?;
        let from = &self.rest[start..];
        let end = from.iter().position(|&b| b == b' ').unwrap_or(from.len());
        self.rest = &from[end..];
        Some(&from[..end])
    }

    /// That no field is left.
    pub fn end(&mut self) -> Option<()> {
        match self.next() {
            None => Some(()),
            Some(_) => None,
        }
    }

    pub fn frame(&mut self) -> Option<i32> {
        signed(self.next()?)
    }

    pub fn number(&mut self) -> Option<u32> {
        unsigned(self.next()?, u32::MAX)
    }

    pub fn number_up_to(&mut self, most: u32) -> Option<u32> {
        unsigned(self.next()?, most)
    }

    /// All fields of a setup with a list: the limit, the predictor and the delays.
    pub fn setup(&mut self) -> Option<(u32, u32, Vec<u32>)> {
        Some((self.number()?, self.number()?, self.numbers_up_to(u32::MAX)?))
    }

    /// All fields that are left, each a number of at most `most`.
    pub fn numbers_up_to(&mut self, most: u32) -> Option<Vec<u32>> {
        let mut all = Vec::new();
        while let Some(field) = self.next() {
            all.push(unsigned(field, most)?);
        }
        Some(all)
    }

    pub fn flag(&mut self) -> Option<bool> {
        match self.next()? {
            b"0" => Some(false),
            b"1" => Some(true),
            _ => None,
        }
    }

    /// All fields that are left, each a status: None for `on`, the last frame for one that is gone.
    pub fn statuses(&mut self) -> Option<Vec<Option<i32>>> {
        let mut all = Vec::new();
        while let Some(field) = self.next() {
            all.push(match field {
                b"on" => None,
                _ => Some(signed(field.strip_prefix(b"gone:")?)?),
            });
        }
        Some(all)
    }

    pub fn word(&mut self) -> Option<u32> {
        let field = self.next()?;
        if field.len() > 8 {
            return None;
        }
        field.iter().try_fold(0u32, |sum, &b| Some(sum << 4 | hex(b)?))
    }

    pub fn bytes(&mut self) -> Option<Vec<u8>> {
        let field = self.next()?;
        if field == b"-" {
            return Some(Vec::new());
        }
        if field.len() % 2 != 0 {
            return None;
        }
        field.chunks(2).map(|pair| Some((hex(pair[0])? << 4 | hex(pair[1])?) as u8)).collect()
    }
}

fn digits(field: &[u8]) -> Option<i64> {
    if field.is_empty() {
        return None;
    }
    field.iter().try_fold(0i64, |sum, &b| match b {
        // any sum that large is out of every range, and stays so
        b'0'..=b'9' => Some((sum * 10 + i64::from(b - b'0')).min(1 << 40)),
        _ => None,
    })
}

fn unsigned(field: &[u8], most: u32) -> Option<u32> {
    let value = u32::try_from(digits(field)?).ok()?;
    (value <= most).then_some(value)
}

fn signed(field: &[u8]) -> Option<i32> {
    let value = match field.strip_prefix(b"-") {
        Some(rest) => -digits(rest)?,
        None => digits(field)?,
    };
    i32::try_from(value).ok()
}

fn hex(b: u8) -> Option<u32> {
    char::from(b).to_digit(16)
}

/// One answer line after the other.
pub struct Answers {
    pub text: Vec<u8>,
    started: bool,
}

impl Answers {
    pub fn new() -> Self {
        Answers { text: Vec::new(), started: false }
    }

    pub fn field(&mut self, field: impl std::fmt::Display) {
        use std::io::Write;
        if self.started {
            self.text.push(b' ');
        }
        self.started = true;
        write!(self.text, "{field}").expect("a vector takes every byte");
    }

    pub fn word(&mut self, word: u32) {
        self.field(format_args!("{word:08x}"));
    }

    pub fn bytes(&mut self, bytes: &[u8]) {
        if bytes.is_empty() {
            return self.field('-');
        }
        self.field("");
        for byte in bytes {
            for half in [byte >> 4, byte & 15] {
                self.text.push(b"0123456789abcdef"[usize::from(half)]);
            }
        }
    }

    pub fn end(&mut self) {
        self.text.push(b'\n');
        self.started = false;
    }

    /// The answer's number: 0 and the values, or a refusal.
    pub fn result<T>(&mut self, result: Result<T, crate::refusal::No>) -> Option<T> {
        use crate::refusal::No;
        match result {
            Ok(values) => {
                self.field(0);
                return Some(values);
            }
            Err(No::Number(number)) => self.field(number),
            Err(No::Panic(said)) => self.field(format_args!("panic {said}")),
        }
        None
    }
}

/// A part whose calls are answered by `?` once it is lost: after an announced departure there is nothing to compare with.
pub trait Part: Sized {
    fn lost(&self) -> bool;

    fn answer<T>(
        &mut self,
        out: &mut Answers,
        call: impl FnOnce(&mut Self) -> Result<T, crate::refusal::No>,
        write: impl FnOnce(&mut Answers, T),
    ) {
        if self.lost() {
            return out.field('?');
        }
        if let Some(values) = out.result(call(self)) {
            write(out, values);
        }
    }
}
