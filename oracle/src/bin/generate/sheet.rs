//! Writes lines: calls in plain and in odd but good dress, damaged copies of them, comments and blank lines.

use crate::random::Random;

const LONGEST: usize = 4096;

#[derive(Clone)]
pub enum Field {
    Frame(i32),
    Number(u32),
    Word(u32),
    Bytes(Vec<u8>),
    Text(String),
}

pub struct Sheet {
    pub random: Random,
    pub text: Vec<u8>,
    left: usize,
}

impl Sheet {
    pub fn new(seed: u64, lines: usize) -> Self {
        Sheet { random: Random::new(seed), text: Vec::new(), left: lines }
    }

    pub fn full(&self) -> bool {
        self.left == 0
    }

    fn line(&mut self, line: &[u8]) {
        if self.left > 0 {
            self.left -= 1;
            self.text.extend_from_slice(line);
            self.text.push(b'\n');
        }
    }

    /// Half of all sheets end without a newline.
    pub fn finish(mut self) -> Vec<u8> {
        if self.random.once_in(2) {
            self.text.pop();
        }
        self.text
    }

    /// A call; now and then with a damaged copy of it, or a line that is no call, before it.
    pub fn call(&mut self, name: &str, fields: &[Field]) {
        if self.random.once_in(30) {
            let line = self.damaged(name, fields);
            self.line(&line);
        }
        if self.random.once_in(80) {
            let line = self.aside();
            self.line(&line);
        }
        let odd = self.random.once_in(40);
        let mut parts = self.parts(name, fields, odd);
        if self.random.once_in(2000) {
            self.lengthen(&mut parts, fields, LONGEST);
        }
        let line = self.join(&parts, odd);
        self.line(&line);
    }

    fn parts(&mut self, name: &str, fields: &[Field], odd: bool) -> Vec<Vec<u8>> {
        let mut parts = vec![name.as_bytes().to_vec()];
        for field in fields {
            let part = self.part(field, odd);
            parts.push(part);
        }
        parts
    }

    fn part(&mut self, field: &Field, odd: bool) -> Vec<u8> {
        let zeros = if odd { "0".repeat(self.random.below(12)) } else { String::new() };
        let text = match field {
            Field::Frame(0) if odd && self.random.once_in(2) => format!("-{zeros}0"),
            Field::Frame(frame) if *frame < 0 => format!("-{zeros}{}", frame.unsigned_abs()),
            Field::Frame(frame) => format!("{zeros}{frame}"),
            Field::Number(number) => format!("{zeros}{number}"),
            Field::Word(word) if odd && self.random.once_in(2) => format!("{word:08X}"),
            Field::Word(word) => format!("{word:x}"),
            Field::Bytes(bytes) if bytes.is_empty() => "-".into(),
            Field::Bytes(bytes) => {
                bytes.iter().map(|b| if odd { format!("{b:02X}") } else { format!("{b:02x}") }).collect()
            }
            Field::Text(text) => text.clone(),
        };
        text.into_bytes()
    }

    fn join(&mut self, parts: &[Vec<u8>], odd: bool) -> Vec<u8> {
        let length: usize = parts.iter().map(|part| part.len() + 1).sum();
        let room = (LONGEST + 1).saturating_sub(length).min(3);
        if !odd || room == 0 {
            return parts.join(&b' ');
        }
        let spaces = vec![b' '; self.random.below(room)];
        match self.random.below(3) {
            0 => [spaces, parts.join(&b' ')].concat(),
            1 => [parts.join(&b' '), spaces].concat(),
            _ => [parts[0].clone(), spaces, b" ".to_vec(), parts[1..].join(&b' ')].concat(),
        }
    }

    /// Makes the line `length` bytes long without a change of meaning, by zeros before a number or by spaces.
    fn lengthen(&mut self, parts: &mut [Vec<u8>], fields: &[Field], length: usize) {
        let has: usize = parts.iter().map(|part| part.len() + 1).sum::<usize>() - 1;
        let more = length.saturating_sub(has);
        let at = self.random.below(parts.len());
        let (fill, from) = match at.checked_sub(1).map(|i| &fields[i]) {
            Some(Field::Number(_)) => (b'0', 0),
            Some(Field::Frame(frame)) => (b'0', usize::from(*frame < 0)),
            _ => (b' ', self.random.pick(&[0, parts[at].len()])),
        };
        parts[at].splice(from..from, vec![fill; more]);
    }

    /// A line that is no call.
    fn aside(&mut self) -> Vec<u8> {
        let comment = b"# q.reset\t\xc3\xa9 \x00 desk 2 0".to_vec();
        match self.random.below(8) {
            0..=2 => Vec::new(),
            3 => vec![b' '; 1 + self.random.below(5)],
            4 => [b"   ".to_vec(), comment].concat(),
            5 if self.random.once_in(30) => {
                [comment, vec![b'.'; LONGEST]].concat()[..LONGEST + self.random.below(2)].to_vec()
            }
            6 if self.random.once_in(30) => vec![b' '; LONGEST + self.random.below(2)],
            _ => comment,
        }
    }

    /// A copy of the call that is answered by `bad`; where a list ends the call, a longer or shorter one may be refused instead.
    fn damaged(&mut self, name: &str, fields: &[Field]) -> Vec<u8> {
        let mut parts = self.parts(name, fields, false);
        // with a list at its end, a setup with a field more or less would still be a setup
        let fixed = name != "layer" && name != "desk";
        match self.random.below(11) {
            0 => self.misname(&mut parts[0]),
            1 if fixed && !fields.is_empty() => drop(parts.pop()),
            2 if fixed => parts.push(self.random.pick(&["0", "-", "on", "x", "\t", "\r", "1"]).into()),
            3..=5 if !fields.is_empty() => self.spoil(&mut parts, fields),
            6 | 7 => return self.stray(&parts),
            8 if self.random.once_in(30) => {
                let over = self.random.pick(&[1, 1, 1, 2, 4096, 8192, 60_000]);
                self.lengthen(&mut parts, fields, LONGEST + over);
            }
            9 => return self.noise(),
            _ => self.misname(&mut parts[0]),
        }
        parts.join(&b' ')
    }

    fn misname(&mut self, name: &mut Vec<u8>) {
        match self.random.below(6) {
            0 => name.make_ascii_uppercase(),
            1 => name[0] = name[0].to_ascii_uppercase(),
            2 => name.push(self.random.pick(b"x.\0\r\t\x80s")),
            3 => drop(name.pop()),
            4 => name.insert(0, self.random.pick(b".\tqls0-")),
            _ => *name = self.random.pick(&["q.", "q", ".", "l.", "s.", "q.input", "queues", "0", "?", "bad"]).into(),
        }
    }

    /// Puts something that is not of the field's kind in its place.
    fn spoil(&mut self, parts: &mut [Vec<u8>], fields: &[Field]) {
        let at = self.random.below(fields.len());
        let never: &[&[u8]] =
            &[b"+1", b"--1", b"1-", b"0x1", b"1.0", b"g", b"1\t", b"\r", b"\xc3\xa9", b"0\0", b"1,", b"1#", b"-g"];
        let own: &[&[u8]] = match fields[at] {
            Field::Frame(_) => {
                &[b"-", b"2147483648", b"-2147483649", b"99999999999999999999", b"4294967295", b"a", b"-0-"]
            }
            Field::Number(_) => &[b"-", b"-0", b"-1", b"4294967296", b"18446744073709551616", b"00004294967296", b"a"],
            Field::Word(_) => &[b"-", b"-0", b"000000000", b"123456789", b"0000000000000001", b"xyz", b"1h"],
            Field::Bytes(_) => &[b"0", b"000", b"-00", b"00-", b"--", b"0g", b"abc"],
            Field::Text(_) => &[
                b"-",
                b"ON",
                b"On",
                b"gone",
                b"gone:",
                b"gone:-",
                b"gone:2147483648",
                b"GONE:1",
                b"gone:1:",
                b"2",
                b"00",
                b"01",
                b"on:1",
            ],
        };
        parts[at + 1] =
            if self.random.once_in(2) { self.random.pick(never).to_vec() } else { self.random.pick(own).to_vec() };
    }

    /// A byte that is neither a space nor a newline, put into the line or in a space's place.
    fn stray(&mut self, parts: &[Vec<u8>]) -> Vec<u8> {
        let mut line = parts.join(&b' ');
        let byte = self.random.pick(b"\t\r\0\x0b\x7f\x80\xa0\xff,+:_");
        match line.iter().position(|&b| b == b' ') {
            Some(at) if self.random.once_in(2) => line[at] = byte,
            _ => {
                let at = self.random.below(line.len() + 1);
                line.insert(at, byte);
            }
        }
        line
    }

    fn noise(&mut self) -> Vec<u8> {
        let length = 1 + self.random.below(12);
        let mut line: Vec<u8> = (0..length).map(|_| self.random.word() as u8).collect();
        line.retain(|&b| b != b'\n');
        line
    }
}
