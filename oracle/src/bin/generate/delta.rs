//! Sheets for `pack` and `unpack`: short ones one after the other, so that rounds with neighbouring seeds leave none
//! out; random ones around every bound; good packets, and damaged copies of them.

use crate::random::Random;
use crate::sheet::Field::{self, Bytes, Number};
use crate::sheet::Sheet;

/// Room for reference and pending bytes, or packet, in a line.
const MOST_BYTES: usize = 2020;
const MOST_ROOM: usize = 4096;
const MOST_LENGTHS: usize = 512;

pub fn sheet(sheet: &mut Sheet, seed: u64) {
    let mut turn = seed.wrapping_mul(60_000);
    while !sheet.full() {
        match sheet.random.below(10) {
            turn if sheet.random.far => match turn % 2 {
                0 => far_pack(sheet),
                _ => far_unpack(sheet),
            },
            0 | 1 => short_pack(sheet, turn),
            2 | 3 => short_unpack(sheet, turn),
            4..=6 => random_pack(sheet),
            _ => random_unpack(sheet),
        }
        turn = turn.wrapping_add(1);
    }
}

/// Takes one of `many` choices out of a number.
fn digit(turn: &mut u64, many: u64) -> usize {
    let digit = *turn % many;
    *turn /= many;
    digit as usize
}

/// Takes a string of at most `longest` of these bytes out of a number.
fn string(turn: &mut u64, from: &[u8], longest: usize) -> Vec<u8> {
    let length = digit(turn, longest as u64 + 1);
    (0..length).map(|_| from[digit(turn, from.len() as u64)]).collect()
}

fn short_pack(sheet: &mut Sheet, mut turn: u64) {
    let lengths: Vec<u32> = string(&mut turn, &[0, 1, 2, 3], 3).into_iter().map(u32::from).collect();
    let pending = string(&mut turn, &[0x00, 0x01, 0xff], 4);
    let reference = string(&mut turn, &[0x00, 0x01, 0xff], 2);
    let room = [0, 1, 2, 3, 4, 6, 8, 10, 12][digit(&mut turn, 9)];
    pack(sheet, room, reference, pending, &lengths);
}

fn short_unpack(sheet: &mut Sheet, mut turn: u64) {
    let packet = string(&mut turn, &[0x00, 0x01, 0x02, 0xff], 6);
    let lengths = digit(&mut turn, 4);
    let room = digit(&mut turn, 5);
    let reference = string(&mut turn, &[0x00, 0x01, 0xff], 2);
    unpack(sheet, room, lengths, reference, packet);
}

fn pack(sheet: &mut Sheet, room: usize, reference: Vec<u8>, pending: Vec<u8>, lengths: &[u32]) {
    let mut fields = vec![Number(room as u32), Bytes(reference), Bytes(pending)];
    fields.extend(lengths.iter().map(|&length| Field::Number(length)));
    sheet.call("pack", &fields);
}

fn unpack(sheet: &mut Sheet, room: usize, lengths: usize, reference: Vec<u8>, packet: Vec<u8>) {
    let lent = [Number(room as u32), Number(lengths as u32)];
    sheet.call("unpack", &[lent.as_slice(), &[Bytes(reference), Bytes(packet)]].concat());
}

/// A number near `wanted`, or anywhere up to `most`; sometimes just past it.
fn near(random: &mut Random, wanted: usize, most: usize) -> usize {
    match random.below(16) {
        0..=7 => wanted,
        8 | 9 => wanted + 1,
        10 | 11 => wanted.saturating_sub(1),
        12 => 0,
        13 => most,
        14 if random.once_in(8) => most + random.below(2),
        _ => wanted + random.below(10),
    }
}

fn bytes(random: &mut Random, length: usize) -> Vec<u8> {
    let plain = random.once_in(2);
    (0..length).map(|_| if plain { random.word() as u8 } else { random.pick(&[0, 0, 1, 0x7f, 0x80, 0xff]) }).collect()
}

/// Lengths of some inputs that stay below the bound together: mostly short, now and then around a byte's bound,
/// many empty ones, or one that is nearly all there is room for.
fn lengths(random: &mut Random, bound: usize) -> Vec<u32> {
    let (many, style) = match random.below(20) {
        0 => (1 + random.below(1600), 0),
        1 => (505 + random.below(12), random.below(2)),
        2 => (1, 3),
        3 => (1 + random.below(5), 2),
        4..=9 => (random.below(12), 4),
        _ => (random.below(7), 1),
    };
    let mut left = bound;
    let mut lengths = Vec::new();
    for _ in 0..many {
        let length = match style {
            0 => 0,
            1 => random.below(4),
            2 => random.pick(&[254, 255, 256, 257, 511, 512, 513]),
            3 => bound - random.below(3),
            _ => random.pick(&[4, 4, 4, 4, 0, 1, 2, 3, 5, 8, 16]),
        };
        if length > left {
            break;
        }
        left -= length;
        lengths.push(length as u32);
    }
    lengths
}

fn sum(lengths: &[u32]) -> usize {
    lengths.iter().map(|&length| length as usize).sum()
}

fn reference(random: &mut Random) -> Vec<u8> {
    let length = random.pick(&[0, 1, 2, 3, 4, 4, 4, 5, 16, 20]);
    let length = if random.once_in(30) { random.below(300) } else { length };
    bytes(random, length)
}

fn random_pack(sheet: &mut Sheet) {
    let random = &mut sheet.random;
    let reference = reference(random);
    let mut lengths = lengths(random, MOST_BYTES / 2);
    let pending = bytes(random, sum(&lengths));
    let room = near(random, pending.len() + 2 * lengths.len(), MOST_ROOM);
    if random.once_in(8) {
        misstate(random, &mut lengths);
    }
    pack(sheet, room, reference, pending, &lengths);
}

/// Lengths near 65,535. As many bytes do not go into a line, so what is said of them is 18; sums that would be right modulo
/// 65,536 or a little above the pending bytes are among them.
fn far_pack(sheet: &mut Sheet) {
    let random = &mut sheet.random;
    let reference = reference(random);
    let pending = random.below(600);
    let many = random.pick(&[1, 1, 2, 3, 64, 256]);
    let mut lengths: Vec<u32> = (0..many).map(|_| 65535 - random.below(4) as u32).collect();
    match random.below(4) {
        // one length more, which makes the sum right modulo 65,536
        0 | 1 => lengths.push((pending as u32).wrapping_sub(lengths.iter().sum()) & 0xffff),
        2 => lengths.push(pending as u32),
        _ => {}
    }
    let room = near(random, (sum(&lengths) + 2 * lengths.len()).min(MOST_ROOM), MOST_ROOM);
    let pending = bytes(random, pending);
    pack(sheet, room, reference, pending, &lengths);
}

/// A packet whose last length is near 65,535, or a little more than the bytes that are left, or just these.
fn far_unpack(sheet: &mut Sheet) {
    let random = &mut sheet.random;
    let reference = reference(random);
    let mut packet = Vec::new();
    let mut lengths = lengths(random, 200);
    lengths.truncate(3);
    for &length in &lengths {
        packet.extend((length as u16).to_le_bytes());
        packet.extend(bytes(random, length as usize));
    }
    let left = random.pick(&[0, 1, 255, 256, 257, 1000, 1700]);
    let said = match random.below(4) {
        0 => left + random.below(3),
        1 => 65536 - 1 - random.below(4),
        2 => left + 256,
        _ => 256 * random.below(256) + left % 256,
    };
    packet.extend((said as u16).to_le_bytes());
    packet.extend(bytes(random, left));
    let room = near(random, sum(&lengths) + left, MOST_ROOM);
    let lent = near(random, lengths.len() + 1, MOST_LENGTHS);
    unpack(sheet, room, lent, reference, packet);
}

/// Makes the lengths say something else than the pending bytes.
fn misstate(random: &mut Random, lengths: &mut Vec<u32>) {
    match random.below(5) {
        // the same sum modulo 65,536
        0 => lengths.extend([65535, 1]),
        1 => drop(lengths.pop()),
        2 => lengths.push(random.pick(&[0, 1, 2, 255, 256, 65534, 65535, 65536])),
        _ => {
            if let Some(last) = lengths.last_mut() {
                *last = if random.once_in(2) { *last + 1 } else { last.saturating_sub(1) };
            }
        }
    }
}

fn random_unpack(sheet: &mut Sheet) {
    let random = &mut sheet.random;
    let reference = reference(random);
    let bound = random.pick(&[60, 60, 400, 700]);
    let mut lengths = lengths(random, bound);
    lengths.truncate(520);
    let mut packet = Vec::new();
    for &length in &lengths {
        packet.extend((length as u16).to_le_bytes());
        packet.extend(bytes(random, length as usize));
    }
    let room = near(random, sum(&lengths), MOST_ROOM);
    let lent = near(random, lengths.len(), MOST_LENGTHS);
    if random.once_in(3) {
        damage(random, &mut packet);
    }
    unpack(sheet, room, lent, reference, packet);
}

fn damage(random: &mut Random, packet: &mut Vec<u8>) {
    let at = random.below(packet.len() + 1);
    let byte = random.pick(&[0, 1, 2, 3, 4, 0x80, 0xff]);
    match random.below(5) {
        0 => packet.truncate(at),
        1 => packet.insert(at, byte),
        2 => packet.push(byte),
        _ if at == packet.len() => drop(packet.pop()),
        3 => drop(packet.remove(at)),
        _ => packet[at] = byte,
    }
}
