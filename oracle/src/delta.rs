//! `pack` and `unpack`: the original delta_encode and delta_decode. Room and lengths are the harness's to test.

use crate::compression;
use crate::refusal::{no, No};
use crate::sheet::{bound, Answers, Fields};

const MOST_ROOM: u32 = 4096;
const MOST_LENGTHS: u32 = 512;
const MOST_LENGTH: u32 = 65535;
const LENT_BYTE: u8 = 0xee;
const LENT_LENGTH: u32 = 0xeeee;

/// Inputs cut from the pending bytes by their lengths.
fn cut(pending: &[u8], lengths: &[u32]) -> Result<Vec<Vec<u8>>, No> {
    let sum: u64 = lengths.iter().map(|&length| u64::from(length)).sum();
    if sum != pending.len() as u64 {
        return no(18);
    }
    let mut rest = pending;
    let mut inputs = Vec::new();
    for &length in lengths {
        let (input, after) = rest.split_at(length as usize);
        inputs.push(input.to_vec());
        rest = after;
    }
    Ok(inputs)
}

/// Writes the bytes into the lent ones, and answers how many.
fn write(bytes: &[u8], lent: &mut [u8]) -> Result<usize, No> {
    match lent.get_mut(..bytes.len()) {
        Some(part) => part.copy_from_slice(bytes),
        None => return no(20),
    }
    Ok(bytes.len())
}

fn pack(reference: &[u8], pending: &[u8], lengths: &[u32], lent: &mut [u8]) -> Result<usize, No> {
    write(&compression::pack(reference, &cut(pending, lengths)?), lent)
}

fn unpack(reference: &[u8], packet: &[u8], lent: &mut [u8], lengths: &mut [u32]) -> Result<(usize, usize), No> {
    let inputs = match compression::unpack(reference, packet) {
        Ok(inputs) => inputs,
        Err(why) if why == "truncated length prefix" => return no(16),
        Err(why) if why == "truncated input data" => return no(17),
        Err(why) => return Err(No::Panic(why)),
    };
    if inputs.len() > lengths.len() {
        return no(19);
    }
    let count = write(&inputs.concat(), lent)?;
    for (length, input) in lengths.iter_mut().zip(&inputs) {
        *length = input.len() as u32;
    }
    Ok((count, inputs.len()))
}

pub fn call(name: &[u8], fields: &mut Fields, out: &mut Answers) -> Option<()> {
    let room = fields.number_up_to(bound(MOST_ROOM))?;
    let mut lent = vec![LENT_BYTE; room as usize];
    if name == b"pack" {
        let (reference, pending) = (fields.bytes()?, fields.bytes()?);
        let lengths = fields.numbers_up_to(MOST_LENGTH)?;
        if let Some(count) = out.result(pack(&reference, &pending, &lengths, &mut lent)) {
            out.field(count);
        }
        out.bytes(&lent);
        return Some(());
    }
    let mut lengths = vec![LENT_LENGTH; fields.number_up_to(bound(MOST_LENGTHS))? as usize];
    let (reference, packet) = (fields.bytes()?, fields.bytes()?);
    fields.end()?;
    if let Some((bytes, count)) = out.result(unpack(&reference, &packet, &mut lent, &mut lengths)) {
        out.field(bytes);
        out.field(count);
    }
    out.bytes(&lent);
    for length in lengths {
        out.field(length);
    }
    Some(())
}
