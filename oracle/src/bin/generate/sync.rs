//! Sheets for `sync` and `s.*`.

use crate::random::Random;
use crate::sheet::Field::Frame;
use crate::sheet::Sheet;

pub fn sheet(sheet: &mut Sheet) {
    while !sheet.full() {
        let size = sheet.random.below(8);
        let steps = sheet.random.pick(&[1, 1, 2, 2, 3, 10, 40, 120]);
        let mut frame = if sheet.random.once_in(3) { sheet.random.limit() } else { 0 };
        for _ in 0..steps {
            advance(sheet, frame, size);
            frame = match frame {
                _ if sheet.random.once_in(20) => sheet.random.limit(),
                ..=-1 => sheet.random.within(0, 60),
                _ => frame.wrapping_add(1),
            };
            if steps < 4 || sheet.random.once_in(2) {
                ask(sheet);
            }
        }
        if !sheet.random.once_in(10) {
            sheet.call("sync", &[]);
        }
    }
}

/// The same windows for the whole sheet, frame after frame.
pub fn long(sheet: &mut Sheet) {
    sheet.call("sync", &[]);
    let mut frame = 0;
    while !sheet.full() {
        let size = sheet.random.below(8);
        for _ in 0..40 {
            advance(sheet, frame, size);
            frame += 1;
        }
        ask(sheet);
    }
}

fn ask(sheet: &mut Sheet) {
    for name in ["s.average", "s.averages", "s.reading"] {
        if !sheet.random.once_in(3) {
            sheet.call(name, &[]);
        }
    }
}

fn advance(sheet: &mut Sheet, frame: i32, size: usize) {
    let local = entry(&mut sheet.random, size);
    let remote = match sheet.random.below(4) {
        // a difference that 60 divides, or nearly
        0 => local.wrapping_add(60 * sheet.random.within(-20, 20)).wrapping_add(sheet.random.pick(&[0, 0, 0, -1, 1])),
        1 => local,
        _ => entry(&mut sheet.random, size),
    };
    sheet.call("s.advance", &[Frame(frame), Frame(local), Frame(remote)]);
}

/// One entry of a window: small, of the promised range, large enough that sums round or wrap, or at a limit.
fn entry(random: &mut Random, size: usize) -> i32 {
    match size {
        0 => random.within(-3, 3),
        1 => random.within(-100, 100),
        2 => random.within(-1000, 1000),
        3 => random.pick(&[-1000, -999, 0, 999, 1000]),
        4 => (1 << 24) + random.within(-40, 40),
        5 => random.within(-1_000_000_000, 1_000_000_000),
        6 => random.word() as i32 >> random.below(32),
        _ => random.pick(&[i32::MIN, i32::MIN + 1, i32::MAX, i32::MAX - 1, 1 << 30, -(1 << 30), 0, 1, -1]),
    }
}
