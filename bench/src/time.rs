//! CPU time of this thread, since the machine may have other work.

#[repr(C)]
struct Timespec {
    seconds: i64,
    nanoseconds: i64,
}

// The same on Linux for x86-64 and for Arm of 64 bits.
const THREAD_CPU_TIME: i32 = 3;

extern "C" {
    fn clock_gettime(clock: i32, time: *mut Timespec) -> i32;
}

fn now() -> i64 {
    let mut time = Timespec { seconds: 0, nanoseconds: 0 };
    // SAFETY: the time is ours, and of the layout that C has for it
    let done = unsafe { clock_gettime(THREAD_CPU_TIME, &mut time) };
    assert_eq!(done, 0, "there is a clock of this thread");
    time.seconds * 1_000_000_000 + time.nanoseconds
}

/// The least time of each, in nanoseconds for one of `many`. They take turns, so that all meet the same machine.
pub fn least<const N: usize>(runs: usize, many: u32, mut timed: [&mut dyn FnMut(); N]) -> [f64; N] {
    let mut times = [i64::MAX; N];
    for _ in 0..runs {
        for (time, run) in times.iter_mut().zip(&mut timed) {
            let began = now();
            run();
            *time = (*time).min(now() - began);
        }
    }
    times.map(|time| time as f64 / f64::from(many))
}
