//! The processor time of this thread, which other work on the machine does not count into.

#[repr(C)]
struct Timespec {
    seconds: i64,
    nanoseconds: i64,
}

extern "C" {
    fn clock_gettime(clock: i32, out: *mut Timespec) -> i32;
}

const THREAD_CPU: i32 = 3;

/// Seconds that this thread has run.
pub fn now() -> f64 {
    let mut out = Timespec { seconds: 0, nanoseconds: 0 };
    // SAFETY: `out` is a live Timespec of the layout that 64-bit Linux has.
    let answer = unsafe { clock_gettime(THREAD_CPU, &mut out) };
    assert!(answer == 0, "no thread clock");
    out.seconds as f64 + out.nanoseconds as f64 * 1e-9
}

/// What `run` gives, and the seconds it took.
pub fn timed<T>(run: impl FnOnce() -> T) -> (T, f64) {
    let begun = now();
    let out = run();
    (out, now() - begun)
}
