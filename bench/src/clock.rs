//! CPU time, which other work on the machine disturbs less than the time of the day.

use std::ffi::c_int;

#[repr(C)]
#[derive(Default)]
struct Span {
    seconds: i64,
    part: i64,
}

/// `struct rusage` of Linux: user and system time, then 14 numbers that are not used.
#[repr(C)]
#[derive(Default)]
struct Usage {
    user: Span,
    system: Span,
    rest: [i64; 14],
}

extern "C" {
    fn clock_gettime(clock: c_int, time: *mut Span) -> c_int;
    fn getrusage(who: c_int, usage: *mut Usage) -> c_int;
}

const PROCESS_CPU: c_int = 2;
const CHILDREN: c_int = -1;

/// CPU seconds of this process.
pub fn own() -> f64 {
    let mut time = Span::default();
    // SAFETY: the clock writes one timespec, whose shape on x86-64 Linux Span has.
    assert_eq!(unsafe { clock_gettime(PROCESS_CPU, &mut time) }, 0);
    time.seconds as f64 + time.part as f64 / 1e9
}

/// CPU seconds of the processes that this one has waited for.
pub fn children() -> f64 {
    let mut usage = Usage::default();
    // SAFETY: as above, with Usage for rusage.
    assert_eq!(unsafe { getrusage(CHILDREN, &mut usage) }, 0);
    [usage.user, usage.system].iter().map(|time| time.seconds as f64 + time.part as f64 / 1e6).sum()
}

/// What a run gives, and the smallest CPU time of some runs: at least three, or one where it takes over two seconds; short ones are repeated for
/// 20 ms. `clear` comes before each run and is not counted.
pub fn smallest<S, R>(space: &mut S, clear: impl Fn(&mut S), run: impl Fn(&mut S) -> R) -> (R, f64) {
    let (mut best, mut total, mut runs) = (f64::INFINITY, 0.0, 0);
    loop {
        clear(space);
        let begun = own();
        let given = run(space);
        let spent = own() - begun;
        best = best.min(spent);
        total += spent;
        runs += 1;
        if spent > 2.0 || runs == 10_000 || (runs >= 3 && total > 0.02) {
            return (given, best);
        }
    }
}
