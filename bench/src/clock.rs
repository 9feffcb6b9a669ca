//! CPU time, of this thread or of a program that was started: what other programs take of the machine is not in it. The standard library does not ask
//! for it, Linux answers it.

use std::ffi::{c_int, c_long};
use std::mem;
use std::process::Command;

#[repr(C)]
struct TimeSpec {
    seconds: c_long,
    nanoseconds: c_long,
}

#[repr(C)]
struct TimeVal {
    seconds: c_long,
    microseconds: c_long,
}

#[repr(C)]
struct Usage {
    user: TimeVal,
    system: TimeVal,
    rest: [c_long; 14],
}

unsafe extern "C" {
    fn clock_gettime(clock: c_int, time: *mut TimeSpec) -> c_int;
    fn wait4(process: c_int, status: *mut c_int, options: c_int, usage: *mut Usage) -> c_int;
}

/// So many looks at the clock say what one costs.
const LOOKS: usize = 1001;

fn now() -> i64 {
    const CLOCK_THREAD_CPUTIME_ID: c_int = 3;
    let mut time = TimeSpec { seconds: 0, nanoseconds: 0 };
    // SAFETY: the call writes one such record where it is told to.
    let answer = unsafe { clock_gettime(CLOCK_THREAD_CPUTIME_ID, &raw mut time) };
    assert_eq!(answer, 0, "the thread's clock");
    time.seconds * 1_000_000_000 + time.nanoseconds
}

/// A clock of this thread that knows what looking at it costs.
pub struct Clock {
    cost: f64,
}

impl Clock {
    pub fn new() -> Clock {
        let unaware = Clock { cost: 0.0 };
        let mut looks: Vec<f64> = (0..LOOKS).map(|_| unaware.nanoseconds(|| ())).collect();
        looks.sort_by(f64::total_cmp);
        Clock { cost: looks[LOOKS / 2] }
    }

    /// Nanoseconds of this thread that `run` took.
    pub fn nanoseconds(&self, run: impl FnOnce()) -> f64 {
        let start = now();
        run();
        (now() - start) as f64 - self.cost
    }
}

/// Nanoseconds, user and system, that a program took from its start to its end.
pub fn of_program(command: &mut Command) -> f64 {
    let process = command.spawn().expect("the program starts").id() as c_int;
    let mut status = 0;
    // SAFETY: a record of numbers may be all zero; the call writes one int and one such record where it is told to.
    let (usage, answer) = unsafe {
        let mut usage: Usage = mem::zeroed();
        let answer = wait4(process, &raw mut status, 0, &raw mut usage);
        (usage, answer)
    };
    assert_eq!((answer, status), (process, 0), "the program fails");
    let of = |time: &TimeVal| time.seconds as f64 * 1e9 + time.microseconds as f64 * 1e3;
    of(&usage.user) + of(&usage.system)
}
