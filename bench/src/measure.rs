//! Processor time, of this process and of the programs it ran.

#[repr(C)]
#[derive(Clone, Copy, Default)]
struct Time {
    seconds: i64,
    micros: i64,
}

/// The C library's `struct rusage` on 64-bit Linux.
#[repr(C)]
#[derive(Clone, Copy, Default)]
struct Usage {
    user: Time,
    system: Time,
    others: [i64; 14],
}

extern "C" {
    fn getrusage(who: i32, usage: *mut Usage) -> i32;
}

#[derive(Clone, Copy)]
pub enum Whose {
    Own,
    Programs,
}

/// User and system time so far, in seconds.
pub fn processor_time(whose: Whose) -> f64 {
    let who = match whose {
        Whose::Own => 0,
        Whose::Programs => -1,
    };
    let mut usage = Usage::default();
    // SAFETY: `usage` has the layout of struct rusage and outlives the call.
    unsafe { getrusage(who, &mut usage) };
    let seconds = |time: Time| time.seconds as f64 + time.micros as f64 / 1e6;
    seconds(usage.user) + seconds(usage.system)
}

/// Rounds that are made at the least and at the most, and the seconds after which no more are.
const ROUNDS: usize = 7;
const MOST_ROUNDS: usize = 400;
const ENOUGH: f64 = 3.0;

/// The least processor time of each of several runs of programs. A round makes all of them, one after the other, so that what
/// disturbs the machine disturbs them alike; there are more rounds if the runs are short.
pub fn of_programs<const N: usize, E>(mut run: impl FnMut(usize) -> Result<(), E>) -> Result<[f64; N], E> {
    let mut least = [f64::MAX; N];
    let mut spent = 0.0;
    let mut rounds = 0;
    while rounds < ROUNDS || (spent < ENOUGH && rounds < MOST_ROUNDS) {
        for (which, least) in least.iter_mut().enumerate() {
            let before = processor_time(Whose::Programs);
            run(which)?;
            let time = processor_time(Whose::Programs) - before;
            *least = least.min(time);
            spent += time;
        }
        rounds += 1;
    }
    Ok(least)
}

/// The processor time of one call, averaged over rounds of at least 40
/// milliseconds; the least of several rounds.
pub fn of_call(mut call: impl FnMut()) -> f64 {
    let mut least = f64::MAX;
    for _ in 0..3 * ROUNDS {
        let before = processor_time(Whose::Own);
        let mut calls = 0;
        let mut time = 0.0;
        while time < 0.04 {
            call();
            calls += 1;
            time = processor_time(Whose::Own) - before;
        }
        least = least.min(time / f64::from(calls));
    }
    least
}
