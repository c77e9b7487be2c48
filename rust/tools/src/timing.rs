//! How calls are timed: by the processor's time, and the median of several repetitions.

pub const REPETITIONS: usize = 7;
/// A repetition goes on for about so many nanoseconds, or for one call if that takes longer.
const LEAST: f64 = 4e7;
/// How often two calls are taken in turn.
const TURNS: usize = 61;

pub fn median(mut values: Vec<f64>) -> f64 {
    values.sort_by(f64::total_cmp);
    values[values.len() / 2]
}

/// Nanoseconds that this process has had a processor, so that other work on the machine doesn't count.
fn now() -> f64 {
    #[repr(C)]
    struct Time {
        seconds: i64,
        nanoseconds: i64,
    }
    extern "C" {
        fn clock_gettime(clock: i32, time: *mut Time) -> i32;
    }
    const OF_PROCESS: i32 = 2;
    let mut time = Time {
        seconds: 0,
        nanoseconds: 0,
    };
    // SAFETY: Linux's C library, which the standard library links, writes one such struct.
    let fault = unsafe { clock_gettime(OF_PROCESS, &mut time) };
    assert_eq!(fault, 0, "Linux has that clock");
    1e9 * time.seconds as f64 + time.nanoseconds as f64
}

/// Nanoseconds of one call: the median of several repetitions, each as many calls as fill its time.
pub fn time(mut call: impl FnMut()) -> f64 {
    call(); // the first is slower
    let start = now();
    call();
    let calls = (LEAST / (now() - start)) as u32 + 1;
    let repetition = |_| {
        let start = now();
        (0..calls).for_each(|_| call());
        (now() - start) / f64::from(calls)
    };
    median((0..REPETITIONS).map(repetition).collect())
}

/// Nanoseconds of a call: the least and the median of several.
#[derive(Clone, Copy, Debug)]
pub struct Times {
    pub least: f64,
    pub median: f64,
}

/// Of each call, so many times in turn: what disturbs one of them disturbs the others as well.
pub fn in_turn<const N: usize>(rounds: usize, mut calls: [&mut dyn FnMut(); N]) -> [Times; N] {
    let mut times = [(); N].map(|()| Vec::with_capacity(rounds));
    for _ in 0..rounds {
        for (call, times) in calls.iter_mut().zip(&mut times) {
            let start = now();
            call();
            times.push(now() - start);
        }
    }
    times.map(|times| Times {
        least: times.iter().copied().fold(f64::INFINITY, f64::min),
        median: median(times),
    })
}

/// Nanoseconds of each of two calls: the least of many, taken in turn, which other work on the machine disturbs the least.
pub fn least(mut one: impl FnMut(), mut other: impl FnMut()) -> [f64; 2] {
    in_turn(TURNS, [&mut one, &mut other]).map(|times| times.least)
}
