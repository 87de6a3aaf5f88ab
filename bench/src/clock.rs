//! Times of one call, as the median of several repetitions.
//!
//! The time is the processor time of this thread: on a quiet machine that is the time on the wall, and on a busy
//! one it leaves out the turns that other programs had. What they do to the caches still counts.

use std::hint::black_box;
use std::time::Duration;

const REPETITIONS: usize = 15;
/// A side that takes very long is repeated less often, but this often at least.
const LEAST_REPETITIONS: usize = 5;
const LONG_ENOUGH: Duration = Duration::from_secs(2);
/// A repetition is as many calls as take this long, so that reading the clock doesn't count.
const REPETITION: Duration = Duration::from_millis(4);

/// The median nanoseconds of a call on each side. The sides take turns, so that whatever else slows the machine
/// slows both; the calls that find out how many make a repetition warm up caches and branch predictors.
pub fn side_by_side(sides: &mut [&mut dyn FnMut()]) -> Vec<f64> {
    let calls: Vec<u32> = sides.iter_mut().map(|side| calls_of_a_repetition(*side)).collect();
    let mut times = vec![Vec::new(); sides.len()];
    for round in 0..REPETITIONS {
        for (place, side) in sides.iter_mut().enumerate() {
            if round < LEAST_REPETITIONS || times[place].iter().sum::<Duration>() < LONG_ENOUGH {
                times[place].push(repeat(*side, calls[place]));
            }
        }
    }
    times.iter_mut().zip(calls).map(|(times, calls)| median(times).as_nanos() as f64 / f64::from(calls)).collect()
}

/// Whether the first call takes longer than the second, by the least of several turns each.
pub fn longer(mut first: impl FnMut(), mut second: impl FnMut()) -> bool {
    let turns = (0..6).map(|_| (repeat(&mut first, 1), repeat(&mut second, 1)));
    let (first, second): (Vec<Duration>, Vec<Duration>) = turns.unzip();
    first.iter().min() > second.iter().min()
}

/// Takes an answer as if it mattered, so that the call isn't left out.
pub fn use_up<T>(answer: T) {
    black_box(answer);
}

fn calls_of_a_repetition(call: &mut dyn FnMut()) -> u32 {
    let mut calls = 1;
    while repeat(call, calls) < REPETITION {
        calls *= 2;
    }
    calls
}

fn repeat(call: &mut dyn FnMut(), calls: u32) -> Duration {
    let start = thread_time();
    for _ in 0..calls {
        call();
    }
    thread_time() - start
}

fn median(times: &mut [Duration]) -> Duration {
    times.sort();
    times[times.len() / 2]
}

/// Linux's clock of the calling thread, from the C library that std links anyway.
fn thread_time() -> Duration {
    #[repr(C)]
    struct Timespec {
        seconds: i64,
        nanoseconds: i64,
    }
    extern "C" {
        fn clock_gettime(clock: i32, time: *mut Timespec) -> i32;
    }
    const CLOCK_THREAD_CPUTIME_ID: i32 = 3;
    let mut time = Timespec { seconds: 0, nanoseconds: 0 };
    assert_eq!(unsafe { clock_gettime(CLOCK_THREAD_CPUTIME_ID, &mut time) }, 0);
    Duration::new(time.seconds as u64, time.nanoseconds as u32)
}
