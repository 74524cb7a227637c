//! Two calls timed by turns in one run.

use std::fmt::Debug;
use std::hint::black_box;
use std::time::{Duration, Instant};

/// Each side runs at least so long.
const LEAST: Duration = Duration::from_secs(1);

/// Microseconds of a call, from so many calls in a row.
fn time<A: PartialEq + Debug>(calls: u32, call: &mut impl FnMut() -> A, expected: &A) -> f64 {
    let start = Instant::now();
    for _ in 0..calls {
        assert_eq!(black_box(call()), *expected);
    }
    start.elapsed().as_secs_f64() * 1e6 / f64::from(calls)
}

/// Times of one call, in microseconds.
pub struct Times(Vec<f64>);

impl Times {
    fn of(mut times: Vec<f64>) -> Times {
        times.sort_by(f64::total_cmp);
        Times(times)
    }

    pub fn median(&self) -> f64 {
        self.0[self.0.len() / 2]
    }

    /// What the call takes when nothing else is in its way.
    pub fn least(&self) -> f64 {
        self.0[0]
    }
}

/// Runs both by turns, each as often first as the other.
pub fn by_turns<A: PartialEq + Debug>(
    calls: u32,
    expected: A,
    mut library: impl FnMut() -> A,
    mut second: impl FnMut() -> A,
) -> (Times, Times) {
    let least = LEAST.as_secs_f64() * 1e6 / f64::from(calls);
    let (mut library_times, mut second_times) = (Vec::new(), Vec::new());
    let (mut library_sum, mut second_sum) = (0.0, 0.0);
    while library_sum < least || second_sum < least {
        for library_first in [true, false] {
            let (by_library, by_second);
            if library_first {
                by_library = time(calls, &mut library, &expected);
                by_second = time(calls, &mut second, &expected);
            } else {
                by_second = time(calls, &mut second, &expected);
                by_library = time(calls, &mut library, &expected);
            }
            library_times.push(by_library);
            second_times.push(by_second);
            library_sum += by_library;
            second_sum += by_second;
        }
    }
    (Times::of(library_times), Times::of(second_times))
}

/// Runs both by turns and prints the medians.
pub fn compare<A: PartialEq + Debug>(
    name: &str,
    calls: u32,
    expected: A,
    library: impl FnMut() -> A,
    second: impl FnMut() -> A,
) {
    let (library, second) = by_turns(calls, expected, library, second);
    let (library, second) = (library.median(), second.median());
    let ratio = library / second;
    println!(
        "{name}: library {library:.2} us, second {second:.2} us, ratio library / second {ratio:.2}"
    );
}
