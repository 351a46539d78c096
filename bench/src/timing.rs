//! How long a call takes, on a machine that others use too.

use std::time::{Duration, Instant};

/// Makes the same call as many times as it is told.
pub type Calls = Box<dyn FnMut(usize)>;

/// How long the calls of a slice take together.
const SLICE: Duration = Duration::from_micros(70);

/// Times three calls in turn, in so many rounds, and answers the nanoseconds that one call of each takes: the least of
/// its slices, for what else runs on the machine only ever adds. In a round the first two have two slices each, as
/// A B B A, and the third has one in the middle, so that a machine that grows slower or faster favours none.
pub fn measure(calls: [&mut Calls; 3], rounds: usize) -> [f64; 3] {
    let counts = [0, 1, 2].map(|at| calls_of_slice(calls[at]));
    let mut least = [f64::INFINITY; 3];
    for _ in 0..rounds {
        for at in [0, 1, 2, 1, 0] {
            let time = time_of(calls[at], counts[at]).as_nanos() as f64 / counts[at] as f64;
            least[at] = least[at].min(time);
        }
    }
    least
}

/// How many calls fill a slice. The calls that find it out also fetch into the cache what is read.
fn calls_of_slice(calls: &mut Calls) -> usize {
    let mut count = 1;
    loop {
        let time = time_of(calls, count);
        if time * 3 >= SLICE {
            return (count as f64 * SLICE.as_secs_f64() / time.as_secs_f64()).ceil() as usize;
        }
        count *= 2;
    }
}

fn time_of(calls: &mut Calls, count: usize) -> Duration {
    let start = Instant::now();
    calls(count);
    start.elapsed()
}
