//! The smallest of several repetitions, the sides in turn, so that a disturbance meets all of them.
use std::time::{Duration, Instant};

/// Nanoseconds of one call on each side, and of a plain copy of a snapshot's bytes where the line is about one.
#[derive(Clone, Copy, Default)]
pub struct Times {
    pub port: f64,
    pub original: f64,
    pub copy: f64,
    /// The snapshot's bytes.
    pub bytes: usize,
}

impl Times {
    /// What the plain copy takes for a byte, 0 where nothing was copied.
    pub fn copy_each_byte(&self) -> f64 {
        self.copy / self.bytes as f64
    }
}

/// Rounds that are not counted.
const WARM_UP: usize = 3;
/// Rounds that are, at least; more come as long as the budget lasts.
const LEAST: usize = 25;
const BUDGET: Duration = Duration::from_secs(1);

pub fn smallest(
    mut port: impl FnMut() -> f64,
    mut original: impl FnMut() -> f64,
    mut copy: impl FnMut() -> f64,
) -> Times {
    for _ in 0..WARM_UP {
        port();
        original();
        copy();
    }
    let mut least = [f64::INFINITY; 3];
    let start = Instant::now();
    let mut rounds = 0;
    while rounds < LEAST || start.elapsed() < BUDGET {
        let times = [port(), original(), copy()];
        for (least, time) in least.iter_mut().zip(times) {
            *least = time.min(*least);
        }
        rounds += 1;
    }
    let [port, original, copy] = least;
    Times { port, original, copy, bytes: 0 }
}
