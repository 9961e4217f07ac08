//! Processor time of repeated calls, in microseconds: other work on the
//! machine does not count as ours.

#[derive(Clone, Copy)]
pub struct Time {
    pub best: f64,
    pub median: f64,
}

impl Time {
    /// Of one of so many.
    pub fn of(self, count: usize) -> Time {
        Time { best: self.best / count as f64, median: self.median / count as f64 }
    }
}

extern "C" {
    fn clock_gettime(clock: i32, time: *mut [i64; 2]) -> i32;
    fn getrusage(who: i32, usage: *mut [i64; 18]) -> i32;
}

/// The processor time that this process has used, in microseconds.
pub fn used() -> f64 {
    const PROCESS: i32 = 2;
    let mut time = [0, 0];
    assert_eq!(unsafe { clock_gettime(PROCESS, &mut time) }, 0);
    time[0] as f64 * 1e6 + time[1] as f64 / 1e3
}

/// The processor time of the processes that this one has started and waited for.
pub fn used_by_others() -> f64 {
    const CHILDREN: i32 = -1;
    let mut usage = [0; 18];
    assert_eq!(unsafe { getrusage(CHILDREN, &mut usage) }, 0);
    // seconds and microseconds, of the program and of the system for it
    (usage[0] + usage[2]) as f64 * 1e6 + (usage[1] + usage[3]) as f64
}

pub fn time(rounds: usize, mut call: impl FnMut()) -> Time {
    let times = (0..rounds).map(|_| {
        let begun = used();
        call();
        used() - begun
    });
    best_and_median(times.collect())
}

pub fn best_and_median(mut times: Vec<f64>) -> Time {
    times.sort_by(f64::total_cmp);
    Time { best: times[0], median: times[times.len() / 2] }
}
