//! Times of two sides, taken alternately in one thread.

/// Seconds and nanoseconds, as the system's clock gives them.
#[repr(C)]
struct Clock {
    seconds: i64,
    nanoseconds: i64,
}

extern "C" {
    fn clock_gettime(clock: i32, time: *mut Clock) -> i32;
}

/// The clock of the processor time that the calling thread has used, by Linux's number.
const OF_THREAD: i32 = 3;

/// Nanoseconds of processor time that this thread has used: what other processes use is not in it.
fn now() -> f64 {
    let mut time = Clock { seconds: 0, nanoseconds: 0 };
    let status = unsafe { clock_gettime(OF_THREAD, &mut time) };
    assert_eq!(status, 0, "the thread has a clock");
    time.seconds as f64 * 1e9 + time.nanoseconds as f64
}

/// Lets the compiler believe that a result is needed.
pub fn keep<T>(result: T) {
    std::hint::black_box(result);
}

/// How many nanoseconds a call takes.
pub fn time<T>(call: impl FnOnce() -> T) -> f64 {
    let before = now();
    keep(call());
    now() - before
}

/// The times of the library and of what it is compared with.
pub struct Pair {
    library: Vec<f64>,
    other: Vec<f64>,
}

/// The least or the median time of both.
#[derive(Clone, Copy)]
pub struct Both {
    pub library: f64,
    pub other: f64,
}

impl Both {
    /// Library to other.
    pub fn ratio(self) -> f64 {
        self.library / self.other
    }

    /// Both times divided by as many things as they were for.
    pub fn each(self, count: usize) -> Both {
        Both { library: self.library / count as f64, other: self.other / count as f64 }
    }
}

/// The number at the place of so many thousandths in the sorted list.
fn at(times: &[f64], thousandths: usize) -> f64 {
    let mut sorted = times.to_vec();
    sorted.sort_by(f64::total_cmp);
    sorted[(sorted.len() - 1) * thousandths / 1000]
}

impl Pair {
    /// Takes the times of both sides so many times, either side first in turn. A side says its own time, so that it can
    /// prepare before it starts the clock.
    pub fn take(repeats: usize, mut library: impl FnMut() -> f64, mut other: impl FnMut() -> f64) -> Pair {
        let mut pair = Pair { library: Vec::new(), other: Vec::new() };
        for turn in 0..repeats {
            if turn % 2 == 0 {
                pair.library.push(library());
            }
            pair.other.push(other());
            if turn % 2 == 1 {
                pair.library.push(library());
            }
        }
        pair
    }

    /// The least times, but for the lowest thousandth of them: among thousands the clock stands still now and then.
    pub fn minima(&self) -> Both {
        Both { library: at(&self.library, 1), other: at(&self.other, 1) }
    }

    /// The median times.
    pub fn medians(&self) -> Both {
        Both { library: at(&self.library, 500), other: at(&self.other, 500) }
    }
}
