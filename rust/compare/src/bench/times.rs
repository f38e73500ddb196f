//! The times of two calls that do the same: of the processor, or with the feature `parallel` of the clock on the wall.

use std::time::Duration;

/// How long both calls of a line are repeated.
const SPENT: Duration = Duration::from_millis(800);

/// How often both calls are run, at least and at most.
const ROUNDS: [usize; 2] = [12, 4000];

/// The time since some moment, as the C library has it.
#[repr(C)]
struct Timespec {
    seconds: std::ffi::c_long,
    nanoseconds: std::ffi::c_long,
}

unsafe extern "C" {
    /// Writes the time of a clock (POSIX).
    fn clock_gettime(clock: std::ffi::c_int, time: *mut Timespec) -> std::ffi::c_int;
}

/// The clock of what the process has had of the processors, by Linux's number, or the one that never stops: what
/// threads do at once counts once.
const CLOCK: std::ffi::c_int = if cfg!(feature = "parallel") { 1 } else { 2 };

/// What the clock shows.
fn now() -> Duration {
    let mut time = Timespec { seconds: 0, nanoseconds: 0 };
    // SAFETY: the call writes a `timespec`, which has these two fields where `long` has the width of a pointer.
    let status = unsafe { clock_gettime(CLOCK, &mut time) };
    assert_eq!(status, 0, "a clock");
    Duration::new(time.seconds as u64, time.nanoseconds as u32)
}

/// The times of a call by both: the one below which a twentieth of the runs are, which is the least of fewer than
/// twenty. The least of thousands would be of a run at which the clock of a virtual machine jumped.
#[derive(Clone, Copy, Debug)]
pub struct Times {
    /// Of fohlazu-p3.
    pub here: Duration,
    /// Of p3-merkle-tree.
    pub original: Duration,
}

impl Times {
    /// How many times as long fohlazu-p3 takes.
    pub fn ratio(&self) -> f64 {
        self.here.as_secs_f64() / self.original.as_secs_f64()
    }
}

/// Runs a call on an input that is made before, and returns its time. What it returns is dropped after.
fn timed<I, O>(input: I, call: &mut impl FnMut(I) -> O) -> Duration {
    let start = now();
    let output = call(std::hint::black_box(input));
    let time = now() - start;
    drop(std::hint::black_box(output));
    time
}

/// The time below which a twentieth of the runs are.
fn low(mut times: Vec<Duration>) -> Duration {
    times.sort_unstable();
    times[times.len() / 20]
}

/// Runs both calls in turn, each time the other one first, and returns their times.
pub fn alternate<I, A, B>(
    mut input: impl FnMut() -> I,
    mut here: impl FnMut(I) -> A,
    mut original: impl FnMut(I) -> B,
) -> Times {
    let (mut ours, mut theirs, mut spent) = (Vec::new(), Vec::new(), Duration::ZERO);
    while ours.len() < ROUNDS[0] || (spent < SPENT && ours.len() < ROUNDS[1]) {
        let (first, second);
        if ours.len() % 2 == 0 {
            first = timed(input(), &mut here);
            second = timed(input(), &mut original);
        } else {
            second = timed(input(), &mut original);
            first = timed(input(), &mut here);
        }
        ours.push(first);
        theirs.push(second);
        spent += first + second;
    }
    Times { here: low(ours), original: low(theirs) }
}
