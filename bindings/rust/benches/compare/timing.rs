//! Processor time of several versions of one piece of work, turn by turn in one run.

#[repr(C)]
struct Timespec {
    seconds: i64,
    nanoseconds: i64,
}

unsafe extern "C" {
    fn clock_gettime(clock: i32, time: *mut Timespec) -> i32;
}

/// Processor time of this process (Linux), in microseconds.
fn now() -> f64 {
    const CLOCK_PROCESS_CPUTIME_ID: i32 = 2;
    let mut t = Timespec { seconds: 0, nanoseconds: 0 };
    // SAFETY: writes one timespec, whose layout this is on 64-bit Linux.
    assert_eq!(unsafe { clock_gettime(CLOCK_PROCESS_CPUTIME_ID, &mut t) }, 0);
    t.seconds as f64 * 1e6 + t.nanoseconds as f64 / 1e3
}

pub const TURNS: usize = 8;
/// Microseconds of one version in one turn, about.
const TURN: f64 = 2_500.0;
/// A version whose first call takes longer is called only once.
const ONCE: f64 = 300_000.0;

/// A version: one call, giving a number by which the versions are compared.
pub type Version<'a> = Box<dyn FnMut() -> usize + 'a>;

/// Microseconds of one call of each version: the least over the turns. All versions must give the same number; it is given too.
pub fn least(what: &str, versions: Vec<Version>) -> (usize, Vec<f64>) {
    least_of(what, versions, TURNS, TURN)
}

/// The same with so many turns, of so many microseconds for each version.
pub fn least_of(what: &str, mut versions: Vec<Version>, turns: usize, turn: f64) -> (usize, Vec<f64>) {
    let (mut results, mut times) = (Vec::new(), Vec::new());
    for call in &mut versions {
        let begun = now();
        results.push(call());
        times.push(now() - begun);
    }
    assert!(results.iter().all(|&r| r == results[0]), "{what}: the versions give {results:?}");
    let counts: Vec<usize> = times.iter().map(|t| (turn / (t + 0.5)) as usize + 1).collect();
    for _ in 0..turns {
        for (v, call) in versions.iter_mut().enumerate() {
            if ONCE < times[v] {
                continue;
            }
            let begun = now();
            for _ in 0..counts[v] {
                std::hint::black_box(call());
            }
            times[v] = times[v].min((now() - begun) / counts[v] as f64);
        }
    }
    (results[0], times)
}
