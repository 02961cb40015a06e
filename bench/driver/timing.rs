//! Times of the sides by turns: in each round every side draws a batch, and a round gives one ratio.

const ROUNDS: usize = 41;
/// A batch of the slowest side takes about this long, in nanoseconds.
const BATCH: u64 = 2_000_000;

/// A side of the comparison: one turn draws its picture once.
pub type Turn<'a> = Box<dyn FnMut() + 'a>;

/// Median and quartiles.
#[derive(Clone, Copy)]
pub struct Spread {
    pub low: f64,
    pub median: f64,
    pub high: f64,
}

/// Nanoseconds of a turn of each side, and the ratio of each side's time to the first side's.
pub struct Timed {
    pub times: Vec<Spread>,
    pub ratios: Vec<Spread>,
}

pub fn time_by_turns(sides: &mut [Turn]) -> Timed {
    let turns = turns_in_batch(sides);
    let mut times = vec![Vec::new(); sides.len()];
    let mut ratios = vec![Vec::new(); sides.len()];
    for round in 0..ROUNDS {
        let mut batch = vec![0.0; sides.len()];
        // Each round begins with another side.
        for k in 0..sides.len() {
            let side = (round + k) % sides.len();
            batch[side] = time(&mut sides[side], turns) as f64 / turns as f64;
        }
        for side in 0..sides.len() {
            times[side].push(batch[side]);
            ratios[side].push(batch[side] / batch[0]);
        }
    }
    Timed { times: times.into_iter().map(spread).collect(), ratios: ratios.into_iter().map(spread).collect() }
}

/// The first turns also warm the caches.
fn turns_in_batch(sides: &mut [Turn]) -> u64 {
    let mut slowest = 1;
    for side in sides {
        time(side, 1);
        slowest = slowest.max(time(side, 3) / 3);
    }
    (BATCH / slowest).max(1)
}

fn time(side: &mut Turn, turns: u64) -> u64 {
    let start = processor_time();
    for _ in 0..turns {
        side();
    }
    processor_time() - start
}

fn spread(mut values: Vec<f64>) -> Spread {
    values.sort_by(f64::total_cmp);
    let at = |quarter: usize| values[(values.len() - 1) * quarter / 4];
    Spread { low: at(1), median: at(2), high: at(3) }
}

#[repr(C)]
struct Timespec {
    seconds: i64,
    nanoseconds: i64,
}

unsafe extern "C" {
    fn clock_gettime(clock: i32, time: *mut Timespec) -> i32;
}

const THREAD_PROCESSOR_TIME: i32 = 3;

/// Nanoseconds that this thread has run: what other processes take does not count.
fn processor_time() -> u64 {
    let mut time = Timespec { seconds: 0, nanoseconds: 0 };
    // SAFETY: the pointer is to a struct of the C library's form on 64-bit Linux.
    let failed = unsafe { clock_gettime(THREAD_PROCESSOR_TIME, &mut time) };
    assert_eq!(failed, 0, "the thread's processor time can be read");
    time.seconds as u64 * 1_000_000_000 + time.nanoseconds as u64
}
