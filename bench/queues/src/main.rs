//! Times the verified queues against a plain queue with lazy deletion, on the same runs. Every run must come to the same number, or the program stops.
mod draw;
mod lazy;
mod runs;

use std::hint::black_box;

extern "C" {
    fn queue_bench_mixed_heap(from: u64, slots: u16, rounds: u32) -> u64;
    fn queue_bench_mixed_calendar(from: u64, slots: u16, rounds: u32) -> u64;
    fn queue_bench_mixed_none(from: u64, slots: u16, rounds: u32) -> u64;
    fn queue_bench_show_heap(from: u64, slots: u16, rounds: u32, asks: u32, idles: u32) -> u64;
    fn queue_bench_show_calendar(from: u64, slots: u16, rounds: u32, asks: u32, idles: u32) -> u64;
}

/// A clock's reading, as the C library has it.
#[repr(C)]
struct Reading {
    seconds: i64,
    nanoseconds: i64,
}

extern "C" {
    fn clock_gettime(clock: i32, reading: *mut Reading) -> i32;
}

/// The time that this thread has had the processor, in milliseconds: what other programs take does not count.
fn own_time() -> f64 {
    let mut now = Reading {
        seconds: 0,
        nanoseconds: 0,
    };
    // SAFETY: 3 is the clock of the thread's own time on 64-bit Linux, and the place is ours.
    if unsafe { clock_gettime(3, &mut now) } != 0 {
        panic!("no clock of the thread's own time");
    }
    now.seconds as f64 * 1e3 + now.nanoseconds as f64 / 1e6
}

const FROM: u64 = 20261117;
const SIZES: [u16; 3] = [100, 1000, 12352];
/// For the show's run eight slots have to stay empty.
const SHOW_SIZES: [u16; 3] = [100, 1000, 12344];
/// Rounds of the mixed run: four operations each.
const ROUNDS: u32 = 250_000;
/// Rounds of the show's run: one first and one put each.
const SHOW_ROUNDS: u32 = 500_000;
/// Rounds to time a first alone, and how many more firsts each has.
const ASK_ROUNDS: u32 = 20_000;
const ASKS: u32 = 500;
/// How often each run is done; its least time counts.
const TIMES: usize = 11;

/// One thing to be timed: its name, and its run.
type Run<'a> = (&'a str, &'a dyn Fn() -> u64);

/// The least time of each run in milliseconds, the runs taken in turn, and each run's number.
fn least(runs: &[Run]) -> Vec<(f64, u64)> {
    let mut best = vec![(f64::MAX, 0); runs.len()];
    for _ in 0..TIMES {
        for (k, (_, run)) in runs.iter().enumerate() {
            let start = own_time();
            let sum = black_box(run());
            let took = own_time() - start;
            best[k] = (best[k].0.min(took), sum);
        }
    }
    best
}

/// Stops the program where two runs came to other numbers.
fn agree(name: &str, a: u64, b: u64) {
    if a != b {
        eprintln!("{name}: the runs came to {a} and {b}");
        std::process::exit(1);
    }
}

fn mixed(slots: u16) {
    let n = black_box(slots);
    // SAFETY: the functions take and give plain numbers only, and keep nothing.
    let told = least(&[
        ("draws, verified", &|| unsafe {
            queue_bench_mixed_none(FROM, n, ROUNDS)
        }),
        ("draws, plain", &|| runs::draws(FROM, n, ROUNDS)),
        ("heap", &|| unsafe {
            queue_bench_mixed_heap(FROM, n, ROUNDS)
        }),
        ("calendar", &|| unsafe {
            queue_bench_mixed_calendar(FROM, n, ROUNDS)
        }),
        ("lazy", &|| runs::mixed(false, FROM, n, ROUNDS)),
        ("lazy, swept", &|| runs::mixed(true, FROM, n, ROUNDS)),
    ]);
    agree("draws", told[0].1, told[1].1);
    for k in 3..6 {
        agree("mixed", told[2].1, told[k].1);
    }
    let (heap, calendar) = (told[2].0 - told[0].0, told[3].0 - told[0].0);
    let (lazy, swept) = (told[4].0 - told[1].0, told[5].0 - told[1].0);
    println!(
        "{n:>6} | {:>6.1} {:>6.1} | {heap:>7.1} {calendar:>8.1} {lazy:>7.1} {swept:>7.1} | {:>5.2} {:>5.2} | {:>5.2} {:>5.2}",
        told[0].0,
        told[1].0,
        heap / lazy,
        calendar / lazy,
        heap / swept,
        calendar / swept,
    );
}

/// The times of the heap, the calendar and the plain queue on the show's run, which must agree.
fn shown(n: u16, rounds: u32, asks: u32, idles: u32) -> [f64; 3] {
    // SAFETY: as above.
    let told = least(&[
        ("heap", &|| unsafe {
            queue_bench_show_heap(FROM, n, rounds, asks, idles)
        }),
        ("calendar", &|| unsafe {
            queue_bench_show_calendar(FROM, n, rounds, asks, idles)
        }),
        ("lazy", &|| runs::show(false, FROM, n, rounds, asks, idles)),
    ]);
    agree("show", told[2].1, told[0].1);
    agree("show", told[2].1, told[1].1);
    [told[0].0, told[1].0, told[2].0]
}

fn show(slots: u16) {
    let n = black_box(slots);
    let round = shown(n, SHOW_ROUNDS, 0, 0).map(|t| t * 1e6 / f64::from(SHOW_ROUNDS));
    let asked = shown(n, ASK_ROUNDS, ASKS, 0);
    let idled = shown(n, ASK_ROUNDS, 0, ASKS);
    let count = f64::from(ASK_ROUNDS) * f64::from(ASKS);
    let first = [0, 1, 2].map(|k| (asked[k] - idled[k]) * 1e6 / count);
    let both = asked.map(|t| t * 1e6 / count);
    println!(
        "{n:>6} | {:>6.1} {:>8.1} {:>6.1} | {:>5.2} {:>5.2} | {:>6.2} {:>8.2} {:>6.2} | {:>5.2} | {:>6.2} {:>8.2} {:>6.2}",
        round[0],
        round[1],
        round[2],
        round[0] / round[2],
        round[1] / round[0],
        first[0],
        first[1],
        first[2],
        first[1] / first[0],
        both[0],
        both[1],
        both[2],
    );
}

fn main() {
    println!(
        "mixed: {} operations (drop, first, put, put), in ms, the draws taken off",
        4 * ROUNDS
    );
    println!(" slots | draws: verified, plain | heap, calendar, lazy, lazy swept | heap/lazy, calendar/lazy | heap/swept, calendar/swept");
    SIZES.iter().for_each(|&n| mixed(n));
    println!();
    println!("show: take the first, put it again later; in ns: a round; a first alone; a first with the idling that was taken off");
    println!(" slots | a round: heap, calendar, lazy | heap/lazy, calendar/heap | a first: heap, calendar, lazy | calendar/heap | with idling");
    SHOW_SIZES.iter().for_each(|&n| show(n));
}
