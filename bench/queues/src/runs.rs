//! The runs of crates/queue_bench, done in the same way on the plain queue.
use crate::draw::{mix, mix_entry, Draw};
use crate::lazy::{LazyQueue, Moment, Time};

fn ask(queue: &mut LazyQueue, sum: u64) -> u64 {
    match queue.first() {
        Some((slot, moment)) => mix_entry(sum, slot, moment),
        None => mix(sum, 0),
    }
}

/// The mixed run: each round empties a slot, asks for the first, and gives that slot and a second one another moment.
pub fn mixed(sweeps: bool, from: u64, slots: u16, rounds: u32) -> u64 {
    let mut queue = LazyQueue::new(12352, sweeps);
    let mut draw = Draw::new(from);
    for slot in 0..slots {
        queue.put(slot, draw.moment());
    }
    let mut sum = 0;
    for _ in 0..rounds {
        let gone = draw.slot(slots);
        queue.remove(gone);
        sum = ask(&mut queue, sum);
        queue.put(gone, draw.moment());
        let other = draw.slot(slots);
        queue.put(other, draw.moment());
    }
    mix(sum, 0)
}

/// The mixed run without a queue: what drawing slots and moments costs.
pub fn draws(from: u64, slots: u16, rounds: u32) -> u64 {
    let mut draw = Draw::new(from);
    let mut sum = 0;
    for slot in 0..slots {
        sum = mix_entry(sum, slot, draw.moment());
    }
    for _ in 0..rounds {
        sum = mix_entry(sum, draw.slot(slots), draw.moment());
        sum = mix_entry(sum, draw.slot(slots), draw.moment());
    }
    sum
}

fn spread(slots: u16) -> u32 {
    16 * u32::from(slots) / 25
}

fn later(moment: Moment, sixteenths: u32) -> Moment {
    let n = moment.time.n * (16 / u32::from(moment.time.d));
    Moment {
        time: Time::new(n + sixteenths, 16),
        after: moment.after,
    }
}

/// The run of a show: each round asks for the first, and puts it again a little later; before that it asks or idles so many times, emptying one of the eight empty slots after the filled ones each time.
pub fn show(sweeps: bool, from: u64, slots: u16, rounds: u32, asks: u32, idles: u32) -> u64 {
    let mut queue = LazyQueue::new(12352, sweeps);
    let mut draw = Draw::new(from);
    for slot in 0..slots {
        let n = draw.below(spread(slots));
        let moment = Moment {
            time: Time::new(n, 16),
            after: draw.below(2) == 1,
        };
        queue.put(slot, moment);
    }
    let mut sum = 0;
    for _ in 0..rounds {
        let mut told: u64 = 0;
        for turn in 0..asks {
            queue.remove(slots + (turn % 8) as u16);
            if let Some((slot, moment)) = queue.first() {
                told = told.wrapping_add(u64::from(slot) + u64::from(moment.time.n));
            }
        }
        sum = mix(sum, told);
        for turn in 0..idles {
            queue.remove(slots + (turn % 8) as u16);
        }
        sum = mix(sum, 0);
        if let Some((slot, moment)) = queue.first() {
            sum = mix(sum, u64::from(slot));
            let next = later(moment, 1 + draw.below(spread(slots)));
            queue.put(slot, next);
        }
    }
    mix(sum, 0)
}
