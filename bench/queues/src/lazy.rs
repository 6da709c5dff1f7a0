//! A plain queue with lazy deletion: a heap of (time, side, slot), and a table of each slot's present moment. What is put again or removed stays in the heap until it comes to the top.
use std::cmp::{Ordering, Reverse};
use std::collections::BinaryHeap;

/// A time n / d in least terms.
#[derive(Clone, Copy, PartialEq, Eq)]
pub struct Time {
    pub n: u32,
    pub d: u16,
}

impl Time {
    pub fn new(n: u32, d: u16) -> Time {
        let (mut a, mut b) = (n, u32::from(d));
        while b != 0 {
            (a, b) = (b, a % b);
        }
        Time {
            n: n / a,
            d: (u32::from(d) / a) as u16,
        }
    }
}

impl Ord for Time {
    fn cmp(&self, other: &Time) -> Ordering {
        (u64::from(self.n) * u64::from(other.d)).cmp(&(u64::from(other.n) * u64::from(self.d)))
    }
}

impl PartialOrd for Time {
    fn partial_cmp(&self, other: &Time) -> Option<Ordering> {
        Some(self.cmp(other))
    }
}

/// A time and a side of it.
#[derive(Clone, Copy, PartialEq, Eq, PartialOrd, Ord)]
pub struct Moment {
    pub time: Time,
    pub after: bool,
}

pub struct LazyQueue {
    heap: BinaryHeap<Reverse<(Moment, u16)>>,
    moments: Vec<Option<Moment>>,
    held: usize,
    /// Whether the heap is made anew once most of it is out of date.
    sweeps: bool,
}

impl LazyQueue {
    pub fn new(slots: usize, sweeps: bool) -> LazyQueue {
        LazyQueue {
            heap: BinaryHeap::new(),
            moments: vec![None; slots],
            held: 0,
            sweeps,
        }
    }

    pub fn put(&mut self, slot: u16, moment: Moment) {
        let old = self.moments[usize::from(slot)].replace(moment);
        self.held += usize::from(old.is_none());
        self.heap.push(Reverse((moment, slot)));
        if self.sweeps && self.heap.len() > 2 * self.held + 64 {
            let moments = &self.moments;
            self.heap
                .retain(|Reverse((m, k))| moments[usize::from(*k)] == Some(*m));
        }
    }

    pub fn remove(&mut self, slot: u16) {
        let old = self.moments[usize::from(slot)].take();
        self.held -= usize::from(old.is_some());
    }

    pub fn first(&mut self) -> Option<(u16, Moment)> {
        while let Some(Reverse((moment, slot))) = self.heap.peek().copied() {
            if self.moments[usize::from(slot)] == Some(moment) {
                return Some((slot, moment));
            }
            self.heap.pop();
        }
        None
    }
}
