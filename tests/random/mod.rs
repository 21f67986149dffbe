// What makes random tables, rooms, requests, traffic and scripts, and spoils them; and the random numbers themselves.
mod changes;
pub mod loads;
pub mod requests;
pub mod rooms;
pub mod scripts;
mod spoiled;
mod tables;
pub mod traffic;
mod wild;
use std::cell::Cell;

// Where they start if no other seed is asked for.
pub const SEED: u64 = 0x9e37_79b9_7f4a_7c15;

pub struct Random(Cell<u64>);

impl Random {
    pub fn new(seed: u64) -> Random {
        Random(Cell::new(seed))
    }

    pub fn next(&self) -> u64 {
        let mut n = self.0.get();
        n ^= n << 13;
        n ^= n >> 7;
        n ^= n << 17;
        self.0.set(n);
        n
    }

    pub fn to(&self, most: u64) -> u64 {
        self.next() % (most + 1)
    }

    pub fn chance(&self, one_in: u64) -> bool {
        self.to(one_in - 1) == 0
    }

    pub fn pick<T: Copy>(&self, from: &[T]) -> T {
        from[self.to(from.len() as u64 - 1) as usize]
    }

    // A place in a list of so many, 0 if it is empty; the last one more often than others.
    pub fn place_of(&self, count: usize) -> usize {
        let last = count.max(1) - 1;
        if self.chance(5) { last } else { self.to(last as u64) as usize }
    }

    pub fn shuffled(&self, count: usize) -> Vec<usize> {
        let mut list: Vec<usize> = (0..count).collect();
        for i in 1..count {
            list.swap(i, self.to(i as u64) as usize);
        }
        list
    }

    // A number above `most`: by one, by a few, or by any amount.
    pub fn above(&self, most: u64) -> u64 {
        let more = self.pick(&[0, 0, self.to(50), (1 << 32) - 1, self.next() >> 1]);
        most + 1 + more
    }
}
