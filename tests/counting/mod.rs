// What is counted: how often each kind of answer came up. A program fails where one came up too seldom.
pub mod opens;
pub mod scripts;
pub mod traffic;
use crate::fail;
use std::collections::BTreeMap;
use std::fmt::{Debug, Formatter};

// How often each of some things came up.
#[derive(Default)]
struct Times<K>(BTreeMap<K, u64>);

impl<K: Ord> Times<K> {
    fn add(&mut self, what: K, times: u64) {
        *self.0.entry(what).or_insert(0) += times;
    }

    fn of(&self, what: &K) -> u64 {
        *self.0.get(what).unwrap_or(&0)
    }

    fn all(&self) -> u64 {
        self.0.values().sum()
    }
}

impl<K: Debug> Debug for Times<K> {
    fn fmt(&self, formatter: &mut Formatter) -> std::fmt::Result {
        self.0.fmt(formatter)
    }
}

fn enough(what: &str, times: u64, least: u64) {
    if times < least {
        fail(format!("lopsided: {what} came up {times} times, not {least}"));
    }
}
