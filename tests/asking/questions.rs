// The questions as tests/c/driver.c reads them, with the answers that are right.
use super::ask;
use crate::fail;
use crate::models::room::{set_up, STORE};

// As many numbers as tests/c/driver.c holds.
pub const HELD: usize = STORE + 464;

// Longer stores than need be are as good.
pub const LENGTHS: [usize; 4] = [STORE, STORE, STORE + 1, HELD];

pub struct Questions {
    // what the driver holds by now
    pub store: Vec<u64>,
    text: String,
    right: Vec<(String, String)>,
}

impl Questions {
    pub fn new() -> Questions {
        Questions { store: vec![0; HELD], text: String::new(), right: vec![] }
    }

    pub fn put(&mut self, at: usize, values: &[u64]) {
        self.store[at..at + values.len()].copy_from_slice(values);
        self.text += &format!("put {at} {}{}\n", values.len(), spaced(values));
    }

    pub fn fill(&mut self, value: u64) {
        self.store.fill(value);
        self.text += &format!("fill {value}\n");
    }

    // Puts what differs.
    pub fn become_store(&mut self, store: &[u64]) {
        let mut at = 0;
        while at < store.len() {
            let count = (at..store.len()).take_while(|i| store[*i] != self.store[*i]).count();
            if count > 0 {
                self.put(at, &store[at..at + count]);
            }
            at += count + 1;
        }
    }

    pub fn ask(&mut self, question: String, answer: String, why: String) {
        self.text += &question;
        self.text += "\n";
        self.right.push((answer, format!("{question}: {why}")));
    }

    // Whether the first `count` numbers are the right ones.
    pub fn ask_sum(&mut self, count: usize, why: &str) {
        let sum = self.store[..count].iter().fold(0, |all, n| with(all, *n));
        self.ask(format!("sum {count}"), sum.to_string(), why.to_string());
    }

    pub fn ask_set_up(&mut self, length: usize, links: &[u64]) -> u64 {
        let (number, place) = set_up(&mut self.store[..length], links);
        let question = format!("setup {length} {}{}", links.len(), spaced(links));
        self.ask(question, format!("{number} {place}"), "a set-up".to_string());
        self.ask_sum(HELD, "the store after it");
        number
    }

    // Asks the library, behind `command`. Fails at the first answer that is not right.
    pub fn hold_against(self, command: &[String]) {
        let told = ask(command, self.text);
        if told.len() != self.right.len() {
            fail(format!("{} questions and {} answers", self.right.len(), told.len()));
        }
        for (told, (right, question)) in told.iter().zip(&self.right) {
            if told != right {
                fail(format!("{question}\nthe library: {told}\nworked out here: {right}"));
            }
        }
    }
}

// A sum with one number more, as tests/c/driver.c has it.
pub fn with(all: u64, n: u64) -> u64 {
    (all ^ n).wrapping_mul(1_099_511_628_211)
}

// Each number with a space before it.
pub fn spaced(numbers: &[u64]) -> String {
    numbers.iter().map(|n| format!(" {n}")).collect()
}
