// The calls as tests/c/driver.c reads and answers them: the answers that are right, and what is left in the store.
use super::questions::{spaced, Questions};
use crate::counting::traffic::Counts;
use crate::fail;
use crate::models::counters;
use crate::models::opening::{open, Answer, Request};
use crate::models::room::{broken, RECORDS};
use crate::random::Random;

fn told_open(answer: &Answer) -> String {
    let mut numbers = [0; 24];
    match answer {
        Err((number, place)) => format!("{number} {place} 444{}", spaced(&numbers)),
        Ok((channel, parts)) => {
            for (j, part) in parts.iter().enumerate() {
                (numbers[j], numbers[8 + j], numbers[16 + j]) = (part.response, part.delay, part.reserved);
            }
            format!("0 0 {channel}{}", spaced(&numbers))
        }
    }
}

pub fn told_offer(answer: Result<(u64, u64), u64>) -> String {
    match answer {
        Ok((message, logical)) => format!("0 0 {message} {logical}"),
        Err(number) => format!("{number} 0 444 555"),
    }
}

pub fn told_slot(answer: Result<Vec<[u64; 5]>, u64>) -> String {
    match answer {
        Ok(sends) => format!("0 0 {} 0{}", sends.len(), spaced(&sends.concat())),
        Err(number) => format!("{number} 0 0 0"),
    }
}

pub fn told_wait(answer: Result<u64, u64>) -> String {
    match answer {
        Ok(slots) => format!("0 0 {slots}"),
        Err(number) => format!("{number} 0 444"),
    }
}

// An open, answered as tests/models/opening.rs does.
pub fn ask_open(questions: &mut Questions, length: usize, request: &Request, what: &str) -> Answer {
    let answer = open(&mut questions.store[..length], request);
    if answer.is_ok() && !broken(&questions.store[..length]).0.is_empty() {
        fail(format!("tests/models/opening.rs leaves a store that is not sound, after {}", told_open(&answer)));
    }
    let Request { c, p, d, b, route } = request;
    let question = format!("open {length} {c} {p} {d} {b} {}{}", route.len(), spaced(route));
    questions.ask(question, told_open(&answer), what.to_string());
    questions.ask_sum(RECORDS, "the records after an open");
    answer
}

// Offers, slots and long waits in stores of any numbers, answered as tests/models/counters.rs does.
pub struct Calls<'a> {
    pub random: &'a Random,
    pub questions: Questions,
    pub counts: Counts,
}

impl<'a> Calls<'a> {
    pub fn new(random: &'a Random) -> Calls<'a> {
        Calls { random, questions: Questions::new(), counts: Counts::default() }
    }

    pub fn offer(&mut self, length: usize, channel: u64, packets: u64, why: &str) {
        let answer = counters::offer(&mut self.questions.store[..length], channel, packets);
        if let Err(refused) = &answer {
            self.counts.refused("offer", refused);
        }
        let answer = answer.map_err(|refused| refused.number);
        self.counts.offer(answer.map_or_else(|number| number, |_| 0));
        self.questions.ask(format!("offer {length} {channel} {packets}"), told_offer(answer), why.to_string());
        self.questions.ask_sum(RECORDS, "the records after an offer");
    }

    pub fn slot(&mut self, length: usize, room: u64, why: &str) {
        let answer = counters::slot(&mut self.questions.store[..length], room);
        if let Err(refused) = &answer {
            self.counts.refused("slot", refused);
            self.counts.slot(refused.number);
        }
        self.counts.kind(answer.is_ok(), "slots in wild stores");
        self.counts.kind(answer.as_ref().is_ok_and(|sends| !sends.is_empty()), "slots with sends in wild stores");
        let told = told_slot(answer.map_err(|refused| refused.number));
        self.questions.ask(format!("slot {length} {room}"), told, why.to_string());
        self.questions.ask_sum(RECORDS, "the records after a slot");
    }

    pub fn idle(&mut self, length: usize, why: &str) {
        let answer = counters::idle(&self.questions.store[..length]).map_err(|refused| refused.number);
        self.counts.wait(answer);
        self.counts.kind(answer.is_ok_and(|slots| slots > 0), "long waits in wild stores");
        self.questions.ask(format!("idle {length}"), told_wait(answer), why.to_string());
    }

    pub fn skip(&mut self, length: usize, count: u64, why: &str) {
        let answer = counters::skip(&mut self.questions.store[..length], count).map_err(|refused| refused.number);
        self.counts.wait(answer);
        self.questions.ask(format!("skip {length} {count}"), told_wait(answer), why.to_string());
        self.questions.ask_sum(RECORDS, "the records after a long wait");
    }
}
