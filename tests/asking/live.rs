// A room in use, from set-up on: channels are opened, messages offered and slots run, here and by the library, which has to do
// as tests/models/queues.rs does.
use super::calls::{ask_open, told_offer, told_slot, told_wait, Calls};
use super::questions::{with, LENGTHS};
use crate::fail;
use crate::models::counters;
use crate::models::opening::{Answer, Request};
use crate::models::queues::{Network, Send};
use crate::models::room::{Room, RECORDS, STORE};
use crate::random::Random;

pub struct Live<'a> {
    pub calls: Calls<'a>,
    pub network: Network,
    pub random: &'a Random,
    // slots are asked for one by one, so that the first that differs is seen
    each: bool,
}

impl<'a> Live<'a> {
    // The network that set-up has left in the store.
    pub fn new(calls: Calls<'a>, each: bool) -> Live<'a> {
        let room = Room::read(&calls.questions.store).unwrap_or_else(|name| fail(format!("a room breaks '{name}'")));
        Live { random: calls.random, network: Network::new(&room), calls, each }
    }

    fn length(&self) -> usize {
        self.random.pick(&LENGTHS)
    }

    // The store as it has to be by now.
    pub fn write(&mut self) {
        self.network.write(&mut self.calls.questions.store);
    }

    pub fn settle(&mut self) {
        self.write();
        self.network.check();
        self.calls.questions.ask_sum(RECORDS, "the records of a room in use");
    }

    pub fn open(&mut self, request: &Request) -> Answer {
        self.write();
        let length = self.length();
        let answer = ask_open(&mut self.calls.questions, length, request, "in a room in use");
        if answer.is_ok() {
            self.network.add(&Room::read(&self.calls.questions.store).unwrap());
        }
        answer
    }

    pub fn offer(&mut self, channel: u64, packets: u64) -> Result<(u64, u64), u64> {
        let answer = self.network.offer(channel, packets);
        self.calls.counts.offer(answer.map_or_else(|number| number, |_| 0));
        let question = format!("offer {} {channel} {packets}", self.length());
        self.calls.questions.ask(question, told_offer(answer), format!("in slot {}", self.network.slot));
        answer
    }

    // A message with this logical time, whatever the rule says.
    pub fn put(&mut self, channel: u64, packets: u64, logical: u64) {
        self.network.put(channel as usize, packets, logical);
        let mut store = self.calls.questions.store.clone();
        self.network.write(&mut store);
        self.calls.questions.become_store(&store);
    }

    // One slot, its sends compared one by one.
    pub fn slot(&mut self, room: u64) -> Result<Vec<Send>, u64> {
        let length = self.length();
        self.slot_in(length, room)
    }

    // The same in so many numbers; and tests/models/counters.rs is held against tests/models/queues.rs.
    fn slot_in(&mut self, length: usize, room: u64) -> Result<Vec<Send>, u64> {
        self.write();
        let mut store = self.calls.questions.store[..STORE].to_vec();
        let by_counters = counters::slot(&mut store, room).map_err(|refused| refused.number);
        let answer = self.network.run(room);
        self.calls.counts.turn(self.network.links(), &answer);
        let sends = |sends: &Vec<Send>| sends.iter().map(|send| send.numbers).collect::<Vec<_>>();
        let numbers = answer.as_ref().map(sends).map_err(|number| *number);
        self.write();
        if numbers != by_counters || store[..] != self.calls.questions.store[..STORE] {
            fail(format!("tests/models/queues.rs has {numbers:?}, tests/models/counters.rs {by_counters:?}"));
        }
        let why = format!("up to slot {}", self.network.slot);
        self.calls.questions.ask(format!("slot {length} {room}"), told_slot(numbers), why);
        self.settle();
        answer
    }

    // So many slots, or up to the first that is refused; how many sends. Only a sum over them is compared.
    pub fn run(&mut self, count: u64) -> usize {
        let (length, room) = (self.length(), self.random.pick(&[5 * self.network.links(), 80, 85]));
        if self.each {
            return (0..count).map_while(|_| self.slot_in(length, room).ok()).map(|sends| sends.len()).sum();
        }
        let (mut slots, mut sent, mut all, mut number) = (0, 0, 0, 0);
        while slots < count && number == 0 {
            let answer = self.network.run(room);
            self.calls.counts.turn(self.network.links(), &answer);
            match answer {
                Ok(sends) => {
                    slots += 1;
                    sent += sends.len();
                    all = with(with(all, sends.len() as u64), 0);
                    all = sends.iter().flat_map(|send| send.numbers).fold(all, with);
                }
                Err(refusal) => number = refusal,
            }
        }
        let why = format!("up to slot {}; EACH=1 shows which one", self.network.slot);
        let answer = format!("{number} 0 {slots} {sent} 0 {all}");
        self.calls.questions.ask(format!("run {length} {room} {count}"), answer, why);
        sent
    }

    pub fn idle(&mut self) -> Result<u64, u64> {
        let answer = self.network.idle();
        self.calls.counts.wait(answer);
        self.calls.counts.kind(answer.is_ok_and(|slots| slots > 0), "long waits");
        let question = format!("idle {}", self.length());
        self.calls.questions.ask(question, told_wait(answer), format!("in slot {}", self.network.slot));
        answer
    }

    pub fn skip(&mut self, count: u64) -> Result<u64, u64> {
        let answer = self.network.idle().map(|slots| slots.min(count));
        self.calls.counts.wait(answer);
        self.calls.counts.kind(answer.is_ok_and(|slots| slots > 0), "skips");
        self.network.slot += answer.unwrap_or(0);
        let question = format!("skip {} {count}", self.length());
        self.calls.questions.ask(question, told_wait(answer), format!("to slot {}", self.network.slot));
        answer
    }
}
