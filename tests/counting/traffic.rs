// How often the answers to offers, slots and long waits were what.
use super::{enough, Times};
use crate::models::counters::Refused;
use crate::models::queues::Send;

// What has to come up so many times in 100,000 slots of rooms in use.
const LIVE: [(&str, u64); 9] = [
    ("slots with every link busy", 2_000), ("choices among current packets", 10_000), ("ties", 1_000), ("early sends", 10_000),
    ("early ties", 200), ("sends in the last slot for them", 5_000), ("long waits", 100), ("skips", 100),
    ("sends after a long wait", 50),
];

// And in stores that no calls lead to.
const WILD: [(&str, u64); 6] = [
    ("wild stores that are sound", 1_000), ("damages still sound", 1_000), ("damages not sound", 1_000),
    ("slots in wild stores", 1_000), ("slots with sends in wild stores", 1_000), ("long waits in wild stores", 100),
];

#[derive(Default)]
pub struct Counts {
    // by number, 0 where it ran
    offers: Times<u64>,
    slots: Times<u64>,
    waits: Times<u64>,
    // links in all slots that ran
    link_slots: u64,
    sends: u64,
    places: Times<usize>,
    kinds: Times<&'static str>,
    // the rules that a later store would have broken
    later: Times<String>,
}

impl Counts {
    pub fn kind(&mut self, holds: bool, name: &'static str) {
        self.kinds.add(name, holds as u64);
    }

    pub fn offer(&mut self, number: u64) {
        self.offers.add(number, 1);
    }

    pub fn slot(&mut self, number: u64) {
        self.slots.add(number, 1);
    }

    pub fn wait(&mut self, answer: Result<u64, u64>) {
        self.waits.add(answer.map_or_else(|number| number, |_| 0), 1);
    }

    // What a slot answered, in a network of so many links.
    pub fn turn(&mut self, links: u64, answer: &Result<Vec<Send>, u64>) {
        match answer {
            Ok(sends) => self.sends(links, sends),
            Err(number) => self.slot(*number),
        }
    }

    fn sends(&mut self, links: u64, sends: &[Send]) {
        self.slot(0);
        self.link_slots += links;
        self.sends += sends.len() as u64;
        self.kind(sends.len() as u64 == links, "slots with every link busy");
        for send in sends {
            self.places.add(send.place, 1);
            self.kind(send.early, "early sends");
            self.kind(send.rival, "choices among current packets");
            self.kind(send.tie, "ties");
            self.kind(send.tie && send.early, "early ties");
            self.kind(send.last_slot, "sends in the last slot for them");
        }
    }

    pub fn refused(&mut self, call: &str, refused: &Refused) {
        if !refused.later.is_empty() {
            self.later.add(format!("{call} {:?}", refused.later), 1);
        }
    }

    pub fn ran(&self) -> u64 {
        self.slots.of(&0)
    }

    pub fn print(&self) {
        let busy = 100 * self.sends / self.link_slots.max(1);
        println!("traffic: {} slots ran, {} sends, links busy {busy}%; slots by number {:?}", self.ran(), self.sends, self.slots);
        println!("traffic: sends by place on the route {:?}", self.places);
        println!("traffic: {:?}", self.kinds);
        println!("traffic: {} offers, by number {:?}", self.offers.all(), self.offers);
        println!("traffic: {} waits and skips, by number {:?}", self.waits.all(), self.waits);
        println!("traffic: 17 looked at last, by what the later store would break: {:?}", self.later);
    }

    // Fails where something came up too seldom.
    pub fn check(&self) {
        for number in [0, 11, 12, 13, 14, 17] {
            enough(&format!("offer {number}"), self.offers.of(&number), 500);
        }
        for number in [0, 14, 15, 17] {
            enough(&format!("slot {number}"), self.slots.of(&number), 500);
        }
        for number in [0, 14, 17] {
            enough(&format!("wait {number}"), self.waits.of(&number), 200);
        }
        for place in 0..8 {
            enough(&format!("a send at place {place}"), self.places.of(&place), self.ran() / 100);
        }
        let live = LIVE.map(|(name, least)| (name, self.ran() / 1_000 * least / 100));
        for (name, least) in live.into_iter().chain(WILD) {
            enough(name, self.kinds.of(&name), least);
        }
        for name in ["offer {\"delivered\"}", "offer {\"held\"}", "offer {\"messages\"}", "slot {\"held\"}"] {
            enough(&format!("17 after {name}"), self.later.of(&name.to_string()), 100);
        }
    }
}
