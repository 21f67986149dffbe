// Rooms in use: what is opened, offered and run in them, long waits, and calls that are refused.
use super::loads::{dense, InUse, Loads};
use super::requests::{network, Style};
use super::rooms::Size;
use super::Random;
use crate::asking::live::Live;
use crate::asking::questions::HELD;
use crate::fail;
use crate::models::queues::Network;
use crate::models::room::{Room, END_SLOT, STORE};

impl Live<'_> {
    // A long wait slot by slot, in which nothing is sent; then the same at once; then, as a rule, a slot that sends.
    fn wait(&mut self) {
        let random = self.random;
        let Ok(slots) = self.idle() else {
            let _ = self.skip(random.pick(&[0, 1, u64::MAX]));
            return;
        };
        if slots > 400 {
            let _ = self.skip(random.pick(&[slots - 1 - random.to(9), slots, slots + 1, random.to(slots), u64::MAX]));
            self.settle();
            return;
        }
        let clock = self.network.slot;
        if self.run(slots) > 0 {
            fail("something is sent in a long wait".to_string());
        }
        self.settle();
        self.network.slot = clock;
        self.calls.questions.put(2, &[clock]);
        let _ = self.skip(random.pick(&[slots, slots, slots + 1, slots.max(1) - 1, u64::MAX]));
        self.settle();
        if clock + slots < END_SLOT && self.network.slot == clock + slots {
            let sends = self.slot(80).map_or(0, |sends| sends.len());
            self.calls.counts.kind(slots > 0 && sends > 0, "sends after a long wait");
            if sends == 0 {
                fail("nothing is sent after a long wait".to_string());
            }
        }
    }

    fn damaged(&mut self) {
        self.write();
        let room = Room::read(&self.calls.questions.store).unwrap();
        self.calls.damaged(&room);
    }

    // The four calls in a store that is too short.
    fn short_store(&mut self) {
        let random = self.random;
        let length = random.pick(&[0, 96, STORE - 1, random.to(STORE as u64 - 1) as usize]);
        self.write();
        self.calls.offer(length, 0, 1, "in a short store");
        self.calls.slot(length, 80, "in a short store");
        self.calls.idle(length, "in a short store");
        self.calls.skip(length, 5, "in a short store");
    }

    fn step(&mut self, loads: &mut Loads, style: &Style) {
        let random = self.random;
        match random.to(79) {
            0..=3 => self.bad_offer(),
            4 => {
                self.open_some(style);
                loads.add(random, &self.network);
            }
            5 => drop(self.slot(random.to(5 * self.network.links() - 1))),
            6 if random.chance(8) => self.short_store(),
            7..=10 => drop(self.slot(80)),
            11..=14 => self.wait(),
            15 => self.damaged(),
            _ => {}
        }
        self.offers(loads);
        let slots = random.pick(&[1, 1 + random.to(2), loads.pace, 1 + random.to(loads.pace)]);
        self.run(slots);
        if random.chance(10) {
            self.settle();
        }
    }

    // Opens, and then about so many slots, or a few if there is no channel.
    pub fn play(&mut self, slots: u64) {
        let random = self.random;
        let style = Style::new(random, self.network.links() as usize);
        let kind = random.to(2);
        if kind != 0 {
            self.fill(&style);
        }
        if kind != 1 {
            self.fill(&dense(random));
        }
        let slots = if self.network.streams.is_empty() { 20 } else { slots };
        let mut loads = Loads::new(random);
        loads.add(random, &self.network);
        if random.chance(12) {
            let _ = self.skip(END_SLOT - random.to(2 * slots));
        }
        let until = self.calls.counts.ran() + slots;
        let mut at_the_end = 0;
        while self.calls.counts.ran() < until && at_the_end < 10 {
            self.step(&mut loads, &style);
            at_the_end += (self.network.slot == END_SLOT) as u64;
        }
        self.settle();
        self.calls.questions.ask_sum(HELD, "a room that was in use");
    }
}

impl InUse for Live<'_> {
    fn random(&self) -> &Random {
        self.random
    }

    fn network(&self) -> &Network {
        &self.network
    }

    fn open_some(&mut self, style: &Style) {
        self.write();
        let room = Room::read(&self.calls.questions.store).unwrap();
        let request = style.request(self.random, &room);
        drop(self.open(&request));
    }

    fn offer_some(&mut self, channel: u64, packets: u64) -> bool {
        self.offer(channel, packets).is_ok()
    }
}

// The links of a room to use, four numbers each.
pub fn some_network(random: &Random) -> Vec<u64> {
    network(random, random.pick(&[Size::Small, Size::Small, Size::Middle, Size::Middle, Size::Full]))
}
