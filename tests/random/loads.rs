// What the channels of a room in use are like, what they are offered, and when.
use super::requests::Style;
use super::Random;
use crate::models::queues::{Network, Stream};

// Channels with short messages that come often and have time, so that many fit.
pub fn dense(random: &Random) -> Style {
    let (c, p, b) = random.pick(&[(1, (3, 30), 2), (4, (8, 80), 3), (2, (2, 12), 1), (12, (30, 90), 2)]);
    Style { c, p, b, hops: random.pick(&[1, 2, 4, 8]), heavy: false, tight: false, favourite: None }
}

#[derive(Clone, Copy)]
enum Habit {
    // whatever is accepted
    Greedy,
    // a message every p slots, or a little later
    Punctual,
    // as many as the burst allows, and then nothing for as long
    Bursts,
    Rare,
    Silent,
}

pub struct Loads {
    // what most channels of the room do
    usual: Habit,
    habits: Vec<Habit>,
    // the slot before which a channel is offered nothing
    next: Vec<u64>,
    // messages have C packets
    full: bool,
    // how many slots are run at once
    pub pace: u64,
}

impl Loads {
    pub fn new(random: &Random) -> Loads {
        let usual = random.pick(&[Habit::Greedy, Habit::Greedy, Habit::Punctual, Habit::Bursts]);
        Loads { usual, habits: vec![], next: vec![], full: random.chance(2), pace: 1 }
    }

    // The channels opened since have their habits too.
    pub fn add(&mut self, random: &Random, network: &Network) {
        for _ in self.habits.len()..network.streams.len() {
            let any = random.pick(&[Habit::Greedy, Habit::Punctual, Habit::Bursts, Habit::Rare, Habit::Silent]);
            self.habits.push(random.pick(&[self.usual, self.usual, any]));
            self.next.push(0);
        }
        let shortest = network.streams.iter().map(|stream| stream.p).min().unwrap_or(1);
        self.pace = shortest.clamp(1, 400);
    }

    // How many messages a channel is offered in this slot.
    pub fn messages(&mut self, random: &Random, c: usize, stream: &Stream, slot: u64) -> u64 {
        let (messages, wait) = match self.habits[c] {
            Habit::Greedy => return 16,
            Habit::Rare => return random.chance(20) as u64,
            Habit::Silent => return 0,
            _ if slot < self.next[c] => return 0,
            Habit::Punctual => (1, stream.p + random.pick(&[0, 0, random.to(stream.p)])),
            Habit::Bursts => (stream.b, stream.b * stream.p + random.pick(&[0, random.to(2 * stream.p)])),
        };
        self.next[c] = slot + wait;
        messages
    }

    pub fn packets(&self, random: &Random, stream: &Stream) -> u64 {
        if self.full || random.chance(2) { stream.c } else { 1 + random.to(stream.c - 1) }
    }
}

// A room in use, in which channels are opened and messages offered.
pub trait InUse {
    fn random(&self) -> &Random;
    fn network(&self) -> &Network;
    fn open_some(&mut self, style: &Style);
    // Whether a message is accepted.
    fn offer_some(&mut self, channel: u64, packets: u64) -> bool;

    // Opens until little more fits.
    fn fill(&mut self, style: &Style) {
        let mut in_vain = 0;
        while in_vain < 5 {
            let channels = self.network().streams.len();
            self.open_some(style);
            in_vain = if self.network().streams.len() == channels { in_vain + 1 } else { 0 };
        }
    }

    // How many packets one more message of a channel has; as a rule none is offered where it would be refused.
    fn next_message(&self, loads: &Loads, c: usize) -> Option<u64> {
        let (random, slot, stream) = (self.random(), self.network().slot, &self.network().streams[c]);
        let accepted = stream.logical(slot) - slot <= (stream.b - 1) * stream.p;
        (accepted || random.chance(10)).then(|| loads.packets(random, stream))
    }

    // What is offered to every channel in this slot.
    fn offers(&mut self, loads: &mut Loads) {
        let wave = self.random().chance(30);
        for c in 0..self.network().streams.len() {
            let (random, network) = (self.random(), self.network());
            let messages = if wave { 16 } else { loads.messages(random, c, &network.streams[c], network.slot) };
            for _ in 0..messages {
                let Some(packets) = self.next_message(loads, c) else { break };
                if !self.offer_some(c as u64, packets) {
                    break;
                }
            }
        }
    }

    // Offers that as a rule are refused.
    fn bad_offer(&mut self) {
        let (random, channels) = (self.random(), self.network().streams.len() as u64);
        let known = random.place_of(channels as usize) as u64;
        let most = self.network().streams.get(known as usize).map_or(1, |stream| stream.c);
        let (channel, packets) = match random.to(3) {
            0 => (random.pick(&[channels, channels + 1, random.above(channels), u64::MAX]), random.to(2)),
            1 => (known, 0),
            _ => (known, random.pick(&[random.above(most), u64::MAX])),
        };
        self.offer_some(channel, packets);
    }
}
