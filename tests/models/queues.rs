// Document 01, "Offering" and "A slot", once more and on their own: nothing here is taken from the Rattle sources, and from
// docs/STORE.md only what `write` needs. Each link has a queue with every packet that it holds; a packet that is sent is
// taken out of it and put into that of the next link. What is promised is looked at on the way: no packet is late, no channel
// holds more on a link than is reserved for it there, and what was accepted is held or delivered.
use super::room::{channel_at, Channel, Link, Room, END_SLOT};
use crate::fail;

#[derive(Clone, Copy)]
struct Packet {
    channel: usize,
    message: u64,
    packet: u64,
    // where the link that holds it stands on the channel's route
    place: usize,
    logical: u64,
    deadline: u64,
}

struct Message {
    logical: u64,
    packets: u64,
}

pub struct Stream {
    pub c: u64,
    pub p: u64,
    pub b: u64,
    route: Vec<usize>,
    delay: Vec<u64>,
    reserved: Vec<u64>,
    messages: Vec<Message>,
    accepted: u64,
    delivered: u64,
}

struct Line {
    horizon: u64,
    buffer: usize,
    held: Vec<Packet>,
}

pub struct Network {
    pub slot: u64,
    pub streams: Vec<Stream>,
    lines: Vec<Line>,
}

// A send as document 01 writes it, and what may be of interest about it.
pub struct Send {
    pub numbers: [u64; 5],
    pub early: bool,
    // another channel's packet is current too
    pub rival: bool,
    // another channel's packet would have had the same right to be sent
    pub tie: bool,
    // in the last slot for it
    pub last_slot: bool,
    pub place: usize,
}

impl Stream {
    fn packet(&self, channel: usize, message: u64, packet: u64, place: usize, logical: u64) -> Packet {
        Packet { channel, message, packet, place, logical, deadline: logical + self.delay[place] }
    }

    // The larger of the present slot and the last logical time plus p; for the first message the present slot.
    pub fn logical(&self, slot: u64) -> u64 {
        self.messages.last().map_or(slot, |last| slot.max(last.logical + self.p))
    }
}

impl Line {
    // The packet to send in this slot: the earliest deadline of the current ones, else the least logical time of the early ones
    // within the horizon; then the lower channel, the earlier message, the earlier packet.
    fn pick(&self, slot: u64) -> Option<usize> {
        let rank = |key: u64, packet: &Packet| (key, packet.channel, packet.message, packet.packet);
        let held = || self.held.iter().enumerate();
        let current = held().filter(|(_, packet)| packet.logical <= slot);
        let early = held().filter(|(_, packet)| packet.logical > slot && packet.logical <= slot + self.horizon);
        let due = current.min_by_key(|(_, packet)| rank(packet.deadline, packet));
        due.or_else(|| early.min_by_key(|(_, packet)| rank(packet.logical, packet))).map(|(at, _)| at)
    }

    // Packets of other channels than this one's that are current too, or early too.
    fn others<'a>(&'a self, slot: u64, packet: &'a Packet) -> impl Iterator<Item = &'a Packet> {
        let like = move |other: &&Packet| (other.logical > slot) == (packet.logical > slot);
        self.held.iter().filter(move |other| other.channel != packet.channel).filter(like)
    }

    fn of(&self, channel: usize) -> u64 {
        self.held.iter().filter(|packet| packet.channel == channel).count() as u64
    }
}

impl Network {
    pub fn new(room: &Room) -> Network {
        let line = |link: &Link| Line { horizon: link.horizon, buffer: link.buffer as usize, held: vec![] };
        let mut network = Network { slot: room.clock, streams: vec![], lines: room.links.iter().map(line).collect() };
        network.add(room);
        network
    }

    // The channels that are new in this room; none of them has messages yet.
    pub fn add(&mut self, room: &Room) {
        for channel in &room.channels[self.streams.len()..] {
            let Channel { c, p, b, route, delay, .. } = channel;
            self.streams.push(Stream {
                c: *c,
                p: *p,
                b: *b,
                route: route.iter().map(|l| *l as usize).collect(),
                delay: delay.clone(),
                reserved: (0..route.len()).map(|j| room.reserved(channel, j) as u64).collect(),
                messages: vec![],
                accepted: 0,
                delivered: 0,
            });
        }
    }

    pub fn links(&self) -> u64 {
        self.lines.len() as u64
    }

    // A message with this logical time, whatever the rule says. Its number.
    pub fn put(&mut self, channel: usize, packets: u64, logical: u64) -> u64 {
        let stream = &mut self.streams[channel];
        let message = stream.messages.len() as u64;
        stream.messages.push(Message { logical, packets });
        stream.accepted += packets;
        for packet in 0..packets {
            self.lines[stream.route[0]].held.push(stream.packet(channel, message, packet, 0, logical));
        }
        self.check_space(channel, 0);
        message
    }

    // The message's number and logical time, or a refusal.
    pub fn offer(&mut self, channel: u64, packets: u64) -> Result<(u64, u64), u64> {
        if self.slot == END_SLOT {
            return Err(14);
        }
        let stream = self.streams.get(channel as usize).ok_or(11u64)?;
        if packets < 1 || packets > stream.c {
            return Err(12);
        }
        let logical = stream.logical(self.slot);
        if logical - self.slot > (stream.b - 1) * stream.p {
            return Err(13);
        }
        Ok((self.put(channel as usize, packets, logical), logical))
    }

    // Takes the packet that a link picked out of its queue.
    fn take(&mut self, l: usize, at: usize) -> (Packet, Send) {
        let (slot, line) = (self.slot, &mut self.lines[l]);
        let packet = line.held.remove(at);
        if packet.deadline <= slot {
            fail(format!("late: channel {} link {l} slot {slot} deadline {}", packet.channel, packet.deadline));
        }
        let numbers = [slot, l as u64, packet.channel as u64, packet.message, packet.packet];
        let early = packet.logical > slot;
        let equal = |other: &Packet| if early { other.logical == packet.logical } else { other.deadline == packet.deadline };
        let rival = !early && line.others(slot, &packet).next().is_some();
        let tie = line.others(slot, &packet).any(equal);
        (packet, Send { numbers, early, rival, tie, last_slot: packet.deadline == slot + 1, place: packet.place })
    }

    // Puts a packet that was sent into the queue of the next link, or delivers it.
    fn bring(&mut self, packet: Packet) {
        let Packet { channel, message, packet: number, place, deadline, .. } = packet;
        let stream = &mut self.streams[channel];
        match stream.route.get(place + 1) {
            None => stream.delivered += 1,
            Some(next) => self.lines[*next].held.push(stream.packet(channel, message, number, place + 1, deadline)),
        }
    }

    // The sends of a slot with so much room for them, or a refusal.
    pub fn run(&mut self, room: u64) -> Result<Vec<Send>, u64> {
        if self.slot == END_SLOT {
            return Err(14);
        }
        if room < 5 * self.links() {
            return Err(15);
        }
        let picks: Vec<Option<usize>> = self.lines.iter().map(|line| line.pick(self.slot)).collect();
        let picked = picks.iter().enumerate().filter_map(|(l, at)| at.map(|at| (l, at)));
        let (packets, sends): (Vec<Packet>, Vec<Send>) = picked.map(|(l, at)| self.take(l, at)).unzip();
        packets.iter().for_each(|packet| self.bring(*packet));
        packets.iter().for_each(|packet| self.check_space(packet.channel, packet.place + 1));
        self.slot += 1;
        Ok(sends)
    }

    // How many slots from now no packet that is held may be sent in.
    pub fn idle(&self) -> Result<u64, u64> {
        if self.slot == END_SLOT {
            return Err(14);
        }
        let first = |line: &Line| line.held.iter().map(|packet| packet.logical.saturating_sub(line.horizon)).min();
        let first = self.lines.iter().filter_map(first).min().unwrap_or(END_SLOT).min(END_SLOT);
        Ok(first.saturating_sub(self.slot))
    }

    // What a channel holds at a place of its route fits, and all that the link there holds.
    fn check_space(&self, channel: usize, place: usize) {
        let stream = &self.streams[channel];
        if place < stream.route.len() {
            let line = &self.lines[stream.route[place]];
            if line.of(channel) > stream.reserved[place] || line.held.len() > line.buffer {
                fail(format!("no space: channel {channel} place {place} slot {}", self.slot));
            }
        }
    }

    // Accepted packets are held or delivered, and none of those held is late.
    pub fn check(&self) {
        for (c, stream) in self.streams.iter().enumerate() {
            let held: u64 = self.lines.iter().map(|line| line.of(c)).sum();
            if stream.accepted != held + stream.delivered {
                fail(format!("lost: channel {c} accepted {} delivered {} held {held}", stream.accepted, stream.delivered));
            }
        }
        let late = |line: &Line| line.held.iter().any(|packet| packet.deadline <= self.slot);
        if self.lines.iter().any(late) {
            fail(format!("a packet that is held is late in slot {}", self.slot));
        }
    }

    // The numbers of the store that an offer, a slot or a long wait changes.
    pub fn write(&self, store: &mut [u64]) {
        store[2] = self.slot;
        for (c, stream) in self.streams.iter().enumerate() {
            let record = &mut store[channel_at(c)..];
            record[5] = stream.messages.len() as u64;
            let mut sent = stream.accepted;
            for (j, l) in stream.route.iter().enumerate() {
                sent -= self.lines[*l].of(c);
                record[24 + j] = sent;
            }
            let mut end = stream.accepted;
            for (n, message) in stream.messages.iter().enumerate().rev().take(24) {
                record[32 + (n + 1) % 24] = message.logical;
                record[56 + (n + 1) % 24] = end;
                end -= message.packets;
            }
        }
    }
}
