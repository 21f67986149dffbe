// Stores that no calls lead to: rooms as tests/random/rooms.rs makes them, brought to a slot in which something can be sent, and
// the same with a few numbers changed, in which the library has to do as tests/models/counters.rs does; and any numbers.
use super::rooms::{flawed_store, store_with, Size};
use super::Random;
use crate::asking::calls::Calls;
use crate::asking::questions::{HELD, LENGTHS};
use crate::models::room::{broken, channel_at, link_at, Channel, Link, Room, Row, END_SLOT, LATEST, RECORDS, STORE};

impl Random {
    // Any numbers: of any size, small ones, or in about the range of their field.
    pub fn any_numbers(&self, store: &mut [u64]) {
        let any = self.chance(60);
        let most = self.pick(&[1, 2, 3, 9]);
        let (links, channels) = if any { (16, 64) } else { (1 + self.to(2), self.to(2)) };
        let near = |most: u64| self.pick(&[0, 1, most, self.to(most), self.to(most), most + 1]);
        for at in (0..96 * (1 + links)).chain(1_632..1_632 + 96 * channels).map(|at| at as usize) {
            store[at] = if any { self.next() >> self.to(63) } else { self.to(most) };
        }
        if any && self.chance(2) {
            return;
        }
        store[..3].copy_from_slice(&[links, channels, near(END_SLOT)]);
        for l in 0..links as usize {
            let from = self.to(1);
            store[link_at(l)..][..4].copy_from_slice(&[from, 1 - from, near(4_096), self.pick(&[near(256), 256])]);
            store[link_at(l) + 4] = self.to(channels);
        }
        for c in 0..channels as usize {
            let fields = [near(200), near(60_000), near(480_000), near(16), 1 + self.to(1), self.to(3)];
            store[channel_at(c)..][..6].copy_from_slice(&fields);
        }
    }
}

impl Calls<'_> {
    // Where a channel's messages are to be in time: what it holds at some place can just be sent, or is just due, or the next
    // message is just within the burst. A slot, and the logical time that is to be moved there.
    fn aim(&self, room: &Room, channel: &Channel) -> Option<(u64, u64)> {
        let random = self.random;
        let near = |slot: u64| (slot + random.to(2)).saturating_sub(1);
        let holds = |j: &usize| channel.sent[*j] < channel.come(*j);
        let places: Vec<usize> = (0..channel.route.len()).filter(holds).collect();
        if places.is_empty() || random.chance(3) {
            let last = (room.clock + (channel.b - 1) * channel.p).checked_sub(channel.p)?;
            return Some((near(last), channel.time_of(channel.messages)));
        }
        let j = random.pick(&places);
        let oldest = *channel.under_way().last()?;
        let early = room.links[channel.route[j] as usize].horizon;
        let logical = channel.time_of(oldest) + channel.delay[..j].iter().sum::<u64>();
        Some((near(room.clock + random.pick(&[0, early, random.to(9), channel.delay[j]])), logical))
    }

    // All messages that a channel has under way, and the last one, as much earlier or later, if that can be.
    fn bring(&self, room: &mut Room, c: usize) {
        let Some((slot, logical)) = self.aim(room, &room.channels[c]) else { return };
        let channel = &mut room.channels[c];
        let mut kept = channel.under_way();
        if kept.is_empty() {
            kept.push(channel.messages);
        }
        let moved = |n: &u64| channel.time_of(*n) as i128 + slot as i128 - logical as i128;
        let times: Vec<(u64, i128)> = kept.iter().map(|n| (*n, moved(n))).collect();
        let latest = LATEST as i128 - channel.before_last() as i128;
        if times.iter().all(|(_, time)| (0..=latest).contains(time)) {
            times.iter().for_each(|(n, time)| channel.time[(n % 24) as usize] = *time as u64);
        }
    }

    // A sound room, most channels of which have something to do about the present slot.
    fn made_room(&mut self, size: Size) -> Room {
        let random = self.random;
        let (mut room, mut store) = store_with(random, size, "", &self.questions.store);
        room.clock = match random.to(9) {
            0 => END_SLOT,
            1 => END_SLOT - 1 - random.to(3),
            2 => random.to(9),
            3 => random.to(END_SLOT),
            _ => 5_000_000 + random.to(99),
        };
        for c in 0..room.channels.len() {
            if !random.chance(8) {
                self.bring(&mut room, c);
            }
        }
        room.write(&mut store);
        self.questions.become_store(&store);
        self.counts.kind(broken(&store).0.is_empty(), "wild stores that are sound");
        room
    }

    // One of the four calls.
    fn any_call(&mut self, length: usize, why: &str) {
        let (random, links, channels) = (self.random, self.questions.store[0], self.questions.store[1].min(64));
        match random.to(9) {
            0..=3 => {
                let channel = random.pick(&[random.to(channels), random.place_of(channels as usize) as u64]);
                let most = self.questions.store[channel_at(channel.min(63) as usize)];
                let packets = random.pick(&[1, 1, most, random.to(most.saturating_add(1).min(300))]);
                self.offer(length, channel, packets, why);
            }
            4..=7 => {
                let least = 5 * links.min(16);
                let room = random.pick(&[least, least, least + 3, 80, least.max(1) - 1, random.to(least)]);
                self.slot(length, room, why);
            }
            8 => self.idle(length, why),
            _ => {
                let some = random.pick(&[0, 1, random.to(999), u64::MAX]);
                self.skip(length, some, why);
            }
        }
    }

    // A call with a few numbers of the store changed; then they are what they were.
    pub fn damaged(&mut self, room: &Room) {
        let records = self.questions.store[..RECORDS].to_vec();
        let change = self.random.change(room, &self.questions.store);
        let old: Vec<(usize, u64)> = change.iter().map(|(at, _)| (*at, self.questions.store[*at])).collect();
        change.iter().for_each(|(at, value)| self.questions.put(*at, &[*value]));
        let sound = broken(&self.questions.store[..STORE]).0.is_empty();
        self.counts.kind(true, if sound { "damages still sound" } else { "damages not sound" });
        self.any_call(STORE, &format!("with a store changed at {change:?} from {old:?}"));
        old.iter().rev().for_each(|(at, value)| self.questions.put(*at, &[*value]));
        self.questions.become_store(&records);
    }

    // A room with a few calls, and a few more with numbers changed.
    pub fn wild_room(&mut self, size: Size, calls: u64) {
        let room = self.made_room(size);
        for _ in 0..calls {
            let length = self.random.pick(&LENGTHS);
            self.any_call(length, "in a made room");
        }
        (0..calls).for_each(|_| self.damaged(&room));
        self.questions.ask_sum(HELD, "a made room");
    }

    // A channel over a few links in a row with about as many messages under way as can be kept, about as many packets on its
    // first link as are reserved, or about as many messages as can be counted. The next message passes all checks but the
    // last.
    fn crammed_room(&self) -> Room {
        let random = self.random;
        let hops = 1 + random.to(2);
        let (c, p, b) = (2 + random.to(2), 1 + random.to(50), random.pick(&[2, 12, 16]));
        let link = |l| Link { from: l, to: l + 1, horizon: random.to(4), buffer: 256, rows: vec![Row { channel: 0, place: l }] };
        let delay = (0..hops).map(|_| 1 + random.to(p - 1)).collect();
        let route: Vec<u64> = (0..hops).collect();
        let (time, end) = ([0; 24], [0; 24]);
        let channel = Channel { c, p, d: 99, b, messages: 0, sent: vec![0; hops as usize], route, delay, time, end };
        let mut room = Room { clock: 9_999, links: (0..hops).map(link).collect(), channels: vec![channel] };
        let most = room.reserved(&room.channels[0], hops as usize - 1) as u64;
        self.cram(&mut room.channels[0], if hops > 1 { most } else { 0 });
        room
    }

    // The packets of messages that are under way stand on the first link, but for some on the last one.
    fn cram(&self, channel: &mut Channel, most: u64) {
        let random = self.random;
        let under_way = random.pick(&[22, 23, 23, 23, random.to(23)]).min(channel.b * channel.c);
        channel.messages = random.pick(&[under_way, 24 + random.to(99), LATEST - random.to(2)]);
        let before = channel.messages - under_way;
        let (mut time, mut end) = (9_999 - channel.p * under_way, before);
        channel.end[(before % 24) as usize] = end;
        for n in before + 1..=channel.messages {
            let more = channel.b * channel.c > end - before + channel.messages - n + 1 && random.chance(4);
            (time, end) = (time + channel.p, end + 1 + more as u64);
            (channel.time[(n % 24) as usize], channel.end[(n % 24) as usize]) = (time, end);
        }
        let last = channel.sent.len() - 1;
        let gone = if last > 0 { random.pick(&[0, random.to(most.min(end - before))]) } else { 0 };
        channel.sent[..last].fill(before + gone);
        channel.sent[last] = before;
    }

    pub fn crammed(&mut self) {
        let random = self.random;
        let room = self.crammed_room();
        let mut store = self.questions.store.clone();
        room.write(&mut store);
        self.questions.become_store(&store);
        self.counts.kind(broken(&store).0.is_empty(), "wild stores that are sound");
        self.offer(STORE, 0, random.pick(&[1, 1, room.channels[0].c]), "in a crammed room");
        self.slot(STORE, 80, "in a crammed room");
        self.offer(STORE, 0, 1, "in a crammed room");
    }

    // A room that breaks one rule: 17 from each call, and nothing changes.
    pub fn flawed_room(&mut self, flaw: &str, n: u64) {
        let (length, store) = flawed_store(self.random, flaw, n, &self.questions.store);
        self.questions.become_store(&store);
        let why = format!("in a store that breaks '{flaw}'");
        self.offer(length, self.random.to(2), self.random.to(2), &why);
        self.slot(length, self.random.pick(&[0, 80]), &why);
        self.idle(length, &why);
        self.skip(length, self.random.next(), &why);
    }
}
