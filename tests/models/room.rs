// docs/STORE.md, and document 01 on set-up and on sound stores, once more and on their own: nothing here is taken from the
// Rattle sources. A room is read from a store as lists; the rules are then told of the lists, each by a name.
use std::collections::BTreeSet;

pub const STORE: usize = 65_536;
// The numbers of all records; those beyond are spare.
pub const RECORDS: usize = RECORD * 81;
pub const END_SLOT: u64 = 1_000_000_000_000;
// No other slot or message number exceeds this one.
pub const LATEST: u64 = 1_000_002_000_000;
const RECORD: usize = 96;

pub fn link_at(l: usize) -> usize {
    RECORD * (1 + l)
}

pub fn channel_at(c: usize) -> usize {
    RECORD * (17 + c)
}

#[derive(Clone, Copy, PartialEq)]
pub struct Row {
    pub channel: u64,
    pub place: u64,
}

pub struct Link {
    pub from: u64,
    pub to: u64,
    pub horizon: u64,
    pub buffer: u64,
    pub rows: Vec<Row>,
}

pub struct Channel {
    pub c: u64,
    pub p: u64,
    pub d: u64,
    pub b: u64,
    pub messages: u64,
    pub route: Vec<u64>,
    pub delay: Vec<u64>,
    pub sent: Vec<u64>,
    pub time: [u64; 24],
    pub end: [u64; 24],
}

pub struct Room {
    pub clock: u64,
    pub links: Vec<Link>,
    pub channels: Vec<Channel>,
}

// The names of the rules that do not hold.
pub struct Broken(pub BTreeSet<&'static str>);

impl Broken {
    fn unless(&mut self, holds: bool, name: &'static str) {
        if !holds {
            self.0.insert(name);
        }
    }
}

// Every name, so that a test can see that it tried each.
pub const RULES: [&str; 33] = [
    "length", "links", "channels", "rows", "hops", "clock", "node", "nodes equal", "horizon", "buffer", "C", "p", "D", "B",
    "link number", "link twice", "joined", "delay", "sent", "messages", "time", "accepted", "delivered", "packets",
    "spacing", "row of no channel", "row of no place", "row of another link", "row missing", "row twice", "row order",
    "held", "reserved",
];

impl Link {
    fn read(record: &[u64]) -> Result<Link, &'static str> {
        if record[4] > 32 {
            return Err("rows");
        }
        let rows = record[16..].chunks(2).take(record[4] as usize);
        let rows = rows.map(|row| Row { channel: row[0], place: row[1] }).collect();
        Ok(Link { from: record[0], to: record[1], horizon: record[2], buffer: record[3], rows })
    }

    fn write(&self, record: &mut [u64]) {
        record[..5].copy_from_slice(&[self.from, self.to, self.horizon, self.buffer, self.rows.len() as u64]);
        for (numbers, row) in record[16..].chunks_mut(2).zip(&self.rows) {
            numbers.copy_from_slice(&[row.channel, row.place]);
        }
    }

    // Check 16 on one link.
    fn check(&self, broken: &mut Broken) {
        broken.unless(self.from <= 255 && self.to <= 255, "node");
        broken.unless(self.from != self.to, "nodes equal");
        broken.unless(self.horizon <= 4_096, "horizon");
        broken.unless((1..=256).contains(&self.buffer), "buffer");
    }
}

impl Channel {
    fn read(record: &[u64]) -> Result<Channel, &'static str> {
        if !(1..=8).contains(&record[4]) {
            return Err("hops");
        }
        let part = |at: usize| record[at..at + record[4] as usize].to_vec();
        let ring = |at: usize| record[at..at + 24].try_into().unwrap();
        Ok(Channel {
            c: record[0],
            p: record[1],
            d: record[2],
            b: record[3],
            messages: record[5],
            route: part(8),
            delay: part(16),
            sent: part(24),
            time: ring(32),
            end: ring(56),
        })
    }

    fn write(&self, record: &mut [u64]) {
        record[..6].copy_from_slice(&[self.c, self.p, self.d, self.b, self.route.len() as u64, self.messages]);
        for (at, list) in [(8, &self.route), (16, &self.delay), (24, &self.sent)] {
            record[at..at + list.len()].copy_from_slice(list);
        }
        record[32..56].copy_from_slice(&self.time);
        record[56..80].copy_from_slice(&self.end);
    }

    pub fn time_of(&self, message: u64) -> u64 {
        self.time[(message % 24) as usize]
    }

    pub fn end_of(&self, message: u64) -> u64 {
        self.end[(message % 24) as usize]
    }

    // How many packets have come to a place of the route: those accepted, or those sent by the link before.
    pub fn come(&self, place: usize) -> u64 {
        if place == 0 { self.end_of(self.messages) } else { self.sent[place - 1] }
    }

    // The delays of all links but the last.
    pub fn before_last(&self) -> u128 {
        self.delay.iter().rev().skip(1).map(|delay| *delay as u128).sum()
    }

    fn delivered(&self, message: u64) -> bool {
        self.end_of(message) <= *self.sent.last().unwrap()
    }

    // The last 24 messages, or as many as there are with message 0, newest first.
    fn kept(&self) -> Vec<u64> {
        (0..=self.messages).rev().take(24).collect()
    }

    // The messages that one passes going back from the last to a delivered one.
    pub fn under_way(&self) -> Vec<u64> {
        self.kept().into_iter().take_while(|n| !self.delivered(*n)).collect()
    }

    fn check_numbers(&self, broken: &mut Broken) {
        broken.unless((1..=200).contains(&self.c), "C");
        broken.unless((1..=60_000).contains(&self.p), "p");
        broken.unless((1..=480_000).contains(&self.d), "D");
        broken.unless((1..=16).contains(&self.b), "B");
        broken.unless(self.delay.iter().all(|d| (1..=self.p).contains(d)), "delay");
    }

    // As docs/DECISIONS.md, "Soundness, where the sentence leaves room", has them, and not as document 01's sentence would have
    // to be read: "spacing", asked of any two messages under way, on one link or on two; "packets", of a whole message and
    // not of what is on one link; "accepted" and "sent", which the sentence does not name; "messages", which bounds how many
    // there are, where the sentence bounds their numbers, counted from 0; and "delivered", since 24 are kept.
    fn check_messages(&self, broken: &mut Broken) {
        broken.unless((0..self.sent.len()).all(|j| self.sent[j] <= self.come(j)), "sent");
        broken.unless(self.messages <= LATEST, "messages");
        let last_time = self.time_of(self.messages) as u128 + self.before_last();
        broken.unless(self.messages == 0 || last_time <= LATEST as u128, "time");
        broken.unless(self.come(0) as u128 <= self.c as u128 * self.messages as u128, "accepted");
        broken.unless(self.kept().iter().any(|n| self.delivered(*n)), "delivered");
        for n in self.under_way() {
            if n == 0 || self.messages - n == 23 {
                break; // none is kept before this one
            }
            let (end, before) = (self.end_of(n) as i128, self.end_of(n - 1) as i128);
            broken.unless((1..=self.c as i128).contains(&(end - before)), "packets");
            let apart = self.time_of(n) as i128 - self.time_of(n - 1) as i128;
            broken.unless(self.delivered(n - 1) || apart >= self.p as i128, "spacing");
        }
    }
}

impl Room {
    // The lists that the counts in a store speak of, or the name of a count that is out of range.
    pub fn read(store: &[u64]) -> Result<Room, &'static str> {
        if store.len() < STORE {
            return Err("length");
        }
        if !(1..=16).contains(&store[0]) {
            return Err("links");
        }
        if store[1] > 64 {
            return Err("channels");
        }
        let links = (0..store[0] as usize).map(|l| Link::read(&store[link_at(l)..][..RECORD]));
        let channels = (0..store[1] as usize).map(|c| Channel::read(&store[channel_at(c)..][..RECORD]));
        Ok(Room { clock: store[2], links: links.collect::<Result<_, _>>()?, channels: channels.collect::<Result<_, _>>()? })
    }

    // Writes the numbers that are looked at, and no other.
    pub fn write(&self, store: &mut [u64]) {
        store[..3].copy_from_slice(&[self.links.len() as u64, self.channels.len() as u64, self.clock]);
        for (l, link) in self.links.iter().enumerate() {
            link.write(&mut store[link_at(l)..][..RECORD]);
        }
        for (c, channel) in self.channels.iter().enumerate() {
            channel.write(&mut store[channel_at(c)..][..RECORD]);
        }
    }

    // Packets reserved for a channel at a place of its route.
    pub fn reserved(&self, channel: &Channel, place: usize) -> u128 {
        let wide = |n: u64| n as u128;
        if place == 0 {
            return wide(channel.b) * wide(channel.c);
        }
        let before = &self.links[channel.route[place - 1] as usize];
        let stretch = wide(before.horizon) + wide(channel.delay[place - 1]) + wide(channel.delay[place]);
        wide(channel.c).saturating_mul(1 + stretch.saturating_sub(2) / wide(channel.p))
    }

    // Packets reserved on a link, for all its rows.
    pub fn taken(&self, link: &Link) -> u128 {
        link.rows.iter().map(|row| self.reserved(&self.channels[row.channel as usize], row.place as usize)).sum()
    }

    // Rows stand by delay, then channel number.
    pub fn sort_rows(&mut self, l: usize) {
        let channels = &self.channels;
        self.links[l].rows.sort_by_key(|row| (channels[row.channel as usize].delay[row.place as usize], row.channel));
    }

    fn check_route(&self, route: &[u64], broken: &mut Broken) {
        let twice = |j: usize| route[..j].contains(&route[j]);
        let joined = |a: u64, b: u64| self.links[a as usize].to == self.links[b as usize].from;
        broken.unless(!(0..route.len()).any(twice), "link twice");
        broken.unless(route.windows(2).all(|pair| joined(pair[0], pair[1])), "joined");
    }

    // The link's rows are the channels routed over it, by delay and then by channel number.
    fn check_rows(&self, l: usize, broken: &mut Broken) {
        let mut routed = vec![];
        for (c, channel) in self.channels.iter().enumerate() {
            for (j, link) in channel.route.iter().enumerate() {
                if *link == l as u64 {
                    routed.push((channel.delay[j], c, j));
                }
            }
        }
        routed.sort();
        let right: Vec<Row> = routed.iter().map(|(_, c, j)| Row { channel: *c as u64, place: *j as u64 }).collect();
        let rows = &self.links[l].rows;
        for (k, row) in rows.iter().enumerate() {
            broken.unless(!rows[..k].contains(row), "row twice");
            match self.channels.get(row.channel as usize) {
                None => broken.unless(false, "row of no channel"),
                Some(channel) if row.place >= channel.route.len() as u64 => broken.unless(false, "row of no place"),
                Some(channel) => broken.unless(channel.route[row.place as usize] == l as u64, "row of another link"),
            }
        }
        broken.unless(right.iter().all(|row| rows.contains(row)), "row missing");
        let same = right.len() == rows.len() && right.iter().all(|row| rows.contains(row));
        broken.unless(!same || right == *rows, "row order");
    }

    fn check_space(&self, l: usize, broken: &mut Broken) {
        let mut all = 0u128;
        for channel in &self.channels {
            for j in (0..channel.route.len()).filter(|j| channel.route[*j] == l as u64) {
                let reserved = self.reserved(channel, j);
                broken.unless(channel.come(j).saturating_sub(channel.sent[j]) as u128 <= reserved, "held");
                all = all.saturating_add(reserved);
            }
        }
        broken.unless(all <= self.links[l].buffer as u128, "reserved");
    }

    fn broken(&self) -> Broken {
        let mut broken = Broken(BTreeSet::new());
        broken.unless(self.clock <= END_SLOT, "clock");
        self.links.iter().for_each(|link| link.check(&mut broken));
        self.channels.iter().for_each(|channel| channel.check_numbers(&mut broken));
        let exists = |l: &u64| *l < self.links.len() as u64;
        broken.unless(self.channels.iter().all(|channel| channel.route.iter().all(exists)), "link number");
        if broken.0.contains("link number") || self.channels.iter().any(|channel| channel.p == 0) {
            return broken; // the rules below make no sense
        }
        for channel in &self.channels {
            self.check_route(&channel.route, &mut broken);
            channel.check_messages(&mut broken);
        }
        for l in 0..self.links.len() {
            self.check_rows(l, &mut broken);
            self.check_space(l, &mut broken);
        }
        broken
    }
}

// The rules that a store breaks; it is sound if there are none.
pub fn broken(store: &[u64]) -> Broken {
    match Room::read(store) {
        Err(name) => Broken([name].into()),
        Ok(room) => room.broken(),
    }
}

// What set-up answers, and what it leaves in the store.
pub fn set_up(store: &mut [u64], links: &[u64]) -> (u64, u64) {
    let count = links.chunks(4).count();
    if count == 0 || count > 16 {
        return (16, 0);
    }
    for (place, numbers) in links.chunks(4).enumerate() {
        let mut broken = Broken(BTreeSet::new());
        match numbers {
            [from, to, horizon, buffer] => {
                Link { from: *from, to: *to, horizon: *horizon, buffer: *buffer, rows: vec![] }.check(&mut broken)
            }
            _ => return (16, place as u64),
        }
        if !broken.0.is_empty() {
            return (16, place as u64);
        }
    }
    if store.len() < STORE {
        return (17, 0);
    }
    store[..STORE].fill(0);
    store[0] = count as u64;
    for (l, numbers) in links.chunks(4).enumerate() {
        store[link_at(l)..][..4].copy_from_slice(numbers);
    }
    (0, 0)
}
