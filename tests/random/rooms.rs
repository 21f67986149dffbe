// Rooms, written to a store: sound as they are made, or with one flaw that is asked for by the name of a rule in
// tests/models/room.rs, which also says which rules are our choice. A flaw is kept apart from the other rules as well as may be;
// whether the store breaks that rule alone, the caller sees.
use super::Random;
use crate::asking::questions::LENGTHS;
use crate::fail;
use crate::models::room::{broken, channel_at, link_at, Channel, Link, Room, Row, END_SLOT, LATEST, STORE};

#[derive(Clone, Copy, PartialEq)]
pub enum Size {
    Small,
    Middle,
    // as many rows as go on one or two links
    Crowded,
    // 16 links with 32 rows each, 64 channels over 8 links each
    Full,
}

// Makes one room. `flaw` is the rule to break, or empty; where a link or a channel breaks it, `link` or `channel` does.
pub struct Maker<'a> {
    random: &'a Random,
    size: Size,
    flaw: &'a str,
    links: usize,
    channels: usize,
    link: usize,
    channel: usize,
}

impl<'a> Maker<'a> {
    pub fn new(random: &'a Random, size: Size, flaw: &'a str) -> Maker<'a> {
        let (mut links, mut channels) = match size {
            Size::Small => (1 + random.to(4), random.to(4)),
            Size::Middle => (1 + random.to(15), random.to(20)),
            Size::Crowded => (1 + random.to(1), 64),
            Size::Full => (16, 64),
        };
        match flaw {
            "links" => (links, channels) = (random.pick(&[0, 17]), 0),
            "channels" => (links, channels) = (16, 65),
            "link number" => links += 1,
            _ => {}
        }
        let (links, channels) = (links as usize, channels as usize);
        Maker { random, size, flaw, links, channels, link: random.place_of(links), channel: random.place_of(channels) }
    }

    fn make(self) -> Room {
        let mut room = Room { clock: 0, links: self.make_links(), channels: vec![] };
        room.clock = match self.random.to(3) {
            _ if self.flaw == "clock" => self.random.above(END_SLOT),
            0 => 0,
            1 => END_SLOT,
            _ => self.random.to(END_SLOT),
        };
        for _ in 0..self.channels {
            self.add_channel(&mut room);
        }
        for l in 0..room.links.len() {
            room.sort_rows(l);
            self.set_buffer(&mut room, l);
        }
        for c in 0..room.channels.len() {
            self.add_messages(&mut room, c);
        }
        self.spoil_rows(&mut room);
        room
    }

    // Links round a ring of nodes, so that long routes are found, or between any nodes.
    pub fn make_links(&self) -> Vec<Link> {
        let nodes = match self.size {
            Size::Full => self.random.pick(&[2, 4, 8]),
            _ => 2 + self.random.to(4) as usize,
        };
        let first = self.random.pick(&[0, 1, 100, 256 - nodes as u64]);
        let mut names: Vec<u64> = (0..nodes as u64).map(|n| first + n).collect();
        if self.flaw == "node" {
            names[self.random.place_of(nodes)] = self.random.above(255);
        }
        let ring = self.size == Size::Full || !self.random.chance(3);
        let early = self.random.pick(&[0, 20, 20, 4_096]);
        let mut links = vec![];
        for i in self.random.shuffled(self.links) {
            let at = if ring { i % nodes } else { self.random.to(nodes as u64 - 1) as usize };
            let step = if ring { 1 } else { 1 + self.random.to(nodes as u64 - 2) as usize };
            let horizon = self.random.pick(&[0, early, self.random.to(early)]);
            links.push(Link { from: names[at], to: names[(at + step) % nodes], horizon, buffer: 0, rows: vec![] });
        }
        match self.flaw {
            "nodes equal" => links[self.link].to = links[self.link].from,
            "horizon" => links[self.link].horizon = self.random.above(4_096),
            _ => {}
        }
        links
    }

    // A channel with its rows, unless 20 tries find none that fits.
    fn add_channel(&self, room: &mut Room) {
        let flaw = if room.channels.len() == self.channel { self.flaw } else { "" };
        for _ in 0..20 {
            let channel = self.channel_over(room, flaw);
            let fits = |j: usize| {
                let link = &room.links[channel.route[j] as usize];
                room.taken(link) + room.reserved(&channel, j) <= 256
            };
            if (channel.route.is_empty() && flaw != "hops") || !(0..channel.route.len()).all(fits) {
                continue;
            }
            for (j, l) in channel.route.iter().enumerate() {
                room.links[*l as usize].rows.push(Row { channel: room.channels.len() as u64, place: j as u64 });
            }
            room.channels.push(channel);
            return;
        }
    }

    fn channel_over(&self, room: &Room, flaw: &str) -> Channel {
        let random = self.random;
        let (mut c, mut b) = (1 + random.to(2), 1 + random.to(1));
        if [Size::Small, Size::Middle].contains(&self.size) {
            c = random.pick(&[1, 1 + random.to(3), 1 + random.to(19), 1 + random.to(199)]);
            b = random.pick(&[1, 1 + random.to(3), 16]);
        }
        let mut p = match self.size {
            Size::Full => 20_000 + random.to(40_000),
            _ => random.pick(&[1 + random.to(4), 1 + random.to(50), 1 + random.to(59_999), 60_000]),
        };
        let mut d = random.pick(&[1, 1 + random.to(479_999), 480_000]);
        match flaw {
            "C" => (c, b) = (random.pick(&[0, 201, 202 + random.to(50)]), 1),
            "p" => p = random.pick(&[0, 60_001, 60_001 + random.to(999_999)]),
            "D" => d = random.pick(&[0, random.above(480_000)]),
            "B" => (c, b) = (1, random.pick(&[0, 17, 18 + random.to(200)])),
            _ => {}
        }
        let route = self.route(room, flaw);
        let mut delay: Vec<u64> = route.iter().map(|_| self.delay(p)).collect();
        if flaw == "delay" && !delay.is_empty() {
            delay[random.place_of(route.len())] = random.pick(&[0, random.above(p)]);
        }
        let sent = vec![0; route.len()];
        Channel { c, p, d, b, messages: 0, route, delay, sent, time: [0; 24], end: [0; 24] }
    }

    // Small delays are common, so that rows often stand by channel number.
    fn delay(&self, p: u64) -> u64 {
        let random = self.random;
        match random.to(3) {
            _ if p == 0 => 1,
            0 => 1 + random.to(p.min(3) - 1),
            1 => p,
            _ => 1 + random.to(p - 1),
        }
    }

    fn route(&self, room: &Room, flaw: &str) -> Vec<u64> {
        let astray = if flaw == "joined" { 1 + self.random.to(6) as usize } else { 8 };
        let hops = match self.size {
            _ if flaw == "hops" => 0,
            _ if flaw == "p" => 1,
            _ if flaw == "joined" => 8,
            Size::Full => 8,
            Size::Crowded => 1,
            _ => 1 + self.random.to(7) as usize,
        };
        let most_rows = if self.flaw == "rows" { 33 } else { 32 };
        let mut route: Vec<u64> = vec![];
        while route.len() < hops {
            let open = |l: &u64| {
                let link = &room.links[*l as usize];
                let joins = route.last().map_or(true, |before| room.links[*before as usize].to == link.from);
                let again = route.contains(l) && flaw != "link twice";
                joins == (route.len() != astray) && link.rows.len() < most_rows && !again
            };
            let mut options: Vec<u64> = (0..room.links.len() as u64).filter(open).collect();
            if self.size == Size::Full {
                let rows = |l: &u64| room.links[*l as usize].rows.len();
                let least = options.iter().map(rows).min();
                options.retain(|l| Some(rows(l)) == least);
            }
            if options.is_empty() {
                break;
            }
            route.push(self.random.pick(&options));
        }
        route
    }

    // The buffer is often no larger than it has to be.
    fn set_buffer(&self, room: &mut Room, l: usize) {
        let all = room.taken(&room.links[l]) as u64;
        let least = all.max(1);
        room.links[l].buffer = match self.flaw {
            "buffer" if l == self.link => if all == 0 { 0 } else { self.random.above(256) },
            "reserved" if l == self.link => all.saturating_sub(1 + self.random.to(1)).max(1),
            "row twice" | "row of another link" => 256,
            _ => self.random.pick(&[least, least, least + self.random.to(256 - least.min(256)), 256]),
        };
    }

    // Messages of the channel, some of them under way, and their packets along the route.
    pub fn add_messages(&self, room: &mut Room, c: usize) {
        let random = self.random;
        let flaw = if c == self.channel { self.flaw } else { "" };
        let places = 0..room.channels[c].route.len();
        let mut most: Vec<u64> = places.map(|j| room.reserved(&room.channels[c], j) as u64).collect();
        let channel = &mut room.channels[c];
        // one place may have to hold more than is reserved, or one less than nothing
        let place = random.place_of(most.len());
        match flaw {
            "held" => most[place] += 1 + random.pick(&[0, random.to(9)]),
            "sent" => most[place] = 0,
            _ => {}
        }
        // a packet that the other places hold instead, or that is of an older message
        let more = ["sent", "delivered"].contains(&flaw) as u64;
        channel.messages = self.messages(flaw);
        let packets = self.packets(channel, most.iter().sum::<u64>().saturating_sub(more), flaw);
        let before = self.packets_before(channel, &packets, flaw);
        let all: u64 = packets.iter().sum();
        let gone = match packets.first() {
            Some(first) if *first > 0 && flaw != "delivered" => random.pick(&[0, first - 1, random.to(first - 1)]),
            _ => 0,
        };
        let mut held = self.spread(all - gone + more, &most, (flaw == "held").then_some(place));
        if flaw == "sent" {
            held[place] = -1;
        }
        let mut come = (before + all) as i64;
        for (sent, held) in channel.sent.iter_mut().zip(held) {
            come -= held;
            *sent = come as u64;
        }
        self.fill_rings(channel, &packets, before, flaw);
    }

    fn messages(&self, flaw: &str) -> u64 {
        let random = self.random;
        match random.to(6) {
            _ if flaw == "hops" => 0,
            _ if flaw == "messages" => LATEST + 1 + random.pick(&[0, random.to(50), random.to(LATEST)]),
            0 => 0,
            1 | 2 => 1 + random.to(4),
            3 => random.to(30),
            4 => LATEST - random.pick(&[0, random.to(30)]),
            _ => random.to(LATEST),
        }
    }

    // How many packets each message under way has, oldest first; all together there is room for `most`.
    fn packets(&self, channel: &Channel, most: u64, flaw: &str) -> Vec<u64> {
        let random = self.random;
        let kept = if channel.c == 0 { 0 } else { channel.messages.min(23) };
        let count = if flaw == "delivered" { kept } else { random.pick(&[0, kept, random.to(kept)]) };
        let style = random.to(3);
        let of_one = |_| match style { 0 | 1 => 1, 2 => channel.c, _ => 1 + random.to(channel.c - 1) };
        let mut packets: Vec<u64> = (0..count).map(of_one).collect();
        if flaw == "packets" && count > 0 {
            packets[random.place_of(count as usize)] = random.pick(&[0, channel.c + 1, channel.c + 1 + random.to(20)]);
        }
        while packets.iter().sum::<u64>() > most {
            packets.pop();
        }
        packets
    }

    // How many packets the messages before those had.
    fn packets_before(&self, channel: &Channel, packets: &[u64], flaw: &str) -> u64 {
        let random = self.random;
        let messages = channel.messages - packets.len() as u64;
        let most = (channel.c * channel.messages).saturating_sub(packets.iter().sum());
        let before = match random.to(4) {
            0 => most,
            1 => most.min(messages),
            _ => most.min(messages + random.to(channel.c.max(1) * messages - messages)),
        };
        match flaw {
            "accepted" => most + 1 + random.pick(&[0, random.to(9)]),
            "delivered" => before.max(1),
            _ => before,
        }
    }

    // So many packets over the places of a route, at most so many in each; `first` gets as many as it can.
    fn spread(&self, mut packets: u64, most: &[u64], first: Option<usize>) -> Vec<i64> {
        let mut held = vec![0; most.len()];
        for j in first.into_iter().chain(self.random.shuffled(most.len())) {
            let can = packets.min(most[j] - held[j]);
            let some = if Some(j) == first { can } else { self.random.pick(&[can, self.random.to(can)]) };
            held[j] += some;
            packets -= some;
        }
        for j in 0..most.len() {
            let rest = packets.min(most[j] - held[j]);
            held[j] += rest;
            packets -= rest;
        }
        held.iter().map(|n| *n as i64).collect()
    }

    // The rings: the messages under way, the last delivered one, and in the other places numbers that nobody looks at.
    fn fill_rings(&self, channel: &mut Channel, packets: &[u64], before: u64, flaw: &str) {
        let random = self.random;
        for n in 0..24 {
            (channel.time[n], channel.end[n]) = match random.to(3) {
                0 => (random.next(), random.next()),
                1 => (random.to(9), before.saturating_sub(random.to(9))),
                _ => (0, 0),
            };
        }
        let p = channel.p as i64;
        let more = |_| p + random.pick(&[0, 0, random.to(9), random.to(99_999)]) as i64;
        let mut apart: Vec<i64> = packets.iter().skip(1).map(more).collect();
        if flaw == "spacing" && !apart.is_empty() {
            let at = random.place_of(apart.len());
            apart[at] = random.pick(&[p - 1, p - 1, random.to(p as u64 - 1) as i64, -p]);
        }
        let span = apart.iter().sum::<i64>().max(0) as u64;
        // the largest time at the source that is not too large on the last link
        let latest = LATEST.saturating_sub(channel.before_last() as u64);
        let last = match random.to(4) {
            _ if flaw == "time" => latest + 1 + random.pick(&[0, random.to(9), random.to(LATEST)]),
            0 if !apart.iter().any(|a| *a < 0) => span,
            1 => latest,
            _ => span + channel.p + random.to(latest - span - channel.p),
        };

        let mut n = channel.messages;
        let (mut time, mut end) = (last, before + packets.iter().sum::<u64>());
        for i in (0..packets.len()).rev() {
            (channel.time[(n % 24) as usize], channel.end[(n % 24) as usize]) = (time, end);
            end -= packets[i];
            n -= 1;
            if i > 0 {
                time = (time as i64 - apart[i - 1]) as u64;
            }
        }
        channel.end[(n % 24) as usize] = end;
        if packets.is_empty() && n > 0 {
            channel.time[(n % 24) as usize] = time;
        }
    }

    fn spoil_rows(&self, room: &mut Room) {
        let random = self.random;
        if room.channels.is_empty() {
            return;
        }
        let rows = &mut room.links[self.link].rows;
        let at = random.place_of(rows.len());
        match self.flaw {
            "row missing" if !rows.is_empty() => {
                rows.remove(at);
            }
            "row twice" if !rows.is_empty() => rows.insert(at, rows[at]),
            "row order" if rows.len() > 1 => rows.swap(at.max(1), random.pick(&[at.max(1) - 1, 0])),
            "row of another link" => {
                let channel = random.place_of(room.channels.len());
                let place = random.place_of(room.channels[channel].route.len());
                rows.push(Row { channel: channel as u64, place: place as u64 });
                room.sort_rows(self.link);
            }
            _ => {}
        }
    }
}

// A store with such a room. What is not looked at holds 0, any numbers, small ones, or what stood there.
pub fn store_with(random: &Random, size: Size, flaw: &str, old: &[u64]) -> (Room, Vec<u64>) {
    let room = if flaw == "hops" && random.chance(2) { nine_hops(random) } else { Maker::new(random, size, flaw).make() };
    let mut store = old.to_vec();
    let style = random.to(5);
    let records = [(0, 1), (link_at(0), room.links.len() + 1), (channel_at(0), room.channels.len() + 1)];
    for (at, count) in records {
        for number in &mut store[at..at + 96 * count] {
            *number = match style { 0 | 1 => 0, 2 => random.next(), 3 => random.to(9), _ => *number };
        }
    }
    room.write(&mut store);
    // A link or a channel that is there but is not counted, a route that ends before its last row.
    match flaw {
        "link number" => store[0] -= 1,
        "row of no channel" => store[1] = store[1].saturating_sub(1),
        "row of no place" if !room.channels.is_empty() => {
            store[channel_at(random.place_of(room.channels.len())) + 4] -= 1;
        }
        _ => {}
    }
    (room, store)
}

// A length and a store that break one rule and no other; `n` counts the stores that have been asked for.
pub fn flawed_store(random: &Random, flaw: &str, n: u64, old: &[u64]) -> (usize, Vec<u64>) {
    let size = match flaw {
        "rows" | "channels" => Size::Crowded,
        "row twice" | "row of another link" | "joined" => random.pick(&[Size::Small, Size::Middle]),
        _ if n % 100 == 0 => Size::Full,
        _ => random.pick(&[Size::Small, Size::Small, Size::Small, Size::Middle]),
    };
    let length = match flaw {
        "length" => random.pick(&[0, 1, 96, STORE - 1, random.to(STORE as u64 - 1) as usize]),
        _ => random.pick(&LENGTHS),
    };
    let mut tries = (0..5_000).map(|_| store_with(random, size, flaw, old).1);
    let found = tries.find(|store| broken(&store[..length]).0 == [flaw].into());
    (length, found.unwrap_or_else(|| fail(format!("no room breaks '{flaw}' alone"))))
}

// A route of nine links, if what follows the eighth number of each list of a channel is taken for the ninth.
fn nine_hops(random: &Random) -> Room {
    let link = |l| Link { from: l, to: l + 1, horizon: 0, buffer: 256, rows: vec![Row { channel: 0, place: l }] };
    let packets = 1 + random.to(20);
    let messages = 1 + packets;
    let (route, mut delay, sent) = ((0..9).collect(), vec![8; 8], vec![packets; 9]);
    delay.push(packets);
    let (mut time, mut end) = ([0; 24], [0; 24]);
    (time[0], end[messages as usize]) = (packets, packets);
    let channel = Channel { c: 2, p: 60_000, d: 480_000, b: 1, messages, route, delay, sent, time, end };
    Room { clock: 0, links: (0..9).map(link).collect(), channels: vec![channel] }
}
