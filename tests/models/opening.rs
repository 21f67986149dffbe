// Document 01, "Opening", once more and on its own: nothing here is taken from the Rattle sources. What is to be the least or the
// smallest of its kind is found by trying one after the other.
use super::room::{broken, channel_at, Channel, Link, Room, Row, END_SLOT};

pub struct Request {
    pub c: u64,
    pub p: u64,
    pub d: u64,
    pub b: u64,
    pub route: Vec<u64>,
}

// The numbers of one link of the route, and the q at which the response was found.
pub struct Part {
    pub q: usize,
    pub response: u64,
    pub delay: u64,
    pub reserved: u64,
}

// A refusal's number and place.
pub type Refusal = (u64, u64);

// The new channel's number with the numbers per link, or a refusal.
pub type Answer = Result<(u64, Vec<Part>), Refusal>;

// A row of a link's table.
#[derive(Clone, Copy)]
struct Entry {
    c: u64,
    p: u64,
    delay: u64,
}

// The least r, from 1 to the limit, whose need is at most r. A row above sends a message at 0, p, 2p and so on, and the need is
// own C and the C of each message before r. It is the same for all r up to the next message, so one such stretch is tried
// after the other.
fn response(own: u64, above: &[Entry], limit: u64) -> Option<u64> {
    let mut need = own;
    let mut next = vec![0; above.len()];
    let mut r = 1;
    while r <= limit {
        for (row, next) in above.iter().zip(&mut next) {
            while *next < r {
                need += row.c;
                *next += row.p;
            }
        }
        let last = next.iter().copied().min().unwrap_or(limit).min(limit);
        if need <= last {
            return Some(need.max(r));
        }
        r = last + 1;
    }
    None
}

// q and r on a link with these rows.
fn search(rows: &[Entry], c: u64, p: u64) -> Option<(usize, u64)> {
    let mut below = vec![Entry { c, p, delay: 0 }];
    below.extend(rows);
    let has_response: Vec<bool> =
        rows.iter().enumerate().map(|(k, row)| response(row.c, &below[..=k], row.delay).is_some()).collect();
    let q = (0..=rows.len()).find(|q| has_response[*q..].iter().all(|has| *has)).unwrap();
    response(c, &rows[..q], p).map(|r| (q, r))
}

fn refused_unless(holds: bool, number: u64) -> Result<(), Refusal> {
    if holds { Ok(()) } else { Err((number, 0)) }
}

// Refused at the first place of the route where something is wrong.
fn refused_where(wrong: impl Fn(usize) -> bool, hops: usize, number: u64) -> Result<(), Refusal> {
    match (0..hops).find(|place| wrong(*place)) {
        Some(place) => Err((number, place as u64)),
        None => Ok(()),
    }
}

impl Request {
    fn link<'a>(&self, room: &'a Room, place: usize) -> &'a Link {
        &room.links[self.route[place] as usize]
    }

    // Checks 14 and 1 to 7.
    fn check(&self, room: &Room) -> Result<(), Refusal> {
        let hops = self.route.len();
        refused_unless(room.clock < END_SLOT, 14)?;
        refused_unless((1..=200).contains(&self.c) && (1..=60_000).contains(&self.p), 1)?;
        refused_unless((1..=480_000).contains(&self.d) && (1..=16).contains(&self.b), 1)?;
        refused_unless((1..=8).contains(&hops), 2)?;
        refused_where(|j| self.route[j] >= room.links.len() as u64, hops, 3)?;
        refused_where(|j| self.route[..j].contains(&self.route[j]), hops, 4)?;
        refused_where(|j| j > 0 && self.link(room, j).from != self.link(room, j - 1).to, hops, 5)?;
        refused_unless(room.channels.len() < 64, 6)?;
        refused_where(|j| self.link(room, j).rows.len() >= 32, hops, 7)
    }

    // q and the response on each link; check 8.
    pub fn responses(&self, room: &Room) -> Result<Vec<(usize, u64)>, Refusal> {
        self.check(room)?;
        let entry = |row: &Row| {
            let channel = &room.channels[row.channel as usize];
            Entry { c: channel.c, p: channel.p, delay: channel.delay[row.place as usize] }
        };
        let found = |place: usize| {
            let rows: Vec<Entry> = self.link(room, place).rows.iter().map(entry).collect();
            search(&rows, self.c, self.p).ok_or((8, place as u64))
        };
        (0..self.route.len()).map(found).collect()
    }

    // The numbers per link, before the buffers are looked at; check 9.
    pub fn parts(&self, room: &Room) -> Result<Vec<Part>, Refusal> {
        let found = self.responses(room)?;
        let all: u64 = found.iter().map(|(_, r)| r).sum();
        refused_unless(all <= self.d, 9)?;
        let share = |r: u64| r + (self.d - all) * r / all;
        let channel = self.channel(found.iter().map(|(_, r)| share(*r).min(self.p)).collect());
        let part = |(place, (q, r)): (usize, &(usize, u64))| {
            let reserved = room.reserved(&channel, place) as u64;
            Part { q: *q, response: *r, delay: channel.delay[place], reserved }
        };
        Ok(found.iter().enumerate().map(part).collect())
    }

    fn channel(&self, delay: Vec<u64>) -> Channel {
        let Request { c, p, d, b, .. } = *self;
        let (route, sent) = (self.route.clone(), vec![0; delay.len()]);
        Channel { c, p, d, b, messages: 0, route, delay, sent, time: [0; 24], end: [0; 24] }
    }

    // What an open answers in a sound room, and what it leaves in it.
    pub fn open(&self, room: &mut Room) -> Answer {
        let parts = self.parts(room)?;
        let full = |j: usize| room.taken(self.link(room, j)) as u64 + parts[j].reserved > self.link(room, j).buffer;
        refused_where(full, parts.len(), 10)?;
        self.add(room, &parts);
        Ok((room.channels.len() as u64 - 1, parts))
    }

    // The new channel with a row on each link of its route.
    fn add(&self, room: &mut Room, parts: &[Part]) {
        room.channels.push(self.channel(parts.iter().map(|part| part.delay).collect()));
        for (place, l) in self.route.iter().enumerate() {
            room.links[*l as usize].rows.push(Row { channel: room.channels.len() as u64 - 1, place: place as u64 });
            room.sort_rows(*l as usize);
        }
    }
}

// What an open answers, and what it leaves in the store.
pub fn open(store: &mut [u64], request: &Request) -> Answer {
    refused_unless(broken(store).0.is_empty(), 17)?;
    let mut room = Room::read(store).unwrap();
    let (channel, parts) = request.open(&mut room)?;
    store[channel_at(channel as usize)..channel_at(channel as usize + 1)].fill(0);
    room.write(store);
    Ok((channel, parts))
}

// As document 01's program prints it.
pub fn printed(answer: &Answer) -> String {
    match answer {
        Err((number, place)) => format!("refused {number} {place}"),
        Ok((channel, parts)) => {
            let part = |part: &Part| format!(" {}/{}/{}", part.response, part.delay, part.reserved);
            format!("channel {channel}{}", parts.iter().map(part).collect::<String>())
        }
    }
}
