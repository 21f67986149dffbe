// What set-ups and opens ask for. Opens ask as a rule for what lies close to what can be had: D about the sum of the responses,
// p about the largest.
use super::rooms::{Maker, Size};
use super::Random;
use crate::models::opening::Request;
use crate::models::room::{Link, Room};

// The links of a network, four numbers each. Most buffers are alike.
pub fn network(random: &Random, size: Size) -> Vec<u64> {
    let buffer = random.pick(&[256, 256, 1 + random.to(255)]);
    let numbers = |link: &Link| {
        let own = if random.chance(8) { 1 + random.to(255) } else { buffer };
        [link.from, link.to, link.horizon, own]
    };
    Maker::new(random, size, "").make_links().iter().flat_map(numbers).collect()
}

// Four numbers a link, all good or with one or two that are bad, or may be.
pub fn some_links(random: &Random, numbers: usize) -> Vec<u64> {
    let mut links = vec![];
    while links.len() < numbers {
        let from = random.pick(&[0, 255, random.to(255)]);
        let to = random.pick(&[0, 255, random.to(255), from ^ 1]);
        let horizon = random.pick(&[0, 4_096, random.to(4_096)]);
        links.extend([from, if to == from { from ^ 128 } else { to }, horizon, random.pick(&[1, 256, 1 + random.to(255)])]);
    }
    links.truncate(numbers);
    for _ in 0..random.pick(&[0, 0, 0, 1, 2]).min(numbers) {
        let at = random.place_of(numbers);
        links[at] = match at % 4 {
            0 => random.pick(&[random.above(255), links[(at + 1) % numbers]]),
            1 => random.pick(&[random.above(255), links[at - 1]]),
            2 => random.above(4_096),
            _ => random.pick(&[0, random.above(256)]),
        };
    }
    links
}

// What the channels of a room are like.
pub struct Style {
    pub c: u64,
    pub p: (u64, u64),
    pub b: u64,
    pub hops: u64,
    // whether a channel or two take nearly a whole link, so that the responses of others are long
    pub heavy: bool,
    // whether D is often no more than it has to be
    pub tight: bool,
    // a link that most routes go over
    pub favourite: Option<u64>,
}

impl Style {
    pub fn new(random: &Random, links: usize) -> Style {
        let heavy = random.chance(5);
        let (c, p, b) = match random.to(6) {
            _ if heavy => (50, (20_000, 60_000), 1),
            0 | 1 => (1, (200, 5_000), 1),
            2 => (2, (60, 600), 2),
            3 => (3, (2, 40), 2),
            4 => (8, (10, 300), 4),
            5 => (200, (50, 2_000), 16),
            _ => (20, (1_000, 60_000), 3),
        };
        let hops = random.pick(if heavy { &[1, 1, 2] } else { &[2, 8, 8, 8] });
        let favourite = random.chance(3).then(|| random.to(links as u64 - 1));
        Style { c, p, b, hops, heavy, tight: random.chance(2), favourite }
    }

    // Links that join, as many as are wished for or as there are; over the favourite one, if a dozen tries find such a route.
    fn route(&self, random: &Random, room: &Room) -> Vec<u64> {
        let hops = random.pick(&[self.hops, 1 + random.to(self.hops - 1)]) as usize;
        let mut route = vec![];
        for _ in 0..12 {
            route = walk(random, room, hops);
            if self.favourite.map_or(true, |l| route.contains(&l)) {
                break;
            }
        }
        route
    }

    // C and p.
    fn load(&self, random: &Random) -> (u64, u64) {
        let p = self.p.0 + random.to(self.p.1 - self.p.0);
        match self.heavy {
            true => random.pick(&[(1, 2), (99, 199), (self.c - random.to(25), p)]),
            false => (1 + random.to(self.c - 1), p),
        }
    }

    // D; `all` is the sum of the responses, 0 where one is missing.
    fn delay(&self, random: &Random, all: u64, request: &Request) -> u64 {
        match random.to(5) {
            0 => all,
            1 if self.tight => all.max(1) - 1,
            2 | 3 if self.tight => all + random.to(all),
            // the product in the share is then 2^32 and a little
            _ if self.heavy => all + (1 << 32) / all.max(1) + random.to(99),
            4 => 1 + random.to(479_999),
            _ => all + random.to(2 * request.p * request.route.len() as u64),
        }
    }

    pub fn request(&self, random: &Random, room: &Room) -> Request {
        let (c, p) = self.load(random);
        let mut request = Request { c, p, d: 480_000, b: 1 + random.to(self.b - 1), route: self.route(random, room) };
        if random.chance(8) {
            if let Ok(found) = request.responses(room) {
                let most = found.iter().map(|(_, r)| *r).max().unwrap();
                request.p = random.pick(&[most, most, most.max(2) - 1]);
            }
        }
        let all = request.responses(room).map_or(0, |found| found.iter().map(|(_, r)| r).sum());
        request.d = self.delay(random, all, &request).clamp(1, 480_000);
        if random.chance(8) {
            random.spoil(room, &mut request);
        }
        request
    }
}

// Links that join, none of them twice; now and then one that is full.
fn walk(random: &Random, room: &Room, hops: usize) -> Vec<u64> {
    let full = random.chance(3);
    let mut route: Vec<u64> = vec![];
    while route.len() < hops {
        let joins = |l: &u64| {
            let link = &room.links[*l as usize];
            let after = route.last().map_or(true, |before| room.links[*before as usize].to == link.from);
            after && !route.contains(l) && (full || link.rows.len() < 32)
        };
        let options: Vec<u64> = (0..room.links.len() as u64).filter(joins).collect();
        if options.is_empty() {
            break;
        }
        route.push(random.pick(&options));
    }
    route
}

impl Random {
    // One or two things that are wrong, or may be.
    fn spoil(&self, room: &Room, request: &mut Request) {
        for _ in 0..1 + self.to(2) / 2 {
            match self.to(11) {
                0 => request.c = self.pick(&[0, 201, self.above(200)]),
                1 => request.p = self.pick(&[0, 60_001, self.above(60_000)]),
                2 => request.d = self.pick(&[0, 480_001, self.above(480_000)]),
                3 => request.b = self.pick(&[0, 17, self.above(16)]),
                4 => request.route = self.no_route(room.links.len() as u64),
                _ if request.route.is_empty() => {}
                _ => self.spoil_route(room, &mut request.route),
            }
        }
    }

    fn no_route(&self, links: u64) -> Vec<u64> {
        let hops = self.pick(&[0, 9, 9, 10, 16, 300]);
        (0..hops).map(|j| self.pick(&[j % links, self.to(links)])).collect()
    }

    // A link that does not exist, one that stands twice, or one that as a rule does not join.
    fn spoil_route(&self, room: &Room, route: &mut [u64]) {
        let links = room.links.len() as u64;
        let at = self.place_of(route.len());
        route[at] = match self.to(5) {
            0 | 1 => self.pick(&[links, links, self.above(links), self.above(16)]),
            2 | 3 => route[self.to(route.len() as u64 - 1) as usize],
            _ => {
                let ends = if at == 0 { None } else { room.links.get(route[at - 1] as usize).map(|before| before.to) };
                let apart = |l: &u64| Some(room.links[*l as usize].from) != ends && !route.contains(l);
                let options: Vec<u64> = (0..links).filter(apart).collect();
                if options.is_empty() { self.to(links - 1) } else { self.pick(&options) }
            }
        };
    }
}
