// Random scripts: rooms that are set up, filled and used, up to the end slot and past it; and set-ups that are refused. A
// script is played while it is written, so that what it asks for lies close to what can be had.
use super::loads::{dense, InUse, Loads};
use super::requests::{network, Style};
use super::rooms::Size;
use super::Random;
use crate::models::listing::Listing;
use crate::models::queues::Network;
use crate::models::reader::Reader;
use crate::models::room::END_SLOT;

pub struct Author<'a> {
    random: &'a Random,
    text: Vec<u8>,
    lines: u64,
    reader: Reader,
    listing: Listing,
    // how many bytes of it stood before the last line
    before: usize,
}

impl<'a> Author<'a> {
    fn new(random: &'a Random) -> Author<'a> {
        Author { random, text: vec![], lines: 0, reader: Reader::new(), listing: Listing::new(), before: 0 }
    }

    fn line(&mut self, line: &str) {
        self.text.extend(line.bytes().chain([b'\n']));
        self.lines += 1;
        self.before = self.listing.out.len();
        for step in self.reader.line(line.as_bytes()) {
            self.listing.step(&step);
        }
    }

    // Now and then with leading zeros.
    fn say(&mut self, word: &str, numbers: &[u64]) {
        let zeros = if self.random.chance(40) { "0".repeat(1 + self.random.to(20) as usize) } else { String::new() };
        let line = numbers.iter().fold(word.to_string(), |line, n| format!("{line} {zeros}{n}"));
        self.line(&line);
    }

    // The network, and a line that sets it up and changes nothing else.
    fn links(&mut self, links: &[u64]) {
        links.chunks(4).for_each(|link| self.say("link", link));
        match self.random.to(2) {
            0 => self.line(""),
            1 => self.say("offer", &[0, 1]),
            _ => self.say("tick", &[0]),
        }
    }

    fn slot(&self) -> u64 {
        self.network().slot
    }

    fn bad_line(&mut self) {
        let line = self.random.pick(&[
            "", " ", "link 0 1 0 64", "link", "open", "open 1 2 3", "offer", "offer 0", "offer 0 1 2", "tick", "tick 1 2",
            "Tick 1", "ticks 1", "stop", "tick -1", "tick +1", "tick 1x", "tick  1", "tick 1 ", " tick 1",
            "tick 18446744073709551616", "tick\t1", "tick 1\r", "offer 0 1\0", "send 0 0 0 0 0",
            "open 1 10 10 1  0", "#", "é", "offer 0 one",
        ]);
        self.line(line);
    }

    // A tick over slots in most of which nothing is sent, or to the end slot and perhaps past it.
    fn long_tick(&mut self) {
        let (random, left) = (self.random, END_SLOT - self.slot());
        let slots = match random.to(30) {
            0 => random.pick(&[left, left + 1, left.max(1) - 1, u64::MAX]),
            1 => random.to(left),
            _ => random.pick(&[self.network().idle().unwrap_or(0).min(200_000), random.to(2_000), random.to(200_000)]),
        };
        self.say("tick", &[slots]);
    }

    fn step(&mut self, loads: &mut Loads, style: &Style) {
        let random = self.random;
        match random.to(59) {
            0 | 1 => self.bad_offer(),
            2 | 3 => {
                self.open_some(style);
                loads.add(random, &self.listing.network);
            }
            4 => self.bad_line(),
            5 => self.say("tick", &[0]),
            6 => self.long_tick(),
            _ => {}
        }
        self.offers(loads);
        let slots = random.pick(&[1, 1 + random.to(2), loads.pace, 1 + random.to(loads.pace)]);
        self.say("tick", &[slots]);
    }

    // Opens, and then steps up to about so many lines; a few at the end slot.
    fn play(mut self, style: &Style, lines: u64) -> Vec<u8> {
        let random = self.random;
        let kind = random.to(2);
        if kind != 0 {
            self.fill(style);
        }
        if kind != 1 {
            self.fill(&dense(random));
        }
        if random.chance(6) {
            self.say("tick", &[END_SLOT - random.to(2 * lines)]);
        }
        let mut loads = Loads::new(random);
        loads.add(random, &self.listing.network);
        let mut at_the_end = 0;
        while self.lines < lines && at_the_end < 4 {
            self.step(&mut loads, style);
            at_the_end += (self.slot() == END_SLOT) as u64;
        }
        self.text
    }
}

impl InUse for Author<'_> {
    fn random(&self) -> &Random {
        self.random
    }

    fn network(&self) -> &Network {
        &self.listing.network
    }

    fn open_some(&mut self, style: &Style) {
        let request = style.request(self.random, &self.listing.room);
        let numbers = [&[request.c, request.p, request.d, request.b], &request.route[..]].concat();
        self.say("open", &numbers);
    }

    fn offer_some(&mut self, channel: u64, packets: u64) -> bool {
        self.say("offer", &[channel, packets]);
        self.listing.out[self.before..].starts_with(b"accept")
    }
}

// A room in use, in about so many lines.
pub fn used(random: &Random, size: Size, lines: u64) -> Vec<u8> {
    let mut author = Author::new(random);
    let links = network(random, size);
    author.links(&links);
    let style = Style::new(random, links.len() / 4);
    author.play(&style, lines)
}

// Many small channels, as many as there can be in all or on one link; then a few slots.
pub fn crowded(random: &Random) -> Vec<u8> {
    let mut author = Author::new(random);
    let nodes = random.pick(&[2, 4, 8]);
    let links: Vec<u64> = (0..16).flat_map(|l| [l % nodes, (l + 1) % nodes, random.to(20), 256]).collect();
    author.links(&links);
    let favourite = random.chance(2).then(|| random.to(15));
    let style = Style { c: 1, p: (500, 5_000), b: 1, hops: random.pick(&[1, 2, 4]), heavy: false, tight: false, favourite };
    author.fill(&style);
    author.play(&style, 150)
}

// A set-up that as a rule is refused, and lines after it that are then not read.
pub fn refused(random: &Random) -> Vec<u8> {
    let mut author = Author::new(random);
    let mut links = network(random, Size::Full);
    links.truncate(4 * random.pick(&[0, 1, 2, 16, 16, 1 + random.to(15) as usize]));
    if links.is_empty() || random.chance(12) {
        let more = random.pick(&[0, 17, 18, 33, 40 + random.to(2_000) as usize]);
        links = [0, 1, 0, 64].repeat(more);
    } else {
        let at = 4 * random.place_of(links.len() / 4);
        match random.to(7) {
            0 => links[at] = random.above(255),
            1 => links[at + 1] = random.above(255),
            2 => links[at + 2] = random.above(4_096),
            3 => links[at + 3] = random.pick(&[0, 257, random.above(256)]),
            4 => links[at + 1] = links[at],
            _ => {}
        }
    }
    links.chunks(4).for_each(|link| author.say("link", link));
    if random.chance(5) {
        author.say(random.pick(&["links", "linked", "link\r", "Link"]), &[0, 1, 0, 64]);
    }
    (0..random.to(3)).for_each(|_| author.bad_line());
    author.text.extend(b"tick 5\n".repeat(random.to(1) as usize));
    author.text
}
