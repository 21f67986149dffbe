// How often the answers to opens were what.
use super::{enough, Times};
use crate::fail;
use crate::models::opening::{Answer, Part, Refusal, Request};
use crate::models::room::{Room, Row};

#[derive(Default)]
pub struct Counts {
    answers: Times<u64>,
    places: Times<Refusal>,
    hops: Times<usize>,
    kinds: Times<&'static str>,
}

// Every kind of an accepted open that has to come up.
const KINDS: [&str; 13] = [
    "not the last row", "between rows", "equal delays", "not where its response was found", "response found between rows",
    "32nd row", "cut at p", "quotient rounded", "product past 32 bits", "response of p", "no slot to spare",
    "no packet to spare", "64th channel",
];

impl Counts {
    fn kind(&mut self, holds: bool, name: &'static str) {
        self.kinds.add(name, holds as u64);
    }

    pub fn answer(&mut self, room: &Result<Room, &str>, request: &Request, answer: &Answer) {
        match (answer, room) {
            (Ok((_, parts)), Ok(room)) => self.opened(room, request, parts),
            (Err(refusal), _) => {
                self.answers.add(refusal.0, 1);
                self.places.add(*refusal, 1);
            }
            _ => fail("opened in a store that cannot be read".to_string()),
        }
    }

    // `room` is as it was before.
    fn opened(&mut self, room: &Room, request: &Request, parts: &[Part]) {
        self.answers.add(0, 1);
        self.hops.add(parts.len(), 1);
        let all: u64 = parts.iter().map(|part| part.response).sum();
        self.kind(all == request.d, "no slot to spare");
        self.kind(room.channels.len() == 63, "64th channel");
        for (l, part) in request.route.iter().zip(parts) {
            let link = &room.links[*l as usize];
            let delay = |row: &Row| room.channels[row.channel as usize].delay[row.place as usize];
            let (rows, above) = (link.rows.len(), link.rows.iter().filter(|row| delay(row) <= part.delay).count());
            let more = (request.d - all) * part.response;
            self.kind(above < rows, "not the last row");
            self.kind(0 < above && above < rows, "between rows");
            self.kind(link.rows.iter().any(|row| delay(row) == part.delay), "equal delays");
            self.kind(above != part.q, "not where its response was found");
            self.kind(0 < part.q && part.q < rows, "response found between rows");
            self.kind(rows == 31, "32nd row");
            self.kind(part.response + more / all > request.p, "cut at p");
            self.kind(more % all != 0, "quotient rounded");
            self.kind(more >= 1 << 32, "product past 32 bits");
            self.kind(part.response == request.p, "response of p");
            self.kind(room.taken(link) as u64 + part.reserved == link.buffer, "no packet to spare");
        }
    }

    pub fn all(&self) -> u64 {
        self.answers.all()
    }

    pub fn print(&self) {
        println!("open: {} opens, as the library answers them; by number {:?}", self.all(), self.answers);
        for number in [3, 4, 5, 7, 8, 10] {
            let counts: Vec<u64> = (0..8).map(|place| self.places.of(&(number, place))).collect();
            println!("open: refusal {number} by place {counts:?}");
        }
        println!("open: opened by links of the route {:?}, and {:?}", self.hops, self.kinds);
    }

    // Fails where something came up too seldom.
    pub fn check(&self) {
        enough("an open", self.all(), 100_000);
        for number in [0, 1, 2, 3, 4, 5, 6, 7, 8, 9, 10, 14, 17] {
            enough(&format!("answer {number}"), self.answers.of(&number), 500);
        }
        for (number, first) in [(3, 0), (4, 1), (5, 1), (7, 0), (8, 0), (10, 0)] {
            for place in first..8 {
                enough(&format!("refusal {number} {place}"), self.places.of(&(number, place)), 20);
            }
        }
        for hops in 1..=8 {
            enough(&format!("a route of {hops} links"), self.hops.of(&hops), 500);
        }
        for kind in KINDS {
            enough(kind, self.kinds.of(&kind), 100);
        }
    }
}
