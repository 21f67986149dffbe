// Document 01, "The program's listing", what is printed: the steps of a script, played in the rooms of tests/models/opening.rs
// and tests/models/queues.rs. Nothing here is taken from the Rattle sources.
use super::opening::{printed, Refusal, Request};
use super::queues::{Network, Send};
use super::reader::{steps, Step};
use super::room::{set_up, Room, STORE};

// As many numbers as a slot of 16 links needs for its sends.
const OUTPUT: u64 = 80;

pub struct Listing {
    pub room: Room,
    pub network: Network,
    pub out: Vec<u8>,
    // how many sends were early
    pub early: u64,
}

pub fn refused((number, place): Refusal) -> String {
    format!("refused {number} {place}")
}

pub fn sent(numbers: &[u64]) -> String {
    numbers.iter().fold("send".to_string(), |text, n| format!("{text} {n}"))
}

impl Listing {
    pub fn new() -> Listing {
        let room = Room { clock: 0, links: vec![], channels: vec![] };
        Listing { network: Network::new(&room), room, out: vec![], early: 0 }
    }

    fn say(&mut self, line: String) {
        self.out.extend(line.bytes());
        self.out.push(b'\n');
    }

    // Whether the run goes on.
    fn set_up(&mut self, links: &[u64]) -> bool {
        let mut store = vec![0; STORE];
        let (number, place) = set_up(&mut store, links);
        if number != 0 {
            self.say(refused((number, place)));
            return false;
        }
        self.room = Room::read(&store).unwrap();
        self.network = Network::new(&self.room);
        self.say(format!("links {}", self.room.links.len()));
        true
    }

    fn open(&mut self, request: &Request) {
        self.room.clock = self.network.slot;
        let answer = request.open(&mut self.room);
        self.network.add(&self.room);
        self.say(printed(&answer));
    }

    fn offer(&mut self, channel: u64, packets: u64) {
        match self.network.offer(channel, packets) {
            Ok((message, logical)) => self.say(format!("accept {channel} {message} {logical}")),
            Err(number) => self.say(refused((number, 0))),
        }
    }

    fn sends(&mut self, sends: &[Send]) {
        for send in sends {
            self.early += send.early as u64;
            self.say(sent(&send.numbers));
        }
    }

    // Slots, up to the first that is refused. Where nothing was sent, those in which nothing can be are passed at once.
    fn tick(&mut self, slots: u64) {
        let mut left = slots;
        while left > 0 {
            match self.network.run(OUTPUT) {
                Ok(sends) => {
                    self.sends(&sends);
                    left -= 1;
                    let idle = if sends.is_empty() { self.network.idle().map_or(0, |idle| idle.min(left)) } else { 0 };
                    self.network.slot += idle;
                    left -= idle;
                }
                Err(number) => {
                    self.say(refused((number, 0)));
                    left = 0;
                }
            }
        }
        self.network.check();
        self.say(format!("slot {}", self.network.slot));
    }

    // Whether the run goes on.
    pub fn step(&mut self, step: &Step) -> bool {
        match step {
            Step::SetUp(links) => return self.set_up(links),
            Step::Open(request) => self.open(request),
            Step::Offer(channel, packets) => self.offer(*channel, *packets),
            Step::Tick(slots) => self.tick(*slots),
            Step::Bad(line) => self.say(format!("bad {line}")),
        }
        true
    }
}

// A script, played to its end.
pub fn play(script: &[u8]) -> Listing {
    let mut listing = Listing::new();
    let _ = steps(script).iter().all(|step| listing.step(step));
    listing
}
