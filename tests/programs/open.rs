// Opening: the library against tests/models/opening.rs.
//
//   open worked COMMAND..   the opens of document 01's listing and its figures on opening, which the library, behind COMMAND
//                           (tests/c/driver.c), answers as they are printed there
//   open random COMMAND..   over 100,000 opens in random rooms, which the library answers as tests/models/opening.rs does, and
//                           after which it leaves the same store; SEED=N before the command makes for others
//
// Rooms grow by opens from a set-up, messages and numbers that nobody looks at put in between, until little more fits; others
// are made as tests/random/rooms.rs does. What is asked for lies close to what can be had: D about the sum of the responses, p
// about the largest of them, buffers just large enough or one packet too small. So that nothing can be left out unseen, every
// answer, and every place of a refusal, has to come up a good many times.
use crate::asking::calls::ask_open;
use crate::asking::questions::{Questions, HELD, LENGTHS};
use crate::counting::opens::Counts;
use crate::models::opening::{printed, Request};
use crate::models::room::{channel_at, link_at, Room, END_SLOT, RECORDS, RULES, STORE};
use crate::random::requests::{network, Style};
use crate::random::rooms::{flawed_store, store_with, Maker, Size};
use crate::random::{Random, SEED};
use crate::{fail, setting};

struct Opens<'a> {
    random: &'a Random,
    questions: Questions,
    counts: Counts,
}

impl<'a> Opens<'a> {
    fn new(random: &'a Random) -> Opens<'a> {
        Opens { random, questions: Questions::new(), counts: Counts::default() }
    }

    // An open, here and by the library; gives back the line that document 01's program prints.
    fn ask(&mut self, length: usize, request: &Request, what: &str) -> String {
        let before = Room::read(&self.questions.store);
        let answer = ask_open(&mut self.questions, length, request, what);
        self.counts.answer(&before, request, &answer);
        printed(&answer)
    }

    fn room(&self) -> Room {
        Room::read(&self.questions.store).unwrap_or_else(|name| fail(format!("a room breaks '{name}'")))
    }

    // The records become those of this room, and what is not looked at stays.
    fn become_room(&mut self, room: &Room, mut records: Vec<u64>) {
        room.write(&mut records);
        self.questions.become_store(&records);
    }

    // Other messages for some channel, as if it had offered and sent for a while.
    fn put_messages(&mut self) {
        let mut room = self.room();
        if !room.channels.is_empty() {
            let c = self.random.place_of(room.channels.len());
            Maker::new(self.random, Size::Small, "").add_messages(&mut room, c);
            self.become_room(&room, self.questions.store[..RECORDS].to_vec());
        }
    }

    // Any numbers where nobody looks: in the next channel's record, in that of a link or of a channel, in the head or beyond.
    fn put_noise(&mut self) {
        let (random, room) = (self.random, self.room());
        let at = match random.to(7) {
            0 => 0,
            1 => RECORDS + random.to(50_000) as usize,
            2 | 3 => channel_at(random.place_of(room.channels.len())),
            4 | 5 => link_at(random.place_of(room.links.len())),
            _ => channel_at(room.channels.len()),
        };
        let shift = random.to(63);
        let noise: Vec<u64> = (0..96).map(|_| random.next() >> shift).collect();
        self.questions.put(at, &noise);
        self.become_room(&room, self.questions.store[..RECORDS].to_vec());
    }

    // The buffers along the route made just large enough, or one of them a packet too small; then they are what they were.
    fn ask_tight(&mut self, request: &Request) {
        let room = self.room();
        let parts = request.parts(&room).unwrap_or_default();
        let short = self.random.pick(&[self.random.to(7) as usize, 8]);
        let mut old = vec![];
        for (j, part) in parts.iter().enumerate() {
            let l = request.route[j] as usize;
            let all = room.taken(&room.links[l]) as u64 + part.reserved - (j == short) as u64;
            if (1..=256).contains(&all) {
                old.push((l, room.links[l].buffer));
                self.questions.put(link_at(l) + 3, &[all]);
            }
        }
        self.ask(STORE, request, "with buffers just large enough");
        let room = self.room();
        for (l, buffer) in old {
            self.questions.put(link_at(l) + 3, &[buffer.max(room.taken(&room.links[l]) as u64)]);
        }
    }

    // A few numbers of the store changed, and then all that differs changed back.
    fn ask_changed(&mut self, request: &Request) {
        let records = self.questions.store[..RECORDS].to_vec();
        let change = self.random.change(&self.room(), &self.questions.store);
        let old: Vec<(usize, u64)> = change.iter().map(|(at, _)| (*at, self.questions.store[*at])).collect();
        change.iter().for_each(|(at, value)| self.questions.put(*at, &[*value]));
        self.ask(STORE, request, &format!("with a store changed at {change:?} from {old:?}"));
        old.iter().rev().for_each(|(at, value)| self.questions.put(*at, &[*value]));
        self.questions.become_store(&records);
    }

    fn ask_at_the_end(&mut self, request: &Request) {
        let clock = self.questions.store[2];
        self.questions.put(2, &[END_SLOT - self.random.to(3) / 3]);
        self.ask(STORE, request, "with a clock about the end slot");
        self.questions.put(2, &[clock]);
    }

    fn ask_short(&mut self, request: &Request) {
        let length = self.random.pick(&[0, STORE - 1, self.random.to(STORE as u64 - 1) as usize]);
        self.ask(length, request, "in a short store");
    }

    fn ask_one(&mut self, style: &Style) {
        let random = self.random;
        match random.to(39) {
            0..=2 => self.put_messages(),
            3..=5 => self.put_noise(),
            _ => {}
        }
        let request = style.request(random, &self.room());
        match random.to(49) {
            0 => self.ask_at_the_end(&request),
            1 => self.ask_changed(&request),
            2 => self.ask_short(&request),
            3..=8 => self.ask_tight(&request),
            _ => {
                self.ask(random.pick(&LENGTHS), &request, "in a sound store");
            }
        }
    }

    // From a set-up on, until little more fits.
    fn grown_room(&mut self, size: Size) {
        self.questions.fill(self.random.next());
        let links = network(self.random, size);
        self.questions.ask_set_up(self.random.pick(&LENGTHS), &links);
        let style = Style::new(self.random, links.len() / 4);
        let mut in_vain = 0;
        while in_vain < 12 {
            let channels = self.questions.store[1];
            self.ask_one(&style);
            in_vain = if self.questions.store[1] == channels { in_vain + 1 } else { 0 };
        }
        self.questions.ask_sum(HELD, "a room that has grown");
    }

    // A room as tests/random/rooms.rs makes them, whose rows need not have a response; less its last channels, if it is full.
    fn made_room(&mut self, size: Size, opens: u64) {
        let random = self.random;
        let (mut room, store) = store_with(random, size, "", &self.questions.store);
        if size == Size::Full {
            room.channels.truncate(64 - random.to(4) as usize);
            let channels = room.channels.len() as u64;
            room.links.iter_mut().for_each(|link| link.rows.retain(|row| row.channel < channels));
        }
        if room.clock == END_SLOT && !random.chance(8) {
            room.clock -= 1;
        }
        self.become_room(&room, store);
        for _ in 0..opens {
            let style = Style::new(random, room.links.len());
            self.ask_one(&style);
        }
        self.questions.ask_sum(HELD, "a room that was made");
    }

    // A room that breaks one rule: 17, whatever else is wrong.
    fn flawed_room(&mut self, flaw: &str, n: u64) {
        let (length, store) = flawed_store(self.random, flaw, n, &self.questions.store);
        self.questions.become_store(&store);
        let request = Request { c: self.random.to(2), p: 100, d: 1_000, b: 1, route: vec![self.random.to(5)] };
        self.ask(length, &request, &format!("in a store that breaks '{flaw}'"));
    }
}

fn random(command: &[String]) {
    let seed = setting("SEED", SEED);
    println!("open: seed {seed}");
    let random = Random::new(seed);
    let mut opens = Opens::new(&random);
    while opens.counts.all() < 85_000 {
        opens.grown_room(random.pick(&[Size::Small, Size::Middle, Size::Middle, Size::Full]));
    }
    for (size, rooms) in [(Size::Small, 600), (Size::Middle, 600), (Size::Crowded, 40), (Size::Full, 150)] {
        (0..rooms).for_each(|_| opens.made_room(size, 12));
    }
    for flaw in RULES {
        (0..15).for_each(|n| opens.flawed_room(flaw, n));
    }
    let Opens { questions, counts, .. } = opens;
    questions.hold_against(command);
    counts.print();
    counts.check();
}

// Document 01: the opens of "The program's listing", those of "Figures to hold against it" that are about opening, with what has
// to come before them, and the first of "Errors that look right". Each is a room, as the program reads it and prints it.
const WORKED: [(&str, &str); 9] = [
    (
        "link 0 1 0 64, link 1 2 0 64, open 2 10 8 2 0 1, open 3 12 6 1 0, open 1 5 4 1 1, open 3 10 5 1 0",
        "links 2, channel 0 2/4/4 2/4/2, channel 1 5/6/3, channel 2 1/4/1, refused 9 0",
    ),
    // rows (1, 4, 2) and (2, 6, 3), new C 3: p = 9 is refusal 8, p = 10 has response 10
    (
        "link 0 1 0 64, open 1 4 2 1 0, open 2 6 3 1 0, open 3 9 20 1 0, open 3 10 9 1 0, open 3 10 10 1 0",
        "links 1, channel 0 1/2/1, channel 1 3/3/2, refused 8 0, refused 9 0, channel 2 10/10/3",
    ),
    // row (1, 2, 2), new C 1, p 2: response 1; the same again: refusal 8
    (
        "link 0 1 0 64, open 1 2 2 1 0, open 1 2 2 1 0, open 1 2 2 1 0",
        "links 1, channel 0 1/2/1, channel 1 1/2/1, refused 8 0",
    ),
    // responses 2 and 3, D = 11, p = 20: delays 4 and 6
    (
        "link 0 1 0 64, link 1 2 0 64, open 1 20 1 1 1, open 2 20 11 1 0 1",
        "links 2, channel 0 1/1/1, channel 1 2/4/2 3/6/2",
    ),
    // one link, r = 2, p = 10, D = 40: d = 10
    ("link 0 1 0 64, open 2 10 40 1 0", "links 1, channel 0 2/10/2"),
    // r = 5 on one link: D = 4 refusal 9, D = 5 accepted
    ("link 0 1 0 64, open 5 10 4 1 0, open 5 10 5 1 0", "links 1, refused 9 0, channel 0 5/5/5"),
    // C 2, p 10, d' = d = 4: h = 3 reserves 2, h = 4 reserves 4
    ("link 0 1 3 64, link 1 2 0 64, open 2 10 8 1 0 1", "links 2, channel 0 2/4/2 2/4/2"),
    ("link 0 1 4 64, link 1 2 0 64, open 2 10 8 1 0 1", "links 2, channel 0 2/4/2 2/4/4"),
    // each response is found above all rows; the rows then stand by delay: channels 0, 2, 1
    (
        "link 0 1 0 64, open 1 10 5 1 0, open 1 20 9 1 0, open 1 30 7 1 0",
        "links 1, channel 0 1/5/1, channel 1 1/9/1, channel 2 1/7/1",
    ),
];

// The numbers after the first word of each line that starts with `word`.
fn lines(text: &str, word: &str) -> Vec<Vec<u64>> {
    let numbers = |line: &str| line.split(' ').skip(1).map(|n| n.parse().unwrap()).collect();
    text.split(", ").filter(|line| line.starts_with(word)).map(numbers).collect()
}

fn worked(command: &[String]) {
    let random = Random::new(1);
    let mut opens = Opens::new(&random);
    for (read, right) in WORKED {
        let links = lines(read, "link").concat();
        opens.questions.ask_set_up(STORE, &links);
        let mut output = vec![format!("links {}", links.len() / 4)];
        for numbers in lines(read, "open") {
            let request = Request { c: numbers[0], p: numbers[1], d: numbers[2], b: numbers[3], route: numbers[4..].to_vec() };
            output.push(opens.ask(STORE, &request, read));
        }
        if output.join(", ") != right {
            fail(format!("{read}\ndocument 01: {right}\nworked out here: {}", output.join(", ")));
        }
        opens.questions.ask_sum(HELD, read);
    }
    opens.questions.hold_against(command);
    println!("open: {} worked opens in {} rooms, as document 01 has them", opens.counts.all(), WORKED.len());
}

pub fn main(words: &[String]) {
    match words.split_first() {
        Some((mode, command)) if mode == "worked" && !command.is_empty() => worked(command),
        Some((mode, command)) if mode == "random" && !command.is_empty() => random(command),
        _ => fail("use: open worked COMMAND.., or open random COMMAND..".to_string()),
    }
}
