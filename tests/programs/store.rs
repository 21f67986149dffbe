// Set-up and sound stores: the library against tests/models/room.rs.
//
//   store damaged FILE       what crates/vectors_damage printed, worked out again
//   store worked COMMAND..   the library, behind COMMAND (tests/c/driver.c), says of stores with large times whether they are
//                            sound, as it is written out here
//   store random COMMAND..   the library says of over 100,000 stores whether they are sound, and sets up some 3,000 networks,
//                            as tests/models/room.rs does
//
// The stores are rooms that are sound as they are made, up to full ones; rooms made to break one rule and no other; sound
// rooms with a number or a few changed; and stores of any numbers. So that no rule can be left out unseen, each has to be
// the only one broken in a good many of them.
use crate::asking::calls::told_offer;
use crate::asking::questions::{Questions, HELD, LENGTHS};
use crate::fail;
use crate::models::room::{broken, set_up, Channel, Link, Room, Row, RULES, STORE};
use crate::random::requests::some_links;
use crate::random::rooms::{flawed_store, store_with, Size};
use crate::random::{Random, SEED};
use std::collections::BTreeMap;

// The questions, and how many of the stores were what.
struct Stores {
    questions: Questions,
    sound: u64,
    unsound: u64,
    alone: BTreeMap<&'static str, u64>,
}

impl Stores {
    fn ask_sound(&mut self, length: usize, what: &str) {
        let broken = broken(&self.questions.store[..length]).0;
        match broken.len() {
            0 => self.sound += 1,
            _ => self.unsound += 1,
        }
        if broken.len() == 1 {
            *self.alone.entry(broken.first().unwrap()).or_insert(0) += 1;
        }
        let why = format!("{what}, breaks {broken:?}");
        self.questions.ask(format!("sound {length}"), (broken.is_empty() as u64).to_string(), why);
    }

    // The store with some numbers changed, and changed back.
    fn ask_changed(&mut self, change: &[(usize, u64)]) {
        let old: Vec<(usize, u64)> = change.iter().map(|(at, _)| (*at, self.questions.store[*at])).collect();
        for (at, value) in change {
            self.questions.put(*at, &[*value]);
        }
        self.ask_sound(STORE, &format!("a sound room changed at {change:?} from {old:?}"));
        for (at, value) in old.iter().rev() {
            self.questions.put(*at, &[*value]);
        }
    }
}

// Sound rooms, and what becomes of them by small changes.
fn sound_rooms(random: &Random, stores: &mut Stores, size: Size, rooms: u64, changes: u64) {
    for n in 0..rooms {
        if n % 100 == 0 {
            stores.questions.fill(random.next());
        }
        let (room, store) = store_with(random, size, "", &stores.questions.store);
        let full = room.channels.len() == 64 && room.links.iter().all(|link| link.rows.len() == 32);
        let broken = broken(&store).0;
        if !broken.is_empty() || (size == Size::Full && !full) {
            fail(format!("a room that should be sound breaks {broken:?}, or one that should be full is not"));
        }
        stores.questions.become_store(&store);
        stores.ask_sound(random.pick(&LENGTHS), "a sound room");
        for _ in 0..changes {
            stores.ask_changed(&random.change(&room, &store));
        }
        stores.questions.ask_sum(HELD, "what was put");
    }
}

// Rooms that break one rule and no other.
fn flawed_rooms(random: &Random, stores: &mut Stores, flaw: &str, rooms: u64) {
    for n in 0..rooms {
        let (length, store) = flawed_store(random, flaw, n, &stores.questions.store);
        stores.questions.become_store(&store);
        stores.ask_sound(length, "a room with one flaw");
    }
}

fn wild_stores(random: &Random, stores: &mut Stores, count: u64) {
    for _ in 0..count {
        let mut store = stores.questions.store.clone();
        random.any_numbers(&mut store);
        stores.questions.become_store(&store);
        stores.ask_sound(STORE, "any numbers");
    }
    stores.questions.ask_sum(HELD, "what was put");
}

// Set-ups over any numbers, over a room and over what the one before left. How many gave 0, 16 and 17.
fn set_ups(random: &Random, stores: &mut Stores, count: usize) -> (u64, u64, u64) {
    let (mut done, mut bad, mut short) = (0, 0, 0);
    for n in 0..count {
        match random.to(2) {
            0 => stores.questions.fill(random.next() >> random.to(63)),
            1 => stores.questions.become_store(&store_with(random, Size::Small, "", &stores.questions.store).1),
            _ => {}
        }
        let any = random.to(STORE as u64 - 1) as usize;
        let length = random.pick(&[STORE, STORE, STORE, STORE + 1, HELD, STORE - 1, any, 0]);
        // every length from 0 to 70 in turn, and as often one that may do
        let numbers = if n % 2 == 0 { n / 2 % 71 } else { 4 + 4 * random.to(15) as usize };
        match stores.questions.ask_set_up(length, &some_links(random, numbers)) {
            0 => done += 1,
            16 => bad += 1,
            _ => short += 1,
        }
        stores.ask_sound(STORE, "after a set-up");
    }
    (done, bad, short)
}

fn random(command: &[String]) {
    let random = Random::new(SEED);
    let mut stores = Stores { questions: Questions::new(), sound: 0, unsound: 0, alone: BTreeMap::new() };
    let (done, bad, short) = set_ups(&random, &mut stores, 3_000);
    sound_rooms(&random, &mut stores, Size::Small, 900, 50);
    sound_rooms(&random, &mut stores, Size::Middle, 250, 120);
    sound_rooms(&random, &mut stores, Size::Crowded, 40, 100);
    sound_rooms(&random, &mut stores, Size::Full, 25, 300);
    for flaw in RULES {
        // crowded rooms are long, and small changes break these two often enough
        flawed_rooms(&random, &mut stores, flaw, if ["rows", "channels"].contains(&flaw) { 40 } else { 200 });
    }
    wild_stores(&random, &mut stores, 6_000);
    let Stores { questions, sound, unsound, alone } = stores;
    questions.hold_against(command);
    let least = RULES.iter().map(|rule| *alone.get(rule).unwrap_or(&0)).min().unwrap();
    let all = sound + unsound;
    if all < 100_000 || sound < all / 10 || unsound < all / 10 || least < 100 {
        fail(format!("the stores are lopsided: {sound} sound, {unsound} not, these break one rule alone: {alone:?}"));
    }
    if done < 500 || bad < 500 || short < 300 {
        fail(format!("the set-ups are lopsided: {done} done, {bad} with bad links, {short} in short stores"));
    }
    println!("store: {done} networks set up, {bad} refused for their links, {short} for a short store, as the library says");
    println!("store: {sound} stores sound, {unsound} not, each rule broken alone in at least {least}, as the library says");
}

// The room of document 01's listing, its four offers made, three slots on. Channel 2 has no message yet.
fn listing() -> Room {
    let link = |from, rows: [(u64, u64); 2]| Link {
        from,
        to: from + 1,
        horizon: 0,
        buffer: 64,
        rows: rows.iter().map(|&(channel, place)| Row { channel, place }).collect(),
    };
    let channel = |[c, p, d, b]: [u64; 4], places: &[[u64; 3]], messages: &[(u64, u64)]| {
        let mut channel = Channel {
            c,
            p,
            d,
            b,
            messages: messages.len() as u64,
            route: places.iter().map(|place| place[0]).collect(),
            delay: places.iter().map(|place| place[1]).collect(),
            sent: places.iter().map(|place| place[2]).collect(),
            time: [0; 24],
            end: [0; 24],
        };
        for (n, &(time, end)) in messages.iter().enumerate() {
            channel.time[n + 1] = time;
            channel.end[n + 1] = end;
        }
        channel
    };
    Room {
        clock: 3,
        links: vec![link(0, [(0, 0), (1, 0)]), link(1, [(0, 1), (2, 0)])],
        channels: vec![
            channel([2, 10, 8, 2], &[[0, 4, 2], [1, 4, 0]], &[(0, 2), (10, 4)]),
            channel([3, 12, 6, 1], &[[0, 6, 1]], &[(0, 3)]),
            channel([1, 5, 4, 1], &[[1, 4, 0]], &[]),
        ],
    }
}

// "no other slot or message number exceeds 1,000,002,000,000": a channel of that room, what stands there as the time of its
// last message, and whether the store is then sound.
const LAST_TIMES: [(usize, u64, bool); 8] = [
    // two links, with a delay of 4 on the first
    (0, 1_000_001_999_996, true),
    (0, 1_000_001_999_997, false),
    (0, 1_000_002_000_000, false),
    // one link
    (1, 1_000_002_000_000, true),
    (1, 1_000_002_000_001, false),
    // no message, so that nobody reads what stands there
    (2, 1_000_002_000_000, true),
    (2, 1_000_002_000_001, true),
    (2, u64::MAX, true),
];

// The library says so when it is asked, and in an offer of no packets, which gives 12 in a sound store and 17 in another.
fn worked(command: &[String]) {
    let mut questions = Questions::new();
    for (c, time, sound) in LAST_TIMES {
        let mut room = listing();
        let last = room.channels[c].messages as usize;
        room.channels[c].time[last] = time;
        let mut store = vec![0; STORE];
        room.write(&mut store);
        let why = format!("the last message of channel {c} at {time}");
        if broken(&store).0.is_empty() != sound {
            fail(format!("{why}: tests/models/room.rs says that the store breaks {:?}", broken(&store).0));
        }
        questions.become_store(&store);
        questions.ask(format!("sound {STORE}"), (sound as u64).to_string(), why.clone());
        questions.ask(format!("offer {STORE} 0 0"), told_offer(Err(if sound { 12 } else { 17 })), why);
    }
    questions.hold_against(command);
    println!("store: {} stores with large times, as the library says", LAST_TIMES.len());
}

// What the program prints of one store.
fn damages(store: &mut [u64]) -> String {
    let verdict = |store: &[u64]| if broken(store).0.is_empty() { " +" } else { " -" };
    let mut right = format!("sound{}\n", verdict(store));
    let mut matter = 0;
    for at in 0..STORE {
        let value = store[at];
        let mut line = format!("{at} {value}");
        for other in [value + 1, value.saturating_sub(1), 0, u64::MAX] {
            store[at] = other;
            line += verdict(store);
        }
        store[at] = value;
        if line.contains('-') {
            matter += 1;
            right += &line;
            right += "\n";
        }
    }
    right + &format!("numbers that matter {matter}\n")
}

fn damaged(file: &str) {
    let mut store = vec![0; STORE];
    set_up(&mut store, &[0, 1, 0, 64, 1, 2, 0, 64]);
    let mut right = damages(&mut store);
    listing().write(&mut store);
    right += &damages(&mut store);
    let printed = std::fs::read_to_string(file).unwrap_or_else(|e| fail(format!("{file}: {e}")));
    if let Some((a, b)) = printed.lines().zip(right.lines()).find(|(a, b)| a != b) {
        fail(format!("{file} has '{a}' where '{b}' is right"));
    }
    if printed != right {
        fail(format!("{file} has {} lines where {} are right", printed.lines().count(), right.lines().count()));
    }
    println!("store: {} damages of two sound stores, as printed", 8 * STORE);
}

pub fn main(words: &[String]) {
    match words.split_first() {
        Some((mode, command)) if mode == "worked" && !command.is_empty() => worked(command),
        Some((mode, command)) if mode == "random" && !command.is_empty() => random(command),
        Some((mode, [file])) if mode == "damaged" => damaged(file),
        _ => fail("use: store damaged FILE, store worked COMMAND.. or store random COMMAND..".to_string()),
    }
}
