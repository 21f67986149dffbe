// Offering messages, running slots and long waits: the library against tests/models/queues.rs and tests/models/counters.rs.
//
//   traffic worked COMMAND..   document 01's listing and its figures on offers and slots, which the library, behind COMMAND
//                              (tests/c/driver.c), answers as they are printed there
//   traffic random COMMAND..   random rooms in use, and stores that no calls lead to, in which the library answers as they do.
//                              SLOTS=N before the command runs about so many slots, SEED=N makes for others; EACH=1 has
//                              every slot asked for by itself, so that the first that differs is seen
//
// Rooms grow by opens from a set-up, are offered what their channels may be offered at most, or less, or what is refused, and
// run until many links are busy; others wait for long. So that nothing can be left out unseen, every answer, early sends,
// ties and sends in the last slot for a packet have to come up a good many times.
use crate::asking::calls::Calls;
use crate::asking::live::Live;
use crate::asking::questions::{spaced, Questions, LENGTHS};
use crate::models::opening::{printed, Request};
use crate::models::room::{RULES, STORE};
use crate::random::rooms::Size;
use crate::random::traffic::some_network;
use crate::random::{Random, SEED};
use crate::{fail, setting};
use std::thread::JoinHandle;

// How many slots `random` runs.
const SLOTS: u64 = 600_000;

// Asks the library all that has come together, while the next questions are worked out.
struct Library {
    command: Vec<String>,
    asked: Option<JoinHandle<()>>,
}

impl Library {
    fn answers(&mut self, questions: Questions) {
        if let Some(asked) = self.asked.take() {
            asked.join().unwrap();
        }
        let command = self.command.clone();
        self.asked = Some(std::thread::spawn(move || questions.hold_against(&command)));
    }
}

fn random(command: &[String]) {
    let (seed, slots) = (setting("SEED", SEED), setting("SLOTS", SLOTS));
    println!("traffic: seed {seed}, {slots} slots");
    let random = Random::new(seed);
    let mut library = Library { command: command.to_vec(), asked: None };
    let mut calls = Calls::new(&random);
    while calls.counts.ran() < slots {
        calls.questions.fill(random.next());
        calls.questions.ask_set_up(random.pick(&LENGTHS), &some_network(&random));
        let mut live = Live::new(calls, setting("EACH", 0) == 1);
        live.play(1_000 + random.to(4_000));
        calls = live.calls;
        library.answers(std::mem::replace(&mut calls.questions, Questions::new()));
    }
    for (size, rooms) in [(Size::Small, 600), (Size::Middle, 300), (Size::Crowded, 20), (Size::Full, 20)] {
        (0..rooms).for_each(|_| calls.wild_room(size, 10));
    }
    (0..1_000).for_each(|_| calls.crammed());
    for flaw in RULES {
        (0..10).for_each(|n| calls.flawed_room(flaw, n));
    }
    let Calls { questions, counts, .. } = calls;
    library.answers(questions);
    library.answers(Questions::new());
    counts.print();
    counts.check();
}

// Document 01's listing, whole; its figures on offers and slots; and what follows from two of its "errors that look right".
// Each is a room, as the program reads it and prints it, with two lines that the program does not have: `skip` slots, which
// prints how many were skipped; and `message` channel, packets, logical time, a message that is in the store without an
// offer.
const WORKED: [(&str, &str); 9] = [
    (
        "link 0 1 0 64, link 1 2 0 64, open 2 10 8 2 0 1, open 3 12 6 1 0, open 1 5 4 1 1, open 3 10 5 1 0, \
         offer 0 2, offer 0 2, offer 0 1, offer 1 3, tick 6",
        "links 2, channel 0 2/4/4 2/4/2, channel 1 5/6/3, channel 2 1/4/1, refused 9 0, accept 0 0 0, accept 0 1 10, \
         refused 13 0, accept 1 0 0, send 0 0 0 0 0, send 1 0 0 0 1, send 2 0 1 0 0, send 3 0 1 0 1, send 4 0 1 0 2, \
         send 4 1 0 0 0, send 5 1 0 0 1, slot 6",
    ),
    // logical time 4, horizon 3, nothing current: not sent in slot 0, sent in slot 1; horizon 4: sent in slot 0
    (
        "link 0 1 3 64, open 1 10 10 1 0, message 0 1 4, tick 1, tick 1",
        "links 1, channel 0 1/10/1, slot 1, send 1 0 0 0 0, slot 2",
    ),
    ("link 0 1 4 64, open 1 10 10 1 0, message 0 1 4, tick 1", "links 1, channel 0 1/10/1, send 0 0 0 0 0, slot 1"),
    // the same ten slots later, by offers alone: logical time 14 is sent in slot 11
    (
        "link 0 1 3 64, open 1 14 14 2 0, offer 0 1, tick 1, offer 0 1, tick 10, tick 1",
        "links 1, channel 0 1/14/2, accept 0 0 0, send 0 0 0 0 0, slot 1, accept 0 1 14, slot 11, send 11 0 0 1 0, slot 12",
    ),
    (
        "link 0 1 3 64, open 1 14 14 2 0, offer 0 1, skip 9, tick 1, offer 0 1, skip 9, skip 9, tick 1, \
         skip 2000000000000, skip 1, tick 1",
        "links 1, channel 0 1/14/2, accept 0 0 0, skipped 0, send 0 0 0 0 0, slot 1, accept 0 1 14, skipped 9, skipped 1, \
         send 11 0 0 1 0, slot 12, skipped 999999999988, refused 14 0, refused 14 0, slot 1000000000000",
    ),
    // B 2, p 10, accepted 0 and 10: slot 9 refused, slot 10 gives 20; slot 25 gives 25
    (
        "link 0 1 0 64, open 1 10 10 2 0, offer 0 1, offer 0 1, tick 9, offer 0 1, tick 1, offer 0 1",
        "links 1, channel 0 1/10/2, accept 0 0 0, accept 0 1 10, send 0 0 0 0 0, slot 9, refused 13 0, slot 10, accept 0 2 20",
    ),
    (
        "link 0 1 0 64, open 1 10 10 2 0, offer 0 1, offer 0 1, tick 25, offer 0 1",
        "links 1, channel 0 1/10/2, accept 0 0 0, accept 0 1 10, send 0 0 0 0 0, send 10 0 0 1 0, slot 25, accept 0 2 25",
    ),
    // the deadline of channel 0 on link 1 is 8, by its logical time there, and not 5, by its arrival in slot 1
    (
        "link 0 1 0 64, link 1 2 0 64, open 1 20 8 1 0 1, open 2 20 4 1 1, offer 0 1, tick 3, offer 1 2, tick 3",
        "links 2, channel 0 1/4/1 1/4/1, channel 1 2/4/2, accept 0 0 0, send 0 0 0 0 0, slot 3, accept 1 0 3, \
         send 3 1 1 0 0, send 4 1 1 0 1, send 5 1 0 0 0, slot 6",
    ),
    // ties to the lower channel number
    (
        "link 0 1 0 64, open 1 10 5 1 0, open 1 10 5 1 0, offer 1 1, offer 0 1, tick 2",
        "links 1, channel 0 1/5/1, channel 1 1/5/1, accept 1 0 0, accept 0 0 0, send 0 0 0 0 0, send 1 0 1 0 0, slot 2",
    ),
];

// A tick of so many slots, up to the first that is refused.
fn tick(live: &mut Live, slots: u64) -> Vec<String> {
    let mut printed = vec![];
    for _ in 0..slots {
        match live.slot(80) {
            Ok(sends) => printed.extend(sends.iter().map(|send| format!("send{}", spaced(&send.numbers)))),
            Err(number) => {
                printed.push(format!("refused {number} 0"));
                break;
            }
        }
    }
    printed.push(format!("slot {}", live.network.slot));
    printed
}

// What a line of the program prints.
fn line(live: &mut Live, line: &str) -> Vec<String> {
    let numbers: Vec<u64> = line.split(' ').skip(1).map(|n| n.parse().unwrap()).collect();
    match (line.split(' ').next().unwrap(), &numbers[..]) {
        ("open", [c, p, d, b, route @ ..]) => {
            vec![printed(&live.open(&Request { c: *c, p: *p, d: *d, b: *b, route: route.to_vec() }))]
        }
        ("offer", [channel, packets]) => match live.offer(*channel, *packets) {
            Ok((message, logical)) => vec![format!("accept {channel} {message} {logical}")],
            Err(number) => vec![format!("refused {number} 0")],
        },
        ("tick", [slots]) => tick(live, *slots),
        ("skip", [slots]) => match live.skip(*slots) {
            Ok(skipped) => vec![format!("skipped {skipped}")],
            Err(number) => vec![format!("refused {number} 0")],
        },
        ("message", [channel, packets, logical]) => {
            live.put(*channel, *packets, *logical);
            vec![]
        }
        _ => vec![],
    }
}

fn worked(command: &[String]) {
    let random = Random::new(1);
    let mut calls = Calls::new(&random);
    for (read, right) in WORKED {
        let link = |line: &str| line.split(' ').skip(1).map(|n| n.parse().unwrap()).collect::<Vec<u64>>();
        let links: Vec<u64> = read.split(", ").filter(|line| line.starts_with("link")).flat_map(link).collect();
        calls.questions.ask_set_up(STORE, &links);
        let mut live = Live::new(calls, true);
        let mut output = vec![format!("links {}", links.len() / 4)];
        read.split(", ").for_each(|text| output.extend(line(&mut live, text)));
        if output.join(", ") != right {
            fail(format!("{read}\ndocument 01: {right}\nworked out here: {}", output.join(", ")));
        }
        live.settle();
        calls = live.calls;
    }
    calls.questions.hold_against(command);
    println!("traffic: {} worked slots in {} rooms, as document 01 has them", calls.counts.ran(), WORKED.len());
}

pub fn main(words: &[String]) {
    match words.split_first() {
        Some((mode, command)) if mode == "worked" && !command.is_empty() => worked(command),
        Some((mode, command)) if mode == "random" && !command.is_empty() => random(command),
        _ => fail("use: traffic worked COMMAND.., or traffic random COMMAND..".to_string()),
    }
}
