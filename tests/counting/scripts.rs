// How often what came up in the scripts and their listings.
use super::{enough, Times};
use crate::fail;
use crate::models::listing::Listing;
use crate::models::reader::{first_word, lines, LONGEST};

// What has to come up so many times in 10,000 lines.
const OFTEN: [(&str, u64); 6] =
    [("channel", 50), ("accept", 1_000), ("send", 5_000), ("slot", 500), ("bad", 100), ("early sends", 1_000)];

// And what so many times at least.
const SOME: [(&str, u64); 23] = [
    ("scripts", 30), ("scripts over 65,536 bytes", 2), ("scripts with no last line feed", 5), ("empty scripts", 1), ("links", 20),
    ("bad: empty", 5), ("bad: over 255 bytes", 5), ("bad: link", 5), ("bad: carriage return", 5), ("bad: no text", 5),
    ("bad: space at an end", 5), ("bad: two spaces", 5), ("bad: unknown word", 5), ("bad: sign", 5), ("bad: other bytes", 5),
    ("bad: 2^64 or more", 5), ("bad: missing or extra number", 5), ("lines of 254 bytes", 3), ("lines of 255 bytes", 3),
    ("lines of 256 bytes", 3), ("lines of 257 bytes", 3), ("lines over 65,536 bytes", 1),
    ("set-ups by a word that only starts with link", 3),
];

// The refusals that a script can reach, and those of them that name a place.
const REFUSED: [u64; 15] = [1, 2, 3, 4, 5, 6, 7, 8, 9, 10, 11, 12, 13, 14, 16];
const PLACES: [u64; 7] = [3, 4, 5, 7, 8, 10, 16];

#[derive(Default)]
pub struct Counts {
    pub lines: u64,
    kinds: Times<String>,
    // by number, and whether the place is 0
    refused: Times<(u64, bool)>,
}

// What is wrong with a line that does not read.
fn flaw(line: &[u8]) -> &'static str {
    let has = |wanted: fn(&u8) -> bool| line.iter().any(wanted);
    let word = |word: &[u8]| [&b"open"[..], b"offer", b"tick"].contains(&word);
    match line {
        [] => "empty",
        _ if line.len() > LONGEST => "over 255 bytes",
        _ if first_word(line) == b"link" => "link",
        _ if has(|byte| *byte == b'\r') => "carriage return",
        _ if has(|byte| *byte == 0 || *byte > 127) => "no text",
        [b' ', ..] | [.., b' '] => "space at an end",
        _ if line.windows(2).any(|pair| pair == b"  ") => "two spaces",
        _ if !word(first_word(line)) => "unknown word",
        _ if has(|byte| *byte == b'-' || *byte == b'+') => "sign",
        _ if line[first_word(line).len()..].iter().any(|byte| *byte != b' ' && !byte.is_ascii_digit()) => "other bytes",
        _ if line.split(|byte| *byte == b' ').any(|word| word.len() > 19) => "2^64 or more",
        _ => "missing or extra number",
    }
}

impl Counts {
    fn count(&mut self, kind: impl ToString, times: u64) {
        self.kinds.add(kind.to_string(), times);
    }

    // A script and what is right of it.
    pub fn script(&mut self, script: &[u8], listing: &Listing) {
        let lines = lines(script);
        self.lines += lines.len() as u64;
        self.count("scripts", 1);
        self.count("bytes", script.len() as u64);
        self.count("empty scripts", script.is_empty() as u64);
        self.count("scripts over 65,536 bytes", (script.len() > 65_536) as u64);
        self.count("scripts with no last line feed", !script.is_empty() as u64 * !script.ends_with(b"\n") as u64);
        for length in 254..=257 {
            self.count(format!("lines of {length} bytes"), lines.iter().filter(|line| line.len() == length).count() as u64);
        }
        self.count("lines over 65,536 bytes", lines.iter().filter(|line| line.len() > 65_536).count() as u64);
        self.count("early sends", listing.early);
        let sets_up = lines.iter().map(|line| first_word(line)).find(|word| *word != b"link");
        self.count("set-ups by a word that only starts with link", sets_up.is_some_and(|word| word.starts_with(b"link")) as u64);
        for printed in String::from_utf8_lossy(&listing.out).lines() {
            self.printed(printed, &lines);
        }
    }

    // A line of a listing.
    fn printed(&mut self, printed: &str, lines: &[&[u8]]) {
        let words: Vec<&str> = printed.split(' ').collect();
        let number = |at: usize| words[at].parse::<u64>().unwrap();
        match words[0] {
            "bad" => self.count(format!("bad: {}", flaw(lines[number(1) as usize - 1])), 1),
            "refused" => self.refused.add((number(1), number(2) == 0), 1),
            _ => {}
        }
        self.count(words[0], 1);
    }

    fn refusals(&self, number: u64) -> u64 {
        self.refused.of(&(number, true)) + self.placed(number)
    }

    // Those with a place above 0.
    fn placed(&self, number: u64) -> u64 {
        self.refused.of(&(number, false))
    }

    pub fn print(&self) {
        let refused = |n: u64| format!("{n}: {}", self.refusals(n));
        let placed = |n: u64| format!("{n}: {}", self.placed(n));
        println!("script: {} lines, {:?}", self.lines, self.kinds);
        println!("script: refused by number {{{}}}", REFUSED.map(refused).join(", "));
        println!("script: refused with a place above 0 {{{}}}", PLACES.map(placed).join(", "));
    }

    // Fails where something came up too seldom.
    pub fn check(&self) {
        let often = OFTEN.map(|(kind, least)| (kind, least * (self.lines / 10_000)));
        often.into_iter().chain(SOME).for_each(|(kind, least)| enough(kind, self.kinds.of(&kind.to_string()), least));
        REFUSED.iter().for_each(|n| enough(&format!("refused {n}"), self.refusals(*n), 20));
        PLACES.iter().for_each(|n| enough(&format!("refused {n}, not at place 0"), self.placed(*n), 5));
        if let Some((number, _)) = self.refused.0.keys().find(|(n, _)| !REFUSED.contains(n)) {
            fail(format!("refusal {number} came up, which no script should reach"));
        }
    }
}
