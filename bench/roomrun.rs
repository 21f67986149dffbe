// Playing scripts: roomrun against the independent implementation in tests/models, in one run.
//
//   roomrun DIR PLAY.. -- ROOMRUN..   PLAY and ROOMRUN are commands that read a script and write its listing; scripts and
//                                     listings are kept in DIR
//
// Each script is played by one and the other in turn, a few times over, and the best time of each is printed: lines a second,
// slots a second and the ratio. Starting the program counts as well. Both listings have to be the same.
use std::fmt::Write;
use std::fs::File;
use std::path::{Path, PathBuf};
use std::process::{exit, Command};
use std::time::Instant;

const REPEATS: usize = 3;
const LINKS: u64 = 16;
const HOPS: u64 = 8;

fn fail(message: String) -> ! {
    eprintln!("bench/roomrun: {message}");
    exit(1)
}

struct Random(u64);

impl Random {
    fn to(&mut self, most: u64) -> u64 {
        self.0 ^= self.0 << 13;
        self.0 ^= self.0 >> 7;
        self.0 ^= self.0 << 17;
        self.0 % (most + 1)
    }
}

// A script that is being written, and where its random numbers come from.
struct Script {
    text: String,
    lines: u64,
    random: Random,
}

impl Script {
    // Eight links there and eight back between two nodes.
    fn new() -> Script {
        let mut script = Script { text: String::new(), lines: 0, random: Random(0x9e37_79b9_7f4a_7c15) };
        (0..LINKS).for_each(|l| script.line(&format!("link {} {} 8 256", l % 2, 1 - l % 2)));
        script
    }

    fn line(&mut self, line: &str) {
        writeln!(self.text, "{line}").unwrap();
        self.lines += 1;
    }

    // A channel over eight links; of 64 such each link has 32.
    fn open(&mut self, n: u64, c: u64, p: u64, d: u64) {
        let link = |j: u64| format!(" {}", 2 * ((n + j / 2) % HOPS) + j % 2);
        self.line(&format!("open {c} {p} {d} 2{}", (0..HOPS).map(link).collect::<String>()));
    }
}

// A room with nearly all the channels that it can have, offered what they may be offered at most or a little less, slot by slot.
// Now and then another channel asks to get in with a delay too short for it.
fn full_room(lines: u64) -> Script {
    let packets = |n: u64| 1 << (n / 8 % 3);
    let mut script = Script::new();
    let mut next: Vec<u64> = (0..60).collect();
    (0..60).for_each(|n| script.open(n, packets(n), 32 * packets(n), 480_000));
    for slot in 0.. {
        for n in 0..60 {
            if next[n as usize] <= slot {
                script.line(&format!("offer {n} {}", packets(n)));
                next[n as usize] = slot + 32 * packets(n) + script.random.to(3);
            }
        }
        if script.random.to(19) == 0 {
            script.open(63, 1, 40_000, 1);
        }
        script.line("tick 1");
        if script.lines >= lines {
            break;
        }
    }
    script
}

// Few lines and many slots: 64 channels that each send a packet over eight links, and long waits in between.
fn quiet_room(turns: u64) -> Script {
    let mut script = Script::new();
    for n in 0..64 {
        let p = 1_000 + script.random.to(59_000);
        script.open(n, 1, p, 480_000);
    }
    for _ in 0..turns {
        (0..64).for_each(|n| script.line(&format!("offer {n} 1")));
        script.line("tick 5000000");
    }
    script
}

struct Bench {
    dir: PathBuf,
    commands: [Vec<String>; 2],
}

impl Bench {
    fn path(&self, name: &str) -> PathBuf {
        self.dir.join(name)
    }

    // Seconds that a command takes for a script.
    fn time(&self, command: &[String], script: &Path, listing: &Path) -> f64 {
        let (input, output) = (File::open(script).unwrap(), File::create(listing).unwrap());
        let start = Instant::now();
        let status = Command::new(&command[0]).args(&command[1..]).stdin(input).stdout(output).status();
        match status {
            Ok(status) if status.success() => start.elapsed().as_secs_f64(),
            status => fail(format!("{command:?} ended with {status:?}")),
        }
    }

    fn compare(&self, what: &str, script: &Script) {
        let (path, listings) = (self.path("bench.script"), ["play.out", "roomrun.out"].map(|name| self.path(name)));
        std::fs::write(&path, &script.text).unwrap_or_else(|e| fail(format!("{}: {e}", path.display())));
        let mut best = [f64::MAX; 2];
        for _ in 0..REPEATS {
            for side in 0..2 {
                best[side] = best[side].min(self.time(&self.commands[side], &path, &listings[side]));
            }
        }
        let [right, told] = listings.map(|listing| std::fs::read_to_string(listing).unwrap());
        if right != told || right.contains("bad") {
            fail(format!("the two listings of {} differ, or a line does not read", path.display()));
        }
        let slots: u64 = right.lines().last().and_then(|line| line.strip_prefix("slot ")).map_or(0, |n| n.parse().unwrap());
        println!("{what}, {} lines, {slots} slots, {} lines printed:", script.lines, right.lines().count());
        for (name, seconds) in ["independent Rust", "roomrun"].iter().zip(best) {
            let rate = |count: u64| count as f64 / seconds;
            println!("  {name}: {:.0} lines a second, {:.0} slots a second", rate(script.lines), rate(slots));
        }
        println!("  ratio {:.2}", best[1] / best[0]);
    }
}

fn main() {
    let words: Vec<String> = std::env::args().skip(1).collect();
    match words.split(|word| word == "--").collect::<Vec<_>>()[..] {
        [[dir, play @ ..], roomrun] if !play.is_empty() && !roomrun.is_empty() => {
            let bench = Bench { dir: dir.into(), commands: [play.to_vec(), roomrun.to_vec()] };
            bench.compare("roomrun, full room", &full_room(200_000));
            bench.compare("roomrun, long waits", &quiet_room(60));
        }
        _ => fail("use: roomrun DIR PLAY.. -- ROOMRUN..".to_string()),
    }
}
