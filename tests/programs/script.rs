// Scripts and their listings: roomrun, and the library from C, against tests/models/reader.rs and tests/models/listing.rs.
//
//   script play                           the listing of the script on standard input, as those two have it
//   script worked DIR ROOMRUN..           every DIR/NAME.script, of which DIR/NAME.listing is the listing: by ROOMRUN, a
//                                         command that reads a script and writes its listing, and here
//   script cut ROOMRUN..                  scripts of which a part is read and then a read fails
//   script random ROOMRUN.. -- DRIVER..   random scripts, of which ROOMRUN, the library behind DRIVER (tests/c/driver.c) and
//                                         `play` have to make the same listing, byte for byte. LINES=N before the command
//                                         plays about so many lines, SEED=N makes for others
//
// Scripts are rooms in use, long and short, refused set-ups, the same with lines and bytes changed, and bytes that are no
// script; they come in pieces of any size. So that nothing can be left out unseen, every refusal that a script can reach and
// every kind of line that does not read have to come up a good many times. Stores that no script leads to are what `traffic
// random` and `store random` have.
use crate::asking::{cut_short, output, written};
use crate::asking::scripts::listings;
use crate::counting::scripts::Counts;
use crate::models::listing::{play, Listing};
use crate::models::reader::{lines, Reader};
use crate::random::rooms::Size;
use crate::random::scripts::{crowded, refused, used};
use crate::random::{Random, SEED};
use crate::{fail, setting};
use std::fs::File;
use std::io::{Read, Write};
use std::path::{Path, PathBuf};
use std::process::Stdio;

// About how many lines `random` plays.
const LINES: u64 = 80_000;

// The number of the line at which the listing, worked out here, comes to have more than so many bytes.
fn line_at(script: &[u8], printed: usize) -> usize {
    let (mut reader, mut listing) = (Reader::new(), Listing::new());
    let mut past = |line: &[u8]| {
        let goes_on = reader.line(line).iter().all(|step| listing.step(step));
        !goes_on || listing.out.len() > printed
    };
    let lines = lines(script);
    1 + lines.iter().position(|line| past(line)).unwrap_or(lines.len())
}

// A line of a listing, from the line feed before this byte on.
fn line_around(listing: &[u8], at: usize) -> String {
    let start = listing[..at.min(listing.len())].iter().rposition(|byte| *byte == b'\n').map_or(0, |feed| feed + 1);
    let line = listing[start..].split(|byte| *byte == b'\n').next().unwrap();
    if start == listing.len() { "nothing more".to_string() } else { format!("'{}'", String::from_utf8_lossy(line)) }
}

// Fails unless `told` is the listing `right`; the script and both are then left in target/tests/.
fn hold_against(script: &[u8], right: &[u8], told: &[u8], who: &str) {
    if told == right {
        return;
    }
    for (name, bytes) in [("differs.script", script), ("differs.right", right), ("differs.told", told)] {
        std::fs::write(Path::new("target/tests").join(name), bytes).unwrap_or_else(|e| fail(format!("target/tests/{name}: {e}")));
    }
    let at = right.iter().zip(told).take_while(|(a, b)| a == b).count();
    let (line, ours, theirs) = (line_at(script, at), line_around(right, at), line_around(told, at));
    fail(format!("target/tests/differs.script, about line {line}: {who} has {theirs} where {ours} is right"));
}

fn read(path: &Path) -> Vec<u8> {
    std::fs::read(path).unwrap_or_else(|e| fail(format!("{}: {e}", path.display())))
}

fn with_extension(dir: &str, extension: &str) -> Vec<PathBuf> {
    let files = std::fs::read_dir(dir).unwrap_or_else(|e| fail(format!("{dir}: {e}")));
    let paths = files.map(|file| file.unwrap().path()).filter(|path| path.extension().is_some_and(|e| e == extension));
    let mut paths: Vec<PathBuf> = paths.collect();
    paths.sort();
    paths
}

fn worked(dir: &str, roomrun: &[String]) {
    let scripts = with_extension(dir, "script");
    if scripts.is_empty() || scripts.len() != with_extension(dir, "listing").len() {
        fail(format!("{dir} should have scripts, and a listing for each"));
    }
    for path in &scripts {
        let (script, right) = (read(path), read(&path.with_extension("listing")));
        let name = path.display().to_string();
        hold_against(&script, &right, &play(&script).out, &format!("{name}: tests/models/listing.rs"));
        // here the file itself is the standard input, as an operator has it
        let mut command = ["sh", "-c", "exec \"$@\" <\"$0\"", &name].map(str::to_string).to_vec();
        command.extend_from_slice(roomrun);
        hold_against(&script, &right, &output(&command, vec![], 1), &format!("{name}: the program"));
    }
    println!("script: {} worked scripts, as document 01 has them", scripts.len());
}

// Where a read fails, that is said; what came in whole lines is in the listing, a part of a line is not played, and the network
// is not set up, as it is at the end of a script.
const CUT: [(&str, &str); 4] = [
    ("", ""),
    ("link 0 1 0 64\nlink 1 2 0 64\n", ""),
    ("link 0 1 0 64\nopen 1 5 4 1 0\ntick 3\n", "links 1\nchannel 0 1/4/1\nslot 3\n"),
    ("link 0 1 0 64\nopen 1 5 4 1 0\ntick 3\ntick 20", "links 1\nchannel 0 1/4/1\nslot 3\n"),
];

fn cut(roomrun: &[String]) {
    let told = |input: Stdio, printed: &str, what: &str| {
        let right = [printed, "roomrun: standard input cannot be read\n"];
        let written = written(roomrun, input).map(|text| String::from_utf8_lossy(&text).to_string());
        if written != right {
            fail(format!("{what}: the program writes {written:?} where {right:?} is right"));
        }
    };
    for (script, printed) in CUT {
        let (_held, input) = cut_short(script.as_bytes()).unwrap_or_else(|e| fail(format!("no input that fails: {e}")));
        told(input, printed, &format!("cut after {script:?}"));
    }
    let directory = File::open("/").unwrap_or_else(|e| fail(format!("/: {e}")));
    told(directory.into(), "", "a directory");
    println!("script: {} reads that failed", CUT.len() + 1);
}

// One long script and a few short ones.
fn some_scripts(random: &Random) -> Vec<Vec<u8>> {
    let size = || random.pick(&[Size::Small, Size::Middle, Size::Full]);
    let mut scripts = vec![used(random, size(), random.pick(&[1_000, 3_000, 10_000])), crowded(random)];
    scripts.extend((0..2).map(|_| used(random, Size::Small, 10 + random.to(60))));
    scripts.extend((0..2).map(|_| random.spoiled(&used(random, size(), 100 + random.to(900)), 8)));
    scripts.extend((0..2).map(|_| random.spoiled(&used(random, Size::Small, 20 + random.to(80)), 3)));
    scripts.push(refused(random));
    scripts.extend((0..3).map(|_| random.spoiled(&refused(random), 7)));
    scripts.push(random.wild());
    scripts
}

// Scripts played three times over; the listings have to be the same.
fn compare(scripts: &[Vec<u8>], pieces: &[usize], commands: &[&[String]; 2], counts: &mut Counts) {
    let one = |(script, piece): (&Vec<u8>, &usize)| output(commands[0], script.clone(), *piece);
    let run = || scripts.iter().zip(pieces).map(one).collect::<Vec<_>>();
    let (by_roomrun, by_c) = std::thread::scope(|scope| {
        let roomrun = scope.spawn(run);
        let by_c = listings(commands[1], scripts);
        (roomrun.join().unwrap(), by_c)
    });
    for (n, script) in scripts.iter().enumerate() {
        let right = play(script);
        hold_against(script, &right.out, &by_roomrun[n], "the program");
        hold_against(script, &right.out, &by_c[n], "the library from C");
        counts.script(script, &right);
    }
}

fn random(roomrun: &[String], driver: &[String]) {
    let (seed, lines) = (setting("SEED", SEED), setting("LINES", LINES));
    println!("script: seed {seed}, {lines} lines");
    let random = Random::new(seed);
    let mut counts = Counts::default();
    compare(&[vec![], b"\n".to_vec()], &[1, 1], &[roomrun, driver], &mut counts);
    while counts.lines < lines {
        let scripts = some_scripts(&random);
        let small = |script: &Vec<u8>| script.len() < 5_000;
        let piece = |script| random.pick(if small(script) { &[40, 256, usize::MAX] } else { &[255, 4_096, 65_536, usize::MAX] });
        let pieces: Vec<usize> = scripts.iter().map(piece).collect();
        compare(&scripts, &pieces, &[roomrun, driver], &mut counts);
    }
    counts.print();
    counts.check();
}

pub fn main(words: &[String]) {
    let parts: Vec<&[String]> = words.split(|word| word == "--").collect();
    match parts[..] {
        [[mode]] if mode == "play" => {
            let mut script = vec![];
            std::io::stdin().read_to_end(&mut script).unwrap_or_else(|e| fail(format!("no script: {e}")));
            std::io::stdout().write_all(&play(&script).out).unwrap_or_else(|e| fail(format!("no listing: {e}")));
        }
        [[mode, dir, roomrun @ ..]] if mode == "worked" && !roomrun.is_empty() => worked(dir, roomrun),
        [[mode, roomrun @ ..]] if mode == "cut" && !roomrun.is_empty() => cut(roomrun),
        [[mode, roomrun @ ..], driver @ [_, ..]] if mode == "random" && !roomrun.is_empty() => random(roomrun, driver),
        _ => fail("use: script play, worked DIR ROOMRUN.., cut ROOMRUN.., or random ROOMRUN.. -- DRIVER..".to_string()),
    }
}
