// Scripts played through the C interface: each step is a question to tests/c/driver.c, and its answer becomes the lines of the
// listing.
use super::ask;
use super::questions::spaced;
use crate::fail;
use crate::models::listing::{refused, sent};
use crate::models::opening::{printed, Part, Request};
use crate::models::reader::{steps, Step};
use crate::models::room::STORE;
use std::slice::Iter;

// As many numbers of links as the driver takes; that many are refused as it is.
const MOST: usize = 4_096;

// None for a line that does not read.
fn question(step: &Step) -> Option<String> {
    Some(match step {
        Step::SetUp(links) if links.len() > MOST => question(&Step::SetUp(links[..MOST].to_vec()))?,
        Step::SetUp(links) => format!("setup {STORE} {}{}", links.len(), spaced(links)),
        Step::Open(Request { c, p, d, b, route }) => format!("open {STORE} {c} {p} {d} {b} {}{}", route.len(), spaced(route)),
        Step::Offer(channel, packets) => format!("offer {STORE} {channel} {packets}"),
        Step::Tick(slots) => format!("tick {STORE} 80 {slots}"),
        Step::Bad(_) => return None,
    })
}

fn opened(answer: &[u64], hops: usize) -> String {
    let part = |j: usize| Part { q: 0, response: answer[3 + j], delay: answer[11 + j], reserved: answer[19 + j] };
    printed(&match answer[0] {
        0 => Ok((answer[2], (0..hops).map(part).collect())),
        number => Err((number, answer[1])),
    })
}

// The clock rises by the slots that have passed.
fn ticked(answer: &[u64], clock: &mut u64) -> String {
    let (sends, end) = answer.split_at(answer.len() - 4);
    let mut lines: Vec<String> = sends.chunks(5).map(sent).collect();
    if end[3] != 0 {
        fail(format!("{} numbers past the sends are changed in a tick from slot {clock}", end[3]));
    }
    if end[0] != 0 {
        lines.push(refused((end[0], end[1])));
    }
    *clock += end[2];
    lines.push(format!("slot {clock}"));
    lines.join("\n")
}

// What the program would print of a step that was answered so.
fn said(step: &Step, answer: &[u64], clock: &mut u64) -> String {
    match step {
        Step::Bad(line) => format!("bad {line}"),
        Step::Tick(_) => ticked(answer, clock),
        Step::Open(request) => opened(answer, request.route.len()),
        Step::SetUp(_) | Step::Offer(..) if answer[0] != 0 => refused((answer[0], answer[1])),
        Step::SetUp(links) => format!("links {}", links.len() / 4),
        Step::Offer(channel, _) => format!("accept {channel} {} {}", answer[2], answer[3]),
    }
}

// The listing of a script. After a refused set-up nothing is said, but all is answered.
fn listing(steps: &[Step], answers: &mut Iter<Vec<u64>>) -> Vec<u8> {
    let (mut out, mut clock, mut ended) = (vec![], 0, false);
    for step in steps {
        let none = vec![];
        let answer = question(step).map_or(&none, |_| answers.next().unwrap_or_else(|| fail("an answer is missing".to_string())));
        if !ended {
            out.extend(said(step, answer, &mut clock).bytes().chain([b'\n']));
        }
        ended |= matches!(step, Step::SetUp(_)) && answer[0] != 0;
    }
    out
}

// The listings of scripts, by the library behind `command`.
pub fn listings(command: &[String], scripts: &[Vec<u8>]) -> Vec<Vec<u8>> {
    let scripts: Vec<Vec<Step>> = scripts.iter().map(|script| steps(script)).collect();
    let questions: Vec<String> = scripts.iter().flatten().filter_map(question).collect();
    let numbers = |line: String| line.split(' ').map(|n| n.parse().unwrap()).collect();
    let answers: Vec<Vec<u64>> = ask(command, questions.join("\n")).into_iter().map(numbers).collect();
    let mut answers = answers.iter();
    scripts.iter().map(|steps| listing(steps, &mut answers)).collect()
}
