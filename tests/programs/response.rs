// The response-time calculation: the library against tests/models/response.rs.
//
//   response worked FILE        every line of FILE (crates/vectors_response/stdout) has the answer worked out there
//   response random COMMAND..   the library, behind COMMAND (tests/c/driver.c), answers some 40,000 random questions so
use crate::asking::ask;
use crate::asking::questions::spaced;
use crate::fail;
use crate::models::response::{Answer::*, Question};
use crate::random::{Random, SEED};

fn worked(file: &str) {
    let text = std::fs::read_to_string(file).unwrap_or_else(|e| fail(format!("{file}: {e}")));
    let mut lines = 0;
    for line in text.lines() {
        let (question, told) = line.split_once(" : ").unwrap_or_else(|| fail(format!("no answer on: {line}")));
        let numbers: Vec<u64> = question.split(' ').filter_map(|word| word.parse().ok()).collect();
        let question = Question { own: numbers[0], limit: numbers[1], table: numbers[2..].to_vec() };
        let right = match question.answer() {
            Found(r, k) => format!("response {r} trials {k}"),
            Nothing(k) => format!("none trials {k}"),
            Refused(n, at) => format!("refused {n} {at}"),
        };
        if told != right {
            fail(format!("{line}\nworked out here: {right}"));
        }
        lines += 1;
    }
    if lines < 24 {
        fail(format!("{file} has only {lines} lines"));
    }
    println!("response: {lines} worked answers are right");
}

fn random(command: &[String]) {
    let source = Random::new(SEED);
    let questions: Vec<Question> = (0..40_000).map(|n| source.question(n)).collect();
    let mut text = String::new();
    for q in &questions {
        text += &format!("response {} {} {}{}\n", q.own, q.limit, q.table.len(), spaced(&q.table));
    }
    let lines = ask(command, text);
    if lines.len() != questions.len() {
        fail(format!("{} questions and {} answers", questions.len(), lines.len()));
    }
    let (mut found, mut nothing, mut refused) = (0, 0, 0);
    for (q, line) in questions.iter().zip(lines) {
        let right = match q.answer() {
            Found(r, k) => { found += 1; format!("0 0 {r} {k}") }
            Nothing(k) => { nothing += 1; format!("0 0 0 {k}") }
            // a refused call writes no output
            Refused(n, at) => { refused += 1; format!("{n} {at} 111 222") }
        };
        if line != right {
            fail(format!("own {} limit {} table {:?}\nthe library: {line}\nworked out here: {right}", q.own, q.limit, q.table));
        }
    }
    if found < 5_000 || nothing < 5_000 || refused < 5_000 {
        fail(format!("the questions are lopsided: {found} found, {nothing} nothing, {refused} refused"));
    }
    println!("response: {found} found, {nothing} with none, {refused} refused, as the library says");
}

pub fn main(words: &[String]) {
    match words.split_first() {
        Some((mode, [file])) if mode == "worked" => worked(file),
        Some((mode, command)) if mode == "random" && !command.is_empty() => random(command),
        _ => fail("use: response worked FILE, or response random COMMAND..".to_string()),
    }
}
