// The five programs of tests/programs as one: they hold the library and roomrun against implementations of their own
// (tests/models), of which nothing is taken from the Rattle sources.
//
//   programs response ..   the response-time calculation
//   programs store ..      set-up, and whether a store is sound
//   programs open ..       opening
//   programs traffic ..    offers, slots and long waits
//   programs script ..     scripts and their listings
//
// What comes after the name stands at the top of each.
mod asking;
mod counting;
mod models;
mod programs;
mod random;

fn fail(message: String) -> ! {
    let words: Vec<String> = std::env::args().take(2).collect();
    eprintln!("{}: {message}", words.join(" "));
    std::process::exit(1)
}

// A number that may be set before the command, as in SEED=7.
fn setting(name: &str, usual: u64) -> u64 {
    std::env::var(name).ok().map_or(usual, |n| n.parse().unwrap_or_else(|_| fail(format!("{name} is not a number"))))
}

fn main() {
    let words: Vec<String> = std::env::args().skip(1).collect();
    match words.split_first() {
        Some((name, words)) if name == "response" => programs::response::main(words),
        Some((name, words)) if name == "store" => programs::store::main(words),
        Some((name, words)) if name == "open" => programs::open::main(words),
        Some((name, words)) if name == "traffic" => programs::traffic::main(words),
        Some((name, words)) if name == "script" => programs::script::main(words),
        _ => fail("use: response, store, open, traffic or script, and what it takes".to_string()),
    }
}
