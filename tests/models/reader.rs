// Document 01, "The program's listing", what is read: the bytes of a script become steps. Nothing here is taken from the Rattle
// sources. What the document leaves open is read as docs/SCRIPT.md has it.
use super::opening::Request;

pub enum Step {
    // the links, four numbers each
    SetUp(Vec<u64>),
    Open(Request),
    Offer(u64, u64),
    Tick(u64),
    // the number of a line that does not read
    Bad(u64),
}

// The most bytes of a line, its line feed not among them.
pub const LONGEST: usize = 255;

// One or more digits; leading zeros are read.
fn number(word: &[u8]) -> Option<u64> {
    let with = |n: u64, byte: &u8| {
        let digit = byte.is_ascii_digit().then(|| u64::from(byte - b'0'))?;
        n.checked_mul(10)?.checked_add(digit)
    };
    if word.is_empty() { None } else { word.iter().try_fold(0, with) }
}

fn words(line: &[u8]) -> impl Iterator<Item = &[u8]> {
    line.split(|byte| *byte == b' ')
}

// What stands before the first space.
pub fn first_word(line: &[u8]) -> &[u8] {
    words(line).next().unwrap()
}

// The numbers after the first word, all parted by one space.
fn numbers(line: &[u8]) -> Option<Vec<u64>> {
    if line.len() > LONGEST { None } else { words(line).skip(1).map(number).collect() }
}

// Reads one line after the other.
pub struct Reader {
    lines: u64,
    // until the network is set up
    links: Option<Vec<u64>>,
}

impl Reader {
    pub fn new() -> Reader {
        Reader { lines: 0, links: Some(vec![]) }
    }

    fn link(&mut self, line: &[u8]) -> Option<Step> {
        match (&mut self.links, numbers(line).as_deref()) {
            (Some(links), Some(link @ [_, _, _, _])) => {
                links.extend(link);
                None
            }
            _ => Some(Step::Bad(self.lines)),
        }
    }

    fn other(&self, line: &[u8]) -> Step {
        match (first_word(line), numbers(line).as_deref()) {
            (b"open", Some([c, p, d, b, route @ ..])) => {
                Step::Open(Request { c: *c, p: *p, d: *d, b: *b, route: route.to_vec() })
            }
            (b"offer", Some([channel, packets])) => Step::Offer(*channel, *packets),
            (b"tick", Some([slots])) => Step::Tick(*slots),
            _ => Step::Bad(self.lines),
        }
    }

    // The network is set up before anything is said of a line that is no link.
    pub fn line(&mut self, line: &[u8]) -> Vec<Step> {
        self.lines += 1;
        if first_word(line) == b"link" {
            return self.link(line).into_iter().collect();
        }
        self.end().into_iter().chain([self.other(line)]).collect()
    }

    // The set-up, where there was none yet.
    pub fn end(&mut self) -> Option<Step> {
        self.links.take().map(Step::SetUp)
    }
}

// The lines of a script; no further one stands after a last line feed.
pub fn lines(script: &[u8]) -> Vec<&[u8]> {
    let mut lines: Vec<&[u8]> = script.split(|byte| *byte == b'\n').collect();
    if lines.last().is_some_and(|line| line.is_empty()) {
        lines.pop();
    }
    lines
}

// All steps of a script; whoever follows them stops at a set-up that is refused.
pub fn steps(script: &[u8]) -> Vec<Step> {
    let mut reader = Reader::new();
    let mut steps: Vec<Step> = lines(script).iter().flat_map(|line| reader.line(line)).collect();
    steps.extend(reader.end());
    steps
}
