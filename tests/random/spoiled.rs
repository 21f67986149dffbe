// Scripts as nobody would write them: good ones with lines and bytes changed, and bytes that are no script.
use super::Random;
use crate::models::reader::lines;

// Words in the place of numbers; the first few are numbers.
const ODD: [&str; 23] = [
    "0", "256", "4294967296", "4294967297", "000000000000000000000000000001", "18446744073709551615", "018446744073709551615",
    "18446744073709551616", "18446744073709551617", "20000000000000000000", "99999999999999999999",
    "340282366920938463463374607431768211457", "-1", "+1", "1.0", "0x1", "1e3", "1,000", "", "one", "٣", "1_000", "1\t",
];

const FIRST: [&str; 12] =
    ["", "link", "Link", "lin", "links", "open", "offer", "tick", "link\r", "\0", "\u{feff}tick", "tick\t1"];

const LENGTHS: [usize; 12] = [253, 254, 255, 255, 256, 256, 257, 258, 300, 511, 512, 4_096];

const BYTES: &[u8] = b" \n\r\t\0\x7f\x80\xff0123456789-+linkopenoffertick";

impl Random {
    fn byte(&self) -> u8 {
        if self.chance(3) { self.next() as u8 } else { self.pick(BYTES) }
    }

    fn spoil_byte(&self, line: &mut Vec<u8>) {
        let at = self.to(line.len() as u64) as usize;
        match self.to(3) {
            _ if at == line.len() => line.push(self.byte()),
            0 => line.insert(at, self.byte()),
            1 => drop(line.remove(at)),
            2 => line[at] ^= 1 << self.to(7),
            _ => line[at] = self.byte(),
        }
    }

    fn spoil_word(&self, line: &mut Vec<u8>) {
        let mut words: Vec<Vec<u8>> = line.split(|byte| *byte == b' ').map(<[u8]>::to_vec).collect();
        let at = self.to(words.len() as u64 - 1) as usize;
        match self.to(5) {
            0 if at > 0 => drop(words.remove(at)),
            1 => words.insert(at + 1, self.pick(&ODD).as_bytes().to_vec()),
            2 => words.push(self.to(20).to_string().into_bytes()),
            _ if at > 0 => words[at] = self.pick(&ODD).as_bytes().to_vec(),
            _ if self.chance(2) => words[0].push(self.byte()),
            _ => words[0] = self.pick(&FIRST).as_bytes().to_vec(),
        }
        *line = words.join(&b' ');
    }

    // Zeros before the last number, so that nothing but the length is changed, or any bytes at the end.
    fn lengthen(&self, line: &mut Vec<u8>) {
        let all = if self.chance(60) { 65_000 + self.to(140_000) as usize } else { self.pick(&LENGTHS) };
        let more = all.saturating_sub(line.len());
        match line.iter().rposition(|byte| *byte == b' ') {
            Some(space) if !self.chance(8) => drop(line.splice(space + 1..space + 1, vec![b'0'; more])),
            _ => line.extend((0..more).map(|_| self.byte())),
        }
    }

    fn spoil_line(&self, line: &mut Vec<u8>) {
        let spaces: Vec<usize> = (0..line.len()).filter(|at| line[*at] == b' ').collect();
        match self.to(11) {
            0..=2 => (0..1 + self.to(2)).for_each(|_| self.spoil_byte(line)),
            3..=5 => self.spoil_word(line),
            6 if !spaces.is_empty() => line.insert(self.pick(&spaces), b' '),
            7 => line.insert(0, b' '),
            8 => line.push(self.pick(b" \r")),
            9 if self.chance(2) => line.clear(),
            _ => self.lengthen(line),
        }
    }

    // Lines are lost, doubled, swapped, joined or parted.
    fn spoil_order(&self, lines: &mut Vec<Vec<u8>>, at: usize) {
        let other = self.to(lines.len() as u64 - 1) as usize;
        match self.to(4) {
            0 => drop(lines.remove(at)),
            1 => lines.insert(other, lines[at].clone()),
            2 => lines.swap(at, other),
            3 if at + 1 < lines.len() => {
                let next = lines.remove(at + 1);
                lines[at].extend(next);
            }
            _ => {
                let half = lines[at].len() / 2;
                let rest = lines[at].split_off(half);
                lines.insert(at + 1, rest);
            }
        }
    }

    // One line in so many; where these are few, most of them not among the first ones, which set up.
    pub fn spoiled(&self, script: &[u8], one_in: u64) -> Vec<u8> {
        let mut lines: Vec<Vec<u8>> = lines(script).iter().map(|line| line.to_vec()).collect();
        for _ in 0..1 + lines.len() as u64 / one_in {
            let all = lines.len() as u64;
            if all == 0 {
                break;
            }
            let first = if one_in < 8 || self.chance(8) { 0 } else { all.min(17) - 1 };
            let at = (first + self.to(all - 1 - first)) as usize;
            if self.chance(5) { self.spoil_order(&mut lines, at) } else { self.spoil_line(&mut lines[at]) }
        }
        let mut text = lines.join(&b'\n');
        match self.to(9) {
            0..=5 => text.push(b'\n'),
            6 => text.truncate(self.to(text.len() as u64) as usize),
            _ => {}
        }
        text
    }

    // Any bytes, or such as make up scripts.
    pub fn wild(&self) -> Vec<u8> {
        let links = if self.chance(3) { &b""[..] } else { b"link 0 1 0 64\nlink 1 2 5 9\n" };
        let any = self.chance(3);
        let byte = |_| if any { self.next() as u8 } else { self.pick(BYTES) };
        links.iter().copied().chain((0..self.to(3_000)).map(byte)).collect()
    }
}
