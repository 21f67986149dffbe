// Questions to the response-time calculation: a table of rows, an own C and a limit.
use super::Random;
use crate::models::response::Question;

impl Random {
    // A number in the range, at one of its ends, or just beyond them.
    fn near(&self, least: u64, most: u64) -> u64 {
        match self.to(40) {
            0 => least - 1,
            1 => most + 1,
            2 => self.next(),
            3..=6 => least,
            7..=10 => most,
            _ => least + self.to(most - least),
        }
    }

    // A table that loads its link to about `load` parts of a hundred, with spacings up to `most`.
    fn loaded(&self, rows: u64, load: u64, most: u64) -> Vec<u64> {
        let mut table = vec![];
        for _ in 0..rows {
            let p = 1 + self.to(most - 1);
            let c = (p * load / 100 / rows.max(1)).clamp(1, 200);
            table.extend([c, p, 1 + self.to(p - 1)]);
        }
        table
    }

    pub fn question(&self, n: u64) -> Question {
        let rows = self.to(32);
        match n % 4 {
            // small numbers: answers differ by one step of one row
            0 => {
                let few = rows % 6;
                let mut table = vec![];
                for _ in 0..few {
                    table.extend([1 + self.to(4), 1 + self.to(30), self.to(30)]);
                }
                Question { own: 1 + self.to(5), limit: 1 + self.to(99), table }
            }
            // links from lightly loaded to overloaded
            1 => {
                let (load, most) = (10 + self.to(110), 50 + self.to(2_000));
                Question { own: 1 + self.to(199), limit: 1 + self.to(4_000), table: self.loaded(rows, load, most) }
            }
            // the widest ranges, a few of them
            2 if n % 100 == 2 => {
                let load = 50 + self.to(60);
                Question { own: 1 + self.to(199), limit: 60_000 - self.to(99), table: self.loaded(rows, load, 60_000) }
            }
            // any numbers, any length, many of them out of range
            _ => {
                let mut table = vec![];
                for _ in 0..self.to(34) {
                    table.extend([1 + self.to(199), 1 + self.to(59_999), self.next()]);
                }
                if !table.is_empty() && self.to(1) == 0 {
                    let at = self.to(table.len() as u64 - 1) as usize;
                    table[at] = if at % 3 == 0 { self.near(1, 200) } else { self.near(1, 60_000) };
                }
                for _ in 0..self.to(3) / 3 {
                    table.push(self.to(9));
                }
                Question { own: self.near(1, 200), limit: self.near(1, 60_000), table }
            }
        }
    }
}
