// Document 01, "Response time", once more and on its own: nothing here is taken from the Rattle sources. The response is found
// by the sentence that defines it: the least r, from 1 to the limit, whose need is at most r, tried one by one. What a row asks
// for within r is counted message by message: those of the times 0, p, 2p, .. that are below r. The trials are walked
// separately, and where they end has to be that same response.
#[derive(Debug, PartialEq)]
pub enum Answer {
    Found(u64, u64),
    Nothing(u64),
    Refused(u64, u64),
}
use Answer::*;

pub struct Question {
    pub own: u64,
    pub limit: u64,
    pub table: Vec<u64>,
}

impl Question {
    fn in_range(&self) -> bool {
        let c = 1..=200;
        let p = 1..=60_000;
        self.table.len() % 3 == 0
            && self.table.len() <= 3 * 32
            && self.table.chunks(3).all(|row| c.contains(&row[0]) && p.contains(&row[1]))
            && c.contains(&self.own)
            && p.contains(&self.limit)
    }

    // The least r from 1 to the limit whose need is at most r. `next` is, for each row, the first message time that is
    // not below r yet.
    fn least(&self) -> Option<u64> {
        let mut need = self.own;
        let mut next = vec![0u64; self.table.len() / 3];
        for r in 1..=self.limit {
            for (row, next) in self.table.chunks(3).zip(next.iter_mut()) {
                while *next < r {
                    need += row[0];
                    *next += row[1];
                }
            }
            if need <= r {
                return Some(r);
            }
        }
        None
    }

    // The lengths tried, as document 01 walks them, and the number of needs worked out.
    fn walk(&self) -> (Option<u64>, u64) {
        let mut length: u64 = self.own + self.table.chunks(3).map(|row| row[0]).sum::<u64>();
        let mut trials = 0;
        while length <= self.limit {
            let need = self.own + self.table.chunks(3).map(|row| row[0] * length.div_ceil(row[1])).sum::<u64>();
            trials += 1;
            if need == length {
                return (Some(length), trials);
            }
            length = need;
        }
        (None, trials)
    }

    pub fn answer(&self) -> Answer {
        if !self.in_range() {
            return Refused(18, 0);
        }
        let least = self.least();
        let (ended, trials) = self.walk();
        assert_eq!(least, ended, "the walk does not end at the least response");
        match least {
            Some(r) => Found(r, trials),
            None => Nothing(trials),
        }
    }
}
