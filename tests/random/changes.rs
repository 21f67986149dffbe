// Small changes of a store with a room: numbers that become others. What comes of it is often still sound, or breaks one rule.
use super::Random;
use crate::models::room::{channel_at, link_at, Room, Row, LATEST, STORE};

impl Random {
    // A place of the store that matters in this room, as a rule.
    fn place(&self, room: &Room) -> usize {
        let l = self.place_of(room.links.len());
        match self.to(19) {
            0 | 1 => self.to(3) as usize,
            2 => self.to(STORE as u64 - 1) as usize,
            3 => link_at(l) + self.to(95) as usize,
            4..=7 => link_at(l) + self.to(5) as usize,
            8 | 9 => link_at(l) + 16 + self.to(2 * room.links[l].rows.len() as u64 + 1) as usize,
            _ if room.channels.is_empty() => self.to(3) as usize,
            kind => {
                let c = self.place_of(room.channels.len());
                let channel = &room.channels[c];
                let n = channel.messages.saturating_sub(self.to(channel.under_way().len() as u64 + 1));
                let hop = self.to(channel.route.len() as u64) as usize;
                channel_at(c)
                    + match kind {
                        10 => self.to(95) as usize,
                        11 | 12 => self.to(6) as usize,
                        13 => 8 + hop,
                        14 => 16 + hop,
                        15 | 16 => 24 + hop,
                        17 => 32 + (n % 24) as usize,
                        _ => 56 + (n % 24) as usize,
                    }
            }
        }
    }

    // What may stand there instead.
    fn value(&self, store: &[u64], at: usize) -> u64 {
        let old = store[at];
        match self.to(15) {
            0..=4 => old.wrapping_add(1),
            5..=9 => old.wrapping_sub(1),
            10 => 0,
            11 => store[if self.chance(2) { at + 1 } else { at.max(1) - 1 }],
            12 => store[if self.chance(2) { at + 96 } else { at.max(96) - 96 }],
            13 => old.wrapping_add(1 << self.pick(&[1, 8, 16, 32, 40, 63])),
            14 => self.pick(&[u64::MAX, u64::MAX - self.to(60_000), 1 << 63, 1 << 32, LATEST, LATEST + 1]),
            _ => self.next() >> self.to(63),
        }
    }

    // Two messages that follow each other change places, or their times or ends do.
    fn message_swap(&self, room: &Room, store: &[u64]) -> Vec<(usize, u64)> {
        let c = self.place_of(room.channels.len());
        let channel = &room.channels[c];
        let last = channel.messages;
        let first = last.saturating_sub(self.to(channel.under_way().len() as u64));
        let (a, b) = ((first % 24) as usize, ((first + 1).min(last) % 24) as usize);
        let rings = self.pick(&[&[32][..], &[56], &[32, 56]]);
        let places = |ring: &usize| (channel_at(c) + ring + a, channel_at(c) + ring + b);
        rings.iter().map(places).flat_map(|(a, b)| [(a, store[b]), (b, store[a])]).collect()
    }

    // A message more, as a rule one that could have been accepted.
    fn message_more(&self, room: &Room) -> Vec<(usize, u64)> {
        let c = self.place_of(room.channels.len());
        let (channel, at) = (&room.channels[c], channel_at(c));
        let n = channel.messages + 1;
        let packets = self.pick(&[1, 1, channel.c, channel.c + 1, 0]);
        let last = if channel.messages == 0 { room.clock } else { channel.time_of(channel.messages) };
        let time = last + channel.p;
        let ring = (n % 24) as usize;
        vec![
            (at + 5, n),
            (at + 32 + ring, self.pick(&[time, time, time + 1, time - 1])),
            (at + 56 + ring, channel.end_of(channel.messages) + packets),
        ]
    }

    // A packet sent on, where one is held.
    fn packet_sent(&self, room: &Room) -> Vec<(usize, u64)> {
        let c = self.place_of(room.channels.len());
        let channel = &room.channels[c];
        let holds = |j: &usize| channel.come(*j) > channel.sent[*j];
        let places: Vec<usize> = (0..channel.route.len()).filter(holds).collect();
        if places.is_empty() {
            return vec![];
        }
        let j = self.pick(&places);
        vec![(channel_at(c) + 24 + j, channel.sent[j] + 1)]
    }

    // Two rows change places, one is left out, or one is added.
    fn rows(&self, room: &Room) -> Vec<(usize, u64)> {
        let l = self.place_of(room.links.len());
        let mut rows = room.links[l].rows.clone();
        let channel = self.to(room.channels.len() as u64);
        let row = Row { channel, place: self.to(7) };
        let (a, b) = (self.place_of(rows.len() + 1), self.place_of(rows.len() + 1));
        match self.to(3) {
            0 | 1 if a < rows.len() && b < rows.len() => rows.swap(a, if self.chance(2) { b } else { a.max(1) - 1 }),
            2 if a < rows.len() => {
                rows.remove(a);
            }
            _ if rows.len() < 33 => rows.insert(a, if b < rows.len() { rows[b] } else { row }),
            _ => {}
        }
        let mut change = vec![(link_at(l) + 4, rows.len() as u64)];
        for (k, row) in rows.iter().enumerate() {
            change.extend([(link_at(l) + 16 + 2 * k, row.channel), (link_at(l) + 17 + 2 * k, row.place)]);
        }
        change
    }

    // Numbers of a store that become others, each with its place.
    pub fn change(&self, room: &Room, store: &[u64]) -> Vec<(usize, u64)> {
        let one = || {
            let at = self.place(room);
            (at, self.value(store, at))
        };
        loop {
            let mut change = match self.to(15) {
                0 => vec![one(), one()],
                1 => vec![one(), one(), one()],
                2 | 3 => self.rows(room),
                4 if !room.channels.is_empty() => self.message_swap(room, store),
                5 if !room.channels.is_empty() => self.message_more(room),
                6 if !room.channels.is_empty() => self.packet_sent(room),
                _ => vec![one()],
            };
            change.retain(|(at, value)| store[*at] != *value);
            if !change.is_empty() {
                return change;
            }
        }
    }
}
