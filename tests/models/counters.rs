// Document 01, "Offering" and "A slot", and long waits, on the counters of docs/STORE.md: a second reading beside
// tests/models/queues.rs, for stores that no calls lead to. Nothing here is taken from the Rattle sources.
use super::room::{broken, channel_at, Channel, Room, Row, END_SLOT};
use std::collections::BTreeSet;

// A refusal's number; for the 17 that is looked at last, the rules that the later store would break.
#[derive(Debug, PartialEq)]
pub struct Refused {
    pub number: u64,
    pub later: BTreeSet<&'static str>,
}

fn refused_unless(holds: bool, number: u64) -> Result<(), Refused> {
    if holds { Ok(()) } else { Err(Refused { number, later: BTreeSet::new() }) }
}

// The next packet of a channel at a place of its route.
struct Head {
    channel: u64,
    place: usize,
    message: u64,
    packet: u64,
    logical: u64,
    deadline: u64,
}

// None where the place holds no packet.
fn head(channel: &Channel, c: u64, place: usize) -> Option<Head> {
    let next = channel.sent[place];
    if next >= channel.come(place) {
        return None;
    }
    let has = |n: &u64| channel.end_of(n - 1) <= next && next < channel.end_of(*n);
    let n = channel.under_way().into_iter().find(has).unwrap();
    let logical = channel.time_of(n) + channel.delay[..place].iter().sum::<u64>();
    let (message, packet) = (n - 1, next - channel.end_of(n - 1));
    Some(Head { channel: c, place, message, packet, logical, deadline: logical + channel.delay[place] })
}

// What the rows of a link have to send next.
fn heads(room: &Room, l: usize) -> Vec<Head> {
    let of = |row: &Row| head(&room.channels[row.channel as usize], row.channel, row.place as usize);
    room.links[l].rows.iter().filter_map(of).collect()
}

fn pick(room: &Room, l: usize) -> Option<Head> {
    let (mut current, mut early): (Vec<Head>, Vec<Head>) =
        heads(room, l).into_iter().partition(|head| head.logical <= room.clock);
    current.sort_by_key(|head| (head.deadline, head.channel));
    early.retain(|head| head.logical - room.clock <= room.links[l].horizon);
    early.sort_by_key(|head| (head.logical, head.channel));
    current.into_iter().chain(early).next()
}

// Numbers of a store that become others, unless the store were then not sound.
fn change(store: &mut [u64], numbers: &[(usize, u64)]) -> Result<(), Refused> {
    let old: Vec<u64> = numbers.iter().map(|(at, _)| store[*at]).collect();
    numbers.iter().for_each(|(at, value)| store[*at] = *value);
    let later = broken(store).0;
    if later.is_empty() {
        return Ok(());
    }
    numbers.iter().zip(old).for_each(|((at, _), value)| store[*at] = value);
    Err(Refused { number: 17, later })
}

// What a slot with so much room sends, and what it leaves in the store.
pub fn slot(store: &mut [u64], space: u64) -> Result<Vec<[u64; 5]>, Refused> {
    refused_unless(broken(store).0.is_empty(), 17)?;
    let room = Room::read(store).unwrap();
    refused_unless(room.clock < END_SLOT, 14)?;
    refused_unless(space / 5 >= room.links.len() as u64, 15)?;
    let (mut sends, mut numbers) = (vec![], vec![(2, room.clock + 1)]);
    for l in 0..room.links.len() {
        if let Some(Head { channel, place, message, packet, .. }) = pick(&room, l) {
            sends.push([room.clock, l as u64, channel, message, packet]);
            let sent = room.channels[channel as usize].sent[place];
            numbers.push((channel_at(channel as usize) + 24 + place, sent + 1));
        }
    }
    change(store, &numbers)?;
    Ok(sends)
}

// The message's number and logical time, and what it leaves in the store.
pub fn offer(store: &mut [u64], c: u64, packets: u64) -> Result<(u64, u64), Refused> {
    refused_unless(broken(store).0.is_empty(), 17)?;
    let room = Room::read(store).unwrap();
    refused_unless(room.clock < END_SLOT, 14)?;
    refused_unless(c < room.channels.len() as u64, 11)?;
    let channel = &room.channels[c as usize];
    refused_unless((1..=channel.c).contains(&packets), 12)?;
    let n = channel.messages;
    let logical = if n == 0 { room.clock } else { room.clock.max(channel.time_of(n) + channel.p) };
    refused_unless(logical <= room.clock + (channel.b - 1) * channel.p, 13)?;
    let (at, ring) = (channel_at(c as usize), (n as usize + 1) % 24);
    change(store, &[(at + 5, n + 1), (at + 32 + ring, logical), (at + 56 + ring, channel.end_of(n) + packets)])?;
    Ok((n, logical))
}

// How many slots no link can send in.
pub fn idle(store: &[u64]) -> Result<u64, Refused> {
    refused_unless(broken(store).0.is_empty(), 17)?;
    let room = Room::read(store).unwrap();
    refused_unless(room.clock < END_SLOT, 14)?;
    let wait = |l: usize, head: Head| head.logical.saturating_sub(room.clock + room.links[l].horizon);
    let waits = (0..room.links.len()).flat_map(|l| heads(&room, l).into_iter().map(move |head| (l, head)));
    let left = END_SLOT - room.clock;
    Ok(waits.map(|(l, head)| wait(l, head)).min().map_or(left, |wait| wait.min(left)))
}

// How many of them are skipped, and what that leaves in the store.
pub fn skip(store: &mut [u64], count: u64) -> Result<u64, Refused> {
    let slots = idle(store)?.min(count);
    store[2] += slots;
    Ok(slots)
}
