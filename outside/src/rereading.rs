//! Writing held to reading: a record is written exactly where the reader gives its numbers back, and what the reader
//! accepts is written as it was.

use crate::call::Call;
use crate::damage::{damage_network, damage_request};
use crate::random::Random;
use crate::record::{Link, Network, Request, Rider, LONGEST_RECORD, MOST_RIDERS};
use crate::record::{FIRST_NODE, FIRST_WEIGHT, VALUE_NUMBERS};
use crate::shapes;
use crate::write::{write_network, write_request};
use crate::write_cases;

const CASES: u64 = 4_000;

pub fn check() -> Result<(), String> {
    (0..CASES).try_for_each(check_case)
}

fn check_case(case: u64) -> Result<(), String> {
    let mut random = Random::new(3 << 32 | case);
    let kept = network_kept(&mut random) && request_kept(&mut random);
    let calls = [write_cases::write_network(&mut random), write_cases::write_request(&mut random)];
    if kept && calls.iter().all(writes_what_is_read) {
        Ok(())
    } else {
        Err(format!("writing and reading differ in their case {case}"))
    }
}

/// Whether a call, with room enough, writes a record exactly where the reader gives its numbers back.
fn writes_what_is_read(call: &Call) -> bool {
    match call {
        Call::WriteNetwork { n, links, .. } => {
            written(|room| write_network(*n, links, room).ok()) == readable_network(*n, links)
        }
        Call::WriteRequest { n, value, .. } => {
            written(|room| write_request(*n, value, room).ok()) == readable_request(*n, value)
        }
        _ => false,
    }
}

fn written(write: impl FnOnce(&mut [u8]) -> Option<u64>) -> Option<Vec<u8>> {
    let mut room = vec![0; LONGEST_RECORD];
    let length = write(&mut room)?;
    room.truncate(length as usize);
    Some(room)
}

/// The numbers laid out, each cut to its field, if the reader gives them back.
fn readable_network(n: u64, numbers: &[u16]) -> Option<Vec<u8>> {
    let links = numbers.chunks_exact(4).map(Link::of).collect();
    let record = Network { n: n as usize, links }.record();
    let read = Network::read(&record).ok()?;
    (read.n as u64 == n && read.numbers() == numbers).then_some(record)
}

/// The numbers laid out, each cut to its field, if the reader gives them back beside a network of n nodes.
fn readable_request(n: u64, value: &[u64]) -> Option<Vec<u8>> {
    readable_network(n, &[])?;
    let &[source, target, bus_weight, l] = value.get(..FIRST_NODE)? else { return None };
    let places = value.get(FIRST_NODE..FIRST_WEIGHT)?.iter().zip(value.get(FIRST_WEIGHT..VALUE_NUMBERS)?);
    let riders = places.map(|(&node, &weight)| Rider { node: node as usize, weight: weight as u8 });
    let record = Request {
        source: source as usize,
        target: target as usize,
        bus_weight: bus_weight as u8,
        riders: riders.take(l.min(MOST_RIDERS as u64) as usize).collect(),
    }
    .record();
    let read = Request::read(&record, n as usize).ok()?;
    (read.value().map(u64::from)[..] == *value).then_some(record)
}

fn network_kept(random: &mut Random) -> bool {
    let size = shapes::size(random);
    let mut record = shapes::network(random, size).record();
    if random.once_in(2) {
        damage_network(random, &mut record);
    }
    Network::read(&record).map_or(true, |network| {
        written(|room| write_network(network.n as u64, &network.numbers(), room).ok()) == Some(record)
    })
}

fn request_kept(random: &mut Random) -> bool {
    let n = shapes::size(random).nodes;
    let l = random.between(0, MOST_RIDERS);
    let mut record = shapes::request(random, n, l).record();
    if random.once_in(2) {
        damage_request(random, &mut record, n);
    }
    Request::read(&record, n).map_or(true, |request| {
        written(|room| write_request(n as u64, &request.value().map(u64::from), room).ok()) == Some(record)
    })
}
