//! Random calls that write records, from sound numbers and from damaged ones, often with several faults at once.

use crate::call::Call;
use crate::desk_cases::room;
use crate::random::Random;
use crate::record::{BUS_WEIGHT, FIRST_NODE, FIRST_WEIGHT, RIDER_COUNT, VALUE_NUMBERS};
use crate::record::{MOST_LINKS, MOST_RIDERS};
use crate::shapes::{self, Size};

pub fn write_network(random: &mut Random) -> Call {
    let Size { nodes, mut links } = shapes::size(random);
    if random.once_in(6) {
        links = random.pick(&[0, 1, MOST_LINKS - 1, MOST_LINKS]);
    }
    let mut numbers = shapes::network(random, Size { nodes, links }).numbers();
    let mut n = nodes as u64;
    if !random.once_in(3) {
        for _ in 0..random.between(1, 3) {
            damage_links(random, &mut n, &mut numbers, nodes as u64);
        }
    }
    let room = room(random, 9 + 2 * numbers.len(), |word| word as u8);
    Call::WriteNetwork { n, links: numbers, room }
}

pub fn write_request(random: &mut Random) -> Call {
    let Size { nodes, .. } = shapes::size(random);
    let l = random.between(0, MOST_RIDERS);
    let mut value = shapes::request(random, nodes, l).value().map(u64::from).to_vec();
    let mut n = nodes as u64;
    if !random.once_in(3) {
        for _ in 0..random.between(1, 3) {
            damage_value(random, &mut n, &mut value, nodes as u64);
        }
    }
    let room = room(random, 9 + 3 * l, |word| word as u8);
    Call::WriteRequest { n, value, room }
}

/// Changes the numbers of a network that had so many nodes; costs may be anything, so that is no fault.
fn damage_links(random: &mut Random, n: &mut u64, numbers: &mut Vec<u16>, nodes: u64) {
    let last = numbers.len().saturating_sub(4);
    let any = random.below(last + 1) / 4 * 4;
    let link = random.pick(&[0, any, last]);
    match random.below(8) {
        0 => *n = any_count(random, nodes),
        1 => numbers.truncate(numbers.len().saturating_sub(random.between(1, 4))),
        2 => {
            let more = random.between(1, 4);
            numbers.resize(numbers.len() + more, 0);
        }
        3 if random.once_in(4) => {
            let links = random.pick(&[MOST_LINKS, MOST_LINKS, MOST_LINKS, MOST_LINKS + 1, 65_536, 65_537]);
            numbers.resize(4 * links + random.pick(&[0, 0, 1, 2, 3]), 0);
        }
        4..=6 => put(numbers, link + random.below(2), any_node(random, nodes) as u16),
        _ => put(numbers, link + random.between(2, 3), random.pick(&[0, 65_534, 65_535])),
    }
}

/// Changes the value of a request beside so many nodes.
fn damage_value(random: &mut Random, n: &mut u64, value: &mut Vec<u64>, nodes: u64) {
    let l = value.get(RIDER_COUNT).map_or(0, |&l| l.min(MOST_RIDERS as u64) as usize);
    let rider = random.below(l.max(1));
    match random.below(11) {
        0 => *n = any_count(random, nodes),
        1 => put(value, RIDER_COUNT, any_rider_count(random, l as u64)),
        2 => put(value, BUS_WEIGHT, any_weight(random)),
        3 => put(value, FIRST_WEIGHT + rider, any_weight(random)),
        4 | 5 => put(value, random.pick(&[0, 1]), any_node(random, nodes)),
        6 | 7 => put(value, FIRST_NODE + rider, any_node(random, nodes)),
        8 | 9 if l < MOST_RIDERS => {
            let unused = random.pick(&[l, MOST_RIDERS - 1]);
            let first = random.pick(&[FIRST_NODE, FIRST_WEIGHT]);
            put(value, first + unused, random.pick(&[1, 100, 256, 65_536, 1 << 32, 1 << 40, u64::MAX]));
        }
        _ => value.resize(random.pick(&[0, 1, VALUE_NUMBERS - 1, VALUE_NUMBERS, VALUE_NUMBERS + 1, 26]), 0),
    }
}

/// A number of nodes: within the limits or not, or with low bits that are.
fn any_count(random: &mut Random, nodes: u64) -> u64 {
    let beyond = random.pick(&[1 << 16, 1 << 32, 1 << 40, 1 << 63]);
    random.pick(&[0, 512, 513, 65_535, u64::MAX, nodes - 1, beyond, beyond + nodes])
}

/// A node that is there or not, or whose low bits are.
fn any_node(random: &mut Random, nodes: u64) -> u64 {
    let node = random.below(nodes as usize) as u64;
    let beyond = random.pick(&[1 << 16, 1 << 32, 1 << 40, 1 << 63]);
    random.pick(&[nodes - 1, nodes, nodes, nodes + 1, 512, 65_535, u64::MAX, beyond, beyond + node])
}

/// A weight within the limits or not, or with low bits that are.
fn any_weight(random: &mut Random) -> u64 {
    let weight = random.between(1, 100) as u64;
    let beyond = random.pick(&[1 << 8, 1 << 16, 1 << 32, 1 << 40]);
    random.pick(&[0, 1, 100, 101, 255, u64::MAX, beyond, beyond + 1, beyond + weight])
}

/// A number of riders instead of l: within the limit or not, or with low bits that are.
fn any_rider_count(random: &mut Random, l: u64) -> u64 {
    let beyond = random.pick(&[1 << 8, 1 << 16, 1 << 32, 1 << 40]);
    random.pick(&[0, 7, 8, 255, u64::MAX, l + 1, l.saturating_sub(1), beyond, beyond + l])
}

/// Puts a number into a list, if it reaches so far.
fn put<T>(list: &mut [T], place: usize, new: T) {
    if let Some(old) = list.get_mut(place) {
        *old = new;
    }
}
