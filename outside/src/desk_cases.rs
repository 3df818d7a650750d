//! Random calls of the desk and of the tablet.

use crate::call::Call;
use crate::damage::{damage_network, damage_request, damage_route};
use crate::random::Random;
use crate::record::{Network, Request, MOST_RIDERS};
use crate::search::needs;
use crate::shapes::{self, Size, LARGEST};
use crate::write_cases::{write_network, write_request};

pub fn call(case: u64) -> Call {
    let mut random = Random::new(case);
    match case % 200 {
        0 => search_of(&mut random, LARGEST, MOST_RIDERS),
        100 => search_for_far_riders(&mut random),
        _ => any_call(&mut random),
    }
}

fn any_call(random: &mut Random) -> Call {
    match random.below(14) {
        0 => read_network(random),
        1 | 2 => read_request(random),
        3 | 4 => walk(random),
        5 | 6 => price(random),
        7 | 8 => price_on_tablet(random),
        9 => write_network(random),
        10 => write_request(random),
        _ => search(random),
    }
}

fn read_network(random: &mut Random) -> Call {
    let size = shapes::size(random);
    let mut network = shapes::network(random, size).record();
    if !random.once_in(4) {
        damage_network(random, &mut network);
    }
    Call::Network { network }
}

fn read_request(random: &mut Random) -> Call {
    let size = shapes::size(random);
    let network = shapes::network(random, size);
    let l = random.between(0, MOST_RIDERS);
    let request = shapes::request(random, size.nodes, l);
    let (network, request) = records(random, &network, &request, 2);
    Call::Request { network, request }
}

fn walk(random: &mut Random) -> Call {
    let Size { nodes, links } = shapes::size(random);
    let mut network = shapes::network(random, Size { nodes, links }).record();
    if random.once_in(4) {
        damage_network(random, &mut network);
    }
    let start = match random.below(8) {
        0 => random.pick(&[nodes as u64, 65_536, 1 << 32, u64::MAX]),
        _ => random.below(nodes) as u64,
    };
    Call::Walk { network, start, distances: room(random, nodes, |word| word as u32) }
}

fn price(random: &mut Random) -> Call {
    let (network, request, route) = driven(random);
    let meeting = room(random, request.riders.len(), |word| word as u16);
    let (network, request) = records(random, &network, &request, 8);
    Call::Price { network, request, route, meeting }
}

fn price_on_tablet(random: &mut Random) -> Call {
    let (network, request, route) = driven(random);
    let mut route: Vec<u8> = route.into_iter().flat_map(u16::to_be_bytes).collect();
    match random.below(12) {
        0 => route.push(random.byte()),
        1 => drop(route.pop()),
        _ => {}
    }
    let (network, request) = records(random, &network, &request, 8);
    Call::Tablet { network, request, route }
}

fn search(random: &mut Random) -> Call {
    let size = shapes::size(random);
    let most_riders = if size.nodes > 100 { 3 } else { MOST_RIDERS };
    let l = random.between(0, most_riders);
    search_of(random, size, l)
}

fn search_of(random: &mut Random, size: Size, l: usize) -> Call {
    let network = shapes::network(random, size);
    let request = shapes::request(random, size.nodes, l);
    search_in_rooms(random, &network, &request)
}

fn search_in_rooms(random: &mut Random, network: &Network, request: &Request) -> Call {
    let needs = needs(network.n, request.riders.len());
    let distances = room(random, needs.distances, |word| word as u32);
    let table = room(random, needs.table, |word| word);
    let steps = room(random, needs.steps, |word| word as u16);
    let (network, request) = records(random, network, request, 8);
    Call::Search { network, request, distances, table, steps }
}

fn search_for_far_riders(random: &mut Random) -> Call {
    let (network, request) = shapes::far_riders(random);
    search_in_rooms(random, &network, &request)
}

/// A network, a request and a route that fits them, unless it is damaged.
fn driven(random: &mut Random) -> (Network, Request, Vec<u16>) {
    let size = shapes::size(random);
    let network = shapes::network(random, size);
    let l = random.between(0, MOST_RIDERS);
    let mut request = shapes::request(random, size.nodes, l);
    let most = match random.below(16) {
        0 => random.pick(&[4_094, 4_095, 4_096, 4_097, 5_000, 70_000]),
        _ => random.between(0, 20),
    };
    let (mut route, target) = shapes::drive(random, &network, request.source, most);
    request.target = target;
    if random.once_in(3) {
        damage_route(random, &mut route, size.links);
    }
    (network, request, route)
}

/// Both records; one call in so many has the network damaged, and as many the request.
pub fn records(random: &mut Random, network: &Network, request: &Request, damaged_in: usize) -> (Vec<u8>, Vec<u8>) {
    let n = network.n;
    let (mut network, mut request) = (network.record(), request.record());
    if random.once_in(damaged_in) {
        damage_network(random, &mut network);
    }
    if random.once_in(damaged_in) {
        damage_request(random, &mut request, n);
    }
    (network, request)
}

/// A room that may be too small for the need.
pub fn room<T>(random: &mut Random, need: usize, element: fn(u64) -> T) -> Vec<T> {
    let length = match random.below(24) {
        0 => 0,
        1 => random.below(need + 1),
        2 | 3 => need.saturating_sub(1),
        4..=13 => need,
        _ => need + random.between(1, 20),
    };
    filled(random, length, element)
}

/// A room with something in it beforehand: zeros, ones or random numbers.
fn filled<T>(random: &mut Random, length: usize, element: fn(u64) -> T) -> Vec<T> {
    let pattern = random.pick(&[Some(0), Some(u64::MAX), None, None]);
    (0..length).map(|_| element(pattern.unwrap_or_else(|| random.word()))).collect()
}
