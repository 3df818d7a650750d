//! Records written from plain numbers.

use crate::record::{refuse_if, Answer, Link, Network, Request, Rider};
use crate::record::{BUS_WEIGHT, FIRST_NODE, FIRST_WEIGHT, RIDER_COUNT, VALUE_NUMBERS};
use crate::record::{MOST_LINKS, MOST_NODES, MOST_RIDERS};

/// Writes a network, and gives its length.
pub fn write_network(n: u64, numbers: &[u16], room: &mut [u8]) -> Answer<u64> {
    refuse_if(!nodes_fit(n), 81)?;
    refuse_if(numbers.len() % 4 != 0 || numbers.len() > 4 * MOST_LINKS, 81)?;
    let links: Vec<Link> = numbers.chunks_exact(4).map(Link::of).collect();
    let network = Network { n: n as usize, links };
    refuse_if(network.links.iter().any(|link| link.from.max(link.to) >= network.n), 82)?;
    put(&network.record(), room)
}

/// Writes a request for so many nodes, and gives its length.
pub fn write_request(n: u64, value: &[u64], room: &mut [u8]) -> Answer<u64> {
    refuse_if(!nodes_fit(n) || value.len() != VALUE_NUMBERS, 81)?;
    let l = value[RIDER_COUNT];
    refuse_if(l > MOST_RIDERS as u64, 81)?;
    let (nodes, unused_nodes) = value[FIRST_NODE..FIRST_WEIGHT].split_at(l as usize);
    let (weights, unused_weights) = value[FIRST_WEIGHT..].split_at(l as usize);
    refuse_if(weights.iter().chain([&value[BUS_WEIGHT]]).any(|weight| !(1..=100).contains(weight)), 81)?;
    refuse_if([unused_nodes, unused_weights].concat().iter().any(|&unused| unused != 0), 81)?;
    refuse_if(nodes.iter().chain(&value[..2]).any(|&node| node >= n), 82)?;
    let riders = nodes.iter().zip(weights).map(|(&node, &weight)| Rider { node: node as usize, weight: weight as u8 });
    let request = Request {
        source: value[0] as usize,
        target: value[1] as usize,
        bus_weight: value[BUS_WEIGHT] as u8,
        riders: riders.collect(),
    };
    put(&request.record(), room)
}

fn nodes_fit(n: u64) -> bool {
    (1..=MOST_NODES as u64).contains(&n)
}

/// Puts a record at the start of a room, and gives its length.
fn put(record: &[u8], room: &mut [u8]) -> Answer<u64> {
    refuse_if(room.len() < record.len(), 83)?;
    room[..record.len()].copy_from_slice(record);
    Ok(record.len() as u64)
}
