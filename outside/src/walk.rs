//! Walking distances.

use crate::least::least_sums;
use crate::record::{refuse_if, Answer, Network};

/// The walking entry.
pub fn walk(network: &[u8], start: u64, room: &mut [u32]) -> Answer<()> {
    let network = Network::read(network)?;
    refuse_if(start >= network.n as u64, 41)?;
    refuse_if(room.len() < network.n, 42)?;
    fill(room, &walks_from(&network, start as usize));
    Ok(())
}

/// The walking distance from the start to each node; a link is walked both ways.
pub fn walks_from(network: &Network, start: usize) -> Vec<Option<u64>> {
    let mut leaving = vec![Vec::new(); network.n];
    for link in &network.links {
        if let Some(cost) = link.walk_cost() {
            leaving[link.from].push((link.to, (cost, 0)));
            leaving[link.to].push((link.from, (cost, 0)));
        }
    }
    let sums = least_sums(network.n, start, |node| leaving[node].clone());
    sums.into_iter().map(|sum| sum.map(|(cost, _)| cost)).collect()
}

/// Puts distances at the start of a room.
pub fn fill(room: &mut [u32], distances: &[Option<u64>]) {
    for (place, distance) in room.iter_mut().zip(distances) {
        *place = distance.map_or(u32::MAX, |d| u32::try_from(d).expect("a distance fits 32 bits"));
    }
}
