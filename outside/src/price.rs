//! Pricing of a given route.

use crate::record::{read_both, refuse_at, refuse_if, Answer, Network, Refusal, Request, MOST_RIDERS};
use crate::walk::walks_from;

pub const MOST_ROUTE_LINKS: usize = 4_095;

/// The pricing entry.
pub fn price(network: &[u8], request: &[u8], route: &[u16], meeting: &mut [u16]) -> Answer<u64> {
    let (network, request) = read_both(network, request)?;
    refuse_if(meeting.len() < request.riders.len(), 31)?;
    price_route(&network, &request, route, meeting)
}

/// The tablet's entry: the route comes as bytes, and the meeting positions are not asked for.
pub fn price_on_tablet(network: &[u8], request: &[u8], route: &[u8]) -> Answer<u64> {
    let (network, request) = read_both(network, request)?;
    refuse_if(route.len() % 2 == 1, 38)?;
    let links: Vec<u16> = route.chunks_exact(2).map(|link| u16::from_be_bytes([link[0], link[1]])).collect();
    price_route(&network, &request, &links, &mut [0; MOST_RIDERS])
}

fn price_route(network: &Network, request: &Request, route: &[u16], meeting: &mut [u16]) -> Answer<u64> {
    refuse_if(route.len() > MOST_ROUTE_LINKS, 32)?;
    let (driving, nodes) = drive(network, request.source, route)?;
    refuse_if(nodes.last() != Some(&request.target), 36)?;
    let nearest: Vec<_> =
        request.riders.iter().map(|rider| nearest_position(&walks_from(network, rider.node), &nodes)).collect();
    refuse_at(nearest.iter().position(Option::is_none), 37)?;
    let mut price = u64::from(request.bus_weight) * driving;
    for (j, (distance, position)) in nearest.into_iter().flatten().enumerate() {
        price += u64::from(request.riders[j].weight) * distance;
        meeting[j] = position as u16;
    }
    Ok(price)
}

/// The sum of the drive costs, and the node at each position.
fn drive(network: &Network, source: usize, route: &[u16]) -> Answer<(u64, Vec<usize>)> {
    let mut driving = 0;
    let mut nodes = vec![source];
    for (i, &k) in route.iter().enumerate() {
        let refused = |number| Refusal { number, place: i as u64 };
        let link = network.links.get(usize::from(k)).ok_or(refused(33))?;
        driving += link.drive_cost().ok_or(refused(34))?;
        refuse_at((link.from != nodes[i]).then_some(i), 35)?;
        nodes.push(link.to);
    }
    Ok((driving, nodes))
}

/// The least distance to a position's node, with the earliest position that has it.
fn nearest_position(distances: &[Option<u64>], nodes: &[usize]) -> Option<(u64, usize)> {
    let reached = nodes.iter().enumerate().filter_map(|(i, &node)| Some((distances[node]?, i)));
    reached.min()
}
