//! Kinds of calls that the drivers count, by the walks in them.

use crate::call::Call;
use crate::least::least_sums;
use crate::price::{price, price_on_tablet};
use crate::record::{read_both, Answer, Network, Refusal, CLOSED, MOST_RIDERS};
use crate::search::{search, FIRST_DRIVE, STEP_RANGE};
use crate::walk::{walk, walks_from};

/// The entries that use walks; calls of each can be of each kind.
pub const ENTRIES: [&str; 4] = ["walk", "price", "tablet", "search"];
pub const BACKWARDS: &str = "with a link walked backwards";
pub const KINDS: [&str; 2] = [BACKWARDS, "with a walk shut"];

/// The kinds that a call is of, once it has been answered.
pub fn kinds(call: &Call, answer: Answer<u64>) -> Vec<String> {
    let are = [answer.is_ok_and(|value| walks_backwards(call, value)), is_shut(call, answer)];
    KINDS.into_iter().zip(are).filter(|(_, is)| *is).map(|(kind, _)| format!("{} {kind}", call.name())).collect()
}

/// Whether somebody walks a link from its end to its start: if nobody could, the plan, the price, a meeting position or
/// a distance would be another.
fn walks_backwards(call: &Call, answer: u64) -> bool {
    match call {
        Call::Walk { network, start, .. } => {
            Network::read(network).is_ok_and(|network| nearer_backwards(&network, *start as usize).contains(&true))
        }
        Call::Price { network, request, route, .. } => met_backwards(network, request, route),
        Call::Tablet { network, request, route } => {
            let route: Vec<u16> = route.chunks_exact(2).map(|link| u16::from_be_bytes([link[0], link[1]])).collect();
            met_backwards(network, request, &route)
        }
        Call::Search { network, request, steps, .. } => {
            let steps = &steps[..(answer % STEP_RANGE) as usize];
            let route: Vec<u16> = steps.iter().filter_map(|step| step.checked_sub(FIRST_DRIVE as u16)).collect();
            met_backwards(network, request, &route)
        }
        _ => false,
    }
}

/// Whether some rider walks a link backwards to the meeting position of a route.
fn met_backwards(network: &[u8], request: &[u8], route: &[u16]) -> bool {
    let mut meeting = [0; MOST_RIDERS];
    let priced = price(network, request, route, &mut meeting);
    priced.and(read_both(network, request)).is_ok_and(|(network, request)| {
        let driven = route.iter().map(|&k| network.links[usize::from(k)].to);
        let nodes: Vec<usize> = [request.source].into_iter().chain(driven).collect();
        let mut meetings = request.riders.iter().zip(meeting.map(usize::from));
        meetings.any(|(rider, position)| nearer_backwards(&network, rider.node)[nodes[position]])
    })
}

/// For each node whether it is nearer to the one given than it would be if links were walked from start to end alone.
fn nearer_backwards(network: &Network, start: usize) -> Vec<bool> {
    let mut leaving = vec![Vec::new(); network.n];
    for link in &network.links {
        leaving[link.from].extend(link.walk_cost().map(|cost| (link.to, (cost, 0))));
    }
    let one_way = least_sums(network.n, start, |node| leaving[node].clone());
    let walks = walks_from(network, start).into_iter();
    walks.zip(one_way).map(|(walk, one_way)| walk != one_way.map(|(cost, _)| cost)).collect()
}

/// Whether links that are closed to walkers are all that keeps somebody from a node, a price or a plan.
fn is_shut(call: &Call, answer: Answer<u64>) -> bool {
    match (call, answer) {
        (Call::Walk { network, start, distances }, Ok(_)) => {
            let mut open = distances.clone();
            let walked = walk(&opened(network), *start, &mut open).is_ok();
            walked && distances.iter().zip(open).any(|(&shut, open)| shut == u32::MAX && open != u32::MAX)
        }
        (Call::Price { network, request, route, meeting }, Err(Refusal { number: 37, .. })) => {
            price(&opened(network), request, route, &mut meeting.clone()).is_ok()
        }
        (Call::Tablet { network, request, route }, Err(Refusal { number: 37, .. })) => {
            price_on_tablet(&opened(network), request, route).is_ok()
        }
        (Call::Search { network, request, distances, table, steps }, Err(Refusal { number: 24, .. })) => {
            let (mut distances, mut table, mut steps) = (distances.clone(), table.clone(), steps.clone());
            search(&opened(network), request, &mut distances, &mut table, &mut steps).is_ok()
        }
        _ => false,
    }
}

/// A sound network record with every link open to walkers.
fn opened(network: &[u8]) -> Vec<u8> {
    let mut network = network.to_vec();
    let walks = network[9..].chunks_exact_mut(8).map(|link| &mut link[6..]);
    walks.filter(|walk| **walk == CLOSED.to_be_bytes()).for_each(|walk| walk.fill(0));
    network
}
