//! Calls of the C functions: what is handed over, and what the rules say comes back.

use crate::memory::{part, Part};
use crate::price::{price, price_on_tablet};
use crate::record::{read_both, Answer, Network};
use crate::search::{search, STEP_RANGE};
use crate::walk::walk;
use crate::write::{write_network, write_request};

#[derive(Clone)]
pub enum Call {
    Network { network: Vec<u8> },
    Request { network: Vec<u8>, request: Vec<u8> },
    Walk { network: Vec<u8>, start: u64, distances: Vec<u32> },
    Price { network: Vec<u8>, request: Vec<u8>, route: Vec<u16>, meeting: Vec<u16> },
    Search { network: Vec<u8>, request: Vec<u8>, distances: Vec<u32>, table: Vec<u64>, steps: Vec<u16> },
    Tablet { network: Vec<u8>, request: Vec<u8>, route: Vec<u8> },
    WriteNetwork { n: u64, links: Vec<u16>, room: Vec<u8> },
    WriteRequest { n: u64, value: Vec<u64>, room: Vec<u8> },
}

impl Call {
    pub fn name(&self) -> &'static str {
        match self {
            Call::Network { .. } => "network",
            Call::Request { .. } => "request",
            Call::Walk { .. } => "walk",
            Call::Price { .. } => "price",
            Call::Search { .. } => "search",
            Call::Tablet { .. } => "tablet",
            Call::WriteNetwork { .. } => "write-network",
            Call::WriteRequest { .. } => "write-request",
        }
    }

    /// What the rules answer; the rooms change as the rules say.
    pub fn answer(&mut self) -> Answer<u64> {
        match self {
            Call::Network { network } => {
                Network::read(network).map(|network| 65_536 * network.n as u64 + network.links.len() as u64)
            }
            Call::Request { network, request } => {
                read_both(network, request).map(|(_, request)| request.riders.len() as u64)
            }
            Call::Walk { network, start, distances } => walk(network, *start, distances).map(|()| 0),
            Call::Price { network, request, route, meeting } => price(network, request, route, meeting),
            Call::Search { network, request, distances, table, steps } => {
                search(network, request, distances, table, steps).map(|(cost, count)| STEP_RANGE * cost + count)
            }
            Call::Tablet { network, request, route } => price_on_tablet(network, request, route),
            Call::WriteNetwork { n, links, room } => write_network(*n, links, room),
            Call::WriteRequest { n, value, room } => write_request(*n, value, room),
        }
    }

    /// An answer as the C functions give it.
    pub fn encoded(&self, answer: Answer<u64>) -> u64 {
        match (answer, self) {
            (Ok(value), _) => value,
            (Err(refusal), Call::Tablet { .. }) => (1 << 63) + refusal.number,
            (Err(refusal), _) => (1 << 63) + 65_536 * refusal.place + refusal.number,
        }
    }

    /// The function's number, as the host knows it.
    pub fn function(&self) -> u64 {
        match self {
            Call::Network { .. } => 0,
            Call::Request { .. } => 1,
            Call::Walk { .. } => 2,
            Call::Price { .. } => 3,
            Call::Search { .. } => 4,
            Call::Tablet { .. } => 5,
            Call::WriteNetwork { .. } => 6,
            Call::WriteRequest { .. } => 7,
        }
    }

    /// The number that is handed over beside the parts: the start of a walk, or n of what is written.
    pub fn number(&self) -> Option<u64> {
        match self {
            Call::Walk { start, .. } => Some(*start),
            Call::WriteNetwork { n, .. } | Call::WriteRequest { n, .. } => Some(*n),
            _ => None,
        }
    }

    /// The parts of memory that the function is handed, in order.
    pub fn parts(&self) -> Vec<Part> {
        match self {
            Call::Network { network } => vec![part("network", network)],
            Call::Request { network, request } => vec![part("network", network), part("request", request)],
            Call::Walk { network, distances, .. } => vec![part("network", network), part("distances", distances)],
            Call::Price { network, request, route, meeting } => {
                vec![part("network", network), part("request", request), part("route", route), part("meeting", meeting)]
            }
            Call::Search { network, request, distances, table, steps } => vec![
                part("network", network),
                part("request", request),
                part("distances", distances),
                part("table", table),
                part("steps", steps),
            ],
            Call::Tablet { network, request, route } => {
                vec![part("network", network), part("request", request), part("route", route)]
            }
            Call::WriteNetwork { links, room, .. } => vec![part("links", links), part("room", room)],
            Call::WriteRequest { value, room, .. } => vec![part("value", value), part("room", room)],
        }
    }
}

/// An answer of the C functions, in words.
pub fn shown(answer: u64) -> String {
    match answer.checked_sub(1 << 63) {
        Some(refusal) => format!("refused {} at {}", refusal % 65_536, refusal / 65_536),
        None => format!("answered {answer}"),
    }
}
