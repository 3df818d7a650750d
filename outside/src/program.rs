//! What the program `plan` prints for what it reads.

use crate::record::{number, read_both, Refusal, MOST_NODES, MOST_RIDERS};
use crate::search::{search, FIRST_DRIVE};

pub const MOST_INPUT: usize = 16_424;
pub const TABLE_PLACES: usize = 2_048;

pub fn output(input: &[u8]) -> String {
    let (network, request) = parted(&input[..input.len().min(MOST_INPUT)]);
    let mut distances = [0; MOST_RIDERS * MOST_NODES];
    let mut table = [0; TABLE_PLACES];
    let mut steps = [0; 4_095];
    match search(network, request, &mut distances, &mut table, &mut steps) {
        Ok((cost, count)) => {
            format!("ok {cost} {count}\n") + &step_lines(network, request, &distances, &steps[..count as usize])
        }
        Err(Refusal { number, place }) => format!("refused {number} {place}\n"),
    }
}

/// The network record and the request record in the bytes taken.
pub fn parted(input: &[u8]) -> (&[u8], &[u8]) {
    let stated = if input.len() < 5 { input.len() } else { number(&input[1..5]) };
    input.split_at(stated.min(input.len()))
}

fn step_lines(network: &[u8], request: &[u8], distances: &[u32], steps: &[u16]) -> String {
    let (network, request) = read_both(network, request).expect("a plan comes of good records");
    let mut node = request.source;
    let mut lines = String::new();
    for step in steps.iter().copied().map(usize::from) {
        if step < FIRST_DRIVE {
            lines += &format!("meet {step} {node} {}\n", distances[step * network.n + node]);
        } else {
            let k = step - FIRST_DRIVE;
            let link = &network.links[k];
            lines += &format!("drive {k} {} {}\n", link.from, link.to);
            node = link.to;
        }
    }
    lines
}
