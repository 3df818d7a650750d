//! Random standard input for the program `plan`.

use crate::desk_cases::records;
use crate::program::{MOST_INPUT, TABLE_PLACES};
use crate::random::Random;
use crate::record::{MOST_LINKS, MOST_NODES, MOST_RIDERS};
use crate::shapes::{self, Size};

/// The input of a case, in the pieces in which it is handed over.
pub fn input(case: u64) -> Vec<Vec<u8>> {
    let mut random = Random::new(1 << 32 | case);
    let mut bytes = two_records(&mut random);
    if random.once_in(2) {
        damage(&mut random, &mut bytes);
    }
    pieces(&mut random, &bytes)
}

fn two_records(random: &mut Random) -> Vec<u8> {
    let largest = random.once_in(8);
    let l = if largest { MOST_RIDERS } else { random.between(0, MOST_RIDERS) };
    let fitting = TABLE_PLACES >> l;
    let size = match random.below(8) {
        _ if largest => Size { nodes: random.between(1, fitting + 1), links: MOST_LINKS },
        0 => shapes::size(random),
        1 => Size { nodes: (fitting + random.below(2)).min(MOST_NODES), links: random.between(0, MOST_LINKS) },
        _ => {
            let nodes = random.between(1, fitting.min(20));
            Size { nodes, links: random.between(nodes, 6 * nodes) }
        }
    };
    let network = shapes::network(random, size);
    let request = shapes::request(random, size.nodes, l);
    let (network, request) = records(random, &network, &request, 4);
    [network, request].concat()
}

fn damage(random: &mut Random, input: &mut Vec<u8>) {
    let length = input.len();
    match random.below(8) {
        0 => input.truncate(random.below(length + 1)),
        1 => input.truncate(random.below(12)),
        2 => state(input, random.pick(&[0, 1, 4, 5, 7, 8, 9, 10])),
        3 => state(input, random.pick(&[length.wrapping_sub(1), length, length + 1, 0xFFFF_FFFF])),
        4 | 5 => lengthen(random, input),
        6 => {
            lengthen(random, input);
            state(input, random.pick(&[MOST_INPUT - 1, MOST_INPUT, MOST_INPUT + 1]));
        }
        _ => {
            let length = random.below(60);
            *input = random.bytes(length);
        }
    }
}

fn lengthen(random: &mut Random, input: &mut Vec<u8>) {
    let longer = random.pick(&[input.len() + 1, MOST_INPUT - 1, MOST_INPUT, MOST_INPUT + 1, 100_000]);
    let more = longer.saturating_sub(input.len());
    input.extend(random.bytes(more));
}

/// Puts another length into the network record.
fn state(input: &mut [u8], length: usize) {
    for (byte, new) in input.iter_mut().skip(1).zip((length as u32).to_be_bytes()) {
        *byte = new;
    }
}

fn pieces(random: &mut Random, bytes: &[u8]) -> Vec<Vec<u8>> {
    let mut pieces = Vec::new();
    let mut rest = bytes;
    for _ in 0..random.pick(&[0, 0, 0, 1, 5]) {
        let (piece, later) = rest.split_at(random.below(rest.len() + 1));
        pieces.push(piece.to_vec());
        rest = later;
    }
    pieces.push(rest.to_vec());
    pieces
}
