//! The memory that a call is made on, as the host gets it and gives it back.

use crate::call::Call;
use crate::random::Random;

/// The numbers before the memory: the function, its number, the memory's length, offset and length of up to five parts.
const HEAD_NUMBERS: usize = 3 + 2 * 5;

/// An element of a part, as the host's machine keeps it.
pub trait Element: Copy {
    const WIDTH: usize;
    fn kept(self) -> Vec<u8>;
}

macro_rules! elements {
    ($($number:ty),*) => {
        $(impl Element for $number {
            const WIDTH: usize = size_of::<$number>();
            fn kept(self) -> Vec<u8> {
                self.to_le_bytes().to_vec()
            }
        })*
    };
}

elements!(u8, u16, u32, u64);

pub struct Part {
    name: &'static str,
    width: usize,
    bytes: Vec<u8>,
}

pub fn part<T: Element>(name: &'static str, elements: &[T]) -> Part {
    Part { name, width: T::WIDTH, bytes: elements.iter().flat_map(|&element| element.kept()).collect() }
}

struct Span {
    name: &'static str,
    width: usize,
    offset: usize,
    length: usize,
}

impl Span {
    fn value(&self, memory: &[u8], place: usize) -> u64 {
        let start = self.offset + place * self.width;
        memory[start..start + self.width].iter().rev().fold(0, |high, &byte| high << 8 | u64::from(byte))
    }
}

/// The memory of a call: its parts, each aligned, with random bytes around it that no call may touch.
pub struct Memory {
    pub bytes: Vec<u8>,
    spans: Vec<Span>,
}

impl Memory {
    /// Lays out the parts of a call; the same seed and the same lengths give the same bytes around them.
    pub fn of(call: &Call, seed: u64) -> Memory {
        let mut random = Random::new(seed);
        let mut memory = Memory { bytes: Vec::new(), spans: Vec::new() };
        for part in call.parts() {
            memory.add_fence(&mut random, part.width);
            let (offset, length) = (memory.bytes.len(), part.bytes.len() / part.width);
            memory.spans.push(Span { name: part.name, width: part.width, offset, length });
            memory.bytes.extend(part.bytes);
        }
        memory.add_fence(&mut random, 1);
        memory
    }

    fn add_fence(&mut self, random: &mut Random, width: usize) {
        let least = self.bytes.len() + random.between(16, 24);
        let fence = random.bytes(least.next_multiple_of(width) - self.bytes.len());
        self.bytes.extend(fence);
    }

    /// The call as the host reads it.
    pub fn message(&self, call: &Call) -> Vec<u8> {
        let mut head = vec![call.function(), call.number().unwrap_or(0), self.bytes.len() as u64];
        head.extend(self.spans.iter().flat_map(|span| [span.offset as u64, span.length as u64]));
        head.resize(HEAD_NUMBERS, 0);
        let mut message: Vec<u8> = head.into_iter().flat_map(u64::to_le_bytes).collect();
        message.extend(&self.bytes);
        message
    }

    /// Says where other memory of the same layout first differs, if it does.
    pub fn difference(&self, other: &[u8]) -> Option<String> {
        let at = self.bytes.iter().zip(other).position(|(ours, theirs)| ours != theirs)?;
        let holds = |span: &&Span| (span.offset..span.offset + span.length * span.width).contains(&at);
        let Some(span) = self.spans.iter().find(holds) else {
            return Some(format!("byte {at} of the memory, which is in no part, was written"));
        };
        let place = (at - span.offset) / span.width;
        let (ours, theirs) = (span.value(&self.bytes, place), span.value(other, place));
        Some(format!("{} place {place} of {} holds {theirs} instead of {ours}", span.name, span.length))
    }

    /// The parts of the memory, cut where they are long.
    pub fn shown(&self) -> String {
        let show = |span: &Span| {
            let bytes = &self.bytes[span.offset..span.offset + (span.length * span.width).min(128)];
            let hex: String = bytes.iter().map(|byte| format!("{byte:02X}")).collect();
            format!("  {} ({} places of {} bytes): {hex}\n", span.name, span.length, span.width)
        };
        self.spans.iter().map(show).collect()
    }
}
