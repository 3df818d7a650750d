//! The records as text: what the desks' command shows, and what it takes to write them.

use crate::record::{Link, Network, Request, Rider, CLOSED, LONGEST_RECORD, MOST_NODES, MOST_RIDERS, RIDER_COUNT};
use crate::write::{write_network, write_request};

/// A longer text is not taken.
pub const MOST_BYTES: usize = 16 * 1024 * 1024;

#[derive(Clone, Copy, Debug, PartialEq, Eq)]
pub enum Kind {
    Network,
    Request,
}

impl Kind {
    pub fn word(self) -> &'static str {
        match self {
            Kind::Network => "network",
            Kind::Request => "request",
        }
    }
}

/// The text of a record that the reader accepts; a request is read beside 512 nodes.
pub fn shown(kind: Kind, record: &[u8]) -> Option<String> {
    match kind {
        Kind::Network => Network::read(record).ok().map(|network| network_text(&network)),
        Kind::Request => Request::read(record, MOST_NODES).ok().map(|request| request_text(&request)),
    }
}

pub fn network_text(Network { n, links }: &Network) -> String {
    let cost = |cost: u16| if cost == CLOSED { "-".into() } else { cost.to_string() };
    let line = |(k, Link { from, to, drive, walk }): (usize, &Link)| {
        format!("link {k}: from {from} to {to}, drive {}, walk {}\n", cost(*drive), cost(*walk))
    };
    format!("nodes {n}, links {}\n", links.len()) + &links.iter().enumerate().map(line).collect::<String>()
}

pub fn request_text(Request { source, target, bus_weight, riders }: &Request) -> String {
    let line = |(j, Rider { node, weight }): (usize, &Rider)| format!("rider {j}: node {node}, weight {weight}\n");
    let head = format!("source {source}, target {target}, bus weight {bus_weight}, riders {}\n", riders.len());
    head + &riders.iter().enumerate().map(line).collect::<String>()
}

/// What comes of a text that is to be written as a record.
#[derive(Debug, PartialEq, Eq)]
pub enum Outcome {
    Written(Vec<u8>),
    Refused(u64),
    Slip(Slip),
    TooLong,
}

/// Something else in a text than what is expected there.
#[derive(Debug, PartialEq, Eq)]
pub struct Slip {
    pub expected: &'static str,
    /// The line, counted from 1; that behind the last where the text ends too early.
    pub line: usize,
}

/// All that a slip can be, a cost in networks alone.
pub const EXPECTED: [&str; 9] = [
    "a word",
    "a sign",
    "a number",
    "a cost",
    "a smaller number",
    "the next number",
    "the end of the line",
    "a further line",
    "the end of the text",
];

pub fn outcome(kind: Kind, text: &[u8]) -> Outcome {
    if text.len() > MOST_BYTES {
        return Outcome::TooLong;
    }
    let mut room = vec![0; LONGEST_RECORD];
    let written = match kind {
        Kind::Network => network_numbers(text).map(|(n, links)| write_network(n, &links, &mut room)),
        Kind::Request => request_numbers(text).map(|value| write_request(MOST_NODES as u64, &value, &mut room)),
    };
    match written {
        Ok(Ok(length)) => Outcome::Written(room[..length as usize].to_vec()),
        Ok(Err(refusal)) => Outcome::Refused(refusal.number),
        Err(slip) => Outcome::Slip(slip),
    }
}

fn network_numbers(text: &[u8]) -> Result<(u64, Vec<u16>), Slip> {
    let mut lines = Lines::of(text);
    let (_, head) = lines.next("nodes #, links #")?;
    let links = lines.rest(head[1], "link #: from % to %, drive $, walk $")?;
    let in_16_bits = |number| u16::try_from(number).expect("a line has no greater number");
    Ok((head[0], links.concat().into_iter().map(in_16_bits).collect()))
}

/// The value of the request; of more than seven riders, the first seven are in it.
fn request_numbers(text: &[u8]) -> Result<Vec<u64>, Slip> {
    let mut lines = Lines::of(text);
    let (_, mut value) = lines.next("source #, target #, bus weight #, riders #")?;
    let mut riders = lines.rest(value[RIDER_COUNT], "rider #: node #, weight #")?;
    riders.resize(MOST_RIDERS, vec![0, 0]);
    value.extend(riders.iter().map(|rider| rider[0]));
    value.extend(riders.iter().map(|rider| rider[1]));
    Ok(value)
}

/// The lines of a text that are left, without those that are blank.
struct Lines<'a> {
    left: std::vec::IntoIter<Line<'a>>,
    /// The line behind the last.
    behind: usize,
}

/// A line by its number, from 1.
struct Line<'a> {
    number: usize,
    tokens: Vec<Token<'a>>,
}

#[derive(Clone, Copy, PartialEq, Eq)]
enum Token<'a> {
    Word(&'a [u8]),
    Number(&'a [u8]),
    Sign(u8),
}

impl<'a> Lines<'a> {
    fn of(text: &'a [u8]) -> Lines<'a> {
        let pieces = text.split_inclusive(|&byte| byte == b'\n');
        let lines: Vec<Line> = (1..).zip(pieces).map(|(number, piece)| Line::of(number, piece)).collect();
        let behind = lines.len() + 1;
        let written = lines.into_iter().filter(|line| !line.tokens.is_empty());
        Lines { left: written.collect::<Vec<_>>().into_iter(), behind }
    }

    /// The next line's number and the numbers in it, which has the form of a pattern.
    fn next(&mut self, pattern: &str) -> Result<(usize, Vec<u64>), Slip> {
        let line = self.left.next().ok_or(Slip { expected: "a further line", line: self.behind })?;
        Ok((line.number, line.numbers(pattern)?))
    }

    /// The numbers of all further lines, which are counted from 0 by their first; there must be so many.
    fn rest(&mut self, count: u64, pattern: &str) -> Result<Vec<Vec<u64>>, Slip> {
        let mut all = Vec::new();
        for k in 0..count {
            let (line, numbers) = self.next(pattern)?;
            if numbers[0] != k {
                return Err(Slip { expected: "the next number", line });
            }
            all.push(numbers[1..].to_vec());
        }
        match self.left.next() {
            Some(line) => Err(Slip { expected: "the end of the text", line: line.number }),
            None => Ok(all),
        }
    }
}

impl<'a> Line<'a> {
    /// The last line may lack its line feed.
    fn of(number: usize, piece: &'a [u8]) -> Line<'a> {
        let line = piece.strip_suffix(b"\n").unwrap_or(piece);
        Line { number, tokens: tokens(line.strip_suffix(b"\r").unwrap_or(line)) }
    }

    /// The numbers that stand where the pattern has # (of 64 bits), % (of 16 bits) or $ (a cost).
    fn numbers(&self, pattern: &str) -> Result<Vec<u64>, Slip> {
        let slip = |expected| Slip { expected, line: self.number };
        let mut found = self.tokens.iter().copied();
        let mut numbers = Vec::new();
        for expected in tokens(pattern.as_bytes()) {
            numbers.extend(taken(expected, found.next()).map_err(slip)?);
        }
        match found.next() {
            Some(_) => Err(slip("the end of the line")),
            None => Ok(numbers),
        }
    }
}

/// The number that is taken where a pattern's token is expected, if that stands for one; or what is expected instead.
fn taken(expected: Token, token: Option<Token>) -> Result<Option<u64>, &'static str> {
    match (expected, token) {
        (Token::Sign(b'#'), Some(Token::Number(digits))) => value(digits, u64::MAX).map(Some),
        (Token::Sign(b'%' | b'$'), Some(Token::Number(digits))) => value(digits, u16::MAX.into()).map(Some),
        (Token::Sign(b'$'), Some(Token::Sign(b'-'))) => Ok(Some(CLOSED.into())),
        (Token::Sign(b'#' | b'%'), _) => Err("a number"),
        (Token::Sign(b'$'), _) => Err("a cost"),
        (expected, Some(token)) if expected == token => Ok(None),
        (Token::Word(_), _) => Err("a word"),
        _ => Err("a sign"),
    }
}

fn value(digits: &[u8], greatest: u64) -> Result<u64, &'static str> {
    let leading = digits.iter().take_while(|&&digit| digit == b'0').count();
    // Twenty digits fit in 128 bits, and more are no number of 64 bits.
    let significant = digits[leading..].iter().take(21).fold(0, |high, digit| 10 * high + u128::from(digit - b'0'));
    u64::try_from(significant).ok().filter(|&value| value <= greatest).ok_or("a smaller number")
}

/// The words, numbers and signs of a line, without the blanks between them. A number that runs into a word is a word.
fn tokens(line: &[u8]) -> Vec<Token<'_>> {
    let mut tokens = Vec::new();
    let mut rest = line;
    while let Some(&first) = rest.first() {
        let run = rest.iter().take_while(|byte| byte.is_ascii_alphanumeric()).count();
        let (token, later) = rest.split_at(run.max(1));
        match first {
            b' ' | b'\t' => {}
            sign if run == 0 => tokens.push(Token::Sign(sign)),
            _ if token.iter().all(u8::is_ascii_digit) => tokens.push(Token::Number(token)),
            _ => tokens.push(Token::Word(token)),
        }
        rest = later;
    }
    tokens
}
