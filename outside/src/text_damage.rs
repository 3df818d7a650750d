//! Damage to texts.

use crate::random::Random;
use std::ops::Range;

pub type Damage = fn(&mut Random, &mut Vec<u8>);

/// All that is done to texts; some of it leaves them sound.
pub const DAMAGES: [(&str, Damage); 20] = [
    ("bytes changed", change_bytes),
    ("a byte put in", put_byte),
    ("a byte taken out", take_byte),
    ("a line dropped", drop_line),
    ("a line doubled", double_line),
    ("lines exchanged", exchange_lines),
    ("lines joined", join_lines),
    ("a line put behind", put_line_behind),
    ("a line made long", lengthen_line),
    ("blank lines put in", put_blank_lines),
    ("cut", cut),
    ("emptied", empty),
    ("no last line feed", drop_last_line_feed),
    ("carriage returns", put_carriage_returns),
    ("blanks put in", put_blanks),
    ("blanks taken out", take_blanks),
    ("a number changed", change_number),
    ("a number made long", lengthen_number),
    ("a number closed", close_number),
    ("a word misspelt", misspell),
];

fn change_bytes(random: &mut Random, text: &mut Vec<u8>) {
    for _ in 0..random.pick(&[1, 1, 1, 4, 40]) {
        let (place, any, bit) = (random.below(text.len().max(1)), random.byte(), random.below(8));
        if let Some(byte) = text.get_mut(place) {
            *byte = random.pick(&[any, *byte ^ 1 << bit, *byte ^ 1 << bit]);
        }
    }
}

fn put_byte(random: &mut Random, text: &mut Vec<u8>) {
    let place = random.below(text.len() + 1);
    let any = random.byte();
    text.insert(place, random.pick(&[any, 0, 0, 0x80, 0xFF, 0x0B, 0x0C, b'\r', b'\n', b'\t', b'-', b'+', b',', b'0']));
}

fn take_byte(random: &mut Random, text: &mut Vec<u8>) {
    if !text.is_empty() {
        text.remove(random.below(text.len()));
    }
}

fn drop_line(random: &mut Random, text: &mut Vec<u8>) {
    let line = any_line(random, text);
    text.drain(line);
}

fn double_line(random: &mut Random, text: &mut Vec<u8>) {
    let line = any_line(random, text);
    let copy = text[line.clone()].to_vec();
    text.splice(line.start..line.start, copy);
}

fn exchange_lines(random: &mut Random, text: &mut Vec<u8>) {
    let line = any_line(random, text);
    let moved: Vec<u8> = text.drain(line).collect();
    let place = any_line(random, text).start;
    text.splice(place..place, moved);
}

fn join_lines(random: &mut Random, text: &mut Vec<u8>) {
    let line = any_line(random, text);
    if let Some(last) = text[line].last_mut() {
        *last = random.pick(&[b' ', b'\t', b',']);
    }
}

fn put_line_behind(random: &mut Random, text: &mut Vec<u8>) {
    let line = any_line(random, text);
    let copy = text[line].to_vec();
    text.extend(random.pick(&[
        &copy[..],
        b"link 0: from 0 to 0, drive 0, walk 0\n",
        b"rider 0: node 0, weight 1\n",
        b".",
    ]));
}

fn lengthen_line(random: &mut Random, text: &mut Vec<u8>) {
    let place = any_token(random, text).start;
    let byte = random.pick(&[b' ', b' ', b'\t', b'a', b',', 0, 0xFF]);
    let length = random.pick(&[4_095, 4_096, 65_536, 100_000]);
    text.splice(place..place, vec![byte; length]);
}

fn put_blank_lines(random: &mut Random, text: &mut Vec<u8>) {
    for _ in 0..random.between(1, 5) {
        let line = any_line(random, text);
        let place = random.pick(&[0, line.start, text.len()]);
        let blank: &[u8] = random.pick(&[&b"\n"[..], b"\n\n\n", b" \n", b"\t \t\n", b"\r\n", b" \r\n"]);
        text.splice(place..place, blank.iter().copied());
    }
}

fn cut(random: &mut Random, text: &mut Vec<u8>) {
    text.truncate(random.below(text.len() + 1));
}

fn empty(random: &mut Random, text: &mut Vec<u8>) {
    *text = random.pick(&[&b""[..], b"\n", b" ", b"\t\n  \n", b"\r\n", b"\r", b"\0", b"-"]).to_vec();
}

fn drop_last_line_feed(_: &mut Random, text: &mut Vec<u8>) {
    if text.last() == Some(&b'\n') {
        text.pop();
    }
}

/// Before each line feed, or now and then instead of it.
fn put_carriage_returns(random: &mut Random, text: &mut Vec<u8>) {
    let end: &[u8] = random.pick(&[&b"\r\n"[..], b"\r\n", b"\r\n", b"\r", b"\r\r\n", b"\n\r", b"\r \n"]);
    *text = text.split_inclusive(|&byte| byte == b'\n').flat_map(|line| replaced(line, end)).collect();
}

fn replaced(line: &[u8], end: &[u8]) -> Vec<u8> {
    line.strip_suffix(b"\n").map_or(line.to_vec(), |line| [line, end].concat())
}

fn put_blanks(random: &mut Random, text: &mut Vec<u8>) {
    for _ in 0..random.between(1, 20) {
        let token = any_token(random, text);
        let place = random.pick(&[token.start, token.end]);
        let blanks: &[u8] = random.pick(&[&b" "[..], b"\t", b"    ", b" \t \t"]);
        text.splice(place..place, blanks.iter().copied());
    }
}

/// Blanks beside a sign, or one between two words or numbers, which then run together.
fn take_blanks(random: &mut Random, text: &mut Vec<u8>) {
    let blanks: Vec<usize> = (0..text.len()).filter(|&place| text[place] == b' ').collect();
    let joins = |place: &usize| [place.wrapping_sub(1), place + 1].iter().all(|&beside| is_inside(text, beside));
    let (joining, needless): (Vec<usize>, Vec<usize>) = blanks.into_iter().partition(joins);
    let taken = match random.once_in(3) && !joining.is_empty() {
        true => vec![random.pick(&joining)],
        false => needless,
    };
    for place in taken.into_iter().rev() {
        text.remove(place);
    }
}

fn is_inside(text: &[u8], place: usize) -> bool {
    text.get(place).is_some_and(u8::is_ascii_alphanumeric)
}

pub fn change_number(random: &mut Random, text: &mut Vec<u8>) {
    let number = any_run(random, text, u8::is_ascii_digit);
    let near = random.pick(&[0_u128, 7, 100, 255, 511, 65_534, u32::MAX.into(), u64::MAX.into(), u128::MAX - 2]);
    let small = random.below(520) as u128;
    let new = random.pick(&[0, small, near, near + 1, near + 2]);
    text.splice(number, new.to_string().into_bytes());
}

fn lengthen_number(random: &mut Random, text: &mut Vec<u8>) {
    let number = any_run(random, text, u8::is_ascii_digit);
    let digit = random.pick(&[b'0', b'0', b'0', b'1', b'9']);
    let length = random.pick(&[1, 5, 19, 20, 21, 64, 1_000, 70_000]);
    text.splice(number.start..number.start, vec![digit; length]);
}

fn close_number(random: &mut Random, text: &mut Vec<u8>) {
    let number = any_run(random, text, u8::is_ascii_digit);
    let sign: &[u8] = random.pick(&[&b"-"[..], b"-", b"- ", b"--", b"-1", b"closed", b""]);
    text.splice(number, sign.iter().copied());
}

fn misspell(random: &mut Random, text: &mut Vec<u8>) {
    let word = any_run(random, text, u8::is_ascii_alphabetic);
    let Some(&first) = text.get(word.start) else { return };
    let letter = b'a' + random.below(26) as u8;
    let new: [&[u8]; 5] = [&[first.to_ascii_uppercase()], &[letter], &[], &[first, first], b"link "];
    text.splice(word.start..word.start + 1, random.pick(&new).iter().copied());
}

/// Any line with its line feed, if there is one.
fn any_line(random: &mut Random, text: &[u8]) -> Range<usize> {
    let lines: Vec<&[u8]> = text.split_inclusive(|&byte| byte == b'\n').collect();
    let place = random.below(lines.len().max(1));
    let start = lines[..place].iter().map(|line| line.len()).sum();
    start..start + lines.get(place).map_or(0, |line| line.len())
}

/// Any word or number.
fn any_token(random: &mut Random, text: &[u8]) -> Range<usize> {
    let is = random.pick(&[u8::is_ascii_digit as fn(&u8) -> bool, u8::is_ascii_alphabetic]);
    any_run(random, text, is)
}

/// Any of the longest runs of such bytes, or an empty one at the end.
fn any_run(random: &mut Random, text: &[u8], is: fn(&u8) -> bool) -> Range<usize> {
    let starts = |&place: &usize| is(&text[place]) && (place == 0 || !is(&text[place - 1]));
    let starts: Vec<usize> = (0..text.len()).filter(starts).collect();
    let start = if starts.is_empty() { text.len() } else { random.pick(&starts) };
    start..start + text[start..].iter().take_while(|byte| is(byte)).count()
}
