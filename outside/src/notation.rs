//! Numbers as the file of vectors writes them.

/// The number written `-`: every bit is set.
pub const GREATEST: u64 = u64::MAX;
/// More than any list, room or record needs.
const MOST: u64 = 1 << 17;

pub fn word_and_numbers(part: &str) -> Result<(&str, Vec<u64>), String> {
    let part = part.trim();
    let (word, rest) = part.split_once(char::is_whitespace).unwrap_or((part, ""));
    Ok((word, numbers(rest)?))
}

pub fn numbers(part: &str) -> Result<Vec<u64>, String> {
    let mut numbers = Vec::new();
    for word in part.split_whitespace() {
        match word.split_once('*') {
            Some((last, times)) => repeat(&mut numbers, decimal(last)?, decimal(times)?)?,
            None => numbers.push(number(word)?),
        }
    }
    Ok(numbers)
}

/// Lets the last numbers come so many times more.
fn repeat(numbers: &mut Vec<u64>, last: u64, times: u64) -> Result<(), String> {
    let start = numbers.len().checked_sub(count(last)?).ok_or("fewer numbers stand before a *")?;
    let more = count(last.saturating_mul(times))?;
    let again: Vec<u64> = numbers[start..].iter().copied().cycle().take(more).collect();
    numbers.extend(again);
    Ok(())
}

fn number(word: &str) -> Result<u64, String> {
    let Some(mark) = word.find([':', ',', '@']) else {
        return if word == "-" { Ok(GREATEST) } else { decimal(word) };
    };
    let [first, second] = [&word[..mark], &word[mark + 1..]].map(|word| decimal(word).map(u128::from));
    let value = match &word[mark..=mark] {
        ":" => 4_096 * first? + second?,
        "," => 65_536 * first? + second?,
        _ => (1 << 63) + 65_536 * second? + first?,
    };
    u64::try_from(value).map_err(|_| format!("{word:?} is too great"))
}

fn decimal(word: &str) -> Result<u64, String> {
    let digits = word.bytes().all(|byte| byte.is_ascii_digit());
    word.parse().ok().filter(|_| digits).ok_or(format!("{word:?} is no number"))
}

/// A number of places, bytes or numbers.
pub fn count(number: u64) -> Result<usize, String> {
    if number <= MOST {
        Ok(number as usize)
    } else {
        Err(format!("{number} is more than any call needs"))
    }
}
