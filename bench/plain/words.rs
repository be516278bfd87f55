//! The words of a line.

use crate::names::Name;

/// Whether a byte may stand in a name.
static IN_NAME: [bool; 256] = {
    let mut table = [false; 256];
    let mut byte = 0;
    while byte < 256 {
        table[byte] = matches!(byte as u8, b'a'..=b'z' | b'0'..=b'9' | b'_' | b'-');
        byte += 1;
    }
    table
};

/// The place of the first line feed in these eight bytes. Those that are line feeds are turned into zeros, and the
/// first zero into a bit at the top of its byte.
#[inline(always)]
fn line_feed_of(eight: &[u8; 8]) -> Option<usize> {
    let turned = u64::from_le_bytes(*eight) ^ u64::from_le_bytes([b'\n'; 8]);
    let found = turned.wrapping_sub(u64::from_le_bytes([1; 8])) & !turned & u64::from_le_bytes([0x80; 8]);
    (found != 0).then(|| found.trailing_zeros() as usize / 8)
}

/// The place of the first line feed.
pub fn line_feed(bytes: &[u8]) -> Option<usize> {
    if let Some(place) = bytes.first_chunk().and_then(line_feed_of) {
        return Some(place);
    }
    if let Some(place) = bytes.get(8..).and_then(|rest| rest.first_chunk()).and_then(line_feed_of) {
        return Some(8 + place);
    }
    let blocks = bytes.as_chunks::<32>().0;
    let without = blocks.iter().take_while(|block| !block.iter().fold(false, |found, byte| found | (*byte == b'\n')));
    let mut at = 32 * without.count();
    for eight in bytes[at..].as_chunks().0 {
        if let Some(place) = line_feed_of(eight) {
            return Some(at + place);
        }
        at += 8;
    }
    bytes[at..].iter().position(|byte| *byte == b'\n').map(|place| at + place)
}

/// What stands before the first space, and what stands after it.
pub fn split(words: &[u8]) -> Option<(&[u8], &[u8])> {
    let at = words.iter().position(|b| *b == b' ')?;
    Some((&words[..at], &words[at + 1..]))
}

/// A decimal of a u64 without leading zeros.
pub fn number(word: &[u8]) -> Option<u64> {
    if word.is_empty() || word.len() > 20 || (word[0] == b'0' && word.len() > 1) {
        return None;
    }
    let (most, last) = word.split_at(word.len().min(19));
    let mut value = 0;
    for byte in most {
        let figure = byte.wrapping_sub(b'0');
        if figure > 9 {
            return None;
        }
        value = 10 * value + u64::from(figure);
    }
    match last {
        [byte @ b'0'..=b'9'] => value.checked_mul(10)?.checked_add(u64::from(byte - b'0')),
        [] => Some(value),
        _ => None,
    }
}

/// A number, and what stands after the space behind it.
pub fn number_first(words: &[u8]) -> Option<(u64, &[u8])> {
    let (word, rest) = split(words)?;
    Some((number(word)?, rest))
}

/// The name at the beginning and its length, where it ends in a space or at the end.
fn read_name(words: &[u8]) -> Option<(Name, usize)> {
    let mut name = 0;
    let mut count = 0;
    while count < words.len() && words[count] != b' ' {
        if count == 16 || !IN_NAME[usize::from(words[count])] {
            return None;
        }
        name = name << 8 | Name::from(words[count]);
        count += 1;
    }
    let starts = matches!(words.first(), Some(b'a'..=b'z'));
    starts.then_some((name, count))
}

/// A name, and what stands after the space behind it.
pub fn name_first(words: &[u8]) -> Option<(Name, &[u8])> {
    let (name, count) = read_name(words)?;
    words.get(count + 1..).map(|rest| (name, rest))
}

/// A name with nothing behind it.
pub fn name(words: &[u8]) -> Option<Name> {
    let (name, count) = read_name(words)?;
    (count == words.len()).then_some(name)
}
