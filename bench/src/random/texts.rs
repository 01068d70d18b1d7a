//! Damage to a text: what a broken line, a careless editor or another system's line ends do to it.

use super::Rng;

/// Another number of slots or jobs in the first two lines: for refusals 2 and 3, or a text that no longer fits.
pub fn spoil_limits(rng: &mut Rng, text: &mut Vec<u8>) {
    let number = rng.pick(&[0, 1, 32, 33, 34, 512, 513, 514, 9999]);
    if rng.chance(50) {
        replace_line(text, 0, format!("slots={number}\n").as_bytes());
    } else {
        replace_line(text, 1, format!("jobs={number}\n").as_bytes());
    }
}

/// Where line `index`, from 0, starts and where the next one does.
fn line(text: &[u8], index: usize) -> (usize, usize) {
    let mut start = 0;
    for (i, part) in text.split_inclusive(|&byte| byte == b'\n').enumerate() {
        if i == index {
            return (start, start + part.len());
        }
        start += part.len();
    }
    (start, start)
}

fn replace_line(text: &mut Vec<u8>, index: usize, by: &[u8]) {
    let (start, end) = line(text, index);
    text.splice(start..end, by.iter().copied());
}

fn any_line(rng: &mut Rng, text: &[u8]) -> (usize, usize) {
    let lines = text.iter().filter(|&&byte| byte == b'\n').count();
    line(text, rng.below(lines))
}

/// A byte that stands in texts, stands near them in the code table, or any byte at all.
fn byte(rng: &mut Rng) -> u8 {
    if rng.chance(80) {
        rng.pick(b"0123456789/:=\n\r\t ,-+\0aHIOLhilot")
    } else {
        rng.below(256) as u8
    }
}

/// One or two things that go wrong with a text.
pub fn damage(rng: &mut Rng, text: &mut Vec<u8>) {
    for _ in 0..rng.pick(&[1, 1, 2]) {
        damage_once(rng, text);
    }
}

fn damage_once(rng: &mut Rng, text: &mut Vec<u8>) {
    let at = rng.below(text.len());
    let early = rng.below(text.len().min(60));
    let (start, end) = any_line(rng, text);
    match rng.below(17) {
        0 => text.truncate(at),
        1 => text.truncate(early),
        2 if !text.is_empty() => text[at] = byte(rng),
        3 if !text.is_empty() => text[early] = byte(rng),
        4 => text.insert(at, byte(rng)),
        5 if !text.is_empty() => drop(text.remove(at)),
        6 => *text = to_crlf(text),
        7 => insert_in_number(rng, text, start, end, b"0"),
        8 => insert_in_number(rng, text, start, end, b"1234"),
        9 => text.push(byte(rng)),
        10 => text.extend_from_slice(rng.pick(&[b"\n".as_slice(), b"slot=0\n", b"report=0,none\n", b" ", b"\0"])),
        11 => drop(text.drain(start..end)),
        12 => {
            let copy = text[start..end].to_vec();
            text.splice(start..start, copy);
        }
        13 => drop(text.drain(..start)),
        14 => text.insert(start, b' '),
        15 if start < end => text.insert(end - 1, rng.pick(b" \r\0")),
        _ => text.truncate(start),
    }
}

fn to_crlf(text: &[u8]) -> Vec<u8> {
    String::from_utf8_lossy(text).replace('\n', "\r\n").into_bytes()
}

/// Puts bytes before or after the digits of a line's number.
fn insert_in_number(rng: &mut Rng, text: &mut Vec<u8>, start: usize, end: usize, bytes: &[u8]) {
    let Some(equals) = text[start..end].iter().position(|&byte| byte == b'=') else { return };
    let at = if rng.chance(70) { start + equals + 1 } else { end - 1 };
    text.splice(at..at, bytes.iter().copied());
}
