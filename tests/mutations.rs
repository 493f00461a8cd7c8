//! Damage to a string.

use crate::chance::Rng;

/// Of the sets of a name and of a value.
pub const NAME: &[u8] = b"abz09-";
pub const TEXT: &[u8] = b"abzAZ09/+.-";

pub const ALPHABET: &[u8] = b"$$$$==,,,{}vmtpkeyidatargon2pbkdf2s3idABab0123456789+/.-";

pub const NUMERALS: [&str; 22] = [
    "", "0", "00", "-", "-0", "-1", "+1", "1", "01", "16", "19", "019", "19 ", "99", "100", "20000", "020000", "4294967295", "4294967296",
    "9223372036854775808", "18446744073709551617", "340282366920938463463374607431768211457",
];

/// Splits at a byte, changes the list of parts, joins again.
fn in_parts(rng: &mut Rng, s: &[u8], by: u8) -> Vec<u8> {
    let mut parts: Vec<Vec<u8>> = s.split(|c| *c == by).map(<[u8]>::to_vec).collect();
    let (a, b) = (rng.below(parts.len()), rng.below(parts.len()));
    match rng.below(5) {
        0 => parts.swap(a, b),
        1 => parts.insert(b, parts[a].clone()),
        2 => drop(parts.remove(a)),
        3 => parts.truncate(a + 1),
        _ => parts[b] = parts[a].clone(),
    }
    parts.join(&by)
}

/// Changes the items of one piece that has some.
fn in_items(rng: &mut Rng, s: &[u8]) -> Vec<u8> {
    let mut parts: Vec<Vec<u8>> = s.split(|c| *c == b'$').map(<[u8]>::to_vec).collect();
    if let Some(piece) = parts.iter_mut().find(|piece| piece.contains(&b',')) {
        *piece = in_parts(rng, piece, b',');
    }
    parts.join(&b'$')
}

/// Puts another numeral in place of one after an `=`.
fn in_numeral(rng: &mut Rng, s: &[u8]) -> Vec<u8> {
    let starts: Vec<usize> = (1..=s.len()).filter(|i| s[i - 1] == b'=').collect();
    if starts.is_empty() {
        return s.to_vec();
    }
    let start = rng.pick(&starts);
    let end = start + s[start..].iter().take_while(|c| c.is_ascii_digit()).count();
    [&s[..start], rng.pick(&NUMERALS).as_bytes(), &s[end..]].concat()
}

/// Changes the last character of a piece or item, where the unused bits are.
fn in_last_character(rng: &mut Rng, s: &[u8]) -> Vec<u8> {
    let ends: Vec<usize> = (1..=s.len()).filter(|i| *i == s.len() || matches!(s[*i], b'$' | b',')).collect();
    let mut s = s.to_vec();
    if let Some(end) = ends.get(rng.below(ends.len().max(1))) {
        s[end - 1] = rng.pick(b"AQgwEIMUYcBCDPR/+.-");
    }
    s
}

pub fn mutate(rng: &mut Rng, s: &[u8], other: &[u8]) -> Vec<u8> {
    let mut s = s.to_vec();
    let place = rng.below(s.len() + 1);
    let byte = if rng.once_in(4) { rng.next() as u8 } else { rng.pick(ALPHABET) };
    match rng.below(12) {
        0 if place < s.len() => s[place] = byte,
        1 if place < s.len() => s[place] ^= 1 << rng.below(8),
        2 => s.insert(place, byte),
        3 if place < s.len() => drop(s.remove(place)),
        4 => s.truncate(place),
        5 => s.extend(rng.pick(&["$", "$AAAA", "$AAAAAAAAAAAAAAAA", "A", "=", ","]).bytes()),
        6 => {
            let from = rng.below(other.len() + 1);
            s.truncate(place);
            s.extend(&other[from..]);
        }
        7 => {
            // Joined where pieces meet.
            let cuts = |s: &[u8]| -> Vec<usize> { (0..=s.len()).filter(|i| *i == s.len() || s[*i] == b'$').collect() };
            s.truncate(rng.pick(&cuts(&s)));
            s.extend(&other[rng.pick(&cuts(other))..]);
        }
        8 => s = in_parts(rng, &s, b'$'),
        9 => s = in_items(rng, &s),
        10 => s = in_numeral(rng, &s),
        11 => s = in_last_character(rng, &s),
        _ => {}
    }
    s
}
