//! The rules for PHC strings of five profiles and for account text, written a second time and plainly, to compare the library with.

use std::ops::RangeInclusive;

/// The five ids; the id's number is its place here, from 1.
pub const IDS: [&str; 5] = ["argon2d", "argon2i", "argon2id", "pbkdf2s2", "pbkdf2s3"];

/// The grammar's limits.
const STRING_LEN: RangeInclusive<usize> = 1..=2896;
const NAME_LEN: RangeInclusive<usize> = 1..=32;
const ITEMS: RangeInclusive<usize> = 1..=16;
const VALUE_LEN: RangeInclusive<usize> = 1..=128;
const SALT_LEN: RangeInclusive<usize> = 1..=128;
const OUTPUT_LEN: RangeInclusive<usize> = 1..=128;

/// One column of the profiles' table. A number that a profile has not is always 0, a byte string always empty.
pub struct Limits {
    pub versions: &'static [u32],
    /// Names in order, and whether each must be there.
    pub parameters: &'static [(&'static str, bool)],
    pub m: RangeInclusive<u32>,
    pub t: RangeInclusive<u32>,
    /// What an omitted t stands for.
    pub t_omitted: Option<u32>,
    pub p: RangeInclusive<u32>,
    pub keyid: RangeInclusive<usize>,
    pub data: RangeInclusive<usize>,
    pub salt: RangeInclusive<usize>,
    pub output: RangeInclusive<usize>,
}

/// m is at least this many times p.
const M_PER_P: u64 = 8;

static ARGON2: Limits = Limits {
    versions: &[16, 19],
    parameters: &[("m", true), ("t", true), ("p", true), ("keyid", false), ("data", false)],
    m: 0..=u32::MAX,
    t: 1..=u32::MAX,
    t_omitted: None,
    p: 1..=255,
    keyid: 0..=8,
    data: 0..=32,
    salt: 8..=48,
    output: 12..=64,
};

static PBKDF2: Limits = Limits {
    versions: &[],
    parameters: &[("t", false), ("keyid", false)],
    m: 0..=0,
    t: 100..=u32::MAX,
    t_omitted: Some(20_000),
    p: 0..=0,
    keyid: 0..=8,
    data: 0..=0,
    salt: 4..=32,
    output: 12..=64,
};

/// The column of an id's number, if it is one of the five.
pub fn limits(id: u8) -> Option<&'static Limits> {
    match id {
        1..=3 => Some(&ARGON2),
        4..=5 => Some(&PBKDF2),
        _ => None,
    }
}

pub fn is_argon2(id: u8) -> bool {
    (1..=3).contains(&id)
}

#[derive(Clone, Debug, PartialEq)]
pub struct Fields {
    pub id: u8,
    pub version: Option<u32>,
    pub m: u32,
    pub t: u32,
    pub p: u32,
    pub keyid: Vec<u8>,
    pub data: Vec<u8>,
    pub salt: Vec<u8>,
    pub output: Vec<u8>,
}

// B64.

const ALPHABET: &[u8; 64] = b"ABCDEFGHIJKLMNOPQRSTUVWXYZabcdefghijklmnopqrstuvwxyz0123456789+/";

/// The bytes of a canonical text; none for any other text.
pub fn b64_decode(text: &[u8]) -> Option<Vec<u8>> {
    let mut bits = Vec::new();
    for c in text {
        let value = ALPHABET.iter().position(|a| a == c)?;
        bits.extend((0..6).rev().map(|i| value >> i & 1));
    }
    if text.len() % 4 == 1 {
        return None;
    }
    let whole = bits.len() / 8 * 8;
    if bits[whole..].contains(&1) {
        return None;
    }
    Some(bits[..whole].chunks(8).map(|byte| byte.iter().fold(0, |n, bit| n << 1 | *bit as u8)).collect())
}

pub fn b64_encode(bytes: &[u8]) -> Vec<u8> {
    let mut bits: Vec<usize> = bytes.iter().flat_map(|b| (0..8).rev().map(move |i| (b >> i & 1) as usize)).collect();
    while bits.len() % 6 != 0 {
        bits.push(0);
    }
    bits.chunks(6).map(|c| ALPHABET[c.iter().fold(0, |n, bit| n << 1 | bit)]).collect()
}

// Decimals.

/// A shortest decimal that fits 32 bits. A minus sign leads below every range in use, so it needs no case here.
pub fn decimal(text: &[u8]) -> Option<u32> {
    match text {
        [b'0'] => Some(0),
        [b'1'..=b'9', ..] => {
            let mut n: u64 = 0;
            for c in text {
                if !c.is_ascii_digit() {
                    return None;
                }
                n = n * 10 + u64::from(c - b'0');
                if n > u64::from(u32::MAX) {
                    return None;
                }
            }
            Some(n as u32)
        }
        _ => None,
    }
}

// The grammar, rows 1 to 7.

struct Pieces<'a> {
    id: &'a [u8],
    version: Option<u32>,
    items: Vec<(&'a [u8], &'a [u8])>,
    salt: Option<&'a [u8]>,
    output: Option<&'a [u8]>,
}

fn is_name(text: &[u8]) -> bool {
    NAME_LEN.contains(&text.len()) && text.iter().all(|c| matches!(c, b'a'..=b'z' | b'0'..=b'9' | b'-'))
}

fn of_value_set(text: &[u8]) -> bool {
    text.iter().all(|c| matches!(c, b'a'..=b'z' | b'A'..=b'Z' | b'0'..=b'9' | b'/' | b'+' | b'.' | b'-'))
}

/// An item is name, `=`, value; the first `=` parts them, as no name has one.
fn item(text: &[u8]) -> Option<(&[u8], &[u8])> {
    let equals = text.iter().position(|c| *c == b'=')?;
    let (name, value) = (&text[..equals], &text[equals + 1..]);
    let good = is_name(name) && name != b"v" && VALUE_LEN.contains(&value.len()) && of_value_set(value);
    good.then_some((name, value))
}

fn pieces(s: &[u8]) -> Result<Pieces<'_>, u8> {
    if !STRING_LEN.contains(&s.len()) || s[0] != b'$' {
        return Err(1);
    }
    let mut rest = s[1..].split(|c| *c == b'$').peekable();

    let id = rest.next().unwrap_or_default();
    if !is_name(id) {
        return Err(2);
    }
    let mut version = None;
    if let Some(piece) = rest.next_if(|piece| piece.starts_with(b"v=")) {
        version = Some(decimal(&piece[2..]).ok_or(3)?);
    }
    let mut items = Vec::new();
    if let Some(piece) = rest.next_if(|piece| piece.contains(&b'=')) {
        items = piece.split(|c| *c == b',').map(item).collect::<Option<Vec<_>>>().ok_or(4)?;
        if !ITEMS.contains(&items.len()) {
            return Err(4);
        }
    }
    let salt = rest.next();
    if salt.is_some_and(|text| !SALT_LEN.contains(&text.len()) || !of_value_set(text)) {
        return Err(5);
    }
    let output = rest.next();
    if output.is_some_and(|text| !OUTPUT_LEN.contains(&text.len()) || b64_decode(text).is_none()) {
        return Err(6);
    }
    if rest.next().is_some() {
        return Err(7);
    }
    Ok(Pieces { id, version, items, salt, output })
}

// The profile reader, rows 8 to 15.

/// The names are the column's, in its order, and none that must be there is missing.
fn names_in_order(parameters: &[(&str, bool)], items: &[(&[u8], &[u8])]) -> bool {
    let mut left = items.iter().peekable();
    for (name, required) in parameters {
        if left.next_if(|item| item.0 == name.as_bytes()).is_none() && *required {
            return false;
        }
    }
    left.next().is_none()
}

fn m_holds_p(m: u32, p: u32) -> bool {
    u64::from(m) >= M_PER_P * u64::from(p)
}

/// The kind (1 parameter, 2 salt, 3 hash) and the fields of a string, or its number.
pub fn read(s: &[u8]) -> Result<(u8, Fields), u8> {
    let pieces = pieces(s)?;

    let place = IDS.iter().position(|id| id.as_bytes() == pieces.id).ok_or(8)?;
    let id = place as u8 + 1;
    let limits = limits(id).ok_or(8)?;

    if pieces.version.is_some_and(|version| !limits.versions.contains(&version)) {
        return Err(9);
    }
    if !names_in_order(limits.parameters, &pieces.items) {
        return Err(10);
    }
    let value = |name: &str| pieces.items.iter().find(|item| item.0 == name.as_bytes()).map(|item| item.1);
    let number = |name: &str, omitted: u32, range: &RangeInclusive<u32>| {
        let n = value(name).map_or(Some(omitted), decimal);
        n.filter(|n| range.contains(n)).ok_or(11)
    };
    let m = number("m", 0, &limits.m)?;
    let t = number("t", limits.t_omitted.unwrap_or(0), &limits.t)?;
    let p = number("p", 0, &limits.p)?;
    if !m_holds_p(m, p) {
        return Err(11);
    }
    let bytes = |text: Option<&[u8]>, range: &RangeInclusive<usize>, row: u8| {
        let Some(text) = text else { return Ok(Vec::new()) };
        b64_decode(text).filter(|bytes| range.contains(&bytes.len())).ok_or(row)
    };
    let keyid = bytes(value("keyid"), &limits.keyid, 12)?;
    let data = bytes(value("data"), &limits.data, 12)?;
    if value("t").is_some() && limits.t_omitted == Some(t) {
        return Err(13);
    }
    let salt = bytes(pieces.salt, &limits.salt, 14)?;
    let output = bytes(pieces.output, &limits.output, 15)?;

    let kind = match (pieces.salt, pieces.output) {
        (None, _) => 1,
        (Some(_), None) => 2,
        (Some(_), Some(_)) => 3,
    };
    Ok((kind, Fields { id, version: pieces.version, m, t, p, keyid, data, salt, output }))
}

/// The algorithm version that a string means: the written one, or 19 for Argon2 where none is written; 0 for pbkdf2.
pub fn algorithm_version(s: &[u8]) -> Result<u32, u8> {
    let (_, fields) = read(s)?;
    Ok(if is_argon2(fields.id) { fields.version.unwrap_or(19) } else { 0 })
}

// The writer, rows 8, 9, 11, 12, 14, 15, 16.

/// The one string of the fields, or the number of their fault.
pub fn write(fields: &Fields) -> Result<Vec<u8>, u8> {
    let Fields { id, version, m, t, p, keyid, data, salt, output } = fields;
    let limits = limits(*id).ok_or(8)?;

    if version.is_some_and(|version| !limits.versions.contains(&version)) {
        return Err(9);
    }
    if !limits.m.contains(m) || !limits.t.contains(t) || !limits.p.contains(p) || !m_holds_p(*m, *p) {
        return Err(11);
    }
    if !limits.keyid.contains(&keyid.len()) || !limits.data.contains(&data.len()) {
        return Err(12);
    }
    if !salt.is_empty() && !limits.salt.contains(&salt.len()) {
        return Err(14);
    }
    if !output.is_empty() && !limits.output.contains(&output.len()) {
        return Err(15);
    }
    if salt.is_empty() && !output.is_empty() {
        return Err(16);
    }

    let text = |bytes: &[u8]| String::from_utf8(b64_encode(bytes)).unwrap();
    let mut s = format!("${}", IDS[usize::from(*id) - 1]);
    if let Some(version) = version {
        s += &format!("$v={version}");
    }
    let items: Vec<String> = limits
        .parameters
        .iter()
        .filter_map(|(name, _)| match *name {
            "m" => Some(format!("m={m}")),
            "t" => (limits.t_omitted != Some(*t)).then(|| format!("t={t}")),
            "p" => Some(format!("p={p}")),
            "keyid" => (!keyid.is_empty()).then(|| format!("keyid={}", text(keyid))),
            _ => (!data.is_empty()).then(|| format!("data={}", text(data))),
        })
        .collect();
    if !items.is_empty() {
        s += &format!("${}", items.join(","));
    }
    for bytes in [salt, output] {
        if !bytes.is_empty() {
            s += &format!("${}", text(bytes));
        }
    }
    Ok(s.into_bytes())
}

/// The string of an id, a salt and an output alone.
pub fn write_short(id: u8, salt: &[u8], output: &[u8]) -> Result<Vec<u8>, u8> {
    let (version, m, t, p) = if is_argon2(id) { (Some(19), 65_536, 2, 1) } else { (None, 0, 20_000, 0) };
    write(&Fields { id, version, m, t, p, keyid: vec![], data: vec![], salt: salt.to_vec(), output: output.to_vec() })
}

// The directory spelling. Row 24 comes first; after it the numbers are those of the string.

/// How a string begins, and how it begins in the directory.
const DIRECTORY: [(&[u8], &[u8]); 2] = [(b"$pbkdf2s2$", b"{pbkdf2s2}"), (b"$pbkdf2s3$", b"{pbkdf2s3}")];

/// The text with another beginning in place of this one, which something must follow.
fn respelled(text: &[u8], from: &[u8], to: &[u8]) -> Option<Vec<u8>> {
    let rest = text.strip_prefix(from).filter(|rest| !rest.is_empty())?;
    Some([to, rest].concat())
}

/// The kind and the fields of a braced text, or its number.
pub fn directory_read(t: &[u8]) -> Result<(u8, Fields), u8> {
    let s = DIRECTORY.iter().find_map(|(dollar, brace)| respelled(t, brace, dollar)).ok_or(24)?;
    read(&s)
}

/// The one braced text of the fields, or the number of their fault.
pub fn directory_write(fields: &Fields) -> Result<Vec<u8>, u8> {
    if !matches!(fields.id, 4 | 5) {
        return Err(24);
    }
    let s = write(fields)?;
    // Nothing is found for the id alone.
    DIRECTORY.iter().find_map(|(dollar, brace)| respelled(&s, dollar, brace)).ok_or(24)
}

// Account text, rows 18 and 19.

/// The most bytes of a line, its line feed not counted.
const LINE_LEN: usize = 512;

/// The lines, each with the line feed that ends it; the last may have none.
pub fn lines(text: &[u8]) -> impl Iterator<Item = &[u8]> {
    text.split_inclusive(|c| *c == b'\n')
}

/// The number of a line.
pub fn line_number(line: &[u8]) -> u8 {
    let line = line.strip_suffix(b"\n").unwrap_or(line);
    if line.len() > LINE_LEN {
        return 18;
    }
    match line.iter().position(|c| *c == b'\t') {
        Some(tab) if is_name(&line[..tab]) => read(&line[tab + 1..]).err().unwrap_or(0),
        _ => 19,
    }
}

/// Of at most `limit` lines from the place `from` on: the place to go on from, and their numbers; or 17 where they are more than the room.
pub fn judge(text: &[u8], from: usize, limit: usize, room: usize) -> Result<(usize, Vec<u8>), u8> {
    let from = from.min(text.len());
    let judged: Vec<&[u8]> = lines(&text[from..]).take(limit).collect();
    if judged.len() > room {
        return Err(17);
    }
    let place = from + judged.iter().map(|line| line.len()).sum::<usize>();
    Ok((place, judged.into_iter().map(line_number).collect()))
}

/// Row 17: the bytes, if a buffer of this room takes them.
pub fn fit(bytes: Vec<u8>, room: usize) -> Result<Vec<u8>, u8> {
    if bytes.len() > room {
        return Err(17);
    }
    Ok(bytes)
}
