//! Fields: permitted, at each limit and past it.

use crate::chance::Rng;
use crate::reference::{self, is_argon2, Fields, IDS};

/// The writer's arguments, as the C interface takes them.
#[derive(Clone, Debug)]
pub struct Arguments {
    pub has_version: u8,
    pub version: u32,
    /// All but the version.
    pub fields: Fields,
}

impl Arguments {
    pub fn of(fields: &Fields) -> Arguments {
        let (has_version, version) = (u8::from(fields.version.is_some()), fields.version.unwrap_or(0));
        Arguments { has_version, version, fields: fields.clone() }
    }

    pub fn meaning(&self) -> Fields {
        let version = match self.has_version {
            0 => None,
            1 => Some(self.version),
            // Refused as a version that no profile permits.
            _ => Some(u32::MAX),
        };
        Fields { version, ..self.fields.clone() }
    }
}

pub const VERSIONS: [u32; 10] = [0, 1, 15, 16, 17, 18, 19, 20, u32::MAX - 1, u32::MAX];
pub const ID_NUMBERS: [u8; 9] = [0, 1, 2, 3, 4, 5, 6, 7, 255];

pub fn good_fields(rng: &mut Rng, id: u8) -> Fields {
    let limits = reference::limits(id).unwrap();
    let argon2 = is_argon2(id);
    let any_p = 1 + rng.below(255) as u32;
    let p = if argon2 { rng.pick(&[1, 2, 254, 255, any_p]) } else { 0 };
    let m_low = if argon2 { 8 * p } else { 0 };
    let m_high = if argon2 { u32::MAX } else { 0 };
    // Each count of digits comes up.
    let wide = |rng: &mut Rng, low: u32, high: u32| (rng.next() as u32 >> rng.below(32)).clamp(low, high);
    let m = wide(rng, m_low, m_high);
    let t = match (rng.below(3), limits.t_omitted) {
        (0, Some(t)) => t,
        (1, Some(t)) => t - 1 + rng.below(3) as u32,
        _ => wide(rng, *limits.t.start(), *limits.t.end()),
    };
    let version = if limits.versions.is_empty() || rng.once_in(3) { None } else { Some(rng.pick(limits.versions)) };
    let some = |rng: &mut Rng, range: &std::ops::RangeInclusive<usize>| {
        let len = range.start() + rng.below(range.end() - range.start() + 1);
        let len = rng.pick(&[*range.start(), *range.end(), len, len]);
        rng.bytes(len)
    };
    let (keyid, data) = (some(rng, &limits.keyid), some(rng, &limits.data));
    let (mut salt, mut output) = (some(rng, &limits.salt), some(rng, &limits.output));
    match rng.below(5) {
        0 => (salt, output) = (vec![], vec![]),
        1 => output = vec![],
        _ => {}
    }
    Fields { id, version, m, t, p, keyid, data, salt, output }
}

/// Every field at its high end, for the longest strings.
pub fn highest_fields(rng: &mut Rng, id: u8) -> Fields {
    let limits = reference::limits(id).unwrap();
    let [keyid, data, salt, output] =
        [&limits.keyid, &limits.data, &limits.salt, &limits.output].map(|range| rng.bytes(*range.end()));
    let (m, t, p) = (*limits.m.end(), *limits.t.end(), *limits.p.end());
    Fields { id, version: limits.versions.last().copied(), m, t, p, keyid, data, salt, output }
}

pub fn any_good_fields(rng: &mut Rng) -> Fields {
    let id = 1 + rng.below(5) as u8;
    good_fields(rng, id)
}

/// Of an id that has a directory spelling.
pub fn directory_fields(rng: &mut Rng) -> Fields {
    let id = rng.pick(&[4, 5]);
    good_fields(rng, id)
}

pub fn numbers(p: u32) -> Vec<u32> {
    let mut all = vec![0, 1, 2, 7, 8, 9, 99, 100, 101, 254, 255, 256, 19_999, 20_000, 20_001, u32::MAX - 1, u32::MAX];
    // 8p as it is, and as a product that wraps would have it.
    let eight = p.wrapping_mul(8);
    all.extend([eight.wrapping_sub(1), eight, eight.wrapping_add(1)]);
    all
}

/// Changes one field to a value at, near or past a limit.
pub fn push_to_limit(rng: &mut Rng, a: &mut Arguments) {
    let near = |rng: &mut Rng, limits: &[usize]| {
        let len = rng.pick(limits) + rng.below(3);
        rng.bytes(len.saturating_sub(1))
    };
    let f = &mut a.fields;
    match rng.below(10) {
        0 => f.id = rng.pick(&ID_NUMBERS),
        1 => a.has_version = rng.pick(&[0, 1, 1, 2, 255]),
        2 => (a.has_version, a.version) = (1, rng.pick(&VERSIONS)),
        3 => f.m = rng.pick(&numbers(f.p)),
        4 => f.t = rng.pick(&numbers(0)),
        5 => f.p = rng.pick(&[0, 1, 2, 254, 255, 256, 1 << 29, (1 << 29) + 1, u32::MAX]),
        6 => f.keyid = near(rng, &[0, 1, 8]),
        7 => f.data = near(rng, &[0, 1, 32]),
        8 => f.salt = near(rng, &[0, 4, 8, 32, 48]),
        _ => f.output = near(rng, &[0, 12, 64, 96]),
    }
}

/// The fields spelled as they stand, permitted or not.
pub fn spell(a: &Arguments) -> Vec<u8> {
    let f = &a.fields;
    let id = match f.id {
        1..=5 => IDS[usize::from(f.id) - 1],
        0 => "",
        6 => "argon2",
        7 => "pbkdf2s4",
        _ => "scrypt",
    };
    let mut s = format!("${id}").into_bytes();
    if a.has_version != 0 {
        s.extend(format!("$v={}", a.version).bytes());
    }
    let mut items: Vec<Vec<u8>> = Vec::new();
    for (name, n) in [("m", f.m), ("t", f.t), ("p", f.p)] {
        // In pbkdf2 m and p have no place, and t=20000 is for the mutations.
        let shown = is_argon2(f.id) || if name == "t" { n != 20_000 } else { n != 0 };
        if shown {
            items.push(format!("{name}={n}").into_bytes());
        }
    }
    for (name, bytes) in [("keyid=", &f.keyid), ("data=", &f.data)] {
        if !bytes.is_empty() {
            items.push([name.as_bytes(), &reference::b64_encode(bytes)].concat());
        }
    }
    if !items.is_empty() {
        s.push(b'$');
        s.extend(items.join(&b','));
    }
    for bytes in [&f.salt, &f.output] {
        if !bytes.is_empty() {
            s.push(b'$');
            s.extend(reference::b64_encode(bytes));
        }
    }
    s
}

/// The string with braces in place of its first two `$`.
pub fn braced(s: &[u8]) -> Vec<u8> {
    let mut t = s.to_vec();
    for brace in *b"{}" {
        if let Some(dollar) = t.iter_mut().find(|c| **c == b'$') {
            *dollar = brace;
        }
    }
    t
}
