//! Strings at the limits of length and far past them.

use crate::chance::Rng;
use crate::fields::{any_good_fields, highest_fields, push_to_limit, spell, Arguments};
use crate::mutations::{NAME, TEXT};
use crate::reference;

/// The longest string of the grammar, and the longest that is compared.
pub const GRAMMAR_ROOM: usize = 2_896;
pub const LONGEST: usize = 1_000_000;

/// Beside each limit and far past it. A count of 16 bits would take three of them for 171, 265 and 2,896.
pub const LENGTHS: [usize; 18] = [
    0, 1, 170, 171, 172, 264, 265, 266, 2_895, GRAMMAR_ROOM, 2_897, 3_000, 4_096,
    65_536, 65_536 + 171, 65_536 + 265, 65_536 + GRAMMAR_ROOM, LONGEST,
];

/// The grammar accepts it; its id is none of the five.
pub fn longest_of_grammar(rng: &mut Rng) -> Vec<u8> {
    let items: Vec<Vec<u8>> = (0..16).map(|_| [rng.of(NAME, 32), rng.of(TEXT, 128)].join(&b'=')).collect();
    let (id, salt, output) = (rng.of(NAME, 32), rng.of(TEXT, 128), reference::b64_encode(&rng.bytes(96)));
    [&b""[..], &id, b"v=4294967295", &items.join(&b','), &salt, &output].join(&b'$')
}

/// Mostly of the grammar and past 265 bytes, with a fault or more of the profile's rows.
pub fn longer_than_profiles(rng: &mut Rng) -> Vec<u8> {
    let id = 1 + rng.below(5) as u8;
    let mut a = Arguments::of(&highest_fields(rng, id));
    for _ in 0..rng.below(3) {
        push_to_limit(rng, &mut a);
    }
    a.fields.output = rng.bytes(96);
    if rng.once_in(2) {
        a.fields.salt = rng.bytes(96);
    }
    let mut s = String::from_utf8(spell(&a)).unwrap();
    if rng.once_in(4) {
        // Row 13, which no fields spell.
        s = s.replace("$t=4294967295", "$t=20000");
    }
    s.into_bytes()
}

/// What a long string begins with: each piece is cut off where it may grow.
pub fn beginnings(rng: &mut Rng) -> Vec<Vec<u8>> {
    let mut all: Vec<Vec<u8>> = [
        "",
        "$",
        "$argon2id",
        "$argon2id$v=",
        "$argon2id$m=",
        "$argon2id$v=19$",
        "$argon2id$v=19$m=65536,t=2,p=1,",
        "$argon2id$v=19$m=65536,t=2,p=1,keyid=",
        "$argon2id$v=19$m=65536,t=2,p=1$",
        "$argon2id$v=19$m=65536,t=2,p=1$gZiV/M1gPc22ElAH/Jh1Hw$",
        "$pbkdf2s2$",
        "$pbkdf2s2$t=",
        "$pbkdf2s3$v=",
        "$pbkdf2s3$keyid=",
        "$pbkdf2s3$AAAAAA$",
        "{pbkdf2s2",
        "{pbkdf2s4}",
    ]
    .map(|text| text.as_bytes().to_vec())
    .to_vec();
    all.push(reference::write(&any_good_fields(rng)).unwrap());
    // The longest that are accepted.
    all.extend([3, 5].map(|id| reference::write(&highest_fields(rng, id)).unwrap()));
    all.push(longest_of_grammar(rng));
    all
}

/// What is repeated after a beginning.
pub fn fillers(rng: &mut Rng) -> Vec<Vec<u8>> {
    let mut all: Vec<Vec<u8>> = ["$", "=", ",", "\0", "a", "A", "0", "m=1,"].map(|text| text.as_bytes().to_vec()).to_vec();
    // Of prime lengths, so that no limit falls in step with them.
    all.extend([rng.of(b"0123456789", 97), rng.of(NAME, 89), rng.of(TEXT, 83), rng.bytes(5_003)]);
    all.push(reference::write(&any_good_fields(rng)).unwrap());
    all
}

pub fn stretched(beginning: &[u8], filler: &[u8], len: usize) -> Vec<u8> {
    beginning.iter().chain(filler.iter().cycle()).take(len).copied().collect()
}
