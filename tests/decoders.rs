//! Compares the public decoder of B64, and the plain one of `crates/peers`, with the plain rules of `reference.rs`: on texts good, damaged and
//! random, of fewer than 200 characters and of some thousands.

mod chance;
mod lent;
#[allow(dead_code)]
mod reference;

use chance::Rng;
use lent::Lent;
use std::process::exit;

extern "C" {
    fn peer_decode(text: *const u8, text_len: usize, buf: *mut u8, buf_len: usize) -> u64;
    fn peer_decode_plain(text: *const u8, text_len: usize, buf: *mut u8, buf_len: usize) -> u64;
}

const ALPHABET: &[u8; 64] = b"ABCDEFGHIJKLMNOPQRSTUVWXYZabcdefghijklmnopqrstuvwxyz0123456789+/";
/// Bytes beside a range of the alphabet, and others that a decoder might pass.
const OUTSIDE: &[u8] = b"@[`{:.,*-_=$ \n\0\x7f\x80\xff";
const SHORT: usize = 200;
const LONG: usize = 5_000;
const TEXTS: usize = 400_000;
const LONG_TEXTS: usize = 4_000;

/// Accepted, 12 and 17.
#[derive(Default)]
struct Seen {
    accepted: u64,
    not_canonical: u64,
    no_room: u64,
    /// Accepted ones by what their length leaves modulo 4.
    rests: [u64; 4],
    /// Texts with one byte outside the alphabet, by its place from the text's end, up to 16.
    outside: [u64; 16],
}

fn expected(text: &[u8], room: usize) -> Result<Vec<u8>, u64> {
    let bytes = reference::b64_decode(text).ok_or(12u64)?;
    if bytes.len() > room {
        return Err(17);
    }
    Ok(bytes)
}

fn compare(rng: &mut Rng, seed: u64, text: &[u8], room: usize, seen: &mut Seen) {
    let wanted = expected(text, room);
    match &wanted {
        Ok(_) => {
            seen.accepted += 1;
            seen.rests[text.len() % 4] += 1;
        }
        Err(12) => seen.not_canonical += 1,
        Err(_) => seen.no_room += 1,
    }
    for (name, decode) in [("the public decoder", peer_decode as unsafe extern "C" fn(_, _, _, _) -> _), ("the plain decoder", peer_decode_plain)] {
        let mut lent_text = Lent::new(rng, text);
        let mut buffer = Lent::room(rng, room);
        let text_memory = lent_text.memory.clone();
        let memory = match &wanted {
            Ok(bytes) => buffer.with(bytes),
            Err(_) => buffer.memory.clone(),
        };
        // SAFETY: both slices are whole and apart.
        let number = unsafe { decode(lent_text.ptr() as *const u8, lent_text.len, buffer.ptr(), buffer.len) };
        let same = number == *wanted.as_ref().err().unwrap_or(&0) && buffer.memory == memory && lent_text.memory == text_memory;
        if !same {
            eprintln!("mismatch in {name}, seed {seed}");
            eprintln!("input:     {:?} with room {room}", String::from_utf8_lossy(text));
            eprintln!("given:     {number}, and the buffer is {}", if buffer.memory == memory { "as it must be" } else { "another" });
            eprintln!("reference: {wanted:?}");
            exit(1);
        }
    }
}

/// A text of so many characters; its last is often one whose low bits are zero.
fn any_text(rng: &mut Rng, len: usize) -> Vec<u8> {
    let mut text = rng.of(ALPHABET, len);
    if let (Some(last), false) = (text.last_mut(), rng.once_in(4)) {
        *last = rng.pick(b"AQgw");
    }
    text
}

/// A room that is often just enough, or one byte too little.
fn any_room(rng: &mut Rng, len: usize) -> usize {
    let bytes = len * 3 / 4;
    match rng.below(6) {
        0 => rng.below(bytes + 20),
        1 => bytes.saturating_sub(1),
        2 => bytes + 1,
        3 => bytes + rng.below(20),
        _ => bytes,
    }
}

fn main() {
    let seed = match std::env::args().nth(1).map(|text| text.parse()) {
        None => 1,
        Some(Ok(seed)) => seed,
        Some(Err(_)) => {
            eprintln!("usage: decoders [seed]");
            exit(2)
        }
    };
    let rng = &mut Rng::new(seed);
    let seen = &mut Seen::default();
    // Every byte at every place of texts of up to 16 characters.
    for len in 0..=16 {
        for place in 0..len {
            for byte in 0..=255 {
                let mut text = vec![b'A'; len];
                text[place] = byte;
                compare(rng, seed, &text, len, seen);
            }
        }
        compare(rng, seed, &vec![b'A'; len], len * 3 / 4, seen);
    }
    for (count, most) in [(TEXTS, SHORT), (LONG_TEXTS, LONG)] {
        for _ in 0..count {
            let len = rng.below(most);
            let mut text = any_text(rng, len);
            if len > 0 && rng.once_in(4) {
                // The end is where the steps of a decoder differ.
                let from_end = if rng.once_in(2) { rng.below(len.min(16)) } else { rng.below(len) };
                text[len - 1 - from_end] = if rng.once_in(2) { rng.pick(OUTSIDE) } else { rng.next() as u8 };
                if from_end < 16 && !ALPHABET.contains(&text[len - 1 - from_end]) {
                    seen.outside[from_end] += 1;
                }
            }
            let room = any_room(rng, len);
            compare(rng, seed, &text, room, seen);
        }
    }
    assert!(seen.rests[0] > 10_000 && seen.rests[1] == 0 && seen.rests[2] > 10_000 && seen.rests[3] > 10_000, "{:?} rests", seen.rests);
    assert!(seen.not_canonical > 50_000 && seen.no_room > 20_000, "{} and {} refused", seen.not_canonical, seen.no_room);
    assert!(seen.outside.iter().all(|times| *times > 500), "{:?} bytes outside the alphabet", seen.outside);
    println!(
        "decoders: {} texts accepted, {} refused with 12 and {} with 17, no difference, seed {seed}",
        seen.accepted, seen.not_canonical, seen.no_room
    );
}
