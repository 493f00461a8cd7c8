//! Times readers of PHC strings, in turn and on the same strings.
//!
//! A peer takes part where its cfg is set: `argon2` is libargon2, `password_hash` is RustCrypto's password-hash.
//! The second table is of long strings, all refused, the third of the directory spelling: a ratio there that is past its limit ends the run
//! non-zero.

mod timing;

#[allow(dead_code)]
#[path = "../tests/library.rs"]
mod library;

#[allow(dead_code)]
#[path = "../tests/reference.rs"]
mod reference;

use library::*;
use std::ffi::CString;
use std::hint::black_box;
use std::time::{Duration, Instant};
use timing::quartiles;

const ROUNDS: usize = 15;
const CALLS: u64 = 100_000;

/// Names, strings, and whether each is accepted.
const STRINGS: [(&str, &str, bool); 4] = [
    ("002's example", "$argon2id$v=19$m=65536,t=2,p=1$gZiV/M1gPc22ElAH/Jh1Hw$CWOrkoo7oJBQ/iyh7uJ0LO2aLEfrHwTWllSAxT0zRno", true),
    (
        "longest of Argon2",
        "$argon2id$v=19$m=4294967295,t=4294967295,p=255,keyid=AAAAAAAAAAA,data=AAAAAAAAAAAAAAAAAAAAAAAAAAAAAAAAAAAAAAAAAAA\
         $AAAAAAAAAAAAAAAAAAAAAAAAAAAAAAAAAAAAAAAAAAAAAAAAAAAAAAAAAAAAAAAA\
         $AAAAAAAAAAAAAAAAAAAAAAAAAAAAAAAAAAAAAAAAAAAAAAAAAAAAAAAAAAAAAAAAAAAAAAAAAAAAAAAAAAAAAA",
        true,
    ),
    ("short pbkdf2", "$pbkdf2s3$t=4096$AAECAw$AAECAwQFBgcICQoL", true),
    // An unused bit of the last character is set: everything before it has been read.
    ("refused", "$argon2id$v=19$m=65536,t=2,p=1$gZiV/M1gPc22ElAH/Jh1Hw$CWOrkoo7oJBQ/iyh7uJ0LO2aLEfrHwTWllSAxT0zRnp", false),
];

/// A string, as each reader takes it.
struct Text<'a> {
    text: &'a str,
    #[cfg_attr(not(argon2), allow(dead_code))]
    terminated: CString,
}

/// What a reader of the whole found.
#[derive(Debug, Default, PartialEq)]
struct Fields {
    m: u32,
    t: u32,
    p: u32,
    keyid: Vec<u8>,
    data: Vec<u8>,
    salt: Vec<u8>,
    output: Vec<u8>,
}

struct Reader {
    name: &'static str,
    /// Calls it so many times; how often the string was accepted.
    calls: fn(&Text, u64) -> u64,
    /// For a reader that gives numbers and bytes, all of them.
    fields: Option<fn(&Text) -> Option<Fields>>,
    peer: bool,
}

fn repeat(calls: u64, mut accepts: impl FnMut() -> bool) -> u64 {
    (0..calls).map(|_| u64::from(accepts())).sum()
}

// The library.

fn number_at(record: &[u8], at: usize) -> u32 {
    u32::from_le_bytes(record[at..at + 4].try_into().unwrap())
}

fn read_calls(s: &Text, calls: u64) -> u64 {
    let mut record = [0; PHC_RECORD];
    repeat(calls, || {
        let s = black_box(s.text);
        // SAFETY: both slices are whole and apart.
        let answer = unsafe { phc_read(s.as_ptr(), s.len(), record.as_mut_ptr(), record.len()) };
        black_box(&record);
        answer == 0
    })
}

// Inlined, so that the entry is called by its name and not through a pointer.
#[inline(always)]
fn all_once(entry: ReadAllEntry, s: &str, record: &mut [u8; PHC_RECORD_ALL], bytes: &mut [u8; PHC_BYTES]) -> bool {
    // SAFETY: the slices are whole and apart.
    unsafe { entry(s.as_ptr(), s.len(), record.as_mut_ptr(), record.len(), bytes.as_mut_ptr(), bytes.len()) == 0 }
}

#[inline(always)]
fn all_calls(entry: ReadAllEntry, s: &Text, calls: u64) -> u64 {
    let (mut record, mut bytes) = ([0; PHC_RECORD_ALL], [0; PHC_BYTES]);
    repeat(calls, || {
        let accepted = all_once(entry, black_box(s.text), &mut record, &mut bytes);
        black_box((&record, &bytes));
        accepted
    })
}

/// The plain reader alone, by an entry that has no fast path before it.
fn salt_calls(s: &Text, calls: u64) -> u64 {
    let mut buffer = [0; PHC_BYTES];
    repeat(calls, || {
        let s = black_box(s.text);
        // SAFETY: both slices are whole and apart.
        let answer = unsafe { phc_salt(s.as_ptr(), s.len(), buffer.as_mut_ptr(), buffer.len()) };
        black_box(&buffer);
        answer == 0 || answer >= 100
    })
}

fn all_fields(entry: ReadAllEntry, s: &Text) -> Option<Fields> {
    let (mut record, mut bytes) = ([0; PHC_RECORD_ALL], [0; PHC_BYTES]);
    if !all_once(entry, s.text, &mut record, &mut bytes) {
        return None;
    }
    let mut rest = &bytes[..];
    let mut next = |at: usize| {
        let (part, after) = rest.split_at(number_at(&record, at) as usize);
        rest = after;
        part.to_vec()
    };
    let (keyid, data, salt, output) = (next(20), next(24), next(28), next(32));
    Some(Fields { m: number_at(&record, 8), t: number_at(&record, 12), p: number_at(&record, 16), keyid, data, salt, output })
}

// libargon2.

#[cfg(argon2)]
mod argon2 {
    use super::*;
    use std::ffi::{c_char, c_int, c_void};
    use std::ptr::null_mut;

    /// argon2_context of argon2.h.
    #[repr(C)]
    struct Context {
        out: *mut u8,
        outlen: u32,
        pwd: *mut u8,
        pwdlen: u32,
        salt: *mut u8,
        saltlen: u32,
        secret: *mut u8,
        secretlen: u32,
        ad: *mut u8,
        adlen: u32,
        t_cost: u32,
        m_cost: u32,
        lanes: u32,
        threads: u32,
        version: u32,
        allocate_cbk: *mut c_void,
        free_cbk: *mut c_void,
        flags: u32,
    }

    const ARGON2_ID: c_int = 2;

    extern "C" {
        fn decode_string(ctx: *mut Context, s: *const c_char, kind: c_int) -> c_int;
    }

    /// Room for the longest salt and output of the profiles.
    struct Decoder {
        salt: [u8; 48],
        output: [u8; 64],
        context: Context,
    }

    impl Decoder {
        fn new() -> Box<Decoder> {
            let context = Context {
                out: null_mut(),
                outlen: 0,
                pwd: null_mut(),
                pwdlen: 0,
                salt: null_mut(),
                saltlen: 0,
                secret: null_mut(),
                secretlen: 0,
                ad: null_mut(),
                adlen: 0,
                t_cost: 0,
                m_cost: 0,
                lanes: 0,
                threads: 0,
                version: 0,
                allocate_cbk: null_mut(),
                free_cbk: null_mut(),
                flags: 0,
            };
            let mut decoder = Box::new(Decoder { salt: [0; 48], output: [0; 64], context });
            (decoder.context.salt, decoder.context.out) = (decoder.salt.as_mut_ptr(), decoder.output.as_mut_ptr());
            decoder
        }

        fn once(&mut self, s: &CString) -> bool {
            // A call takes the rooms from here, and leaves the lengths.
            (self.context.saltlen, self.context.outlen) = (48, 64);
            // SAFETY: the string ends in 0, and the context points to the buffers beside it.
            unsafe { decode_string(&mut self.context, s.as_ptr(), ARGON2_ID) == 0 }
        }
    }

    pub fn calls(s: &Text, calls: u64) -> u64 {
        let mut decoder = Decoder::new();
        repeat(calls, || {
            let accepted = decoder.once(black_box(&s.terminated));
            black_box(&decoder);
            accepted
        })
    }

    pub fn fields(s: &Text) -> Option<Fields> {
        let mut decoder = Decoder::new();
        if !decoder.once(&s.terminated) {
            return None;
        }
        let Decoder { salt, output, context } = &*decoder;
        let (salt, output) = (salt[..context.saltlen as usize].to_vec(), output[..context.outlen as usize].to_vec());
        Some(Fields { m: context.m_cost, t: context.t_cost, p: context.lanes, salt, output, ..Fields::default() })
    }
}

// RustCrypto's password-hash.

#[cfg(password_hash)]
mod rustcrypto {
    use super::*;
    use ::password_hash::PasswordHash;

    pub fn parse_calls(s: &Text, calls: u64) -> u64 {
        repeat(calls, || black_box(PasswordHash::new(black_box(s.text))).is_ok())
    }

    /// Room for the longest byte strings of the profiles. The output is decoded in the hash itself.
    struct Room {
        keyid: [u8; 8],
        data: [u8; 32],
        salt: [u8; 48],
    }

    const ROOM: Room = Room { keyid: [0; 8], data: [0; 32], salt: [0; 48] };

    #[derive(Default)]
    struct Decoded {
        m: u32,
        t: u32,
        p: u32,
        keyid_len: usize,
        data_len: usize,
        salt_len: usize,
    }

    fn decode(hash: &PasswordHash, room: &mut Room) -> Option<Decoded> {
        let mut decoded = Decoded::default();
        for (name, value) in hash.params.iter() {
            match name.as_str() {
                "m" => decoded.m = value.decimal().ok()?,
                "t" => decoded.t = value.decimal().ok()?,
                "p" => decoded.p = value.decimal().ok()?,
                "keyid" => decoded.keyid_len = value.b64_decode(&mut room.keyid).ok()?.len(),
                "data" => decoded.data_len = value.b64_decode(&mut room.data).ok()?.len(),
                _ => return None,
            }
        }
        if let Some(salt) = hash.salt {
            decoded.salt_len = salt.b64_decode(&mut room.salt).ok()?.len();
        }
        Some(decoded)
    }

    pub fn calls(s: &Text, calls: u64) -> u64 {
        let mut room = ROOM;
        repeat(calls, || {
            let Ok(hash) = PasswordHash::new(black_box(s.text)) else { return false };
            let decoded = decode(&hash, &mut room);
            black_box((&hash, &decoded, &room));
            decoded.is_some()
        })
    }

    pub fn fields(s: &Text) -> Option<Fields> {
        let mut room = ROOM;
        let hash = PasswordHash::new(s.text).ok()?;
        let decoded = decode(&hash, &mut room)?;
        let output = hash.hash.map_or(vec![], |output| output.as_bytes().to_vec());
        let keyid = room.keyid[..decoded.keyid_len].to_vec();
        let data = room.data[..decoded.data_len].to_vec();
        let salt = room.salt[..decoded.salt_len].to_vec();
        Some(Fields { m: decoded.m, t: decoded.t, p: decoded.p, keyid, data, salt, output })
    }
}

// The run.

const READ: Reader = Reader { name: "phc_read", calls: read_calls, fields: None, peer: false };
const READ_ALL: Reader = Reader {
    name: "phc_read_all",
    calls: |s, calls| all_calls(phc_read_all, s, calls),
    fields: Some(|s| all_fields(phc_read_all, s)),
    peer: false,
};
const DIRECTORY: Reader = Reader {
    name: "phc_directory_read_all",
    calls: |s, calls| all_calls(phc_directory_read_all, s, calls),
    fields: Some(|s| all_fields(phc_directory_read_all, s)),
    peer: false,
};
const PLAIN: Reader = Reader { name: "plain reader", calls: salt_calls, fields: None, peer: false };

fn readers() -> Vec<Reader> {
    vec![
        READ,
        READ_ALL,
        #[cfg(argon2)]
        Reader { name: "libargon2", calls: argon2::calls, fields: Some(argon2::fields), peer: true },
        #[cfg(password_hash)]
        Reader { name: "password-hash", calls: rustcrypto::calls, fields: Some(rustcrypto::fields), peer: true },
        #[cfg(password_hash)]
        Reader { name: "password-hash, parsing alone", calls: rustcrypto::parse_calls, fields: None, peer: true },
    ]
}

/// What the independent implementation of the tests finds.
fn expected(s: &Text) -> Option<Fields> {
    let (_, f) = reference::read(s.text.as_bytes()).ok()?;
    Some(Fields { m: f.m, t: f.t, p: f.p, keyid: f.keyid, data: f.data, salt: f.salt, output: f.output })
}

/// Whether the reader knows such a string. Those that give the fields must give the expected ones.
fn takes_part(reader: &Reader, s: &Text, good: bool) -> bool {
    let accepted = (reader.calls)(s, 1) == 1;
    if !good {
        assert!(!accepted, "{} accepts {}", reader.name, s.text);
        return true;
    }
    if let (true, Some(fields)) = (accepted, reader.fields) {
        assert_eq!(fields(s), expected(s), "{} on {}", reader.name, s.text);
    }
    assert!(accepted || reader.peer, "{} refuses {}", reader.name, s.text);
    accepted
}

fn time(reader: &Reader, s: &Text, calls: u64) -> Duration {
    let start = Instant::now();
    black_box((reader.calls)(s, calls));
    start.elapsed()
}

fn nanoseconds(reader: &Reader, s: &Text, calls: u64) -> f64 {
    time(reader, s, calls).as_nanos() as f64 / calls as f64
}

fn table_head() {
    println!();
    println!("| string | reader | ns a call, median | quartiles | ratio |");
    println!("|---|---|---|---|---|");
}

fn compare_readers() {
    let readers = readers();
    println!("{ROUNDS} rounds, each of {CALLS} calls of every reader in turn. Buffers are not cleared before a call.");
    println!("Ratio: to the fastest peer that also decodes; of the ratios in each round, the median.");
    table_head();
    for (name, text, good) in STRINGS {
        let s = Text { text, terminated: CString::new(text).unwrap() };
        let taking_part: Vec<bool> = readers.iter().map(|reader| takes_part(reader, &s, good)).collect();
        let mut samples = vec![Vec::new(); readers.len()];
        // The first round warms up.
        for round in 0..=ROUNDS {
            for turn in 0..readers.len() {
                let i = (round + turn) % readers.len();
                if taking_part[i] {
                    let time = nanoseconds(&readers[i], &s, CALLS);
                    if round > 0 {
                        samples[i].push(time);
                    }
                }
            }
        }
        let whole_peers = (0..readers.len()).filter(|i| taking_part[*i] && readers[*i].peer && readers[*i].fields.is_some());
        let fastest = whole_peers.min_by(|a, b| f64::total_cmp(&quartiles(&samples[*a])[1], &quartiles(&samples[*b])[1]));
        for (reader, times) in readers.iter().zip(&samples) {
            print!("| {name}, {} bytes | {} ", text.len(), reader.name);
            if times.is_empty() {
                println!("| - | - | - |");
                continue;
            }
            let [low, median, high] = quartiles(times);
            print!("| {median:.1} | {low:.1}..{high:.1} ");
            match fastest {
                Some(fastest) => {
                    let ratios: Vec<f64> = times.iter().zip(&samples[fastest]).map(|(time, peer)| time / peer).collect();
                    println!("| {:.2} |", quartiles(&ratios)[1]);
                }
                None => println!("| - |"),
            }
        }
    }
}

// Long strings.

/// The longest string of the grammar, one past it, and one far past it.
const WHOLE: usize = 2_896;
const PAST: usize = 3_000;
const FAR_PAST: usize = 100_000_000;

/// Of the plain reader's time, and of the time for the string just past the grammar.
const MOST_OF_PLAIN: f64 = 1.1;
const MOST_OF_PAST: f64 = 2.0;

/// Many short rounds: what disturbs one of them disturbs few ratios.
const LONG_ROUNDS: usize = 101;
/// About the time of one sample, whatever a call costs.
const SAMPLE: Duration = Duration::from_micros(200);

fn filled(beginning: &str, filler: u8, len: usize) -> String {
    let mut bytes = beginning.as_bytes().to_vec();
    bytes.resize(len, filler);
    String::from_utf8(bytes).unwrap()
}

fn calls_in_sample(reader: &Reader, s: &Text) -> u64 {
    let mut calls = 1;
    while calls < CALLS && time(reader, s, calls) < SAMPLE {
        calls *= 2;
    }
    calls
}

/// For the readers that don't take the terminated string.
fn unterminated(text: &str) -> Text<'_> {
    Text { text, terminated: CString::default() }
}

/// Times readers in turn, and shows their ratios to the first. The rows past the limit are given back.
fn compare_to_first(name: &str, timed: &[(&Reader, &str)], good: bool, most: f64) -> Vec<String> {
    let timed: Vec<(&Reader, Text)> = timed.iter().map(|(reader, text)| (*reader, unterminated(text))).collect();
    let calls: Vec<u64> = timed.iter().map(|(reader, s)| calls_in_sample(reader, s)).collect();
    let mut samples = vec![Vec::new(); timed.len()];
    for round in 0..LONG_ROUNDS {
        for turn in 0..timed.len() {
            let i = (round + turn) % timed.len();
            let (reader, s) = &timed[i];
            samples[i].push(nanoseconds(reader, s, calls[i]));
        }
    }
    let mut past = Vec::new();
    for ((reader, s), times) in timed.iter().zip(&samples) {
        assert_eq!((reader.calls)(s, 1) == 1, good, "{} on {name}", reader.name);
        let [low, median, high] = quartiles(times);
        let ratios: Vec<f64> = times.iter().zip(&samples[0]).map(|(time, first)| time / first).collect();
        let ratio = quartiles(&ratios)[1];
        let row = format!("| {name}, {} bytes | {} | {median:.1} | {low:.1}..{high:.1} | {ratio:.2} |", s.text.len(), reader.name);
        println!("{row}");
        if ratio > most {
            past.push(row);
        }
    }
    past
}

fn refuse_long() -> Vec<String> {
    println!("Long strings, all refused: {LONG_ROUNDS} rounds, each of {} us or more of calls in turn.", SAMPLE.as_micros());
    println!("Ratio: at {WHOLE} bytes to the plain reader, at most {MOST_OF_PLAIN}; of {FAR_PAST} to {PAST}, at most {MOST_OF_PAST}.");
    table_head();
    let items = vec![["n".repeat(32), "0".repeat(128)].join("="); 16].join(",");
    let whole = ["", &"i".repeat(32), "v=4294967295", &items, &"s".repeat(128), &"A".repeat(128)].join("$");
    let strings = [
        ("id of letters", filled("$", b'a', WHOLE), 2),
        ("version of zeros", filled("$argon2id$v=", b'0', WHOLE), 3),
        ("m of zeros", filled("$argon2id$m=", b'0', WHOLE), 4),
        ("16 items, long salt", filled(&format!("$argon2id$v=19${items}$"), b'A', WHOLE), 5),
        ("longest of the grammar", whole, 8),
    ];
    let mut past = Vec::new();
    for (name, text, number) in &strings {
        assert_eq!((text.len(), reference::read(text.as_bytes()).err()), (WHOLE, Some(*number)), "{name}");
        past.extend(compare_to_first(name, &[(&PLAIN, text), (&READ, text), (&READ_ALL, text)], false, MOST_OF_PLAIN));
    }
    for (name, beginning, filler) in [("id of letters", "$", b'a'), ("version of zeros", "$argon2id$v=", b'0')] {
        let text = filled(beginning, filler, FAR_PAST);
        for reader in [&READ, &READ_ALL] {
            past.extend(compare_to_first(name, &[(reader, &text[..PAST]), (reader, &text)], false, MOST_OF_PAST));
        }
    }
    past
}

// The directory spelling.

/// Of the time for the accepted string.
const MOST_OF_STRING: f64 = 1.5;

/// Names, what stands after the prefix, and whether it is accepted.
fn braced_texts() -> [(&'static str, String, bool); 4] {
    let (t, keyid, salt, output) = ("t=4294967295", "keyid=AAAAAAAAAAA", "A".repeat(43), "A".repeat(86));
    [
        ("short pbkdf2", "t=4096$AAECAw$AAECAwQFBgcICQoL".to_string(), true),
        ("004's defaults", "gZiV/M1gPc22ElAH/Jh1Hw$CWOrkoo7oJBQ/iyh7uJ0LO2aLEfrHwTWllSAxT0zRno".to_string(), true),
        ("longest of pbkdf2", format!("{t},{keyid}${salt}${output}"), true),
        ("t of zeros", filled("t=", b'0', WHOLE - "{pbkdf2s3}".len()), false),
    ]
}

fn read_braced() -> Vec<String> {
    println!("The directory spelling beside the string: {LONG_ROUNDS} rounds, each of {} us or more of calls in turn.", SAMPLE.as_micros());
    println!("Ratio: to the string, at most {MOST_OF_STRING} where both are accepted.");
    table_head();
    let mut past = Vec::new();
    for (name, rest, good) in braced_texts() {
        let [string, text] = [format!("$pbkdf2s3${rest}"), format!("{{pbkdf2s3}}{rest}")];
        let fields = all_fields(phc_directory_read_all, &unterminated(&text));
        assert_eq!(fields, expected(&unterminated(&string)), "{} on {text}", DIRECTORY.name);
        let most = if good { MOST_OF_STRING } else { f64::INFINITY };
        past.extend(compare_to_first(name, &[(&READ_ALL, &string), (&DIRECTORY, &text)], good, most));
    }
    past
}

fn main() {
    compare_readers();
    println!();
    let mut past = refuse_long();
    println!();
    past.extend(read_braced());
    assert!(past.is_empty(), "ratios past their limit:\n{}", past.join("\n"));
}
