//! Compares the library, through its C interface, with the plain rules of `reference.rs`.

mod batches;
mod chance;
mod fields;
mod lent;
mod library;
mod long;
mod mutations;
mod reference;

use chance::Rng;
use fields::{any_good_fields, braced, directory_fields, good_fields, highest_fields, numbers, push_to_limit, spell};
use fields::{Arguments, ID_NUMBERS, VERSIONS};
use lent::Lent;
use library::*;
use long::{beginnings, fillers, longer_than_profiles, longest_of_grammar, stretched, GRAMMAR_ROOM, LENGTHS, LONGEST};
use mutations::{mutate, ALPHABET, NAME, NUMERALS, TEXT};
use reference::{Fields, IDS};
use std::collections::{HashMap, HashSet};
use std::fmt::Debug;
use std::ops::RangeInclusive;
use std::process::exit;

/// The strings that the program `records` runs, a line each.
const RECORDS: &[u8] = include_bytes!("../crates/records/stdin");

const KNOWN: [(&str, u8); 16] = [
    ("$argon2i$m=120,t=5000,p=2$/LtFjH5rVL8", 0),
    ("$argon2i$m=120,t=5000,p=2,keyid=Hj5+dsK0ZQA", 0),
    ("$argon2j$m=120,t=5000,p=2", 8),
    ("$argon2i$m=15,t=5000,p=2", 11),
    ("$argon2i$m=16,t=1,p=2", 0),
    ("$argon2i$m=0120,t=5000,p=2", 11),
    ("$argon2i$m=120,t=4294967296,p=2", 11),
    ("$argon2i$m=120,t=5000,p=2,keyid=Hj5+dsK0Z", 12),
    ("$argon2i$m=120,t=5000,p=2,keyid=Hj5+dsK0ZR", 12),
    ("$argon2i$t=5000,p=2", 10),
    ("$argon2id$v=18$m=8,t=1,p=1", 9),
    ("$argon2i$v=19,m=8,t=1,p=1", 3),
    ("$pbkdf2s2", 0),
    ("$pbkdf2s2$t=20000", 13),
    ("$pbkdf2s2$t=99", 11),
    ("$pbkdf2s2$", 5),
];

const KNOWN_BRACED: [(&str, u8); 27] = [
    ("{pbkdf2s2}t=100", 0),
    ("{pbkdf2s3}AAAAAA", 0),
    ("{pbkdf2s3}keyid=Hj5+dsK0ZQA$AAAAAA$AAAAAAAAAAAAAAAA", 0),
    ("", 24),
    ("{", 24),
    ("{pbkdf2s2}", 24),
    ("{pbkdf2s3}", 24),
    ("{pbkdf2s2$t=100", 24),
    ("$pbkdf2s2}t=100", 24),
    ("$pbkdf2s2$t=100", 24),
    ("{pbkdf2s4}t=100", 24),
    ("{PBKDF2S2}t=100", 24),
    ("{argon2id}m=8,t=1,p=1", 24),
    ("{pbkdf2s2}v=", 3),
    ("{pbkdf2s2}t=", 4),
    ("{pbkdf2s2}$", 5),
    ("{pbkdf2s2}$x", 5),
    ("{pbkdf2s2}}t=100", 4),
    ("{pbkdf2s2}AAAAAA$A", 6),
    ("{pbkdf2s2}AAAAAA$AAAA$", 7),
    ("{pbkdf2s2}v=19", 9),
    ("{pbkdf2s2}m=8,t=100", 10),
    ("{pbkdf2s2}t=99", 11),
    ("{pbkdf2s2}keyid=Hj5+dsK0ZR", 12),
    ("{pbkdf2s2}t=20000", 13),
    ("{pbkdf2s2}AAAA", 14),
    ("{pbkdf2s2}AAAAAA$AAAA", 15),
];

/// Of pbkdf2s2: the fields whose string is the id alone.
const ID_ALONE: Fields =
    Fields { id: 4, version: None, m: 0, t: 20_000, p: 0, keyid: vec![], data: vec![], salt: vec![], output: vec![] };

/// Fields, and the directory writer's number.
fn known_fields() -> [(Fields, u8); 12] {
    let id = |id| Fields { id, ..ID_ALONE };
    [
        (Fields { t: 100, ..ID_ALONE }, 0),
        (Fields { id: 3, version: Some(19), m: 8, t: 1, p: 1, ..ID_ALONE }, 24),
        (id(0), 24),
        (id(6), 24),
        (Fields { version: Some(19), ..ID_ALONE }, 9),
        (Fields { m: 1, ..ID_ALONE }, 11),
        (Fields { data: vec![0], ..ID_ALONE }, 12),
        (Fields { salt: vec![0; 3], ..ID_ALONE }, 14),
        (Fields { salt: vec![0; 4], output: vec![0; 11], ..ID_ALONE }, 15),
        (Fields { output: vec![0; 12], ..ID_ALONE }, 16),
        (id(4), 24),
        (id(5), 24),
    ]
}

// The spellings.

/// A spelling of the fields: the library's reader and writer, and the rules for both.
struct Spelling {
    reader: &'static str,
    read_all: ReadAllEntry,
    read: fn(&[u8]) -> Result<(u8, Fields), u8>,
    writer: &'static str,
    write_entry: WriteEntry,
    write: fn(&Fields) -> Result<Vec<u8>, u8>,
    /// The longest text.
    longest: usize,
    /// Texts and their numbers.
    known: &'static [(&'static str, u8)],
}

static STRING: Spelling = Spelling {
    reader: "phc_read_all",
    read_all: phc_read_all,
    read: reference::read,
    writer: "phc_write",
    write_entry: phc_write,
    write: reference::write,
    longest: PHC_ROOM,
    known: &KNOWN,
};

static DIRECTORY: Spelling = Spelling {
    reader: "phc_directory_read_all",
    read_all: phc_directory_read_all,
    read: reference::directory_read,
    writer: "phc_directory_write",
    write_entry: phc_directory_write,
    write: reference::directory_write,
    longest: PHC_DIRECTORY_ROOM,
    known: &KNOWN_BRACED,
};

static SPELLINGS: [&Spelling; 2] = [&STRING, &DIRECTORY];

// Comparison.

/// What an entry answered.
#[derive(Default)]
struct Seen {
    /// How often each number, 0 for acceptance.
    numbers: [u64; 25],
    /// The longest text accepted or written.
    longest: usize,
}

struct Run {
    seed: u64,
    rng: Rng,
    cases: u64,
    good: u64,
    good_braced: u64,
    longest_read: usize,
    /// Texts longer than any of the grammar.
    past_grammar: u64,
    /// By the entry's name.
    seen: HashMap<&'static str, Seen>,
    /// The numbers of texts longer than any of the spelling, by its reader.
    past_longest: HashMap<&'static str, [u64; 25]>,
    /// Algorithm versions seen.
    versions: HashMap<u32, u64>,
}

impl Run {
    fn same<T: PartialEq + Debug>(&self, what: &str, input: &dyn Fn() -> String, library: &T, reference: &T) {
        if library != reference {
            println!("mismatch in {what}, seed {}", self.seed);
            println!("input:     {}", ends(input()));
            println!("library:   {}", ends(format!("{library:?}")));
            println!("reference: {}", ends(format!("{reference:?}")));
            exit(1);
        }
    }

    /// Counts an answer; the length is the text's that was read or written.
    fn count(&mut self, entry: &'static str, number: u8, len: usize) {
        let seen = self.seen.entry(entry).or_default();
        seen.numbers[usize::from(number)] += 1;
        if number == 0 {
            seen.longest = seen.longest.max(len);
        }
    }

    fn count_written(&mut self, entry: &'static str, written: &Result<Vec<u8>, u8>) {
        self.count(entry, *written.as_ref().err().unwrap_or(&0), written.as_ref().map_or(0, Vec::len));
    }

    /// Calls an entry that takes a string and a buffer, and compares the answer and each byte of the lent memory.
    fn string_entry(&mut self, name: &'static str, entry: StringEntry, s: &[u8], room: usize, expected: Result<Vec<u8>, u8>, scale: u64) {
        let mut string = Lent::new(&mut self.rng, s);
        let mut buffer = Lent::room(&mut self.rng, room);
        let (string_after, mut buffer_after) = (string.memory.clone(), buffer.memory.clone());
        let (number, answer) = match expected.and_then(|bytes| reference::fit(bytes, room)) {
            Ok(bytes) => {
                buffer_after = buffer.with(&bytes);
                (0, scale * bytes.len() as u64)
            }
            Err(number) => (number, u64::from(number)),
        };
        // SAFETY: both slices are whole and apart; NULL goes with the length 0 only.
        let given = unsafe { entry(string.ptr(), string.len, buffer.ptr(), buffer.len) };
        let input = || format!("\"{}\" of {} bytes with room {room}", s.escape_ascii(), s.len());
        self.same(name, &input, &given, &answer);
        self.same(&format!("{name}'s buffer and its guards"), &input, &buffer.memory, &buffer_after);
        self.same(&format!("{name}'s string and its guards"), &input, &string.memory, &string_after);
        self.count(name, number, s.len());
    }

    /// The same for a call that takes a record and a buffer.
    fn read_all_entry(
        &mut self,
        spelling: &Spelling,
        s: &[u8],
        record_room: usize,
        buffer_room: usize,
        expected: &Result<(u8, Fields), u8>,
    ) {
        let mut string = Lent::new(&mut self.rng, s);
        let (mut record, mut buffer) = (Lent::room(&mut self.rng, record_room), Lent::room(&mut self.rng, buffer_room));
        let string_after = string.memory.clone();
        let given_back = expected.as_ref().map_err(|n| *n).and_then(|(kind, f)| {
            let record = reference::fit(record_all_bytes(*kind, f), record_room)?;
            Ok((record, reference::fit(byte_strings(f).concat(), buffer_room)?))
        });
        let (answer, record_after, buffer_after) = match given_back {
            Ok((fields, bytes)) => (0, record.with(&fields), buffer.with(&bytes)),
            Err(number) => (number, record.memory.clone(), buffer.memory.clone()),
        };
        let (name, entry) = (spelling.reader, spelling.read_all);
        // SAFETY: the slices are whole and apart; NULL goes with the length 0 only.
        let given = unsafe { entry(string.ptr(), string.len, record.ptr(), record.len, buffer.ptr(), buffer.len) };
        let input = || {
            let rooms = format!("room {record_room} for the record and {buffer_room} for the bytes");
            format!("\"{}\" of {} bytes with {rooms}", s.escape_ascii(), s.len())
        };
        self.same(name, &input, &given, &u64::from(answer));
        self.same(&format!("{name}'s record and its guards"), &input, &record.memory, &record_after);
        self.same(&format!("{name}'s buffer and its guards"), &input, &buffer.memory, &buffer_after);
        self.same(&format!("{name}'s string and its guards"), &input, &string.memory, &string_after);
        self.count(name, answer, s.len());
    }

    fn version_entry(&mut self, s: &[u8]) {
        let mut string = Lent::new(&mut self.rng, s);
        let string_after = string.memory.clone();
        let expected = reference::algorithm_version(s);
        // SAFETY: the slice is whole; NULL goes with the length 0 only.
        let given = unsafe { phc_algorithm_version(string.ptr(), string.len) };
        let input = || format!("\"{}\" of {} bytes", s.escape_ascii(), s.len());
        self.same("phc_algorithm_version", &input, &given, &expected.map_or_else(u64::from, |v| 100 * u64::from(v)));
        self.same("phc_algorithm_version's string and its guards", &input, &string.memory, &string_after);
        self.count("phc_algorithm_version", expected.err().unwrap_or(0), s.len());
        if let Ok(version) = expected {
            *self.versions.entry(version).or_default() += 1;
        }
    }

    /// The reader, the algorithm version, the four byte strings and all in one call of either spelling, with rooms of the caller's
    /// choice from what is needed.
    fn compare_rooms(&mut self, s: &[u8], choose: &mut dyn FnMut(&mut Rng, usize) -> usize) {
        let readings = SPELLINGS.map(|spelling| (spelling.read)(s));
        let expected = &readings[0];
        let record = expected.as_ref().map(|(kind, f)| record_bytes(*kind, f));
        let room = choose(&mut self.rng, PHC_RECORD);
        self.string_entry("phc_read", phc_read, s, room, record.map_err(|n| *n), 0);
        self.version_entry(s);

        let parts: [(&str, StringEntry, fn(&Fields) -> &Vec<u8>); 4] = [
            ("phc_keyid", phc_keyid, |f| &f.keyid),
            ("phc_data", phc_data, |f| &f.data),
            ("phc_salt", phc_salt, |f| &f.salt),
            ("phc_output", phc_output, |f| &f.output),
        ];
        for (name, entry, part) in parts {
            let bytes = expected.as_ref().map(|(_, f)| part(f).clone()).map_err(|n| *n);
            let room = choose(&mut self.rng, bytes.as_ref().map_or(0, Vec::len));
            self.string_entry(name, entry, s, room, bytes, 100);
        }

        self.cases += 1;
        self.longest_read = self.longest_read.max(s.len());
        self.past_grammar += u64::from(s.len() > GRAMMAR_ROOM);

        for (spelling, expected) in SPELLINGS.into_iter().zip(readings) {
            let needed = bytes_needed(&expected);
            let (record_room, buffer_room) = (choose(&mut self.rng, PHC_RECORD_ALL), choose(&mut self.rng, needed));
            self.read_all_entry(spelling, s, record_room, buffer_room, &expected);
            match expected {
                Ok((_, fields)) => {
                    let again = (spelling.write)(&fields);
                    self.same("the reference's own way back", &|| s.escape_ascii().to_string(), &Ok(s.to_vec()), &again);
                    self.write_entry(spelling, &Arguments::of(&fields), s.len()).ok();
                }
                Err(number) if s.len() > spelling.longest => {
                    self.past_longest.entry(spelling.reader).or_default()[usize::from(number)] += 1;
                }
                Err(_) => {}
            }
        }
    }

    /// A string, also with braces in place of its first two `$`.
    fn compare_string(&mut self, s: &[u8]) {
        self.compare_rooms(s, &mut some_room);
        if s.starts_with(b"$") {
            self.compare_rooms(&braced(s), &mut some_room);
        }
    }

    /// Calls a writer and compares; the written text, if any.
    fn write_entry(&mut self, spelling: &Spelling, arguments: &Arguments, room: usize) -> Result<Vec<u8>, u8> {
        let expected = (spelling.write)(&arguments.meaning()).and_then(|bytes| reference::fit(bytes, room));
        let f = &arguments.fields;
        let mut parts = [&f.keyid, &f.data, &f.salt, &f.output].map(|bytes| Lent::new(&mut self.rng, bytes));
        let parts_after = parts.each_ref().map(|part| part.memory.clone());
        let mut buffer = Lent::room(&mut self.rng, room);
        let (answer, buffer_after) = match &expected {
            Ok(bytes) => (100 * bytes.len() as u64, buffer.with(bytes)),
            Err(number) => (u64::from(*number), buffer.memory.clone()),
        };
        let [keyid, data, salt, output] = &mut parts;
        let (name, entry) = (spelling.writer, spelling.write_entry);
        // SAFETY: the slices are whole and apart; NULL goes with the length 0 only.
        let given = unsafe {
            entry(
                f.id, arguments.has_version, arguments.version, f.m, f.t, f.p,
                keyid.ptr(), keyid.len, data.ptr(), data.len, salt.ptr(), salt.len, output.ptr(), output.len,
                buffer.ptr(), buffer.len,
            )
        };
        let input = || format!("{arguments:?} with room {room}");
        self.same(name, &input, &given, &answer);
        self.same(&format!("{name}'s buffer and its guards"), &input, &buffer.memory, &buffer_after);
        self.same(&format!("{name}'s byte strings and their guards"), &input, &parts.map(|part| part.memory), &parts_after);
        self.count_written(name, &expected);
        expected
    }

    /// Calls the short writer and compares.
    fn short_entry(&mut self, id: u8, salt: &[u8], output: &[u8], room: usize) {
        let expected = reference::write_short(id, salt, output).and_then(|bytes| reference::fit(bytes, room));
        let mut parts = [salt, output].map(|bytes| Lent::new(&mut self.rng, bytes));
        let parts_after = parts.each_ref().map(|part| part.memory.clone());
        let mut buffer = Lent::room(&mut self.rng, room);
        let (answer, buffer_after) = match &expected {
            Ok(bytes) => (100 * bytes.len() as u64, buffer.with(bytes)),
            Err(number) => (u64::from(*number), buffer.memory.clone()),
        };
        let [salt_lent, output_lent] = &mut parts;
        // SAFETY: the slices are whole and apart; NULL goes with the length 0 only.
        let given = unsafe {
            phc_write_short(id, salt_lent.ptr(), salt_lent.len, output_lent.ptr(), output_lent.len, buffer.ptr(), buffer.len)
        };
        let input = || format!("id {id}, salt {salt:?}, output {output:?} with room {room}");
        self.same("phc_write_short", &input, &given, &answer);
        self.same("phc_write_short's buffer and its guards", &input, &buffer.memory, &buffer_after);
        self.same("phc_write_short's byte strings and their guards", &input, &parts.map(|part| part.memory), &parts_after);
        self.count_written("phc_write_short", &expected);
    }

    fn compare_fields(&mut self, arguments: &Arguments) {
        for spelling in SPELLINGS {
            let needed = (spelling.write)(&arguments.meaning()).map_or(0, |s| s.len());
            let room = if self.rng.once_in(4) { PHC_ROOM } else { some_room(&mut self.rng, needed) };
            if let Ok(s) = self.write_entry(spelling, arguments, room) {
                let fields = (spelling.read)(&s).map(|(_, fields)| fields);
                self.same("the reference's own way forth", &|| format!("{arguments:?}"), &Ok(arguments.meaning()), &fields);
            }
        }
        let f = &arguments.fields;
        let needed = reference::write_short(f.id, &f.salt, &f.output).map_or(0, |s| s.len());
        let room = some_room(&mut self.rng, needed);
        self.short_entry(f.id, &f.salt, &f.output, room);
        self.cases += 1;
    }
}

/// A text to be shown; of a very long one its two ends.
fn ends(text: String) -> String {
    const SHOWN: usize = 10_000;
    if text.len() <= 2 * SHOWN {
        return text;
    }
    format!("{} .. {}", &text[..SHOWN], &text[text.len() - SHOWN..])
}

fn byte_strings(f: &Fields) -> [&[u8]; 4] {
    [&f.keyid, &f.data, &f.salt, &f.output]
}

/// The room for all byte strings of what a reader gives.
fn bytes_needed(reading: &Result<(u8, Fields), u8>) -> usize {
    reading.as_ref().map_or(0, |(_, f)| byte_strings(f).concat().len())
}

/// The record of phc_read.
fn record_bytes(kind: u8, f: &Fields) -> Vec<u8> {
    let mut record = vec![kind, f.id, u8::from(f.version.is_some()), 0];
    for n in [f.version.unwrap_or(0), f.m, f.t, f.p] {
        record.extend(n.to_le_bytes());
    }
    record
}

/// The record of phc_read_all.
fn record_all_bytes(kind: u8, f: &Fields) -> Vec<u8> {
    let mut record = record_bytes(kind, f);
    for bytes in byte_strings(f) {
        record.extend((bytes.len() as u32).to_le_bytes());
    }
    record
}

/// Mostly enough, now and then one short, or anything.
fn some_room(rng: &mut Rng, needed: usize) -> usize {
    match rng.below(8) {
        0 => needed.saturating_sub(1),
        1 => rng.below(needed + 4),
        2..=4 => needed,
        _ => needed + rng.below(40),
    }
}

// Fields.

fn both_ways(run: &mut Run, a: &Arguments) {
    run.compare_fields(a);
    run.compare_string(&spell(a));
}

fn generated(run: &mut Run) {
    for id in 1..=5 {
        let fields = highest_fields(&mut run.rng, id);
        // Often enough for a room that suffices.
        for _ in 0..20 {
            both_ways(run, &Arguments::of(&fields));
        }
    }
    // One field at a time, at every value.
    for id in ID_NUMBERS {
        let column = if (1..=5).contains(&id) { id } else { 1 };
        let base = |rng: &mut Rng| {
            let mut a = Arguments::of(&good_fields(rng, column));
            a.fields.id = id;
            a
        };
        for has_version in [0, 1, 2, 255] {
            for version in VERSIONS {
                let a = Arguments { has_version, version, ..base(&mut run.rng) };
                both_ways(run, &a);
            }
        }
        for p in [0, 1, 2, 254, 255, 256, 1 << 29, u32::MAX] {
            for m in numbers(p) {
                for t in numbers(0) {
                    let mut a = base(&mut run.rng);
                    (a.fields.m, a.fields.t, a.fields.p) = (m, t, p);
                    both_ways(run, &a);
                }
            }
        }
        for len in 0..=100 {
            for part in 0..4 {
                let mut a = base(&mut run.rng);
                let bytes = run.rng.bytes(len);
                let f = &mut a.fields;
                *[&mut f.keyid, &mut f.data, &mut f.salt, &mut f.output][part] = bytes;
                both_ways(run, &a);
            }
        }
        for salt in 0..=50 {
            for output in 0..=66 {
                let mut a = base(&mut run.rng);
                (a.fields.salt, a.fields.output) = (run.rng.bytes(salt), run.rng.bytes(output));
                both_ways(run, &a);
            }
        }
    }
    // Some fields together, for the order of the rows.
    for round in 0..120_000 {
        let fields = if round < 60_000 { any_good_fields(&mut run.rng) } else { directory_fields(&mut run.rng) };
        let mut a = Arguments::of(&fields);
        for _ in 0..round % 4 {
            push_to_limit(&mut run.rng, &mut a);
        }
        both_ways(run, &a);
    }
}

// The grammar's limits.

fn grammar_limits(run: &mut Run) {
    for _ in 0..20_000 {
        let rng = &mut run.rng;
        // One length in eight breaks its rule.
        let len = |rng: &mut Rng, high: usize| match rng.below(16) {
            0 => high + 1,
            1 => 0,
            2..=6 => 1,
            _ => high,
        };
        let id_len = len(rng, 32);
        let id = if rng.once_in(2) { rng.pick(&IDS).as_bytes().to_vec() } else { rng.of(NAME, id_len) };
        let mut s = [b"$".to_vec(), id].concat();
        if !rng.once_in(3) {
            s.extend(b"$v=");
            s.extend(rng.pick(&NUMERALS).bytes());
        }
        if !rng.once_in(3) {
            let count = len(rng, 16).max(1);
            let mut items = Vec::new();
            for _ in 0..count {
                let (name_len, value_len) = if rng.once_in(8) { (len(rng, 32), len(rng, 128)) } else { (32, 128) };
                items.push([rng.of(NAME, name_len), rng.of(TEXT, value_len)].join(&b'='));
            }
            s.push(b'$');
            s.extend(items.join(&b','));
        }
        for piece in 0..rng.below(4) {
            let len = len(rng, 128);
            s.push(b'$');
            s.extend(if piece == 0 { rng.of(TEXT, len) } else { reference::b64_encode(&vec![0xa5; len * 3 / 4]) });
            if piece == 1 && len > 128 {
                s.push(b'A');
            }
        }
        run.compare_string(&s);
    }
    // The whole at its limit, or all but the id; one short of it and one past it.
    let item = [vec![b'n'; 32], vec![b'0'; 128]].join(&b'=');
    for id in [&[b'i'; 32][..], b"pbkdf2s2"] {
        let whole = [&b""[..], id, b"v=4294967295", &vec![item.clone(); 16].join(&b','), &[b's'; 128], &[b'A'; 128]].join(&b'$');
        run.compare_string(&whole);
        run.compare_string(&whole[..whole.len() - 1]);
        for place in 0..whole.len() {
            let mut s = whole.clone();
            s.insert(place, whole[place]);
            run.compare_string(&s);
        }
    }
}

// Mutations.

fn mutations(run: &mut Run) {
    for _ in 0..250_000 {
        let one = |rng: &mut Rng| {
            if rng.once_in(8) {
                let known = rng.pick(&SPELLINGS).known;
                return rng.pick(known).0.as_bytes().to_vec();
            }
            if rng.once_in(2) {
                return braced(&reference::write(&directory_fields(rng)).unwrap());
            }
            reference::write(&any_good_fields(rng)).unwrap()
        };
        let (mut s, other) = (one(&mut run.rng), one(&mut run.rng));
        for _ in 0..1 + run.rng.below(3) {
            s = mutate(&mut run.rng, &s, &other);
        }
        run.compare_string(&s);
    }
}

// Random bytes.

fn random(run: &mut Run) {
    for round in 0..60_000 {
        let rng = &mut run.rng;
        let len = if rng.once_in(200) { 2_800 + rng.below(200) } else { rng.below(64) };
        let mut s: Vec<u8> = match round % 3 {
            0 => rng.bytes(len),
            _ => rng.of(ALPHABET, len),
        };
        if round % 3 == 2 {
            s.splice(0..0, format!("${}$", rng.pick(&IDS)).into_bytes());
        }
        run.compare_string(&s);
    }
}

// Long strings.

fn long_strings(run: &mut Run) {
    for beginning in beginnings(&mut run.rng) {
        for filler in fillers(&mut run.rng) {
            let between = 3_000 + run.rng.below(LONGEST - 3_000);
            for len in LENGTHS.into_iter().chain([between]) {
                run.compare_string(&stretched(&beginning, &filler, len));
            }
        }
    }
    for _ in 0..5_000 {
        let s = longer_than_profiles(&mut run.rng);
        run.compare_string(&s);
    }
    for _ in 0..500 {
        let mut s = longest_of_grammar(&mut run.rng);
        assert_eq!((s.len(), reference::read(&s).err()), (GRAMMAR_ROOM, Some(8)), "the longest string of the grammar");
        run.compare_string(&s);
        let place = run.rng.below(s.len() + 1);
        s.insert(place, run.rng.pick(ALPHABET));
        run.compare_string(&s);
    }
}

// Good strings.

const GOOD: u64 = 1_000_000;

/// Every one is accepted, also in the directory spelling if it has one, and carries the fields that it was written from.
fn good_strings(run: &mut Run) {
    let mut shapes: HashMap<_, u64> = HashMap::new();
    let mut sizes = HashSet::new();
    for round in 0..GOOD {
        let fields = good_fields(&mut run.rng, 1 + (round % 5) as u8);
        let s = reference::write(&fields).unwrap();
        let kind = match (fields.salt.is_empty(), fields.output.is_empty()) {
            (true, _) => 1,
            (_, true) => 2,
            _ => 3,
        };
        let needed = byte_strings(&fields).concat().len();
        let (record_room, buffer_room) = if round % 2 == 0 { (PHC_RECORD_ALL, needed) } else { (PHC_RECORD_ALL + 4, PHC_BYTES) };

        // Which parts are there.
        let omitted = reference::limits(fields.id).unwrap().t_omitted == Some(fields.t);
        let shape = (fields.id, fields.version, omitted, fields.keyid.is_empty(), fields.data.is_empty(), kind);
        *shapes.entry(shape).or_default() += 1;
        sizes.extend(sizes_of(&fields));

        run.string_entry("phc_read", phc_read, &s, PHC_RECORD, Ok(record_bytes(kind, &fields)), 0);
        let expected = Ok((kind, fields.clone()));
        run.read_all_entry(&STRING, &s, record_room, buffer_room, &expected);
        run.good += 1;
        if let Ok(t) = reference::directory_write(&fields) {
            run.read_all_entry(&DIRECTORY, &t, record_room, buffer_room, &expected);
            run.good_braced += 1;
        }
    }

    // Versions, keyid, data and kinds of the three ids of Argon2; t, keyid and kinds of the two of pbkdf2.
    assert_eq!(shapes.len(), 3 * (3 * 2 * 2 * 3) + 2 * (2 * 2 * 3), "the shapes of good strings");
    assert!(shapes.values().all(|n| *n > 300), "a shape of good strings came up too seldom");
    for id in 1..=5 {
        let limits = reference::limits(id).unwrap();
        let digits = |range: &RangeInclusive<u32>| range.start().to_string().len()..=range.end().to_string().len();
        let ranges = [
            ("keyid", limits.keyid.clone()),
            ("data", limits.data.clone()),
            ("salt", limits.salt.clone()),
            ("output", limits.output.clone()),
            ("digits of m", digits(&limits.m)),
            ("digits of t", digits(&limits.t)),
            ("digits of p", digits(&limits.p)),
        ];
        for (what, range) in ranges {
            for size in range {
                assert!(sizes.contains(&(id, what, size)), "{}: {size} never came up for {what}", IDS[usize::from(id) - 1]);
            }
        }
    }
}

fn sizes_of(f: &Fields) -> [(u8, &'static str, usize); 7] {
    let digits = |n: u32| n.to_string().len();
    [
        (f.id, "keyid", f.keyid.len()),
        (f.id, "data", f.data.len()),
        (f.id, "salt", f.salt.len()),
        (f.id, "output", f.output.len()),
        (f.id, "digits of m", digits(f.m)),
        (f.id, "digits of t", digits(f.t)),
        (f.id, "digits of p", digits(f.p)),
    ]
}

// Buffers.

/// Record and buffer each at every size, beside some of the other's.
fn two_buffers(run: &mut Run, spelling: &Spelling, s: &[u8]) {
    let expected = (spelling.read)(s);
    let needed = bytes_needed(&expected);
    for record_room in 0..PHC_RECORD_ALL + 8 {
        for buffer_room in [0, needed.saturating_sub(1), needed, needed + 1, PHC_BYTES] {
            run.read_all_entry(spelling, s, record_room, buffer_room, &expected);
            run.cases += 1;
        }
    }
    for buffer_room in 0..needed + 20 {
        for record_room in [0, PHC_RECORD, PHC_RECORD_ALL - 1, PHC_RECORD_ALL, PHC_RECORD_ALL + 1] {
            run.read_all_entry(spelling, s, record_room, buffer_room, &expected);
            run.cases += 1;
        }
    }
}

fn buffers(run: &mut Run) {
    for round in 0..40 {
        let fields = good_fields(&mut run.rng, 1 + round % 5);
        let s = reference::write(&fields).unwrap();
        for room in 0..s.len() + 20 {
            for spelling in SPELLINGS {
                run.write_entry(spelling, &Arguments::of(&fields), room).ok();
            }
            run.short_entry(fields.id, &fields.salt, &fields.output, room);
            run.cases += 1;
        }
        for (spelling, text) in [(&STRING, s.clone()), (&DIRECTORY, braced(&s))] {
            for room in 0..84 {
                run.compare_rooms(&text, &mut |_, _| room);
            }
            two_buffers(run, spelling, &text);
        }
    }
    // Refusals keep their number, whatever the room.
    for spelling in SPELLINGS {
        for (s, _) in spelling.known {
            for room in 0..30 {
                run.compare_rooms(s.as_bytes(), &mut |_, _| room);
            }
            two_buffers(run, spelling, s.as_bytes());
        }
    }
    // Often enough that each empty slice comes both as NULL and otherwise.
    for _ in 0..200 {
        run.compare_rooms(b"", &mut |_, _| 0);
        run.compare_rooms(b"$pbkdf2s2", &mut |_, needed| needed);
        run.compare_rooms(b"{pbkdf2s2}t=100", &mut |_, needed| needed);
        for spelling in SPELLINGS {
            for room in [0, PHC_ROOM] {
                run.write_entry(spelling, &Arguments::of(&Fields { t: 100, ..ID_ALONE }), room).ok();
                run.cases += 1;
            }
        }
    }
}

// Prefixes of the directory spelling.

/// Beside `{pbkdf2s2}`.
const NEAR_MISSES: [&str; 36] = [
    "", "{", "}", "{}", "{}{", "{$", "{pbkdf2s2", "pbkdf2s2}", "pbkdf2s2", "$pbkdf2s2$", "{pbkdf2s2$", "$pbkdf2s2}", "{$pbkdf2s2$}",
    "${pbkdf2s2}", "${pbkdf2s2}$", "{pbkdf2s2}}", "{{pbkdf2s2}", "{{pbkdf2s2}}", "{pbkdf2s2}{pbkdf2s3}", "{pbkdf2s3}$pbkdf2s2$",
    "}pbkdf2s2{", "{pbkdf2s1}", "{pbkdf2s4}", "{pbkdf2s}", "{pbkdf2s22}", "{pbkdf2}", "{PBKDF2S2}", "{Pbkdf2s2}", " {pbkdf2s2}",
    "{pbkdf2s2 }", "(pbkdf2s2)", "[pbkdf2s2]", "{argon2d}", "{argon2i}", "{argon2id}", "{CRYPT}$pbkdf2s2$",
];

fn prefixes(run: &mut Run) {
    let mut texts: Vec<Vec<u8>> = (0..40).map(|_| braced(&reference::write(&directory_fields(&mut run.rng)).unwrap())).collect();
    texts.extend([4, 5].map(|id| braced(&reference::write(&highest_fields(&mut run.rng, id)).unwrap())));
    // Cut at every length.
    for text in &texts {
        for len in 0..text.len() {
            run.compare_string(&text[..len]);
        }
    }

    let rests = ["", "$", "}", "$x", "v=19", "t=100", "t=20000", "m=8,t=1,p=1", "AAAAAA", "AAAAAA$AAAAAAAAAAAAAAAA"];
    for rest in rests {
        for near in NEAR_MISSES {
            run.compare_string(&[near, rest].concat().into_bytes());
        }
        for prefix in ["{pbkdf2s2}", "{pbkdf2s3}"] {
            let text = [prefix, rest].concat().into_bytes();
            for place in 0..prefix.len() {
                // Each byte left out, twice, and at every value.
                run.compare_string(&[&text[..place], &text[place + 1..]].concat());
                run.compare_string(&[&text[..=place], &text[place..]].concat());
                for byte in 0..=u8::MAX {
                    let mut text = text.clone();
                    text[place] = byte;
                    run.compare_string(&text);
                }
            }
        }
    }
}

fn known(run: &mut Run) {
    for spelling in SPELLINGS {
        for (s, number) in spelling.known {
            let reading = (spelling.read)(s.as_bytes());
            let given = *reading.as_ref().err().unwrap_or(&0);
            run.same("the reference's number of a known text", &|| s.to_string(), &given, number);
            run.read_all_entry(spelling, s.as_bytes(), PHC_RECORD_ALL, PHC_BYTES, &reading);
            run.compare_string(s.as_bytes());
        }
    }
    for (fields, number) in known_fields() {
        let given = reference::directory_write(&fields).err().unwrap_or(0);
        run.same("the reference's number of known fields", &|| format!("{fields:?}"), &given, &number);
        // From none to more than the id alone needs.
        for room in (0..=12).chain([PHC_ROOM]) {
            for spelling in SPELLINGS {
                run.write_entry(spelling, &Arguments::of(&fields), room).ok();
                run.cases += 1;
            }
        }
    }
    for s in RECORDS.split(|b| *b == b'\n') {
        run.compare_string(s);
    }
}

fn main() {
    let seed = match std::env::args().nth(1) {
        None => 1,
        Some(text) => text.parse().unwrap_or_else(|_| {
            eprintln!("usage: compare [seed]");
            exit(2)
        }),
    };
    println!("seed {seed}");
    let rng = Rng::new(seed);
    let mut run = Run {
        seed,
        rng,
        cases: 0,
        good: 0,
        good_braced: 0,
        longest_read: 0,
        past_grammar: 0,
        seen: HashMap::new(),
        past_longest: HashMap::new(),
        versions: HashMap::new(),
    };

    known(&mut run);
    generated(&mut run);
    grammar_limits(&mut run);
    mutations(&mut run);
    random(&mut run);
    prefixes(&mut run);
    long_strings(&mut run);
    buffers(&mut run);
    good_strings(&mut run);
    batches::batches(&mut run);

    println!("{} cases compared", run.cases);
    let shown = SPELLINGS.into_iter().flat_map(|spelling| [(spelling.reader, "accepted"), (spelling.writer, "written")]);
    for (entry, what) in shown.chain([(batches::CALLS, "batches"), (batches::LINES, "accepted")]) {
        let numbers = &run.seen[entry].numbers;
        let refusals = (1..numbers.len()).filter(|row| numbers[*row] > 0).map(|row| format!(", {} with {row}", numbers[row]));
        println!("{entry}: {} {what}{}", numbers[0], refusals.collect::<String>());
    }
    println!("{} texts of more than {GRAMMAR_ROOM} bytes among them, the longest of {}", run.past_grammar, run.longest_read);
    println!("{} good strings and {} good braced texts more, all accepted", run.good, run.good_braced);

    // A run that leaves a rule out shows nothing of it.
    assert!(run.cases >= 1_000_000 && run.good >= GOOD && run.good_braced > GOOD / 3, "too few cases");
    let reader: Vec<usize> = (0..=15).chain([17]).collect();
    let line: Vec<usize> = (0..=15).chain([18, 19]).collect();
    let entries: [(&str, &[usize]); 13] = [
        ("phc_read", &reader),
        ("phc_read_all", &reader),
        ("phc_keyid", &reader),
        ("phc_data", &reader),
        ("phc_salt", &reader),
        ("phc_output", &reader),
        ("phc_algorithm_version", &reader[..16]),
        ("phc_write", &[0, 8, 9, 11, 12, 14, 15, 16, 17]),
        ("phc_write_short", &[0, 8, 14, 15, 16, 17]),
        // A prefix names an id, so 2 and 8 are none of its numbers.
        ("phc_directory_read_all", &[0, 1, 3, 4, 5, 6, 7, 9, 10, 11, 12, 13, 14, 15, 17, 24]),
        ("phc_directory_write", &[0, 9, 11, 12, 14, 15, 16, 17, 24]),
        (batches::CALLS, &[0, 17]),
        (batches::LINES, &line),
    ];
    for (entry, rows) in entries {
        for (number, times) in run.seen[entry].numbers.iter().enumerate() {
            assert_eq!(*times > 0, rows.contains(&number), "the number {number} of {entry}");
            assert!(*times == 0 || *times > 100, "the number {number} of {entry} came up too seldom");
        }
    }
    for (spelling, good) in SPELLINGS.into_iter().zip([run.good, run.good_braced]) {
        let [reader, writer] = [spelling.reader, spelling.writer].map(|entry| &run.seen[entry]);
        for row in (1..reader.numbers.len()).filter(|row| *row != 17 && reader.numbers[*row] > 0) {
            let times = run.past_longest[spelling.reader][row];
            assert!(times > 50, "the number {row} of {} for a long text came up too seldom", spelling.reader);
        }
        // 24 says nothing of the other rules.
        let judged = |seen: &Seen| seen.numbers[..24].iter().sum::<u64>();
        assert!(judged(reader) - good > 100_000 && judged(writer) > 100_000, "too few cases of {}", spelling.reader);
        assert!(reader.numbers[0] - good > 20_000 && writer.numbers[0] > 20_000, "too few good ones of {}", spelling.reader);
        assert_eq!((reader.longest, writer.longest), (spelling.longest, spelling.longest), "the longest text of {}", spelling.reader);
    }
    for version in [0, 16, 19] {
        assert!(run.versions.get(&version).is_some_and(|n| *n > 1_000), "the algorithm version {version} came up too seldom");
    }
    assert_eq!(run.versions.len(), 3, "the algorithm versions");
    assert!(run.past_grammar > 4_000 && run.longest_read == LONGEST, "too few long strings");
}
