//! Account text, judged in batches.

use crate::chance::Rng;
use crate::fields::{any_good_fields, highest_fields, push_to_limit, spell, Arguments};
use crate::lent::Lent;
use crate::library::{phc_judge, PHC_BATCH, PHC_ROOM};
use crate::long::{longer_than_profiles, stretched};
use crate::mutations::{mutate, NAME};
use crate::{reference, some_room, Run, KNOWN};
use std::collections::BTreeMap;

/// The names under which a run counts the calls' answers and the lines' numbers.
pub const CALLS: &str = "phc_judge";
pub const LINES: &str = "phc_judge's lines";

/// The account text that the program `cuts` lists, and the listing.
const CUTS: &[u8] = include_bytes!("../crates/cuts/stdin");
const CUTS_LISTED: &str = include_str!("../crates/cuts/stdout");

/// Document 01's example.
const EXAMPLE: &str = "ana\t$pbkdf2s2\nbo\t$argon2i$m=8,t=1,p=0\n\n";

/// Text, place and limit; then the place to go on from and the lines' numbers.
const KNOWN_BATCHES: [(&str, usize, usize, usize, &[u8]); 22] = [
    ("", 0, usize::MAX, 0, &[]),
    ("", 1, 1, 0, &[]),
    ("\n", 0, usize::MAX, 1, &[19]),
    ("\n\n", 0, usize::MAX, 2, &[19, 19]),
    ("\n\n", 0, 1, 1, &[19]),
    ("a", 0, usize::MAX, 1, &[19]),
    ("\na", 0, usize::MAX, 2, &[19, 19]),
    ("a\t", 0, usize::MAX, 2, &[1]),
    ("a\t$pbkdf2s2", 0, usize::MAX, 11, &[0]),
    ("a\t\t$pbkdf2s2", 0, usize::MAX, 12, &[1]),
    ("a\t$pbkdf2s2\t", 0, usize::MAX, 12, &[2]),
    ("a\t$pbkdf2s2\r\n", 0, usize::MAX, 13, &[2]),
    (EXAMPLE, 0, usize::MAX, 39, &[0, 11, 19]),
    (EXAMPLE, 0, 2, 38, &[0, 11]),
    (EXAMPLE, 0, 0, 0, &[]),
    (EXAMPLE, 14, 1, 38, &[11]),
    (EXAMPLE, 38, 1, 39, &[19]),
    // Inside a name, at a tab and at a line feed.
    (EXAMPLE, 2, 1, 14, &[0]),
    (EXAMPLE, 3, 1, 14, &[19]),
    (EXAMPLE, 13, 2, 38, &[19, 11]),
    (EXAMPLE, 39, 1, 39, &[]),
    (EXAMPLE, usize::MAX, usize::MAX, 39, &[]),
];

// Comparison.

/// A text and the copy of it that is lent.
struct Text {
    bytes: Vec<u8>,
    lent: Lent,
    /// The lent memory as it was.
    before: Vec<u8>,
}

impl Text {
    fn from(&self, place: usize) -> &[u8] {
        &self.bytes[place.min(self.bytes.len())..]
    }

    fn lines_from(&self, place: usize) -> usize {
        reference::lines(self.from(place)).count()
    }

    fn shown(&self) -> String {
        format!("\"{}\" of {} bytes", self.bytes.escape_ascii(), self.bytes.len())
    }
}

/// The arguments beside the text.
#[derive(Clone, Copy, Debug)]
struct Call {
    from: usize,
    limit: usize,
    /// For the answers.
    room: usize,
    result_room: usize,
}

/// The place to go on from and the lines' numbers, or 17.
type Judged = Result<(usize, Vec<u8>), u8>;

struct Batches<'a> {
    run: &'a mut Run,
    /// How often each case came up.
    seen: BTreeMap<&'static str, u64>,
}

impl Batches<'_> {
    fn text(&mut self, bytes: &[u8]) -> Text {
        let lent = Lent::new(&mut self.run.rng, bytes);
        let before = lent.memory.clone();
        Text { bytes: bytes.to_vec(), lent, before }
    }

    /// One call, compared in all but the text.
    fn judge(&mut self, text: &mut Text, call: Call) -> Judged {
        let Call { from, limit, room, result_room } = call;
        let judged = reference::judge(&text.bytes, from, limit, room);
        self.see(text, call, &judged);
        let expected = judged.and_then(|(place, numbers)| {
            let result = [place as u64, numbers.len() as u64].map(u64::to_le_bytes).concat();
            Ok((place, numbers, reference::fit(result, result_room)?))
        });
        let [mut answers, mut result] = [room, result_room].map(|room| Lent::room(&mut self.run.rng, room));
        let (answer, answers_after, result_after) = match &expected {
            Ok((_, numbers, bytes)) => (0, answers.with(numbers), result.with(bytes)),
            Err(number) => (*number, answers.memory.clone(), result.memory.clone()),
        };
        // SAFETY: the slices are whole and apart; NULL goes with the length 0 only.
        let given = unsafe { phc_judge(text.lent.ptr(), text.lent.len, from, limit, answers.ptr(), answers.len, result.ptr(), result.len) };
        let input = || format!("{} with {call:?}", text.shown());
        self.run.same(CALLS, &input, &given, &u64::from(answer));
        self.run.same("phc_judge's answers and their guards", &input, &answers.memory, &answers_after);
        self.run.same("phc_judge's result and its guards", &input, &result.memory, &result_after);

        self.run.count(CALLS, answer, text.bytes.len());
        let (place, numbers, _) = expected?;
        for (line, number) in reference::lines(text.from(from)).zip(&numbers) {
            let feed = usize::from(line.ends_with(b"\n"));
            self.run.count(LINES, *number, line.len() - feed);
        }
        Ok((place, numbers))
    }

    /// Counts a call under each case that it is one of.
    fn see(&mut self, text: &Text, call: Call, judged: &Judged) {
        let Call { from, limit, room, result_room } = call;
        let bytes = &text.bytes;
        let (fits, result_fits) = (judged.is_ok(), result_room >= PHC_BATCH);
        let given = fits && result_fits;
        let (place, count) = judged.as_ref().map_or((0, 0), |(place, numbers)| (*place, numbers.len()));
        let some = given && count > 0;
        let inside = some && from > 0 && bytes[from - 1] != b'\n';
        let ended = some && place == bytes.len();
        let feed_at_end = bytes.ends_with(b"\n");
        let cases = [
            ("answers that don't fit", !fits && result_fits),
            ("one answer that doesn't fit", !fits && reference::judge(bytes, from, limit, room + 1).is_ok()),
            ("a result that doesn't fit", fits && !result_fits),
            ("answers and a result that don't fit", !fits && !result_fits),
            ("answers that fit exactly", some && count == room),
            ("a result that fits exactly", given && result_room == PHC_BATCH),
            ("a limit past the room, with room for the lines", some && limit > room),
            ("a limit of 0", given && limit == 0 && from < bytes.len()),
            ("the largest limit", some && limit == usize::MAX),
            ("the largest limit with too little room", !fits && limit == usize::MAX),
            ("a place at a later line", some && from > 0 && !inside),
            ("a place inside a line", inside && bytes[from] != b'\n'),
            ("a place at the line feed of a line", inside && bytes[from] == b'\n'),
            ("a place at the end", given && limit > 0 && from == bytes.len()),
            ("a place past the end", given && limit > 0 && from > bytes.len()),
            ("the largest place", given && limit > 0 && from == usize::MAX),
            ("lines left", some && !ended),
            ("a last line with its line feed", ended && feed_at_end),
            ("a last line without its line feed", ended && !feed_at_end),
            ("a last line of one byte", ended && !feed_at_end && matches!(bytes[..], [_] | [.., b'\n', _])),
            ("an empty last line", ended && bytes.ends_with(b"\n\n")),
            ("empty lines alone", some && count > 1 && place == from + count),
            ("the empty text", given && limit > 0 && bytes.is_empty()),
        ];
        for (case, so) in cases {
            *self.seen.entry(case).or_default() += u64::from(so);
        }
    }

    fn unchanged(&self, text: &Text) {
        self.run.same("phc_judge's text and its guards", &|| text.shown(), &text.lent.memory, &text.before);
    }

    /// Goes on to the end with limits of at least 1: the answers are those of one call over all, and no call judges nothing.
    fn go_on(&mut self, text: &mut Text, from: usize, some_limit: &mut dyn FnMut(&mut Rng) -> usize) {
        let mut left = text.lines_from(from);
        let over_all = Call { from, limit: usize::MAX, room: left, result_room: PHC_BATCH };
        let (end, all) = self.judge(text, over_all).expect("room for all lines");
        let (mut place, mut joined, mut calls) = (from, Vec::new(), 0);
        while place < text.bytes.len() {
            let rng = &mut self.run.rng;
            let limit = some_limit(rng);
            let (room, result_room) = (limit.min(left) + rng.below(3), PHC_BATCH + rng.below(3));
            let (next, numbers) = self.judge(text, Call { from: place, limit, room, result_room }).expect("room for the batch");
            place = next;
            left -= numbers.len();
            joined.extend(numbers);
            calls += 1;
            assert!(calls <= all.len(), "a batch of no line");
        }
        let input = || format!("{} from {from}", text.shown());
        self.run.same("the batches' answers, joined,", &input, &(place.min(text.bytes.len()), joined), &(end, all));
        self.unchanged(text);
    }
}

// Lines.

fn name(rng: &mut Rng) -> Vec<u8> {
    let any = 1 + rng.below(32);
    let len = rng.pick(&[1, any, any, 32]);
    rng.of(NAME, len)
}

fn bad_name(rng: &mut Rng) -> Vec<u8> {
    match rng.below(4) {
        0 => vec![],
        1 => rng.of(NAME, 33),
        _ => {
            let mut name = name(rng);
            let place = rng.below(name.len());
            // Beside the ranges, or far from them.
            name[place] = rng.pick(b"`{/:,.A_ $\r\0\x7f\x80\xff");
            name
        }
    }
}

fn string(rng: &mut Rng) -> Vec<u8> {
    let good = |rng: &mut Rng| reference::write(&any_good_fields(rng)).unwrap();
    match rng.below(12) {
        0 => rng.pick(&KNOWN).0.as_bytes().to_vec(),
        1 | 2 => {
            let (mut s, other) = (good(rng), good(rng));
            for _ in 0..1 + rng.below(3) {
                s = mutate(rng, &s, &other);
            }
            s
        }
        3 | 4 => {
            let mut a = Arguments::of(&any_good_fields(rng));
            push_to_limit(rng, &mut a);
            spell(&a)
        }
        5 => longer_than_profiles(rng),
        6 => reference::write(&highest_fields(rng, 3)).unwrap(),
        _ => good(rng),
    }
}

fn account(rng: &mut Rng) -> Vec<u8> {
    [name(rng), string(rng)].join(&b'\t')
}

/// Of a length beside 512, or far past it; a count of 16 bits would take some for a short line.
fn long_line(rng: &mut Rng) -> Vec<u8> {
    let beginning = match rng.below(4) {
        0 => string(rng),
        1 => [bad_name(rng), string(rng)].join(&b'\t'),
        _ => account(rng),
    };
    let filler = rng.pick(&[&b"A"[..], b"$", b",a=1", b"\t", b"\r", b"\0", b"\x80"]);
    let any = 515 + rng.below(3_000);
    let len = if rng.once_in(50) { 65_536 + rng.below(512) } else { rng.pick(&[510, 511, 512, 513, 514, any]) };
    stretched(&beginning, filler, len)
}

/// A line without its line feed; random bytes and damage can hold one.
fn line(rng: &mut Rng) -> Vec<u8> {
    match rng.below(16) {
        0 => vec![],
        1 => string(rng),
        2 => name(rng),
        3 => [bad_name(rng), string(rng)].join(&b'\t'),
        4 => long_line(rng),
        5 => {
            let len = rng.below(40);
            rng.bytes(len)
        }
        6 => {
            let (line, other) = (account(rng), account(rng));
            mutate(rng, &line, &other)
        }
        7 => {
            let mut line = account(rng);
            let any = rng.below(line.len() + 1);
            let place = rng.pick(&[any, line.len()]);
            line.insert(place, rng.pick(b"\t\r\0 \x80\xff"));
            line
        }
        _ => account(rng),
    }
}

fn account_text(rng: &mut Rng) -> Vec<u8> {
    let count = match rng.below(8) {
        0 => rng.below(3),
        1 => rng.below(40),
        _ => 1 + rng.below(9),
    };
    let all_empty = rng.once_in(12);
    let mut text = Vec::new();
    for _ in 0..count {
        if !all_empty {
            text.extend(line(rng));
        }
        text.push(b'\n');
    }
    match rng.below(5) {
        0 | 1 => drop(text.pop()),
        2 => text.push(rng.pick(b"a\t$\r\0\x80")),
        _ => {}
    }
    text
}

// Calls.

fn some_place(rng: &mut Rng, text: &[u8]) -> usize {
    let any = rng.below(text.len() + 1);
    match rng.below(12) {
        0..=3 => 0,
        4..=6 => text[..any].iter().rposition(|c| *c == b'\n').map_or(0, |feed| feed + 1),
        7 | 8 => any,
        9 => text.len().saturating_sub(1),
        10 => text.len(),
        _ => rng.pick(&[text.len() + 1, text.len() + any, usize::MAX - 1, usize::MAX]),
    }
}

fn some_limit(rng: &mut Rng, lines: usize) -> usize {
    match rng.below(10) {
        0 => 0,
        1 => 1,
        2 => 2,
        3 | 4 => rng.below(lines + 4),
        5 => lines.saturating_sub(1),
        6 => lines,
        7 => lines + 1,
        8 => usize::MAX - 1,
        _ => usize::MAX,
    }
}

fn known(batches: &mut Batches) {
    for (bytes, from, limit, place, numbers) in KNOWN_BATCHES {
        let text = &mut batches.text(bytes.as_bytes());
        let given = batches.judge(text, Call { from, limit, room: numbers.len(), result_room: PHC_BATCH });
        let input = || format!("{bytes:?} from {from} with limit {limit}");
        batches.run.same("the reference's known batch", &input, &given, &Ok((place, numbers.to_vec())));
        batches.unchanged(text);
    }
    // Every place, limit and room for the answers, beside some rooms for the result.
    for bytes in ["", "\n", "a", "\n\n", "a\n\nb", EXAMPLE, EXAMPLE.trim_end()] {
        let text = &mut batches.text(bytes.as_bytes());
        for from in (0..bytes.len() + 2).chain([usize::MAX]) {
            for limit in (0..6).chain([usize::MAX]) {
                for room in 0..6 {
                    for result_room in [0, PHC_BATCH - 1, PHC_BATCH, PHC_BATCH + 1] {
                        batches.judge(text, Call { from, limit, room, result_room }).ok();
                        batches.unchanged(text);
                    }
                }
            }
        }
    }
}

/// Lines of each length beside 512, names of each length beside 32 and of each byte; every one first, in the middle and last.
fn line_limits(batches: &mut Batches) {
    let mut lines: Vec<Vec<u8>> = Vec::new();
    for len in 505..=520 {
        for beginning in ["", "ana\t$pbkdf2s2$", "ANA\t$pbkdf2s2$"] {
            lines.push(stretched(beginning.as_bytes(), b"A", len));
        }
    }
    let named = |name: &[u8]| [name, b"$pbkdf2s2"].join(&b'\t');
    lines.extend((0..40).map(|len| named(&vec![b'z'; len])));
    lines.extend((0..=u8::MAX).map(|byte| named(&[b'a', byte, b'a'])));
    for line in lines {
        for end in ["", "\n"] {
            let bytes = [&line[..], b"bo\t$pbkdf2s3", &line, b"", &line].join(&b'\n');
            let text = &mut batches.text(&[&bytes[..], end.as_bytes()].concat());
            batches.go_on(text, 0, &mut |rng| 1 + rng.below(3));
        }
    }
}

fn random(batches: &mut Batches) {
    for _ in 0..14_000 {
        let bytes = account_text(&mut batches.run.rng);
        let text = &mut batches.text(&bytes);
        for _ in 0..10 {
            let rng = &mut batches.run.rng;
            let from = some_place(rng, &bytes);
            let lines = text.lines_from(from);
            let limit = some_limit(rng, lines);
            let (room, result_room) = (some_room(rng, limit.min(lines)), some_room(rng, PHC_BATCH));
            batches.judge(text, Call { from, limit, room, result_room }).ok();
            batches.unchanged(text);
        }
        let from = some_place(&mut batches.run.rng, &bytes);
        let most = batches.run.rng.pick(&[1, 3, 12]);
        batches.go_on(text, from, &mut |rng| if rng.once_in(20) { usize::MAX } else { 1 + rng.below(most) });
    }
}

/// Texts of megabytes. Line by line they would take many minutes if a call looked at all the rest.
fn big_texts(batches: &mut Batches) {
    let mut bytes = Vec::new();
    for _ in 0..100_000 {
        bytes.extend(line(&mut batches.run.rng));
        bytes.push(b'\n');
    }
    let text = &mut batches.text(&bytes);
    batches.go_on(text, 0, &mut |_| 1);
    batches.go_on(text, 1, &mut |rng| 1 + rng.below(5_000));
    let room = text.lines_from(0) - 1;
    let refused = batches.judge(text, Call { from: 0, limit: usize::MAX, room, result_room: PHC_BATCH });
    assert_eq!(refused, Err(17), "one line more than the room");
    batches.unchanged(text);

    let text = &mut batches.text(&[b'\n'; 1_000_000]);
    batches.go_on(text, 0, &mut |rng| 1 + rng.below(1_000));
    // One long line; the end of it, from a place inside, is short enough.
    for after in ["", "\n", "\nana\t$pbkdf2s2"] {
        let text = &mut batches.text(&[&[b'a'; 4_000_000], after.as_bytes()].concat());
        for from in [0, 4_000_000 - 513, 4_000_000 - 512] {
            batches.go_on(text, from, &mut |_| 1);
        }
    }
}

fn cuts(batches: &mut Batches) {
    let text = &mut batches.text(CUTS);
    // Under the header a row has the line, the answer and the kind.
    let listed: Vec<u8> = CUTS_LISTED.lines().skip(1).map(|row| row.split('\t').nth(1).unwrap().parse().unwrap()).collect();
    let given = batches.judge(text, Call { from: 0, limit: usize::MAX, room: listed.len(), result_room: PHC_BATCH });
    batches.run.same("the listing's answers", &|| text.shown(), &given, &Ok((CUTS.len(), listed)));
    for most in [1, 2, 10, 100, 1_000] {
        batches.go_on(text, 0, &mut |rng| 1 + rng.below(most));
    }
}

/// Compares phc_judge, and counts its calls and lines in the run.
pub fn batches(run: &mut Run) {
    let mut batches = Batches { run, seen: BTreeMap::new() };
    known(&mut batches);
    line_limits(&mut batches);
    random(&mut batches);
    big_texts(&mut batches);
    cuts(&mut batches);

    for (case, times) in &batches.seen {
        assert!(*times > 1_000, "{case} came up too seldom");
    }
    assert!(run.seen[CALLS].numbers.iter().sum::<u64>() > 300_000, "too few batches");
    // The longest name, a tab and the longest string.
    assert_eq!(run.seen[LINES].longest, 32 + 1 + PHC_ROOM, "the longest accepted line");
}
