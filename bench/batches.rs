//! Times account text judged in batches beside the listing's judging of it (crates/peers), on the same text in one run.

mod timing;

use std::hint::black_box;
use std::ops::Range;
use std::time::Instant;
use timing::quartiles;

extern "C" {
    fn phc_judge(
        text: *const u8, text_len: usize, from: usize, limit: usize,
        answers: *mut u8, answers_len: usize, result: *mut u8, result_len: usize,
    ) -> u64;
    fn peer_judge_all(text: *const u8, text_len: usize) -> u64;
}

const PASSES: usize = 5;
/// About the bytes of one sample: short, so that what disturbs one disturbs few ratios.
const SAMPLE: usize = 1_000_000;

/// How many of the lines in a part of a text the listing's judging accepts.
fn listing(text: &[u8], part: &Range<usize>) -> usize {
    let lines = &text[part.clone()];
    // SAFETY: the slice is whole.
    unsafe { peer_judge_all(lines.as_ptr(), lines.len()) as usize }
}

/// The same, in batches of so many lines of the whole text, each from the place that the one before gave. The slice has room for one batch.
fn batches(text: &[u8], part: &Range<usize>, limit: usize) -> usize {
    let mut answers = vec![0; limit];
    let mut result = [0; 16];
    let number = |bytes: &[u8]| u64::from_le_bytes(bytes.try_into().unwrap()) as usize;
    let (mut place, mut accepted) = (part.start, 0);
    while place < part.end {
        // SAFETY: the slices are whole and apart.
        let refused = unsafe {
            phc_judge(text.as_ptr(), text.len(), place, limit, answers.as_mut_ptr(), answers.len(), result.as_mut_ptr(), result.len())
        };
        assert_eq!(refused, 0, "a batch at {place}");
        place = number(&result[..8]);
        accepted += answers[..number(&result[8..])].iter().filter(|answer| **answer == 0).count();
    }
    accepted
}

/// Parts of so many lines that a batch of 100 ends with each; the last may be shorter.
fn parts(text: &[u8]) -> Vec<Range<usize>> {
    let ends: Vec<usize> = text.split_inclusive(|byte| *byte == b'\n').scan(0, |end, line| {
        *end += line.len();
        Some(*end)
    }).collect();
    let lines = SAMPLE * ends.len() / text.len() / 100 * 100;
    let mut starts = vec![0];
    starts.extend(ends.chunks(lines.max(100)).map(|part| part[part.len() - 1]));
    starts.windows(2).map(|pair| pair[0]..pair[1]).collect()
}

fn main() {
    let path = std::env::args().nth(1).expect("usage: batches FILE");
    let text = std::fs::read(path).unwrap();
    let parts = parts(&text);
    let lines = |part: &Range<usize>| text[part.clone()].split_inclusive(|byte| *byte == b'\n').count();
    type Judging = fn(&[u8], &Range<usize>) -> usize;
    let ways: [(&str, f64, Judging); 3] = [
        ("the listing's judging", f64::INFINITY, listing),
        ("batches of 1 line", 1.3, |text, part| batches(text, part, 1)),
        ("batches of 100 lines", 1.1, |text, part| batches(text, part, 100)),
    ];

    let mut samples = vec![Vec::new(); ways.len()];
    // The first pass warms up.
    for pass in 0..=PASSES {
        for (round, part) in parts.iter().enumerate() {
            for turn in 0..ways.len() {
                let i = (pass + round + turn) % ways.len();
                let start = Instant::now();
                let accepted = ways[i].2(black_box(&text), part);
                let milliseconds = start.elapsed().as_secs_f64() * 1000.0;
                assert_eq!(accepted, lines(part), "{}", ways[i].0);
                if pass > 0 {
                    samples[i].push(milliseconds);
                }
            }
        }
    }

    let all: usize = parts.iter().map(lines).sum();
    println!("{all} lines of a text of {} bytes, in {} parts, each way in turn on each part, {PASSES} times.", text.len(), parts.len());
    println!("Ratio: of the ratios for each part and time, the median.");
    println!();
    println!("| way | ms for all parts, median | quartiles | ratio | at most |");
    println!("|---|---|---|---|---|");
    let mut past = Vec::new();
    for ((name, most, _), times) in ways.iter().zip(&samples) {
        let passes: Vec<f64> = times.chunks(parts.len()).map(|pass| pass.iter().sum()).collect();
        let [low, median, high] = quartiles(&passes);
        let ratios: Vec<f64> = times.iter().zip(&samples[0]).map(|(time, first)| time / first).collect();
        let ratio = quartiles(&ratios)[1];
        let limit = if most.is_finite() { most.to_string() } else { "-".to_string() };
        println!("| {name} | {median:.1} | {low:.1}..{high:.1} | {ratio:.2} | {limit} |");
        if ratio > *most {
            past.push(*name);
        }
    }
    assert!(past.is_empty(), "past their limit: {}", past.join(", "));
}
