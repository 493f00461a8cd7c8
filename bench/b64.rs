//! Times decoders of B64, in turn and on the same texts: the public decoder beside the plain one (crates/peers), and beside peers in Rust.
//!
//! A peer takes part where its cfg is set: `base64` is the crate base64, `base64ct` the crate of that name. A ratio past its limit ends the run
//! non-zero.

mod timing;

#[allow(dead_code)]
#[path = "../tests/reference.rs"]
mod reference;

use std::hint::black_box;
use std::time::{Duration, Instant};
use timing::quartiles;

extern "C" {
    fn peer_decode(text: *const u8, text_len: usize, buf: *mut u8, buf_len: usize) -> u64;
    fn peer_decode_plain(text: *const u8, text_len: usize, buf: *mut u8, buf_len: usize) -> u64;
}

const LENGTHS: [usize; 5] = [22, 43, 86, 1_000, 100_000];
const ROUNDS: usize = 201;
/// The least time of one sample: short, so that what disturbs one disturbs few ratios.
const SAMPLE: Duration = Duration::from_micros(200);

/// Limits from this length on: of the plain decoder's time, and of base64's.
const LIMITED_FROM: usize = 43;
const MOST_OF_PLAIN: f64 = 0.45;
const MOST_OF_BASE64: f64 = 1.2;

struct Decoder {
    name: &'static str,
    /// Decodes into the buffer; whether the text was taken.
    decode: fn(&[u8], &mut [u8]) -> bool,
    /// The public decoder takes at most so much of its time.
    limit: Option<f64>,
}

fn decoders() -> Vec<Decoder> {
    vec![
        Decoder {
            name: "b64::decode",
            // SAFETY: both slices are whole and apart.
            decode: |text, buf| unsafe { peer_decode(text.as_ptr(), text.len(), buf.as_mut_ptr(), buf.len()) == 0 },
            limit: None,
        },
        Decoder {
            name: "plain decoder",
            // SAFETY: both slices are whole and apart.
            decode: |text, buf| unsafe { peer_decode_plain(text.as_ptr(), text.len(), buf.as_mut_ptr(), buf.len()) == 0 },
            limit: Some(MOST_OF_PLAIN),
        },
        #[cfg(base64)]
        Decoder {
            name: "base64",
            decode: |text, buf| ::base64::decode_config_slice(text, ::base64::STANDARD_NO_PAD, buf).is_ok(),
            limit: Some(MOST_OF_BASE64),
        },
        #[cfg(base64ct)]
        Decoder {
            name: "base64ct",
            decode: |text, buf| <::base64ct::Base64Unpadded as ::base64ct::Encoding>::decode(text, buf).is_ok(),
            limit: None,
        },
    ]
}

fn time(decoder: &Decoder, text: &[u8], buf: &mut [u8], calls: u64) -> Duration {
    let start = Instant::now();
    for _ in 0..calls {
        black_box((decoder.decode)(black_box(text), buf));
        black_box(&buf);
    }
    start.elapsed()
}

/// So many calls that a sample takes long enough.
fn calls_in_sample(decoder: &Decoder, text: &[u8], buf: &mut [u8]) -> u64 {
    let mut calls = 1;
    while time(decoder, text, buf, calls) < SAMPLE {
        calls *= 2;
    }
    calls
}

fn main() {
    let decoders = decoders();
    println!("{ROUNDS} rounds, each of {} us or more of calls of every decoder in turn.", SAMPLE.as_micros());
    println!("Ratio: b64::decode to the decoder; of the ratios in each round, the median. From {LIMITED_FROM} characters on at most {MOST_OF_PLAIN} of the plain decoder and {MOST_OF_BASE64} of base64.");
    println!();
    println!("| text | decoder | ns a call, median | quartiles | b64::decode to it |");
    println!("|---|---|---|---|---|");
    let mut past = Vec::new();
    for len in LENGTHS {
        // Bytes spread over all values, each 256 of them in another order.
        let bytes: Vec<u8> = (0..len * 3 / 4).map(|i| (i * 167 + i / 256 * 29) as u8).collect();
        let text = reference::b64_encode(&bytes);
        assert_eq!(text.len(), len);
        let mut buf = vec![0; bytes.len()];
        for decoder in &decoders {
            buf.fill(0);
            assert!((decoder.decode)(&text, &mut buf) && buf == bytes, "{} on {len} characters", decoder.name);
        }
        let calls: Vec<u64> = decoders.iter().map(|decoder| calls_in_sample(decoder, &text, &mut buf)).collect();
        let mut samples = vec![Vec::new(); decoders.len()];
        for round in 0..ROUNDS {
            for turn in 0..decoders.len() {
                let i = (round + turn) % decoders.len();
                samples[i].push(time(&decoders[i], &text, &mut buf, calls[i]).as_nanos() as f64 / calls[i] as f64);
            }
        }
        for (decoder, times) in decoders.iter().zip(&samples) {
            let [low, median, high] = quartiles(times);
            let ratios: Vec<f64> = samples[0].iter().zip(times).map(|(own, other)| own / other).collect();
            let ratio = quartiles(&ratios)[1];
            let row = format!("| {len} characters | {} | {median:.1} | {low:.1}..{high:.1} | {ratio:.2} |", decoder.name);
            println!("{row}");
            if len >= LIMITED_FROM && decoder.limit.is_some_and(|most| ratio > most) {
                past.push(row);
            }
        }
    }
    assert!(past.is_empty(), "ratios past their limit:\n{}", past.join("\n"));
}
