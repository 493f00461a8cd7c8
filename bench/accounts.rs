//! Writes so many megabytes of ordinary Argon2 account lines: name, tab, string. The same lines each time.

#[allow(dead_code)]
#[path = "../tests/chance.rs"]
mod chance;
#[allow(dead_code)]
#[path = "../tests/reference.rs"]
mod reference;

use chance::Rng;
use reference::Fields;
use std::io::{stdout, BufWriter, Write};

/// m, t, p as programs set them.
const COSTS: [(u32, u32, u32); 5] = [(65536, 2, 1), (65536, 3, 4), (19456, 2, 1), (47104, 1, 1), (102400, 2, 8)];

fn line(rng: &mut Rng) -> Vec<u8> {
    let mut line: Vec<u8> = (0..4 + rng.below(9)).map(|_| rng.pick(b"abcdefghijklmnopqrstuvwxyz0123456789-")).collect();
    line.push(b'\t');
    let (m, t, p) = rng.pick(&COSTS);
    let id = if rng.once_in(8) { 2 } else { 3 };
    let (salt, output) = (rng.bytes(16), rng.bytes(32));
    let fields = Fields { id, version: Some(19), m, t, p, keyid: vec![], data: vec![], salt, output };
    line.extend(reference::write(&fields).unwrap());
    line.push(b'\n');
    line
}

fn main() -> std::io::Result<()> {
    let megabytes: usize = std::env::args().nth(1).and_then(|text| text.parse().ok()).expect("usage: accounts MEGABYTES");
    let mut rng = Rng::new(1);
    let mut out = BufWriter::new(stdout().lock());
    let mut left = megabytes * 1_000_000;
    while left > 0 {
        let line = line(&mut rng);
        left = left.saturating_sub(line.len());
        out.write_all(&line)?;
    }
    out.flush()
}
