// Writes the benchmark's input: make IMAGE LOG CALLS SEED. The state and the calls are those of bench/calls (seeded.rs); here they stand in
// an image (docs/SPEC.md, 9) and as sixteen bytes a call.
use std::fs::{write, File};
use std::io::{BufWriter, Write};

#[path = "../calls/seeded.rs"]
mod seeded;

fn image(s: &seeded::State) -> Vec<u8> {
    let length = 16 + 12 * 256 + 8 * 64 + 8 * 192u32;
    let mut bytes = b"WLATCH01".to_vec();
    bytes.extend(256u16.to_le_bytes());
    bytes.extend([64, 8]);
    bytes.extend(length.to_le_bytes());
    for o in &s.objects {
        bytes.extend([o.kind, o.flags, 0, 0]);
        bytes.extend(o.word.to_le_bytes());
    }
    for (id, t) in s.threads.iter().enumerate() {
        bytes.extend([id as u8, t.supervisor as u8, t.domain as u8, 0]);
        bytes.extend((t.handle as u16).to_le_bytes());
        bytes.extend([0, 0]);
    }
    for p in s.domains.iter().flatten() {
        for n in [p.start, p.size, p.attr] { bytes.extend(n.to_le_bytes()); }
    }
    bytes
}

fn main() -> std::io::Result<()> {
    let word = |k: usize| std::env::args().nth(k).expect("make IMAGE LOG CALLS SEED");
    let number = |k: usize| word(k).parse::<u64>().expect("CALLS and SEED are numbers");
    let mut r = seeded::Rng::new(number(4));
    write(word(1), image(&seeded::state(&mut r)))?;
    let mut log = BufWriter::with_capacity(1 << 16, File::create(word(2))?);
    for _ in 0..number(3) { log.write_all(&seeded::call(&mut r))?; }
    log.flush()
}
