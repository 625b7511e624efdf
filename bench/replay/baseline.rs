// Plain Rust for what `replay` does: baseline IMAGE < CALLS, one line `ANSWER VALUE` a call. The records and the functions on them are upstream's, with
// the contracts stripped (bench/replay/strip): KernelObject with its [bool; 64], validate, check_access, grant_access, MemDomain. Around them stands what
// upstream lacks and a benchmark needs: the image's records, sixteen bytes to a call, the order of refusals (docs/SPEC.md, 7), the memory check by windows as
// the latch has it, and output in one buffer. Only validate, grant and memory check are there; another operation ends the program.
// It is meant to be hard to beat: arrays of fixed length, so that few indices are tested; big reads and writes; digits written by hand, since
// `writeln!` takes longer than a call.
#![allow(dead_code, unused_variables)]
use std::io::{Read, Write};

mod error;
mod mem_domain;
mod upstream;
mod userspace;

use mem_domain::{MemDomain, MemPartition};
use upstream::{number, record, TYPES};
use userspace::{InitCheck, KernelObject, ObjType};

const HANDLES: usize = 256;
const THREADS: usize = 64;
const DOMAINS: usize = 8;

// Bytes read at a time, and bytes of output that wait.
const CHUNK: usize = 1 << 16;

#[derive(Clone, Copy)]
struct Thread { live: bool, supervisor: bool, domain: u8, handle: u16 }

// A free handle holds an object of type Any.
struct State { objects: [KernelObject; HANDLES], threads: [Thread; THREADS], domains: [MemDomain; DOMAINS] }

struct Call { op: u8, caller: u8, a: u16, b: u32, c: u32, d: u32 }

// The numbers of SPEC 1.1.
#[derive(Clone, Copy)]
struct Answer { code: u32, value: u32 }

const OK: Answer = Answer { code: 0, value: 0 };
const EINVAL: Answer = Answer { code: 1, value: 0 };
const EPERM: Answer = Answer { code: 2, value: 0 };
const EBADF: Answer = Answer { code: 3, value: 0 };

fn answer_of(errno: i32) -> Answer {
    Answer { code: number(errno), value: 0 }
}

// ---- the image: the benchmark's own, so a bad one ends the program

fn u16_at(b: &[u8], i: usize) -> u16 {
    u16::from_le_bytes([b[i], b[i + 1]])
}

fn u32_at(b: &[u8], i: usize) -> u32 {
    u32::from_le_bytes([b[i], b[i + 1], b[i + 2], b[i + 3]])
}

fn object(b: &[u8]) -> KernelObject {
    record(b[0], b[1], u32_at(b, 4) as u64 + ((u32_at(b, 8) as u64) << 32))
}

fn domain(b: &[u8]) -> MemDomain {
    let mut d = MemDomain::init();
    for (k, s) in b.chunks_exact(12).enumerate() {
        d.partitions[k] = MemPartition { start: u32_at(s, 0), size: u32_at(s, 4), attr: u32_at(s, 8) };
        d.num_partitions += (d.partitions[k].size > 0) as u32;
    }
    d
}

fn state(image: &[u8]) -> State {
    assert!(image.len() >= 16 && &image[..8] == b"WLATCH01", "baseline: not an image");
    let (objects, threads) = (u16_at(image, 8) as usize, image[10] as usize);
    let total = u32_at(image, 12) as usize;
    assert!(total == 16 + 12 * objects + 8 * threads + 192 * DOMAINS && total <= image.len(), "baseline: the image's length is wrong");
    let mut s = State {
        objects: [KernelObject::new(ObjType::Any); HANDLES],
        threads: [Thread { live: false, supervisor: false, domain: 0, handle: 0 }; THREADS],
        domains: [MemDomain::init(); DOMAINS],
    };
    let (first, rest) = image[16..total].split_at(12 * objects);
    let (second, third) = rest.split_at(8 * threads);
    for (h, b) in first.chunks_exact(12).enumerate() { s.objects[h] = object(b); }
    for b in second.chunks_exact(8) {
        s.threads[b[0] as usize] = Thread { live: true, supervisor: b[1] == 1, domain: b[2], handle: u16_at(b, 4) };
    }
    for (d, b) in third.chunks_exact(192).enumerate() { s.domains[d] = domain(b); }
    s
}

// ---- calls

fn call(b: &[u8; 16]) -> Call {
    Call { op: b[0], caller: b[1], a: u16_at(b, 2), b: u32_at(b, 4), c: u32_at(b, 8), d: u32_at(b, 12) }
}

fn mode(c: u32) -> Option<InitCheck> {
    match c as i32 {
        0 => Some(InitCheck::MustBeInit),
        -1 => Some(InitCheck::MustNotBeInit),
        1 => Some(InitCheck::DontCare),
        _ => None,
    }
}

// How many bytes a partition covers from x on with this right.
fn run_in(p: &MemPartition, x: u32, right: u32) -> u32 {
    if x >= p.start && x - p.start < p.size && p.attr & right != 0 { p.size - (x - p.start) } else { 0 }
}

impl State {
    fn taken(&self, handle: u16) -> Option<&KernelObject> {
        self.objects.get(handle as usize).filter(|o| o.obj_type != ObjType::Any)
    }

    fn validate(&self, c: &Call, me: Thread) -> Answer {
        let (Some(&expected), Some(mode), 0) = (TYPES.get(c.b as usize), mode(c.c), c.d) else { return EINVAL };
        let Some(o) = self.taken(c.a) else { return EBADF };
        match o.validate(expected, c.caller as u32, me.supervisor, mode) {
            Ok(()) => OK,
            Err(errno) => answer_of(errno),
        }
    }

    fn grant(&mut self, c: &Call, me: Thread) -> Answer {
        if c.b >= THREADS as u32 || c.c != 0 || c.d != 0 { return EINVAL; }
        let Some(o) = self.taken(c.a) else { return EBADF };
        if !o.check_access(c.caller as u32, me.supervisor) { return EPERM; }
        let target = self.threads[c.b as usize];
        if !target.live { return EINVAL; }
        if !self.objects[target.handle as usize].check_access(c.caller as u32, me.supervisor) { return EPERM; }
        answer_of(self.objects[c.a as usize].grant_access(c.b))
    }

    fn memory_check(&self, c: &Call, me: Thread) -> Answer {
        if c.a != 0 || c.d > 1 { return EINVAL; }
        if c.c == 0 || c.b as u64 + c.c as u64 > u32::MAX as u64 { return EINVAL; }
        if me.supervisor { return OK; }
        let Some(domain) = self.domains.get(me.domain as usize) else { return Answer { code: EPERM.code, value: c.b } };
        let (right, mut done) = (1 << c.d, 0);
        loop {
            let at = c.b + done;
            let run = domain.partitions.iter().map(|p| run_in(p, at, right)).find(|&n| n > 0).unwrap_or(0);
            if run == 0 { return Answer { code: EPERM.code, value: at }; }
            if run >= c.c - done { return OK; }
            done += run;
        }
    }

    fn step(&mut self, c: &Call) -> Answer {
        let Some(&me) = self.threads.get(c.caller as usize) else { return EINVAL };
        if !me.live { return EPERM; }
        match c.op {
            0 => self.validate(c, me),
            1 => self.grant(c, me),
            3 => self.memory_check(c, me),
            op => panic!("baseline: operation {op} is not part of the benchmark"),
        }
    }
}

// ---- output

fn push_decimal(out: &mut Vec<u8>, mut n: u32) {
    let mut digits = [0u8; 10];
    let mut at = digits.len();
    loop {
        at -= 1;
        digits[at] = b'0' + (n % 10) as u8;
        n /= 10;
        if n == 0 { break; }
    }
    out.extend_from_slice(&digits[at..]);
}

fn push_line(out: &mut Vec<u8>, a: Answer) {
    push_decimal(out, a.code);
    out.push(b' ');
    push_decimal(out, a.value);
    out.push(b'\n');
}

// Reads until the buffer is full or the input ends.
fn fill(input: &mut impl Read, buffer: &mut [u8]) -> std::io::Result<usize> {
    let mut n = 0;
    while n < buffer.len() {
        match input.read(&mut buffer[n..])? {
            0 => break,
            more => n += more,
        }
    }
    Ok(n)
}

fn main() -> std::io::Result<()> {
    let path = std::env::args().nth(1).expect("baseline IMAGE < CALLS");
    let mut s = state(&std::fs::read(path)?);
    let (mut input, mut output) = (std::io::stdin().lock(), std::io::stdout().lock());
    let (mut chunk, mut out) = (vec![0; CHUNK], Vec::with_capacity(CHUNK * 2));
    loop {
        let n = fill(&mut input, &mut chunk)?;
        let (calls, rest) = chunk[..n].as_chunks::<16>();
        for b in calls { push_line(&mut out, s.step(&call(b))); }
        // a last part under sixteen bytes is SHORT
        if !rest.is_empty() { push_line(&mut out, Answer { code: 7, value: 0 }); }
        output.write_all(&out)?;
        out.clear();
        if n < CHUNK { return output.flush(); }
    }
}
