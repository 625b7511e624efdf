// The latch's `run` beside plain Rust for the same work, in one process: the same state, the same log, every answer and table compared,
// then rounds of each in turn, timed. Plain Rust: upstream's record with its [bool; 64], a thin loop over the sixteen-byte calls, the same
// memory check; fixed arrays, so that its indices need few tests.
use std::time::Instant;

mod seeded;

extern "C" {
    fn wardlatch_run(
        objects: *mut u64, objects_len: usize, threads: *mut u32, threads_len: usize, slots: *mut u32, slots_len: usize,
        log: *const u8, log_len: usize, out: *mut u32, out_len: usize, answers: *mut usize,
    ) -> u32;
}

// ---- plain Rust

#[derive(Clone, Copy)]
struct KernelObject { obj_type: u8, flags: u8, perms: [bool; 64] }

#[derive(Clone, Copy)]
struct Thread { role: u32, domain: u32, handle: u32 }

#[derive(Clone, Copy)]
struct Partition { start: u32, size: u32, attr: u32 }

#[derive(Clone)]
struct State { objects: [KernelObject; 256], threads: [Thread; 64], domains: [[Partition; 16]; 8] }

struct Call { op: u8, caller: u8, a: u16, b: u32, c: u32, d: u32 }

const OK: (u32, u32) = (0, 0);
const EINVAL: (u32, u32) = (1, 0);
const EPERM: (u32, u32) = (2, 0);
const EBADF: (u32, u32) = (3, 0);
const EADDRINUSE: (u32, u32) = (4, 0);

impl KernelObject {
    fn access(&self, t: usize, supervisor: bool) -> bool {
        supervisor || self.flags & 2 != 0 || (t < 64 && self.perms[t])
    }
}

fn decode(b: &[u8]) -> Call {
    Call {
        op: b[0],
        caller: b[1],
        a: u16::from_le_bytes([b[2], b[3]]),
        b: u32::from_le_bytes([b[4], b[5], b[6], b[7]]),
        c: u32::from_le_bytes([b[8], b[9], b[10], b[11]]),
        d: u32::from_le_bytes([b[12], b[13], b[14], b[15]]),
    }
}

impl State {
    fn validate(&self, c: &Call, me: Thread) -> (u32, u32) {
        if c.b > 15 || !(c.c == 0 || c.c == 1 || c.c == u32::MAX) || c.d != 0 { return EINVAL; }
        if c.a >= 256 { return EBADF; }
        let o = &self.objects[c.a as usize];
        if o.obj_type == 0 { return EBADF; }
        if c.b != 0 && c.b != o.obj_type as u32 { return EBADF; }
        if !o.access(c.caller as usize, me.role == 2) { return EPERM; }
        let init = o.flags & 1 != 0;
        if c.c == 0 && !init { return EINVAL; }
        if c.c == u32::MAX && init { return EADDRINUSE; }
        OK
    }

    fn grant(&mut self, c: &Call, me: Thread) -> (u32, u32) {
        if c.b >= 64 || c.c != 0 || c.d != 0 { return EINVAL; }
        if c.a >= 256 { return EBADF; }
        let supervisor = me.role == 2;
        let o = &self.objects[c.a as usize];
        if o.obj_type == 0 { return EBADF; }
        if !o.access(c.caller as usize, supervisor) { return EPERM; }
        let target = self.threads[c.b as usize];
        if target.role == 0 { return EINVAL; }
        if !self.objects[target.handle as usize].access(c.caller as usize, supervisor) { return EPERM; }
        self.objects[c.a as usize].perms[c.b as usize] = true;
        OK
    }

    fn check(&self, c: &Call, me: Thread) -> (u32, u32) {
        if c.a != 0 || c.d > 1 { return EINVAL; }
        if c.c == 0 || c.b as u64 + c.c as u64 > u32::MAX as u64 { return EINVAL; }
        if me.role == 2 { return OK; }
        if me.domain > 7 { return (2, c.b); }
        let slots = &self.domains[me.domain as usize];
        let right = 1 << c.d;
        let mut done = 0;
        while done < c.c {
            let at = c.b + done;
            let mut run = 0;
            for p in slots {
                if at >= p.start && at - p.start < p.size && p.attr & right != 0 {
                    run = p.size - (at - p.start);
                    break;
                }
            }
            if run == 0 { return (2, at); }
            if run >= c.c - done { return OK; }
            done += run;
        }
        OK
    }

    fn step(&mut self, c: &Call) -> (u32, u32) {
        if c.caller >= 64 { return EINVAL; }
        let me = self.threads[c.caller as usize];
        if me.role == 0 { return EPERM; }
        match c.op {
            0 => self.validate(c, me),
            1 => self.grant(c, me),
            3 => self.check(c, me),
            _ => EINVAL,
        }
    }

    fn run(&mut self, log: &[u8], out: &mut [u32]) -> usize {
        let mut n = 0;
        for (b, o) in log.chunks_exact(16).zip(out.chunks_exact_mut(2)) {
            let (code, value) = self.step(&decode(b));
            o[0] = code;
            o[1] = value;
            n += 1;
        }
        n
    }
}

// ---- the input, seeded

fn plain(s: &seeded::State) -> State {
    State {
        objects: s.objects.map(|o| KernelObject { obj_type: o.kind, flags: o.flags, perms: std::array::from_fn(|t| o.word >> t & 1 == 1) }),
        threads: s.threads.map(|t| Thread { role: 1 + t.supervisor as u32, domain: t.domain, handle: t.handle }),
        domains: s.domains.map(|d| d.map(|p| Partition { start: p.start, size: p.size, attr: p.attr })),
    }
}

// ---- the tables of the same state

fn tables(s: &State) -> (Vec<u64>, Vec<u32>, Vec<u32>) {
    let mut objects = Vec::new();
    for o in &s.objects {
        objects.push(o.obj_type as u64 + 256 * o.flags as u64);
        objects.push((0..64).fold(0u64, |w, t| w | (o.perms[t] as u64) << t));
    }
    let threads = s.threads.iter().flat_map(|t| [t.role, t.domain, t.handle]).collect();
    let slots = s.domains.iter().flatten().flat_map(|p| [p.start, p.size, p.attr]).collect();
    (objects, threads, slots)
}

struct Latch { objects: Vec<u64>, threads: Vec<u32>, slots: Vec<u32> }

impl Latch {
    fn run(&mut self, log: &[u8], out: &mut [u32]) -> usize {
        let mut n = 0;
        let code = unsafe {
            wardlatch_run(
                self.objects.as_mut_ptr(), self.objects.len(), self.threads.as_mut_ptr(), self.threads.len(),
                self.slots.as_mut_ptr(), self.slots.len(), log.as_ptr(), log.len(), out.as_mut_ptr(), out.len(), &mut n,
            )
        };
        assert_eq!(code, 0);
        n
    }
}

fn seconds(f: &mut dyn FnMut()) -> f64 {
    let t = Instant::now();
    f();
    t.elapsed().as_secs_f64()
}

fn main() {
    let argument = |k: usize, other: u64| std::env::args().nth(k).and_then(|x| x.parse().ok()).unwrap_or(other);
    let (n, rounds, seed) = (argument(1, 30000) as usize, argument(2, 40), argument(3, 20261115));
    let mut r = seeded::Rng::new(seed);
    let first = plain(&seeded::state(&mut r));
    let log: Vec<u8> = (0..n).flat_map(|_| seeded::call(&mut r)).collect();
    let (objects, threads, slots) = tables(&first);
    let (mut latch, mut plain) = (Latch { objects, threads, slots }, first.clone());
    let (mut out, mut want) = (vec![0u32; 2 * n], vec![0u32; 2 * n]);
    assert_eq!(latch.run(&log, &mut out), plain.run(&log, &mut want));
    assert!(out == want, "the answers differ");
    assert!(tables(&plain) == (latch.objects.clone(), latch.threads.clone(), latch.slots.clone()), "the states differ");
    let met = out.chunks(2).fold([0usize; 7], |mut a, x| { a[x[0] as usize] += 1; a });
    println!("{n} calls, seed {seed}; answers OK {} EINVAL {} EPERM {} EBADF {} EADDRINUSE {}", met[0], met[1], met[2], met[3], met[4]);
    let (mut ours, mut theirs, mut again) = (vec![], vec![], vec![]);
    for _ in 0..rounds {
        ours.push(seconds(&mut || { latch.run(&log, &mut out); }));
        theirs.push(seconds(&mut || { plain.run(&log, &mut want); }));
        again.push(seconds(&mut || { plain.run(&log, &mut want); }));
    }
    for x in [&mut ours, &mut theirs, &mut again] { x.sort_by(|a, b| a.partial_cmp(b).unwrap()); }
    let ns = |x: f64| x / n as f64 * 1e9;
    let half = rounds as usize / 2;
    println!("latch {:.1} ns a call, plain Rust {:.1} ns (least of {rounds}); {:.1} and {:.1} (median)", ns(ours[0]), ns(theirs[0]), ns(ours[half]), ns(theirs[half]));
    println!("ratio {:.3} (least), {:.3} (median); plain Rust against itself {:.3}", ours[0] / theirs[0], ours[half] / theirs[half], again[0] / theirs[0]);
}
