// Cases in the form that try_userspace and try_mem_domain read, and what upstream makes of them in the form that they print. So every function of the two
// modules is asked, exported or not, and a batch that is stored can be replayed where there is no Rust. A batch is its steps and its lines, each with its
// length in front (u32); the programs read at most 65,536 bytes of steps.
use crate::mem_domain::{partition_valid_decide, partitions_overlap_decide, MemDomain, MemPartition};
use crate::userspace::{self, KernelObject};
use crate::rng::Rng;
use crate::upstream::{number, record, TYPES};
use crate::{flags_of, removed, slot_answer, some_thread, validate, verdict, word_of, Tally};
use crate::{EINVAL, ENOENT, FAR_QUERY, FAR_RECYCLE, TOP, WRONG_COUNT};
use std::io::Write;

fn yes(b: bool) -> &'static str {
    if b { "yes" } else { "no" }
}

fn store(file: &mut impl Write, steps: &[u8], lines: &str) -> std::io::Result<()> {
    for part in [steps, lines.as_bytes()] {
        file.write_all(&(part.len() as u32).to_le_bytes())?;
        file.write_all(part)?;
    }
    Ok(())
}

// ---- the permission leaf

#[derive(Clone, Copy, Default)]
struct Ask { op: u8, a: u8, b: u8, c: u8, n: u32, w: u64 }

impl Ask {
    fn some(r: &mut Rng) -> Ask {
        let op = r.pick(&[0, 0, 1, 2, 2, 2, 3, 3, 4, 5, 6, 7, 8, 9, 10, 10, 10, 11, 11, 11, 11, 12, 12]);
        let (a, c) = match op { 0 | 1 | 11 => (r.below(16), 3), 12 => (r.below(8), 7), _ => (r.below(2), 1) };
        let b = if op == 0 || op == 12 { r.below(256) } else { r.below(2) };
        Ask { op, a: a as u8, b: b as u8, c: r.below(c) as u8, n: some_thread(r), w: r.next() & r.next() }
    }

    fn bytes(&self) -> Vec<u8> {
        let mut out = vec![self.op, self.a, self.b, self.c];
        out.extend(self.n.to_le_bytes());
        out.extend(self.w.to_le_bytes());
        out
    }
}

// The record, and the flag bits that upstream's has no place for.
struct Leaf { o: KernelObject, above: u8 }

impl Leaf {
    fn text(&self) -> String {
        format!("{} {} {}\n", self.o.obj_type as u8, flags_of(&self.o, self.above), word_of(&self.o))
    }

    fn step(&mut self, t: &mut Tally, s: Ask) -> String {
        match s.op {
            0 => { *self = Leaf { o: record(s.a, s.b, s.w), above: s.b }; return String::new(); }
            1 => { *self = Leaf { o: KernelObject::new(TYPES[s.a as usize]), above: 0 }; format!("new {}", self.text()) }
            2 | 3 | 4 | 8 => self.change(t, s),
            5 => { self.o.clear_all_perms(); format!("clear-all {}", self.text()) }
            6 => { self.o.init_object(); format!("init {}", self.text()) }
            7 => { self.o.uninit_object(); format!("uninit {}", self.text()) }
            9 => { self.o.make_public(); format!("make-public {}", self.text()) }
            10 => self.ask(t, s),
            11 => format!("validate {} \n", said(validate(&self.o, s.a, s.n, s.b == 1, [0, -1, 1][s.c as usize]))),
            _ => decide(s),
        }
    }

    fn change(&mut self, t: &mut Tally, s: Ask) -> String {
        let (name, code) = match s.op {
            2 => ("grant", number(self.o.grant_access(s.n))),
            3 => ("revoke", number(self.o.revoke_access(s.n))),
            4 => ("clear-thread", number(self.o.clear_thread_perm(s.n))),
            _ if s.n < 64 => ("recycle", number(self.o.recycle(s.n))),
            _ => { t.known(FAR_RECYCLE, || format!("thread {}", s.n)); ("recycle", EINVAL) }
        };
        format!("{name} {code} 0 {}", self.text())
    }

    fn ask(&self, t: &mut Tally, s: Ask) -> String {
        let bit = if s.n < 64 { format!("0 {}", self.o.has_perm(s.n) as u8) } else { format!("{EINVAL} 0") };
        if s.n >= 64 { t.known(FAR_QUERY, || format!("thread {}", s.n)); }
        let o = &self.o;
        let flags = [o.is_initialized(), o.is_public(), o.flag_alloc, o.flag_driver].map(yes).join(" ");
        format!("ask {} {flags} {bit} {} \n", yes(o.check_access(s.n, s.a == 1)), o.obj_type_get() as u8)
    }
}

fn said(code: u32) -> String {
    if code == 0 { "ok".to_string() } else { code.to_string() }
}

fn decide(s: Ask) -> String {
    let (x, y, z) = (s.a & 1 != 0, s.a & 2 != 0, s.a & 4 != 0);
    let mode = [0, -1, 1, -2, 2, 127, -128][s.c as usize];
    let judged = said(verdict(userspace::validate_decide(x, y, z, mode)));
    let flags = [userspace::init_flags_decide, userspace::uninit_flags_decide, userspace::recycle_flags_decide, userspace::make_public_flags_decide];
    let told: String = flags.iter().map(|f| format!("{} ", f(s.b))).collect();
    format!("decide {} {judged} {told}\n", yes(userspace::access_decide(x, y)))
}

// The known differences at their smallest input, all modes and all flag bytes through the free functions, then seeded steps over one record.
pub fn userspace(t: &mut Tally, r: &mut Rng, batches: u64, out: &str) -> std::io::Result<()> {
    let mut file = std::io::BufWriter::new(std::fs::File::create(out)?);
    let far = [8, 10].map(|op| Ask { op, n: 64, ..Ask::default() });
    let mut first = far.into_iter().chain((0..7 * 256).map(|k| Ask { op: 12, a: (k % 8) as u8, b: (k / 7) as u8, c: (k / 8 % 7) as u8, ..Ask::default() }));
    for _ in 0..batches {
        let (mut steps, mut lines) = (vec![], String::new());
        // each run of the program begins with a record of type 0
        let mut leaf = Leaf { o: KernelObject::new(TYPES[0]), above: 0 };
        for _ in 0..4096 {
            let s = first.next().unwrap_or_else(|| Ask::some(r));
            steps.extend(s.bytes());
            lines += &leaf.step(t, s);
            t.case();
        }
        store(&mut file, &steps, &lines)?;
    }
    file.flush()
}

// ---- memory domains

struct Board { d: MemDomain, steps: Vec<u8>, lines: String, left: usize }

pub fn active(d: &MemDomain) -> u32 {
    d.partitions.iter().filter(|p| p.size > 0).count() as u32
}

impl Board {
    fn new() -> Board {
        Board { d: MemDomain::init(), steps: vec![], lines: String::new(), left: 3276 }
    }

    fn text(&self) -> String {
        let slots = self.d.partitions.iter().enumerate().filter(|(_, p)| (p.start, p.size, p.attr) != (0, 0, 0));
        let told: String = slots.map(|(k, p)| format!("| {k} {} {} {} ", p.start, p.size, p.attr)).collect();
        format!("{} {told}\n", self.d.num_partitions)
    }

    fn put(&mut self, t: &mut Tally, op: u32, x: [u32; 4]) {
        if self.left == 0 { return; }
        self.left -= 1;
        t.case();
        for n in [op].iter().chain(&x) { self.steps.extend(n.to_le_bytes()); }
        let line = match op {
            0 => { self.d = MemDomain::init(); format!("init {}", self.text()) }
            1 => { self.d.partitions[x[0] as usize] = MemPartition { start: x[1], size: x[2], attr: x[3] }; String::new() }
            2 => { self.d.num_partitions = x[0]; String::new() }
            3 | 4 => self.change(t, op, x),
            5 => self.ask(x[0]),
            _ => windows(x),
        };
        self.lines += &line;
    }

    // A change sets upstream's count one up or down; ours (docs/SPEC.md, 3.19) is worked out from the slots, which differs where the count was wrong before.
    fn change(&mut self, t: &mut Tally, op: u32, x: [u32; 4]) -> String {
        let was = self.d;
        let (name, (code, value)) = if op == 3 {
            ("add", slot_answer(self.d.add_partition(&MemPartition { start: x[0], size: x[1], attr: x[2] })))
        } else {
            ("remove", removed(t, &mut self.d, x[0], x[1]))
        };
        if code == 0 && self.d.num_partitions != active(&self.d) {
            t.known(WRONG_COUNT, || format!("{name} ({}, {}) with count {} and {} active", x[0], x[1], was.num_partitions, active(&was)));
            self.d.num_partitions = active(&self.d);
        }
        format!("{name} {code} {value} {}", self.text())
    }

    // Upstream's one refusal stands for two here: EINVAL from slot 16 on, else ENOENT.
    fn ask(&self, a: u32) -> String {
        let d = &self.d;
        let got = d.partition_get(a).map_or(format!("{} 0 0 0", if a >= 16 { EINVAL } else { ENOENT }), |p| format!("0 {} {} {}", p.start, p.size, p.attr));
        format!("ask {} {} {} {got} \n", d.num_partitions_get(), yes(d.has_free_slot()), yes(d.contains_addr(a)))
    }
}

fn windows(x: [u32; 4]) -> String {
    let (p, q) = (MemPartition { start: x[0], size: x[1], attr: 0 }, MemPartition { start: x[2], size: x[3], attr: 0 });
    let told = [p.is_valid_rt(), partition_valid_decide(x[0], x[1]), p.overlaps(&q), partitions_overlap_decide(x[0], x[1], x[2], x[3])];
    format!("windows {} {}\n", p.end_u64(), told.map(|b| format!("{} ", yes(b))).concat())
}

// Slots of every kind: free, free but not zero, small, at either end of the addresses, all of them, and ends above the limit by one and by far.
const KINDS: [(u32, u32); 10] = [(0, 0), (64, 0), (0, 1), (64, 32), (0xFFFFFFF0, 15), (0xFFFFFFF0, 16), (TOP, 0), (TOP, 1), (TOP, TOP), (0, TOP)];

// Windows around a slot's edges.
pub fn around(start: u32, size: u32) -> Vec<(u32, u32)> {
    let end = start.wrapping_add(size);
    let starts = [start, start.wrapping_sub(1), start.wrapping_add(1), end, end.wrapping_sub(1), end.wrapping_add(1), 0, TOP];
    starts.into_iter().flat_map(|s| [(s, 0), (s, 1), (s, size), (s, TOP - s), (s, (TOP - s).wrapping_add(1))]).collect()
}

// One slot of a kind, in a record whose count is right or wrong, and one question of it.
fn limit_cases() -> Vec<([u32; 4], u32, (u32, u32))> {
    let mut out = vec![];
    for (start, size) in KINDS {
        for k in [0, 7, 15] {
            let right = (size > 0) as u32;
            for count in [right, 1 - right, 16, TOP] {
                let few = if count == right && k == 0 { usize::MAX } else { 4 };
                for window in around(start, size).into_iter().take(few) { out.push(([k, start, size, 3], count, window)); }
            }
        }
    }
    out
}

fn at_limit(b: &mut Board, t: &mut Tally, case: &([u32; 4], u32, (u32, u32))) {
    let (slot, count, (start, size)) = *case;
    for (op, asked) in [(3, [start, size, 7, 0]), (4, [start, size, 0, 0])] {
        b.put(t, 0, [0; 4]);
        b.put(t, 1, slot);
        b.put(t, 2, [count, 0, 0, 0]);
        b.put(t, op, asked);
    }
    b.put(t, 5, [start, 0, 0, 0]);
    b.put(t, 6, [start, size, slot[1], slot[2]]);
}

fn at_random(b: &mut Board, t: &mut Tally, r: &mut Rng) {
    let there = r.pick(&b.d.partitions);
    let (start, size) = match r.below(5) { 0 => r.pick(&KINDS), 1 => r.pick(&around(there.start, there.size)), _ => (32 * r.below(24) as u32, r.pick(&[1, 16, 31, 32, 33, 64])) };
    let attr = r.next() as u32;
    match r.below(40) {
        0 => b.put(t, 0, [0; 4]),
        1 => b.put(t, 1, [r.below(16) as u32, start, size, attr]),
        2 => b.put(t, 2, [r.pick(&[0, 1, 15, 16, 17, TOP]), 0, 0, 0]),
        3..=18 => b.put(t, 3, [start, size, attr, 0]),
        19..=26 => b.put(t, 4, [there.start, there.size, 0, 0]),
        27..=29 => b.put(t, 4, [start, size, 0, 0]),
        30..=35 => b.put(t, 5, [r.pick(&[start, r.0 as u32 % 18, there.start.wrapping_add(there.size)]), 0, 0, 0]),
        _ => b.put(t, 6, [start, size, there.start, there.size]),
    }
}

// Every kind of slot with every window around it, then seeded steps on a small board; with one batch alone, some of each.
pub fn mem_domain(t: &mut Tally, r: &mut Rng, batches: u64, out: &str) -> std::io::Result<()> {
    let mut file = std::io::BufWriter::new(std::fs::File::create(out)?);
    let mut limits = limit_cases();
    limits.reverse();
    let whole = batches > 1;
    for _ in 0..batches {
        let mut b = Board::new();
        // a case at a limit has ten steps
        while b.left >= if whole { 10 } else { 1638 } {
            let Some(case) = limits.pop() else { break };
            at_limit(&mut b, t, &case);
            if !whole { limits.truncate(limits.len().saturating_sub(7)); }
        }
        while b.left > 0 { at_random(&mut b, t, r); }
        store(&mut file, &b.steps, &b.lines)?;
    }
    if whole { assert!(limits.is_empty(), "more batches are needed for the limits"); }
    file.flush()
}
