// Upstream as the oracle: gale's functions, their contracts stripped (bench/replay/strip), get the same inputs as the proved code, and every result is compared.
//
//     oracle leaf|domains SEED CASES         the firmware's library in this process: the permission leaf and the errors; domains by calls and by themselves
//     oracle userspace|mem_domain SEED BATCHES OUT   cases for try_userspace and try_mem_domain, with upstream's answers (batches.rs)
//
// Where the two are known to differ the other answer is worked out here and the case is counted by name, with the first input that met it; inputs come small
// ones first. Prints `cases N`, a line `difference NAME INPUT COUNT` each, and `wrong WHAT` for any other difference, which ends it with status 1.
#![allow(dead_code, unused_variables)]
use std::collections::BTreeMap;

mod batches;
mod domains;
mod error;
mod mem_domain;
mod rng;
mod upstream;
mod userspace;

use mem_domain::{MemDomain, MemPartition};
use rng::Rng;
use upstream::{number, record, TYPES};
use userspace::{InitCheck, KernelObject};

// include/wardlatch.h says what each returns and leaves.
extern "C" {
    fn wardlatch_grant(word: *mut u64, tid: u32) -> u32;
    fn wardlatch_revoke(word: *mut u64, tid: u32) -> u32;
    fn wardlatch_recycle(flags: *mut u8, word: *mut u64, tid: u32) -> u32;
    fn wardlatch_has_perm(word: u64, tid: u32, value: *mut u32) -> u32;
    fn wardlatch_check_access(flags: u8, word: u64, tid: u32, supervisor: bool) -> bool;
    fn wardlatch_validate(kind: u8, flags: u8, word: u64, expected: u8, tid: u32, supervisor: bool, mode: i32) -> u32;
    fn wardlatch_to_errno(answer: u32, value: *mut i32) -> u32;
    fn wardlatch_domain_add(domain: *mut u32, domain_len: usize, start: u32, size: u32, attr: u32, slot: *mut u32) -> u32;
    fn wardlatch_domain_remove(domain: *mut u32, domain_len: usize, start: u32, size: u32, slot: *mut u32) -> u32;
    fn wardlatch_domain_get(domain: *const u32, domain_len: usize, index: u32, start: *mut u32, size: *mut u32, attr: *mut u32) -> u32;
    fn wardlatch_domain_has_free(domain: *const u32, domain_len: usize, value: *mut u32) -> u32;
    fn wardlatch_domain_contains(domain: *const u32, domain_len: usize, addr: u32, value: *mut u32) -> u32;
    fn wardlatch_partition_valid(start: u32, size: u32) -> bool;
    fn wardlatch_partitions_overlap(start: u32, size: u32, other_start: u32, other_size: u32) -> bool;
    fn wardlatch_run(
        objects: *mut u64, objects_len: usize, threads: *mut u32, threads_len: usize, slots: *mut u32, slots_len: usize,
        log: *const u8, log_len: usize, out: *mut u32, out_len: usize, answers: *mut usize,
    ) -> u32;
}

// ---- upstream's answers

pub const EINVAL: u32 = 1;
pub const ENOENT: u32 = 6;
pub const TOP: u32 = u32::MAX;

pub fn verdict(r: Result<(), i32>) -> u32 {
    r.map_or_else(number, |()| 0)
}

// The code and the value of an answer that names a slot.
pub fn slot_answer(r: Result<u32, i32>) -> (u32, u32) {
    r.map_or_else(|errno| (number(errno), 0), |slot| (0, slot))
}

pub fn word_of(o: &KernelObject) -> u64 {
    o.thread_perms.iter().rev().fold(0, |w, &held| 2 * w + held as u64)
}

// Flag bits above upstream's four are carried beside the record.
pub fn flags_of(o: &KernelObject, above: u8) -> u8 {
    o.flag_initialized as u8 + 2 * o.flag_public as u8 + 4 * o.flag_alloc as u8 + 8 * o.flag_driver as u8 + (above & 0xF0)
}

// Upstream's validate for its three modes; the rest, which a raw mode can name, by its validate_decide.
pub fn validate(o: &KernelObject, expected: u8, tid: u32, supervisor: bool, mode: i32) -> u32 {
    let check = match mode { 0 => InitCheck::MustBeInit, -1 => InitCheck::MustNotBeInit, 1 => InitCheck::DontCare, _ => return raw(o, expected, tid, supervisor, mode) };
    verdict(o.validate(TYPES[expected as usize], tid, supervisor, check))
}

// A mode that does not fit upstream's eight bits is one that means either.
fn raw(o: &KernelObject, expected: u8, tid: u32, supervisor: bool, mode: i32) -> u32 {
    let fits = expected == 0 || o.obj_type == TYPES[expected as usize];
    verdict(userspace::validate_decide(fits, o.check_access(tid, supervisor), o.is_initialized(), i8::try_from(mode).unwrap_or(2)))
}

// ---- counting

pub const EXTREMES: [u32; 9] = [127, 128, 255, 256, 65535, 65536, 0x7FFFFFFF, 0x80000000, u32::MAX];

// Threads around the limit more often than others.
pub fn some_thread(r: &mut Rng) -> u32 {
    if r.one_in(4) { r.pick(&EXTREMES) } else { r.below(71) as u32 }
}

#[derive(Default)]
pub struct Tally { cases: u64, known: BTreeMap<&'static str, (String, u64)>, wrong: u64 }

impl Tally {
    pub fn case(&mut self) {
        self.cases += 1;
    }

    pub fn known(&mut self, name: &'static str, input: impl FnOnce() -> String) {
        self.known.entry(name).or_insert_with(|| (input(), 0)).1 += 1;
    }

    // Compares, and names the input where the two differ; the first ten are printed.
    fn same<T: PartialEq + std::fmt::Debug>(&mut self, ours: T, upstream: T, input: impl FnOnce() -> String) {
        if ours == upstream { return; }
        self.wrong += 1;
        if self.wrong <= 10 { println!("wrong\t{}: {ours:?}, upstream {upstream:?}", input()); }
    }

    fn told(&self) -> bool {
        println!("cases\t{}", self.cases);
        for (name, (input, n)) in &self.known { println!("difference\t{name}\t{input}\t{n}"); }
        self.wrong == 0
    }
}

pub const FAR_RECYCLE: &str = "recycle of a thread from 64 on";
pub const FAR_QUERY: &str = "has_perm of a thread from 64 on";
pub const EMPTY_REMOVE: &str = "remove with size 0 where a free slot has that start";
pub const WRONG_COUNT: &str = "add or remove in a record whose count is not that of its slots";

// ---- the permission leaf

// The functions that change a record or ask for a bit, at one thread.
fn bits(t: &mut Tally, flags: u8, word: u64, tid: u32) {
    let at = |name: &str| format!("{name} flags {flags} word {word} thread {tid}");
    let (mut granted, mut revoked) = (record(2, flags, word), record(2, flags, word));
    let wanted = [number(granted.grant_access(tid)), number(revoked.revoke_access(tid))];
    let (mut more, mut less) = (word, word);
    let codes = unsafe { [wardlatch_grant(&mut more, tid), wardlatch_revoke(&mut less, tid)] };
    t.same((codes, more, less), (wanted, word_of(&granted), word_of(&revoked)), || at("grant and revoke"));
    let (mut new_flags, mut new_word, mut value) = (flags, word, 7);
    let recycled = unsafe { wardlatch_recycle(&mut new_flags, &mut new_word, tid) };
    let asked = unsafe { wardlatch_has_perm(word, tid, &mut value) };
    t.case();
    if tid >= 64 {
        // upstream demands a thread below 64 here, and would index behind its table
        t.known(FAR_RECYCLE, || format!("thread {tid}"));
        t.known(FAR_QUERY, || format!("thread {tid}"));
        t.same((recycled, new_flags, new_word, asked, value), (EINVAL, flags, word, EINVAL, 0), || at("recycle and has_perm"));
        return;
    }
    let mut o = record(2, flags, word);
    let held = o.has_perm(tid) as u32;
    let code = number(o.recycle(tid));
    t.same((recycled, new_flags, new_word, asked, value), (code, flags_of(&o, flags), word_of(&o), 0, held), || at("recycle and has_perm"));
}

fn judge(t: &mut Tally, o: &KernelObject, kind: u8, flags: u8, word: u64, expected: u8, tid: u32, supervisor: bool, mode: i32) {
    let (ours, access) = unsafe { (wardlatch_validate(kind, flags, word, expected, tid, supervisor, mode), wardlatch_check_access(flags, word, tid, supervisor)) };
    let wanted = (validate(o, expected, tid, supervisor, mode), o.check_access(tid, supervisor));
    t.case();
    t.same((ours, access), wanted, || format!("validate type {kind} flags {flags} word {word} expected {expected} thread {tid} supervisor {supervisor} mode {mode}"));
}

// Threads 0 to 70 and the extremes, each with its bit set alone and clear alone.
fn words_at(tid: u32) -> [u64; 4] {
    let bit = if tid < 64 { 1 << tid } else { 0 };
    [0, u64::MAX, bit, !bit]
}

fn every_leaf_case(t: &mut Tally) {
    let threads: Vec<u32> = (0..=70).chain(EXTREMES).collect();
    for &tid in &threads {
        for flags in 0..=255 {
            for word in words_at(tid) { bits(t, flags, word, tid); }
            for kind in 0..16 {
                for word in &words_at(tid)[2..] { every_question(t, kind, flags, *word, tid); }
            }
        }
    }
    // every raw mode of eight bits, and those beyond
    for mode in (-128..=127).chain([255, 256, 65535, i32::MAX, i32::MIN, -129]) {
        for flags in 0..=255 {
            for (kind, expected) in [(1, 0), (1, 1), (1, 2)] {
                for word in [0, 1 << 63] { judge(t, &record(kind, flags, word), kind, flags, word, expected, 63, false, mode); }
            }
        }
    }
}

fn every_question(t: &mut Tally, kind: u8, flags: u8, word: u64, tid: u32) {
    let o = record(kind, flags, word);
    for expected in 0..16 {
        for supervisor in [false, true] {
            for mode in [0, -1, 1] { judge(t, &o, kind, flags, word, expected, tid, supervisor, mode); }
        }
    }
}

fn random_leaf_cases(t: &mut Tally, r: &mut Rng, cases: u64) {
    for _ in 0..cases {
        let (kind, flags, tid) = (r.below(16) as u8, r.next() as u8, some_thread(r));
        let word = match r.below(3) { 0 => r.next() & r.next() & r.next(), 1 => r.next(), _ => r.next() | r.next() | r.next() };
        let expected = r.pick(&[0, kind, r.0 as u8 % 16]);
        let mode = r.pick(&[0, -1, 1, r.0 as i8 as i32, r.0 as i32]);
        judge(t, &record(kind, flags, word), kind, flags, word, expected, tid, r.0 % 3 == 0, mode);
        bits(t, flags, word, tid);
    }
}

// Upstream's two functions that demand a thread below 64 do end the program there: seen once, so that the list of differences says the truth.
fn upstream_panics() -> bool {
    std::panic::set_hook(Box::new(|_| {}));
    let recycle = std::panic::catch_unwind(|| record(2, 0, 0).recycle(64)).is_err();
    let query = std::panic::catch_unwind(|| record(2, 0, 0).has_perm(64)).is_err();
    let _ = std::panic::take_hook();
    recycle && query
}

// ---- the errors

// Upstream's constants are the oracle for 0 to 6; no other answer has one.
fn every_error(t: &mut Tally) {
    let upstream = [error::OK, error::EINVAL, error::EPERM, error::EBADF, error::EADDRINUSE, error::ENOSPC, error::ENOENT];
    for answer in (0..=20).chain(EXTREMES) {
        let mut value = 7;
        let code = unsafe { wardlatch_to_errno(answer, &mut value) };
        let wanted = upstream.get(answer as usize).map_or((EINVAL, 0), |&errno| (0, errno));
        t.case();
        t.same((code, value), wanted, || format!("to_errno {answer}"));
    }
}

// ---- domains, by calls

const CHUNK: usize = 4096;

// Thread 0 is a supervisor; thread d + 1 has domain d. Their objects are handles 0 to 8.
struct Latch { objects: Vec<u64>, threads: Vec<u32>, slots: Vec<u32>, out: Vec<u32> }

impl Latch {
    fn new() -> Latch {
        let (mut objects, mut threads) = (vec![0; 512], vec![0; 192]);
        for h in 0..9 {
            objects[2 * h] = 1;
            let (role, domain) = if h == 0 { (2, 255) } else { (1, h as u32 - 1) };
            threads[3 * h..3 * h + 3].copy_from_slice(&[role, domain, h as u32]);
        }
        Latch { objects, threads, slots: vec![0; 384], out: vec![0; 2 * CHUNK] }
    }

    fn run(&mut self, log: &[u8]) -> usize {
        let mut n = 0;
        // SAFETY: each pointer comes with the length of its own vector
        let code = unsafe {
            wardlatch_run(
                self.objects.as_mut_ptr(), self.objects.len(), self.threads.as_mut_ptr(), self.threads.len(),
                self.slots.as_mut_ptr(), self.slots.len(), log.as_ptr(), log.len(), self.out.as_mut_ptr(), self.out.len(), &mut n,
            )
        };
        assert_eq!(code, 0, "the state is sound");
        n
    }
}

#[derive(Clone, Copy)]
struct Step { op: u8, domain: usize, start: u32, size: u32, attr: u32 }

impl Step {
    // Windows on a small board, so that they meet often and domains fill, or at the ends of the addresses.
    fn some(r: &mut Rng, domains: &[MemDomain; 8]) -> Step {
        let domain = r.below(8);
        let there = r.pick(&domains[domain].partitions);
        let edge = r.pick(&[0, 1, 15, 16, 0x7FFFFFFF, 0x80000000, 0xFFFFFFF0, TOP - 1, TOP]);
        let (near, small) = (32 * r.below(24) as u32, r.pick(&[1, 16, 31, 32, 33, 64]));
        let start = r.pick(&[near, near, near, edge, there.start, there.start.wrapping_add(there.size)]);
        let size = r.pick(&[small, small, small, there.size, TOP - start, (TOP - start).wrapping_add(1), 0]);
        match r.below(8) {
            0..=3 => Step { op: 27, domain, start, size, attr: r.pick(&[1, 3, 5, 7]) },
            4 | 5 => Step { op: 28, domain, start: there.start, size: there.size, attr: 0 },
            6 => Step { op: 28, domain, start, size, attr: 0 },
            // the last address ends above the limit for a check, so it is not asked for
            _ => Step { op: 3, domain, start: start.min(TOP - 1), size: 1, attr: 0 },
        }
    }

    fn bytes(&self) -> [u8; 16] {
        let mut b = [0; 16];
        b[0] = self.op;
        if self.op == 3 { b[1] = self.domain as u8 + 1; } else { b[2] = self.domain as u8; }
        b[4..8].copy_from_slice(&self.start.to_le_bytes());
        b[8..12].copy_from_slice(&self.size.to_le_bytes());
        b[12..16].copy_from_slice(&self.attr.to_le_bytes());
        b
    }

    // Upstream's answer; every attribute that a call may store lets read, so a check of one byte is upstream's contains_addr.
    fn upstream(&self, t: &mut Tally, d: &mut MemDomain) -> (u32, u32) {
        match self.op {
            27 => slot_answer(d.add_partition(&MemPartition { start: self.start, size: self.size, attr: self.attr })),
            28 => removed(t, d, self.start, self.size),
            _ => if d.contains_addr(self.start) { (0, 0) } else { (2, self.start) },
        }
    }
}

// Upstream's remove, but for size 0: there it takes a free slot for a match, and docs/SPEC.md, 3.17, says ENOENT.
pub fn removed(t: &mut Tally, d: &mut MemDomain, start: u32, size: u32) -> (u32, u32) {
    let mut after = *d;
    let got = slot_answer(after.remove_partition(start, size));
    if size == 0 && got.0 == 0 {
        t.known(EMPTY_REMOVE, || format!("remove ({start}, 0)"));
        return (ENOENT, 0);
    }
    *d = after;
    got
}

fn domain_cases(t: &mut Tally, r: &mut Rng, cases: u64) {
    let (mut latch, mut domains) = (Latch::new(), [MemDomain::init(); 8]);
    // the smallest first
    let mut first = vec![Step { op: 28, domain: 0, start: 0, size: 0, attr: 0 }];
    for _ in 0..cases.div_ceil(CHUNK as u64) {
        let (mut log, mut wanted, mut steps) = (vec![], vec![], vec![]);
        while steps.len() < CHUNK {
            let step = first.pop().unwrap_or_else(|| Step::some(r, &domains));
            wanted.push(step.upstream(t, &mut domains[step.domain]));
            log.extend(step.bytes());
            steps.push(step);
            t.case();
        }
        assert_eq!(latch.run(&log), CHUNK);
        for (k, s) in steps.iter().enumerate() {
            t.same((latch.out[2 * k], latch.out[2 * k + 1]), wanted[k], || format!("call {} domain {} start {} size {}", s.op, s.domain, s.start, s.size));
        }
        let slots: Vec<u32> = domains.iter().flat_map(|d| d.partitions).flat_map(|p| [p.start, p.size, p.attr]).collect();
        t.same(latch.slots == slots, true, || "the slots after a log".to_string());
        t.same(domains.map(|d| d.num_partitions), domains.map(|d| d.partitions.iter().filter(|p| p.size > 0).count() as u32), || "upstream's count".to_string());
    }
}

fn main() {
    let words: Vec<String> = std::env::args().skip(1).collect();
    let number = |k: usize| words.get(k).and_then(|w| w.parse::<u64>().ok()).expect("SEED and CASES are numbers");
    let (mut t, mut r) = (Tally::default(), Rng(number(1)));
    match words[0].as_str() {
        "leaf" => {
            assert!(upstream_panics(), "upstream answers where it demands a thread below 64");
            every_error(&mut t);
            every_leaf_case(&mut t);
            println!("exhaustive\t{}", t.cases);
            random_leaf_cases(&mut t, &mut r, number(2));
        }
        "domains" => {
            domains::compared(&mut t, &mut r, number(2));
            domain_cases(&mut t, &mut r, number(2));
        }
        "userspace" => batches::userspace(&mut t, &mut r, number(2), &words[3]).expect("the batches can be written"),
        "mem_domain" => batches::mem_domain(&mut t, &mut r, number(2), &words[3]).expect("the batches can be written"),
        other => panic!("oracle {other}: leaf, domains, userspace or mem_domain"),
    }
    std::process::exit(if t.told() { 0 } else { 1 });
}
