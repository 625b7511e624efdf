// The domain functions that the firmware's library exports, against upstream's on the same slots: answer, value and all 48 words after each question. A domain is
// taken literally here, so slots may overlap, reach past the last address, or be free with a start or attributes left.
// The words carry no count, and upstream's record does: it is set from the slots (docs/SPEC.md, 12.2), and must be theirs again after each change.
// Upstream's contracts demand sound slots, a count below 16 for add and above 0 for remove. Its bodies answer without that and are asked (docs/DIFFERENCES.md).
use crate::batches::{active, around};
use crate::mem_domain::{partition_valid_decide, partitions_overlap_decide, MemDomain, MemPartition};
use crate::rng::Rng;
use crate::{removed, slot_answer, Tally, EINVAL, ENOENT, EXTREMES, TOP};
use crate::{wardlatch_domain_add, wardlatch_domain_contains, wardlatch_domain_get, wardlatch_domain_has_free, wardlatch_domain_remove};
use crate::{wardlatch_partition_valid, wardlatch_partitions_overlap};

type Slot = [u32; 3];
type Window = (u32, u32);

fn words_of(d: &MemDomain) -> [u32; 48] {
    std::array::from_fn(|k| { let p = &d.partitions[k / 3]; [p.start, p.size, p.attr][k % 3] })
}

// The slots that are not all zero.
fn text(words: &[u32; 48]) -> String {
    let slots = words.chunks(3).enumerate().filter(|(_, s)| *s != [0; 3]);
    slots.map(|(k, s)| format!("| {k}: {} {} {} ", s[0], s[1], s[2])).collect()
}

// What a value lent holds before, so that one that is not written is seen.
const UNWRITTEN: u32 = 0xA5A5A5A5;

// How often each function gave each answer, or each truth: a run in which one never came shows too little.
const NAMES: [(&str, &[u32]); 7] =
    [("add", &[0, 1, 5]), ("remove", &[0, 6]), ("get", &[0, 1, 6]), ("has_free", &[0, 1]), ("contains", &[0, 1]), ("valid", &[0, 1]), ("overlap", &[0, 1])];

#[derive(Default)]
struct Seen([[u64; 13]; 7]);

impl Seen {
    fn note(&mut self, function: usize, answer: u32) {
        self.0[function][answer as usize % 13] += 1;
    }

    fn told(&self, t: &mut Tally, what: &str) {
        for (k, (name, answers)) in NAMES.iter().enumerate() {
            let counts: Vec<String> = answers.iter().map(|&a| format!("{a}: {}", self.0[k][a as usize])).collect();
            println!("{what}, {name}\t{}", counts.join(", "));
            t.same(answers.iter().all(|&a| self.0[k][a as usize] > 0), true, || format!("{what}: every answer of {name} comes"));
        }
    }
}

// The same slots for both. Each pointer lent below is to the 48 words or to a local.
#[derive(Clone, Copy)]
struct Both { words: [u32; 48], d: MemDomain }

impl Both {
    fn of(slots: &[Slot; 16]) -> Both {
        let partitions = slots.map(|[start, size, attr]| MemPartition { start, size, attr });
        let mut d = MemDomain { partitions, num_partitions: 0 };
        d.num_partitions = active(&d);
        Both { words: words_of(&d), d }
    }

    fn put(&mut self, k: usize, [start, size, attr]: Slot) {
        self.d.partitions[k] = MemPartition { start, size, attr };
        self.d.num_partitions = active(&self.d);
        self.words[3 * k..3 * k + 3].copy_from_slice(&[start, size, attr]);
    }

    // Compares an answer, and what stands afterwards, upstream's count with it. `was` is the domain before.
    fn same<T: PartialEq + std::fmt::Debug>(&self, t: &mut Tally, was: &[u32; 48], ours: T, upstream: T, asked: impl Fn() -> String) {
        t.case();
        t.same(ours, upstream, || format!("{} of {}", asked(), text(was)));
        t.same(self.words, words_of(&self.d), || format!("the words after {} of {}", asked(), text(was)));
        t.same(active(&self.d), self.d.num_partitions, || format!("the count after {} of {}", asked(), text(was)));
    }

    fn add(&mut self, t: &mut Tally, seen: &mut Seen, (start, size): Window, attr: u32) {
        let (was, mut slot) = (self.words, UNWRITTEN);
        let code = unsafe { wardlatch_domain_add(self.words.as_mut_ptr(), 48, start, size, attr, &mut slot) };
        let wanted = slot_answer(self.d.add_partition(&MemPartition { start, size, attr }));
        seen.note(0, code);
        self.same(t, &was, (code, slot), wanted, || format!("add ({start}, {size}) attr {attr}"));
    }

    fn remove(&mut self, t: &mut Tally, seen: &mut Seen, (start, size): Window) {
        let (was, mut slot) = (self.words, UNWRITTEN);
        let code = unsafe { wardlatch_domain_remove(self.words.as_mut_ptr(), 48, start, size, &mut slot) };
        let wanted = removed(t, &mut self.d, start, size);
        seen.note(1, code);
        self.same(t, &was, (code, slot), wanted, || format!("remove ({start}, {size})"));
    }

    // Upstream's one refusal stands for two here: EINVAL from slot 16 on, else ENOENT.
    fn get(&self, t: &mut Tally, seen: &mut Seen, index: u32) {
        let (mut start, mut size, mut attr) = (UNWRITTEN, UNWRITTEN, UNWRITTEN);
        let code = unsafe { wardlatch_domain_get(self.words.as_ptr(), 48, index, &mut start, &mut size, &mut attr) };
        let refused = (if index >= 16 { EINVAL } else { ENOENT }, 0, 0, 0);
        let wanted = self.d.partition_get(index).map_or(refused, |p| (0, p.start, p.size, p.attr));
        seen.note(2, code);
        self.same(t, &self.words, (code, start, size, attr), wanted, || format!("get {index}"));
    }

    fn has_free(&self, t: &mut Tally, seen: &mut Seen) {
        let mut value = UNWRITTEN;
        let code = unsafe { wardlatch_domain_has_free(self.words.as_ptr(), 48, &mut value) };
        seen.note(3, value);
        self.same(t, &self.words, (code, value), (0, self.d.has_free_slot() as u32), || "has_free".to_string());
    }

    fn contains(&self, t: &mut Tally, seen: &mut Seen, addr: u32) {
        let mut value = UNWRITTEN;
        let code = unsafe { wardlatch_domain_contains(self.words.as_ptr(), 48, addr, &mut value) };
        seen.note(4, value);
        self.same(t, &self.words, (code, value), (0, self.d.contains_addr(addr) as u32), || format!("contains {addr}"));
    }

    // Each question of the same domain: what changes it is asked of a copy. Windows of one start stand together, so that its address is asked for once.
    fn all(&self, t: &mut Tally, seen: &mut Seen, windows: &[Window], attr: u32) {
        self.has_free(t, seen);
        for index in 0..=17 { self.get(t, seen, index); }
        let mut asked = None;
        for &window in windows {
            { *self }.add(t, seen, window, attr);
            { *self }.remove(t, seen, window);
            if asked.replace(window.0) != Some(window.0) { self.contains(t, seen, window.0); }
        }
    }
}

// Upstream has each of the two twice, as a method and as a free function.
fn windows(t: &mut Tally, seen: &mut Seen, (start, size): Window, (other, other_size): Window) {
    let (p, q) = (MemPartition { start, size, attr: 0 }, MemPartition { start: other, size: other_size, attr: 0 });
    let ours = unsafe { (wardlatch_partition_valid(start, size), wardlatch_partitions_overlap(start, size, other, other_size)) };
    seen.note(5, ours.0 as u32);
    seen.note(6, ours.1 as u32);
    t.case();
    t.same(ours, (p.is_valid_rt(), p.overlaps(&q)), || format!("valid and overlap ({start}, {size}) ({other}, {other_size})"));
    let decided = (partition_valid_decide(start, size), partitions_overlap_decide(start, size, other, other_size));
    t.same(ours, decided, || format!("valid and overlap, decided, ({start}, {size}) ({other}, {other_size})"));
}

// ---- exhaustively over small sets

// Numbers at which an end meets a start or a limit.
const EDGES: [u32; 17] = [0, 1, 2, 15, 16, 31, 32, 33, 64, 0x7FFFFFFF, 0x80000000, 0x80000001, TOP - 16, TOP - 15, TOP - 2, TOP - 1, TOP];

fn every_two_windows(t: &mut Tally, seen: &mut Seen) {
    for a in EDGES {
        for b in EDGES {
            for c in EDGES {
                for d in EDGES { windows(t, seen, (a, b), (c, d)); }
            }
        }
    }
}

// Free slots, clean and not; the smallest; two that touch and one that overlaps both; the smallest at the end; the largest; ending at the last address that a
// sound one may end at, one past it and far past it.
const SLOTS: [Slot; 14] = [
    [0, 0, 0], [64, 0, 0], [0, 0, 3], [TOP, 0, TOP], [0, 1, 1], [64, 32, 3], [96, 32, 5], [80, 32, 7], [TOP - 1, 1, 1],
    [0, TOP, 3], [TOP - 15, 15, 1], [TOP - 15, 16, 1], [TOP, 1, 8], [TOP, TOP, TOP],
];

// The other slots of a domain: all free, or all small windows that meet none of the above but the largest.
fn others(full: bool) -> [Slot; 16] {
    std::array::from_fn(|k| if full { [0x1000_0000 + 64 * k as u32, 16, 3] } else { [0; 3] })
}

const PLACES: [[usize; 3]; 3] = [[0, 1, 2], [0, 7, 15], [13, 14, 15]];

// Three slots of every kind, among free ones and among full ones, and every window around their edges: so from none to three are active, or from 13 to 16.
fn every_kind(t: &mut Tally, seen: &mut Seen) {
    for n in 0..2 * SLOTS.len().pow(3) {
        let (m, kinds) = (n / 2, SLOTS.len());
        let three = [SLOTS[m % kinds], SLOTS[m / kinds % kinds], SLOTS[m / kinds / kinds]];
        let mut asked: Vec<Window> = three.iter().flat_map(|s| around(s[0], s[1])).collect();
        asked.sort();
        asked.dedup();
        for places in PLACES {
            let mut slots = others(n % 2 == 1);
            for (k, s) in places.into_iter().zip(three) { slots[k] = s; }
            Both::of(&slots).all(t, seen, &asked, 0x80000007);
        }
    }
    for index in EXTREMES { Both::of(&others(true)).get(t, seen, index); }
}

// All domains of three slots on a board of a few addresses, at the beginning and at the end, and all windows there.
fn every_small(t: &mut Tally, seen: &mut Seen) {
    for first in [0, TOP - 4] {
        let board: Vec<Window> = (first..=first + 4).flat_map(|start| (0..=4).map(move |size| (start, size))).collect();
        let n = board.len();
        for m in 0..2 * n.pow(3) {
            let mut slots = others(m % 2 == 1);
            for (k, (start, size)) in [(3, board[m / 2 % n]), (4, board[m / 2 / n % n]), (12, board[m / 2 / n / n])] { slots[k] = [start, size, k as u32]; }
            Both::of(&slots).all(t, seen, &board, 3);
        }
    }
}

// ---- at random

// A window on a small board, so that they meet often and domains fill; or of a kind above; or at the edges of one that is there.
fn some_window(r: &mut Rng, there: &MemPartition) -> Window {
    match r.below(8) {
        0 => { let s = r.pick(&SLOTS); (s[0], s[1]) }
        1 => r.pick(&around(there.start, there.size)),
        2 => (r.pick(&EDGES), r.pick(&EDGES)),
        _ => (32 * r.below(24) as u32, r.pick(&[1, 16, 31, 32, 33, 64])),
    }
}

// A domain anew, empty or full, and whether slots are put into it past add and remove, which makes it unsound.
fn anew(r: &mut Rng) -> (Both, bool) {
    let (full, wild) = (r.one_in(2), r.one_in(2));
    (Both::of(&others(full)), wild)
}

fn at_random(t: &mut Tally, seen: &mut Seen, r: &mut Rng, cases: u64) {
    let (mut b, mut wild) = anew(r);
    for _ in 0..cases {
        if r.one_in(128) { (b, wild) = anew(r); }
        // an active slot more often than a free one
        let two = [r.pick(&b.d.partitions), r.pick(&b.d.partitions)];
        let there = two[(two[0].size == 0) as usize];
        let (window, attr) = (some_window(r, &there), r.pick(&[0, 1, 3, 5, 7, TOP, r.0 as u32]));
        let end = there.start.wrapping_add(there.size);
        if wild && r.one_in(8) { b.put(r.below(16), [window.0, window.1, attr]); }
        match r.below(16) {
            0..=6 => b.add(t, seen, window, attr),
            7 | 8 => b.remove(t, seen, (there.start, there.size)),
            9 => b.remove(t, seen, window),
            10 => b.get(t, seen, r.pick(&[r.0 as u32 % 18, r.0 as u32])),
            11 => b.has_free(t, seen),
            12 | 13 => b.contains(t, seen, r.pick(&[window.0, there.start, end, end.wrapping_sub(1)])),
            _ => windows(t, seen, window, (there.start, there.size)),
        }
    }
}

pub fn compared(t: &mut Tally, r: &mut Rng, cases: u64) {
    let (mut small, mut random) = (Seen::default(), Seen::default());
    every_kind(t, &mut small);
    every_small(t, &mut small);
    every_two_windows(t, &mut small);
    small.told(t, "every domain");
    at_random(t, &mut random, r, cases);
    random.told(t, "random domains");
}
