// Makes images and logs from a seed, and what the model of docs/SPEC.md (model.rs) says of them.
//
//     generate SEED CASES CALLS OUT        writes CASES cases to OUT and prints what they met, a line each: `pair OP WHY CODE COUNT`, `damage KIND CODE COUNT`
//     generate answer IMAGE < CALLS        what `replay` must print
//
// A case is an image, good or damaged, a log and the answers, each with its length in front (u32). The generator follows its own log with the model, so that it
// can aim: at taken and free handles, live and dead threads, the edges of windows; most calls are right but for one thing. A log ends with a probe, which asks
// for every object, thread and window that the model has, since `replay` shows its state by answers alone.
use std::collections::BTreeMap;
use std::io::{Read, Write};

mod model;
mod rng;
use model::*;
use rng::Rng;

// ---- chance

// A number near the edges of a field of 32 bits, or anywhere in it.
fn number(r: &mut Rng) -> u32 {
    let edge = r.pick(&[0u32, 1, 2, 7, 8, 15, 16, 63, 64, 254, 255, 256, 65535, 65536, 0x7FFFFFFF, 0x80000000, 0xFFFFFFFE, 0xFFFFFFFF]);
    if r.one_in(4) { r.next() as u32 } else { edge }
}

// ---- good states

// Windows from left to right, some next to each other, some at either end of the addresses; then put into slots in any order.
fn windows(r: &mut Rng) -> Vec<Option<Partition>> {
    let count = [0, r.below(5), r.below(17), 16][r.below(4)];
    let mut at = if r.one_in(4) { 0 } else { r.next() % (1 << r.pick(&[12, 20, 31])) };
    let mut slots = vec![None; SLOTS];
    for slot in slots.iter_mut().take(count) {
        let size = 1 + r.next() % (1 << r.pick(&[1, 5, 12, 24]));
        if at + size > TOP { break; }
        *slot = Some(Partition { start: at as u32, size: size as u32, attr: r.pick(&[1, 3, 5, 7]) });
        at += size + if r.one_in(2) { 0 } else { 1 + r.next() % (1 << r.pick(&[1, 8, 26])) };
    }
    // the last address that a window may have
    if count > 0 && r.one_in(3) && at < TOP {
        let size = 1 + r.next() % (TOP - at).min(4096);
        slots[count - 1] = None;
        slots[SLOTS - 1] = Some(Partition { start: (TOP - size) as u32, size: size as u32, attr: 3 });
    }
    for k in (1..SLOTS).rev() { let j = r.below(k + 1); slots.swap(k, j); }
    slots
}

fn good(r: &mut Rng) -> State {
    let mut s = State::empty();
    let most = [0, 1 + r.below(8), 1 + r.below(HANDLES), HANDLES][r.pick(&[0, 1, 1, 2, 2, 2, 3])];
    let sparse = 1 + r.below(3);
    for h in 0..most {
        if r.below(sparse + 1) == 0 { continue; }
        let kind = if r.one_in(2) { 1 } else { 1 + r.below(15) as u8 };
        s.objects[h] = Some(Object { kind, flags: r.below(16) as u8, holders: [false; THREADS] });
    }
    let all = r.one_in(3);
    let mut ids: Vec<usize> = (0..THREADS).filter(|_| all || r.one_in(3)).collect();
    for h in 0..HANDLES {
        if s.objects[h].as_ref().is_none_or(|o| o.kind != 1) || ids.is_empty() || r.one_in(6) { continue; }
        let id = ids.swap_remove(r.below(ids.len()));
        let domain = r.pick(&[0, 1, 2, 3, 4, 5, 6, 7, NO_DOMAIN]);
        s.threads[id] = Some(Thread { supervisor: r.one_in(3), domain, handle: h as u16 });
    }
    let live: Vec<usize> = (0..THREADS).filter(|&t| s.live(t)).collect();
    for o in s.objects.iter_mut().flatten() {
        for &t in &live { o.holders[t] = r.one_in(2); }
        if r.one_in(2) { o.flags &= !2; }
    }
    s.domains = (0..DOMAINS).map(|_| windows(r)).collect();
    s
}

// ---- damage

// Where the parts of an image stand.
struct Places { objects: usize, threads: usize }

impl Places {
    fn of(image: &[u8]) -> Places {
        Places { objects: image[8] as usize + 256 * image[9] as usize, threads: image[10] as usize }
    }

    fn object(&self, h: usize) -> usize { 16 + 12 * h }
    fn thread(&self, k: usize) -> usize { self.object(self.objects) + 8 * k }
    fn slot(&self, k: usize) -> usize { self.thread(self.threads) + 12 * k }
}

const DAMAGE: [&str; 28] = [
    "none", "bytes behind", "cut in the header", "cut behind it", "cut by one", "magic", "object count", "thread count", "domain count", "total length",
    "object type", "object flags", "object zero", "object word", "last object free", "thread id", "thread supervisor", "thread domain", "thread zero", "thread handle",
    "thread's end", "two threads swapped", "one id twice", "slot start", "slot size", "slot attr", "slots overlap", "any bytes",
];

fn put(image: &mut [u8], at: usize, bytes: &[u8]) {
    if at + bytes.len() <= image.len() { image[at..at + bytes.len()].copy_from_slice(bytes); }
}

// A byte that differs from the one that stands there.
fn other(r: &mut Rng, was: u8) -> u8 {
    let x = r.pick(&[0, 1, 2, 8, 15, 16, 64, 128, 254, 255, was.wrapping_add(1)]);
    if x == was { was ^ (1 << r.below(8)) } else { x }
}

fn spoil(r: &mut Rng, image: &mut [u8], at: usize) {
    if at < image.len() { image[at] = other(r, image[at]); }
}

// The damage that is done to the length or to the header; false where this kind is none of it.
fn damage_header(r: &mut Rng, image: &mut Vec<u8>, kind: &str) -> bool {
    let total = image.len();
    let (eight, sixteen, most) = (r.below(8), r.below(16), r.below(total.saturating_sub(16).max(1)));
    match kind {
        "none" => {}
        "bytes behind" => image.extend((0..=sixteen).map(|k| k as u8)),
        "cut in the header" => image.truncate(sixteen),
        "cut behind it" => image.truncate(16 + most),
        "cut by one" => image.truncate(total.saturating_sub(1)),
        "magic" => spoil(r, image, eight),
        "object count" => { let n = number(r) as u16; put(image, 8, &n.to_le_bytes()); }
        "thread count" => spoil(r, image, 10),
        "domain count" => spoil(r, image, 11),
        "total length" => {
            let n = r.pick(&[0, 1551, 1552, 5136, 5137, total as u32 - 1, total as u32 + 1, u32::MAX]);
            put(image, 12, &n.to_le_bytes());
        }
        _ => return false,
    }
    true
}

fn word(image: &[u8], at: usize) -> u32 {
    image.get(at..at + 4).map_or(0, |b| u32::from_le_bytes([b[0], b[1], b[2], b[3]]))
}

// Two records name one thread. The bits of the thread that is lost by this go too, or they alone would be the reason to refuse.
fn one_id_twice(image: &mut [u8], p: &Places, thread: usize, another: usize) {
    let (Some(&lost), Some(&id)) = (image.get(thread), image.get(another)) else { return };
    put(image, thread, &[id]);
    for h in 0..p.objects {
        let at = p.object(h) + 4 + lost as usize / 8 % 8;
        if at < image.len() && lost != id { image[at] &= !(1 << (lost % 8)); }
    }
}

// The next slot of the domain begins at the last byte of this one.
fn overlap(image: &mut [u8], p: &Places, slot: usize) {
    let last = p.slot(0) + (slot - p.slot(0)) / 192 * 192 + 180;
    let (start, size) = (word(image, slot), word(image, slot + 4));
    let next = if slot == last { slot - 12 } else { slot + 12 };
    if size == 0 { return; }
    for (k, n) in [start.wrapping_add(size - 1), 1, 1].into_iter().enumerate() { put(image, next + 4 * k, &n.to_le_bytes()); }
}

fn damage_record(r: &mut Rng, image: &mut [u8], p: &Places, kind: &str) {
    let object = p.object(r.below(p.objects.max(1)));
    let (k, l) = (r.below(p.threads.max(1)), r.below(p.threads.max(1)));
    let (thread, another) = (p.thread(k), p.thread(if kind == "one id twice" { k.max(1) - 1 } else { l }));
    let slot = p.slot(r.below(SLOTS * DOMAINS));
    let (two, twelve, eight, anywhere) = (r.below(2), r.below(12), r.below(8), r.below(image.len().max(1)));
    let number = number(r);
    match kind {
        "object type" => spoil(r, image, object),
        "object flags" => spoil(r, image, object + 1),
        "object zero" => spoil(r, image, object + 2 + two),
        "object word" => spoil(r, image, object + 4 + eight),
        "last object free" => put(image, p.object(p.objects.max(1) - 1), &[0; 12]),
        "thread id" => spoil(r, image, thread),
        "thread supervisor" => spoil(r, image, thread + 1),
        "thread domain" => spoil(r, image, thread + 2),
        "thread zero" => spoil(r, image, thread + 3),
        "thread handle" => {
            let theirs = [image.get(another + 4).copied().unwrap_or(0), image.get(another + 5).copied().unwrap_or(0)];
            let handle = [theirs, (r.below(HANDLES) as u16).to_le_bytes(), (p.objects as u16).to_le_bytes(), (number as u16).to_le_bytes()][r.below(4)];
            put(image, thread + 4, &handle);
        }
        "thread's end" => spoil(r, image, thread + 6 + two),
        "two threads swapped" => {
            let record = |at: usize| image.get(at..at + 8).map(|b| b.to_vec());
            if let (Some(one), Some(two)) = (record(thread), record(another)) { put(image, thread, &two); put(image, another, &one); }
        }
        "one id twice" => one_id_twice(image, p, thread, another),
        "slots overlap" => overlap(image, p, slot),
        "slot start" => put(image, slot, &number.to_le_bytes()),
        "slot size" => put(image, slot + 4, &number.to_le_bytes()),
        "slot attr" => put(image, slot + 8, &number.to_le_bytes()),
        _ => for k in 0..=twelve / 3 { spoil(r, image, (anywhere + 97 * k) % image.len().max(1)); },
    }
}

fn damage(r: &mut Rng, image: &mut Vec<u8>, kind: &str) {
    if image.len() < 16 { return; }
    let places = Places::of(image);
    if !damage_header(r, image, kind) { damage_record(r, image, &places, kind); }
}

// ---- calls that aim

// A number out of those for which the test holds, or any below the limit where there is none.
fn such(r: &mut Rng, limit: usize, test: impl Fn(usize) -> bool) -> usize {
    let from = r.below(limit);
    (0..limit).map(|k| (from + k) % limit).find(|&k| test(k)).unwrap_or(from)
}

// A new thread could have this handle.
fn may_serve(s: &State, h: usize) -> bool {
    s.objects[h].as_ref().is_some_and(|o| o.kind == 1) && s.served(h).is_none()
}

fn some_handle(r: &mut Rng, s: &State) -> u16 {
    let taken = |h: usize| s.objects[h].is_some();
    (match r.below(14) {
        0..=7 => such(r, HANDLES, taken),
        8 => such(r, HANDLES, |h| !taken(h)),
        9 => such(r, HANDLES, |h| s.served(h).is_some()),
        10 | 11 => such(r, HANDLES, |h| may_serve(s, h)),
        12 => r.below(HANDLES),
        _ => r.pick(&[256, 257, 511, 65535]),
    }) as u16
}

fn some_thread(r: &mut Rng, s: &State) -> u32 {
    (match r.below(10) {
        0..=6 => such(r, THREADS, |t| s.live(t)),
        7 | 8 => such(r, THREADS, |t| !s.live(t)),
        _ => r.below(66),
    }) as u32
}

fn some_caller(r: &mut Rng, s: &State) -> u8 {
    (match r.below(20) {
        0..=8 => such(r, THREADS, |t| s.supervisor(t)),
        9..=17 => such(r, THREADS, |t| s.live(t) && !s.supervisor(t)),
        18 => r.below(THREADS),
        _ => r.pick(&[64, 65, 128, 255]),
    }) as u8
}

// A range that begins and ends near the edges of a domain's windows, or anywhere.
fn some_range(r: &mut Rng, slots: &[Option<Partition>]) -> (u32, u32) {
    let active: Vec<Partition> = slots.iter().flatten().copied().collect();
    if active.is_empty() || r.one_in(8) {
        let start = number(r);
        return (start, if r.one_in(2) { (TOP - start as u64) as u32 } else { number(r) });
    }
    let (p, q) = (r.pick(&active), r.pick(&active));
    let within = r.next() as u32 % p.size;
    let start = r.pick(&[p.start, p.start, p.end() as u32, p.start.wrapping_sub(1), p.start + within, q.end() as u32]);
    let end = r.pick(&[p.end(), p.end(), p.end() + 1, p.end() - 1, q.end(), q.end() + 1, q.start as u64, start as u64 + 1]);
    (start, end.saturating_sub(start as u64) as u32)
}

const OPS: [u8; 64] = [
    0, 0, 0, 0, 0, 0, 1, 1, 1, 1, 1, 1, 2, 2, 2, 3, 3, 3, 3, 3, 3, 3, 3, 4, 16, 16, 16, 16, 17, 17, 17, 18, 18, 18, 19, 19, 20, 20, 21, 21, 22,
    23, 23, 23, 23, 23, 24, 25, 25, 26, 26, 26, 27, 27, 27, 27, 27, 27, 27, 28, 28, 28, 28, 5,
];

// b, c and d for an operation on this handle, right in most cases.
fn some_fields(r: &mut Rng, s: &State, op: u8, caller: u8, a: u16) -> (u32, u32, u32) {
    let kind = s.objects.get(a as usize).and_then(|o| o.as_ref()).map_or(0, |o| o.kind as u32);
    let (any, domain) = (r.below(16) as u32, r.pick(&[0, 1, 2, 3, 4, 5, 6, 7, 255]));
    match op {
        0 => (r.pick(&[kind, kind, 0, any]), r.pick(&[0, 1, u32::MAX]), 0),
        1 | 18 | 24 => (some_thread(r, s), 0, 0),
        3 => {
            let mine = s.threads.get(caller as usize).and_then(|t| t.as_ref()).map_or(0, |t| t.domain as usize % DOMAINS);
            let (start, length) = some_range(r, &s.domains[mine]);
            (start, length, r.below(2) as u32)
        }
        16 => (r.pick(&[1, 1, 1 + any % 15]), 0, 0),
        23 => (if r.one_in(2) { such(r, THREADS, |t| !s.live(t)) as u32 } else { some_thread(r, s) }, r.below(2) as u32, 0),
        25 => (some_thread(r, s), some_thread(r, s), 0),
        26 => (some_thread(r, s), domain, 0),
        27 => { let (start, size) = some_range(r, &s.domains[a as usize % DOMAINS]); (start, size, r.pick(&[1, 3, 5, 7])) }
        28 => {
            let one = s.domains[a as usize % DOMAINS].iter().flatten().next().map_or((0, 0), |p| (p.start, p.size));
            let (start, size) = if r.one_in(3) { some_range(r, &s.domains[a as usize % DOMAINS]) } else { one };
            (start, if r.one_in(6) { 0 } else { size }, 0)
        }
        _ => (0, 0, 0),
    }
}

fn some_call(r: &mut Rng, s: &State) -> Call {
    let op = match r.pick(&OPS) {
        5 => r.next() as u8,
        // fewer ends than beginnings, or a long log has no thread left
        4 | 24 if r.one_in(2) => 23,
        known => known,
    };
    let caller = some_caller(r, s);
    let a = match op {
        23 if !r.one_in(3) => such(r, HANDLES, |h| may_serve(s, h)) as u16,
        0..=2 | 16..=23 => some_handle(r, s),
        27 | 28 => r.below(DOMAINS) as u16,
        _ => 0,
    };
    let (b, c, d) = some_fields(r, s, op, caller, a);
    let mut call = Call { op, caller, a, b, c, d };
    // one thing wrong, or now and then two
    let faults = match r.below(24) { 0..=3 => 1, 4 => 2, _ => 0 };
    for _ in 0..faults {
        let n = number(r);
        match r.below(4) { 0 => call.a = n as u16, 1 => call.b = n, 2 => call.c = n, _ => call.d = n }
    }
    call
}

// ---- the probe

// What the state is asked at the end: rank and life of each thread (op 19 on handle 256 tells and changes nothing), type and flag of each object, who
// holds some of them, and the edges of some threads' windows.
fn probe(r: &mut Rng, s: &State) -> Vec<Call> {
    let mut calls: Vec<Call> = (0..THREADS).map(|t| Call { op: 19, caller: t as u8, a: 256, b: 0, c: 0, d: 0 }).collect();
    let mut validate = |caller: usize, h: usize, b: u32, c: u32| calls.push(Call { op: 0, caller: caller as u8, a: h as u16, b, c, d: 0 });
    for h in 0..HANDLES {
        let caller = if r.one_in(2) { such(r, THREADS, |t| s.supervisor(t)) } else { such(r, THREADS, |t| s.live(t)) };
        let kind = s.objects[h].as_ref().map_or(0, |o| o.kind as u32);
        validate(caller, h, kind, r.pick(&[0, u32::MAX]));
    }
    for _ in 0..8 {
        let h = such(r, HANDLES, |h| s.objects[h].is_some());
        for t in (0..THREADS).filter(|&t| s.live(t) && !s.supervisor(t)) { validate(t, h, 0, 1); }
    }
    for _ in 0..3 {
        let t = such(r, THREADS, |t| s.live(t) && !s.supervisor(t));
        let Some(slots) = s.threads[t].as_ref().and_then(|x| s.domains.get(x.domain as usize)) else { continue };
        for p in slots.iter().flatten() {
            for (b, c, d) in [(p.start, p.size, 0), (p.start, p.size, 1), (p.start, p.size.wrapping_add(1), 0), (p.start.wrapping_sub(1), 2, 0), (p.start, u32::MAX - p.start, 0)] {
                calls.push(Call { op: 3, caller: t as u8, a: 0, b, c, d });
            }
        }
    }
    calls
}

// ---- cases

struct Case { image: Vec<u8>, log: Vec<u8>, want: String }

type Met = BTreeMap<(String, String, u32), usize>;

fn count(met: &mut Met, what: &str, which: String, code: u32) {
    *met.entry((what.to_string(), which, code)).or_insert(0) += 1;
}

// A log that follows the state, and its answers; what was met is counted.
fn some_log(r: &mut Rng, s: &mut State, calls: usize, met: &mut Met) -> (Vec<u8>, String) {
    let (mut log, mut want) = (vec![], String::new());
    let mut step = |s: &mut State, c: &Call| {
        let answer = s.call(c);
        let known = matches!(c.op, 0..=4 | 16..=28);
        let op = if known { c.op.to_string() } else { "other".to_string() };
        count(met, "pair", format!("{op}\t{}", answer.why), answer.code);
        log.extend(c.bytes());
        want += &format!("{} {}\n", answer.code, answer.value);
    };
    for _ in 0..calls {
        let c = some_call(r, s);
        step(s, &c);
    }
    for c in probe(r, s) { step(s, &c); }
    if r.one_in(3) {
        log.extend((0..=r.below(15)).map(|k| k as u8));
        want += &format!("{SHORT} 0\n");
        count(met, "pair", "part\tunder sixteen bytes".to_string(), SHORT);
    }
    (log, want)
}

// Every other image is damaged, each kind in turn; some twice, so that the order of the refusals is met.
fn some_case(r: &mut Rng, number: usize, calls: usize, met: &mut Met) -> Case {
    let kind = if number % 2 == 0 { DAMAGE[number / 2 % 2] } else { DAMAGE[2 + number / 2 % (DAMAGE.len() - 2)] };
    // to be damaged it needs records; to be called somebody must live, but for an empty state now and then
    let least = if number % 2 == 1 { 2 } else if r.one_in(12) { 0 } else { 3 };
    let mut image = write(&good(r));
    while image[10] < least { image = write(&good(r)); }
    damage(r, &mut image, kind);
    if number % 2 == 1 && r.one_in(4) { let again = r.pick(&DAMAGE); damage(r, &mut image, again); }
    match read(&image) {
        Ok(mut s) => {
            count(met, "damage", kind.to_string(), OK);
            let (log, want) = some_log(r, &mut s, calls, met);
            assert!(read(&write(&s)).is_ok_and(|back| back == s), "a call broke a rule of the model, or its writer and reader differ");
            Case { image, log, want }
        }
        Err(code) => {
            count(met, "damage", kind.to_string(), code);
            Case { image, log: vec![0; 16], want: format!("{code} 0\n") }
        }
    }
}

fn batch(seed: u64, cases: usize, calls: usize, out: &str) -> std::io::Result<()> {
    let (mut r, mut met) = (Rng(seed), Met::new());
    let mut file = std::io::BufWriter::new(std::fs::File::create(out)?);
    for number in 0..cases {
        let case = some_case(&mut r, number, calls, &mut met);
        for part in [&case.image, &case.log, &case.want.into_bytes()] {
            file.write_all(&(part.len() as u32).to_le_bytes())?;
            file.write_all(part)?;
        }
    }
    for ((what, which, code), n) in met { println!("{what}\t{which}\t{code}\t{n}"); }
    file.flush()
}

fn answer(image: &str) -> std::io::Result<()> {
    let mut s = match read(&std::fs::read(image)?) {
        Ok(s) => s,
        Err(code) => { println!("{code} 0"); return Ok(()); }
    };
    let mut log = vec![];
    std::io::stdin().read_to_end(&mut log)?;
    let mut want = String::new();
    for b in log.chunks(16) {
        want += &match call_of(b) {
            Some(c) => { let a = s.call(&c); format!("{} {}\n", a.code, a.value) }
            None => format!("{SHORT} 0\n"),
        };
    }
    print!("{want}");
    Ok(())
}

fn main() -> std::io::Result<()> {
    let words: Vec<String> = std::env::args().skip(1).collect();
    let number = |k: usize| words[k].parse::<u64>().expect("a number");
    match words.len() {
        2 if words[0] == "answer" => answer(&words[1]),
        4 => batch(number(0), number(1) as usize, number(2) as usize, &words[3]),
        _ => panic!("generate SEED CASES CALLS OUT, or generate answer IMAGE"),
    }
}
