// A second opinion on the latch: state, image and calls in plain Rust, written from what was asked for and not from the Rattle code.
// It is meant to be read beside docs/SPEC.md, 5 to 9: a handle is an Option, the permission word a table of 64 yes/no entries, an address range a walk
// over sorted windows. Each answer comes with the reason that gave it, so that a test can see which sentence of SPEC it met.

pub const THREADS: usize = 64;
pub const HANDLES: usize = 256;
pub const DOMAINS: usize = 8;
pub const SLOTS: usize = 16;
pub const TOP: u64 = 4294967295;

// A thread without a domain has this in its record.
pub const NO_DOMAIN: u8 = 255;

pub const OK: u32 = 0;
pub const EINVAL: u32 = 1;
pub const EPERM: u32 = 2;
pub const EBADF: u32 = 3;
pub const EADDRINUSE: u32 = 4;
pub const ENOSPC: u32 = 5;
pub const ENOENT: u32 = 6;
pub const SHORT: u32 = 7;
pub const MAGIC: u32 = 8;
pub const VALUE: u32 = 9;

const THREAD_TYPE: u8 = 1;
const INITIALISED: u8 = 1;
const PUBLIC: u8 = 2;

// ---- the state

#[derive(Clone, PartialEq)]
pub struct Object { pub kind: u8, pub flags: u8, pub holders: [bool; THREADS] }

#[derive(Clone, PartialEq)]
pub struct Thread { pub supervisor: bool, pub domain: u8, pub handle: u16 }

#[derive(Clone, Copy, PartialEq)]
pub struct Partition { pub start: u32, pub size: u32, pub attr: u32 }

// Nothing stands for a free handle, a dead thread, a free slot.
#[derive(Clone, PartialEq)]
pub struct State { pub objects: Vec<Option<Object>>, pub threads: Vec<Option<Thread>>, pub domains: Vec<Vec<Option<Partition>>> }

impl Object {
    fn new(kind: u8) -> Object {
        Object { kind, flags: 0, holders: [false; THREADS] }
    }

    fn is_initialised(&self) -> bool {
        self.flags & INITIALISED != 0
    }
}

impl Partition {
    pub fn end(&self) -> u64 {
        self.start as u64 + self.size as u64
    }

    fn is_valid(&self) -> bool {
        self.size > 0 && self.end() <= TOP
    }

    fn overlaps(&self, other: &Partition) -> bool {
        self.end() > other.start as u64 && other.end() > self.start as u64
    }
}

fn is_attr(attr: u32) -> bool {
    matches!(attr, 1 | 3 | 5 | 7)
}

impl State {
    pub fn empty() -> State {
        State { objects: vec![None; HANDLES], threads: vec![None; THREADS], domains: vec![vec![None; SLOTS]; DOMAINS] }
    }

    pub fn live(&self, t: usize) -> bool {
        t < THREADS && self.threads[t].is_some()
    }

    pub fn supervisor(&self, t: usize) -> bool {
        self.threads[t].as_ref().is_some_and(|r| r.supervisor)
    }

    // The live thread whose handle this is.
    pub fn served(&self, handle: usize) -> Option<usize> {
        (0..THREADS).find(|&t| self.threads[t].as_ref().is_some_and(|r| r.handle as usize == handle))
    }

    fn access(&self, t: usize, o: &Object) -> bool {
        self.supervisor(t) || o.flags & PUBLIC != 0 || o.holders[t]
    }

    // The rules that a record's own form does not already keep.
    fn keeps_rules(&self) -> bool {
        let objects = self.objects.iter().flatten().all(|o| {
            (1..=15).contains(&o.kind) && o.flags <= 15 && (0..THREADS).all(|t| !o.holders[t] || self.live(t))
        });
        let threads = (0..THREADS).all(|t| self.threads[t].as_ref().is_none_or(|r| self.thread_keeps_rules(t, r)));
        objects && threads && self.domains.iter().all(|d| domain_keeps_rules(d))
    }

    fn thread_keeps_rules(&self, t: usize, r: &Thread) -> bool {
        let handle = r.handle as usize;
        (r.domain < DOMAINS as u8 || r.domain == NO_DOMAIN)
            && handle < HANDLES
            && self.objects[handle].as_ref().is_some_and(|o| o.kind == THREAD_TYPE)
            && (0..THREADS).all(|u| u == t || self.threads[u].as_ref().is_none_or(|other| other.handle != r.handle))
    }
}

fn domain_keeps_rules(slots: &[Option<Partition>]) -> bool {
    let active: Vec<Partition> = slots.iter().flatten().copied().collect();
    let apart = |i: usize| active[..i].iter().all(|p| !p.overlaps(&active[i]));
    (0..active.len()).all(|i| active[i].is_valid() && is_attr(active[i].attr) && apart(i))
}

// ---- the image

fn u16_at(b: &[u8], i: usize) -> usize {
    b[i] as usize + 256 * b[i + 1] as usize
}

fn u32_at(b: &[u8], i: usize) -> u32 {
    (0..4).fold(0, |n, k| n + ((b[i + k] as u32) << (8 * k)))
}

// A record that is neither free nor well formed has no place in a State: the reader refuses it at once.
fn read_object(b: &[u8]) -> Result<Option<Object>, u32> {
    if u16_at(b, 2) != 0 { return Err(VALUE); }
    if b[0] == 0 {
        return if b.iter().all(|&x| x == 0) { Ok(None) } else { Err(VALUE) };
    }
    let holders = std::array::from_fn(|t| b[4 + t / 8] & (1 << (t % 8)) != 0);
    Ok(Some(Object { kind: b[0], flags: b[1], holders }))
}

fn read_thread(b: &[u8]) -> Result<(usize, Thread), u32> {
    if b[0] as usize >= THREADS || b[1] > 1 || b[3] != 0 || u16_at(b, 6) != 0 { return Err(VALUE); }
    Ok((b[0] as usize, Thread { supervisor: b[1] == 1, domain: b[2], handle: u16_at(b, 4) as u16 }))
}

fn read_slot(b: &[u8]) -> Result<Option<Partition>, u32> {
    let p = Partition { start: u32_at(b, 0), size: u32_at(b, 4), attr: u32_at(b, 8) };
    match (p.size, p.start, p.attr) {
        (0, 0, 0) => Ok(None),
        (0, _, _) => Err(VALUE),
        _ => Ok(Some(p)),
    }
}

fn read_contents(b: &[u8], objects: usize, threads: usize) -> Result<State, u32> {
    let mut s = State::empty();
    let (first, rest) = b.split_at(12 * objects);
    let (second, third) = rest.split_at(8 * threads);
    for (h, record) in first.chunks(12).enumerate() { s.objects[h] = read_object(record)?; }
    if objects > 0 && s.objects[objects - 1].is_none() { return Err(VALUE); }
    let mut next = 0;
    for record in second.chunks(8) {
        let (id, thread) = read_thread(record)?;
        if id < next { return Err(VALUE); }
        next = id + 1;
        s.threads[id] = Some(thread);
    }
    for (k, record) in third.chunks(12).enumerate() { s.domains[k / SLOTS][k % SLOTS] = read_slot(record)?; }
    if s.keeps_rules() { Ok(s) } else { Err(VALUE) }
}

pub fn read(bytes: &[u8]) -> Result<State, u32> {
    if bytes.len() < 16 { return Err(SHORT); }
    if &bytes[..8] != b"WLATCH01" { return Err(MAGIC); }
    let (objects, threads, total) = (u16_at(bytes, 8), bytes[10] as usize, u32_at(bytes, 12) as usize);
    if objects > HANDLES || threads > THREADS || bytes[11] as usize != DOMAINS { return Err(VALUE); }
    if total != 16 + 12 * objects + 8 * threads + 192 * DOMAINS { return Err(VALUE); }
    if bytes.len() < total { return Err(SHORT); }
    read_contents(&bytes[16..total], objects, threads)
}

fn write_object(o: &Option<Object>) -> Vec<u8> {
    let mut b = vec![0; 12];
    if let Some(o) = o {
        (b[0], b[1]) = (o.kind, o.flags);
        for t in (0..THREADS).filter(|&t| o.holders[t]) { b[4 + t / 8] |= 1 << (t % 8); }
    }
    b
}

pub fn write(s: &State) -> Vec<u8> {
    let objects = s.objects.iter().rposition(|o| o.is_some()).map_or(0, |h| h + 1);
    let mut body: Vec<u8> = s.objects[..objects].iter().flat_map(write_object).collect();
    for (id, t) in s.threads.iter().enumerate() {
        let Some(t) = t else { continue };
        body.extend([id as u8, t.supervisor as u8, t.domain, 0, (t.handle % 256) as u8, (t.handle / 256) as u8, 0, 0]);
    }
    for p in s.domains.iter().flatten() {
        let p = p.unwrap_or(Partition { start: 0, size: 0, attr: 0 });
        for n in [p.start, p.size, p.attr] { body.extend(n.to_le_bytes()); }
    }
    let mut image = b"WLATCH01".to_vec();
    image.extend((objects as u16).to_le_bytes());
    image.extend([s.threads.iter().flatten().count() as u8, DOMAINS as u8]);
    image.extend((16 + body.len() as u32).to_le_bytes());
    image.extend(body);
    image
}

// ---- calls

#[derive(Clone, Copy)]
pub struct Call { pub op: u8, pub caller: u8, pub a: u16, pub b: u32, pub c: u32, pub d: u32 }

#[derive(Clone, Copy)]
pub struct Answer { pub code: u32, pub value: u32, pub why: &'static str }

impl Call {
    pub fn bytes(&self) -> Vec<u8> {
        let mut out = vec![self.op, self.caller];
        out.extend(self.a.to_le_bytes());
        for n in [self.b, self.c, self.d] { out.extend(n.to_le_bytes()); }
        out
    }

    fn names_handle(&self) -> bool {
        matches!(self.op, 0..=2 | 16..=23)
    }

    // The first field but a handle that is out of range, or not zero where it is unused.
    fn bad_field(&self) -> Option<&'static str> {
        let (thread, none) = (0..64, 0..1);
        let (b, c, d) = match self.op {
            0 => ((0..16).contains(&self.b), matches!(self.c as i32, 0 | -1 | 1), none.contains(&self.d)),
            1 | 18 => (thread.contains(&self.b), none.contains(&self.c), none.contains(&self.d)),
            3 => (true, true, self.d <= 1),
            16 => ((1..16).contains(&self.b), none.contains(&self.c), none.contains(&self.d)),
            23 => (thread.contains(&self.b), self.c <= 1, none.contains(&self.d)),
            24 => (thread.contains(&self.b), none.contains(&self.c), none.contains(&self.d)),
            25 => (thread.contains(&self.b), thread.contains(&self.c), none.contains(&self.d)),
            26 => (thread.contains(&self.b), self.c < 8 || self.c == 255, none.contains(&self.d)),
            27 => (true, true, is_attr(self.d)),
            28 => (true, true, none.contains(&self.d)),
            _ => (none.contains(&self.b), none.contains(&self.c), none.contains(&self.d)),
        };
        let a = self.names_handle() || if self.op >= 27 { self.a < 8 } else { self.a == 0 };
        [(a, "field a"), (b, "field b"), (c, "field c"), (d, "field d")].into_iter().find(|f| !f.0).map(|f| f.1)
    }
}

pub fn call_of(b: &[u8]) -> Option<Call> {
    (b.len() == 16).then(|| Call { op: b[0], caller: b[1], a: u16_at(b, 2) as u16, b: u32_at(b, 4), c: u32_at(b, 8), d: u32_at(b, 12) })
}

fn refuse<T>(code: u32, why: &'static str) -> Result<T, Answer> {
    Err(Answer { code, value: 0, why })
}

type Judged = Result<Answer, Answer>;

const DONE: Judged = Ok(Answer { code: OK, value: 0, why: "done" });

impl State {
    // Answers a call and changes the state, which a refusal leaves as it was: every `refuse` stands before the first change.
    pub fn call(&mut self, c: &Call) -> Answer {
        self.order(c).unwrap_or_else(|refusal| refusal)
    }

    fn order(&mut self, c: &Call) -> Judged {
        let me = c.caller as usize;
        if me >= THREADS { return refuse(EINVAL, "caller number"); }
        if !self.live(me) { return refuse(EPERM, "caller dead"); }
        if !matches!(c.op, 0..=4 | 16..=28) { return refuse(EINVAL, "unknown"); }
        if c.op >= 16 && !self.supervisor(me) { return refuse(EPERM, "rank"); }
        if let Some(field) = c.bad_field() { return refuse(EINVAL, field); }
        if !c.names_handle() { return self.rule_without_handle(c, me); }
        let handle = c.a as usize;
        if handle >= HANDLES { return refuse(EBADF, "handle number"); }
        if c.op == 16 {
            if self.objects[handle].is_some() { return refuse(EADDRINUSE, "taken"); }
            self.objects[handle] = Some(Object::new(c.b as u8));
            return DONE;
        }
        match self.objects[handle].clone() {
            None => refuse(EBADF, "free"),
            Some(o) => self.rule(c, me, handle, o),
        }
    }

    // A call on a taken handle; o is a copy of its object, put back where it was changed.
    fn rule(&mut self, c: &Call, me: usize, handle: usize, mut o: Object) -> Judged {
        match c.op {
            0 => return self.validate(c, me, &o),
            1 => {
                self.may_grant(c, me, &o)?;
                o.holders[c.b as usize] = true;
            }
            2 => {
                if !self.access(me, &o) { return refuse(EPERM, "access"); }
                o.holders[me] = false;
            }
            17 => {
                if self.served(handle).is_some() { return refuse(EADDRINUSE, "serves"); }
                self.objects[handle] = None;
                return DONE;
            }
            18 => {
                if !self.live(c.b as usize) { return refuse(EINVAL, "dead thread"); }
                o.holders[c.b as usize] = false;
            }
            19 => o.flags |= INITIALISED,
            20 => o.flags &= !INITIALISED,
            21 => {
                o.holders = std::array::from_fn(|t| t == me);
                o.flags |= INITIALISED;
            }
            22 => o.flags |= PUBLIC,
            _ => return self.create_thread(c, handle, &o),
        }
        self.objects[handle] = Some(o);
        DONE
    }

    fn validate(&self, c: &Call, me: usize, o: &Object) -> Judged {
        if c.b != 0 && c.b != o.kind as u32 { return refuse(EBADF, "type"); }
        if !self.access(me, o) { return refuse(EPERM, "access"); }
        match (c.c as i32, o.is_initialised()) {
            (0, false) => refuse(EINVAL, "not initialised"),
            (-1, true) => refuse(EADDRINUSE, "initialised"),
            _ => DONE,
        }
    }

    fn may_grant(&self, c: &Call, me: usize, o: &Object) -> Result<(), Answer> {
        if !self.access(me, o) { return refuse(EPERM, "access"); }
        let Some(target) = &self.threads[c.b as usize] else { return refuse(EINVAL, "dead thread") };
        let theirs = self.objects[target.handle as usize].as_ref().expect("a live thread's handle is taken");
        if self.access(me, theirs) { Ok(()) } else { refuse(EPERM, "target access") }
    }

    fn create_thread(&mut self, c: &Call, handle: usize, o: &Object) -> Judged {
        if self.live(c.b as usize) { return refuse(EADDRINUSE, "live already"); }
        if o.kind != THREAD_TYPE { return refuse(EBADF, "type"); }
        if self.served(handle).is_some() { return refuse(EADDRINUSE, "serves"); }
        self.threads[c.b as usize] = Some(Thread { supervisor: c.c == 1, domain: NO_DOMAIN, handle: handle as u16 });
        DONE
    }

    fn rule_without_handle(&mut self, c: &Call, me: usize) -> Judged {
        let (b, child) = (c.b as usize, c.c as usize);
        match c.op {
            3 => return self.memory_check(c, me),
            27 => return self.add(c),
            28 => return self.remove(c),
            _ => {}
        }
        if c.op == 4 {
            self.end(me);
            return DONE;
        }
        if !self.live(b) || c.op == 25 && !self.live(child) { return refuse(EINVAL, "dead thread"); }
        match c.op {
            24 => self.end(b),
            25 => for o in self.objects.iter_mut().flatten() { o.holders[child] |= o.holders[b]; },
            _ => self.threads[b].as_mut().expect("it lives").domain = c.c as u8,
        }
        DONE
    }

    fn end(&mut self, t: usize) {
        for o in self.objects.iter_mut().flatten() { o.holders[t] = false; }
        self.threads[t] = None;
    }

    // The windows with that right in the order of their starts: since none overlap, one pass finds how far they reach without a gap.
    fn memory_check(&self, c: &Call, me: usize) -> Judged {
        let end = c.b as u64 + c.c as u64;
        if c.c == 0 { return refuse(EINVAL, "length 0"); }
        if end > TOP { return refuse(EINVAL, "end"); }
        let thread = self.threads[me].as_ref().expect("the caller lives");
        if thread.supervisor { return Ok(Answer { code: OK, value: 0, why: "supervisor" }); }
        if thread.domain == NO_DOMAIN { return Err(Answer { code: EPERM, value: c.b, why: "no domain" }); }
        let right = if c.d == 0 { 1 } else { 2 };
        let mut windows: Vec<Partition> = self.domains[thread.domain as usize].iter().flatten().copied().filter(|p| p.attr & right != 0).collect();
        windows.sort_by_key(|p| p.start);
        let reach = windows.iter().fold(c.b as u64, |at, p| if p.start as u64 <= at && at < p.end() { p.end() } else { at });
        if reach >= end { return DONE; }
        let why = if reach == c.b as u64 { "first byte" } else { "later byte" };
        Err(Answer { code: EPERM, value: reach as u32, why })
    }

    fn add(&mut self, c: &Call) -> Judged {
        let p = Partition { start: c.b, size: c.c, attr: c.d };
        let slots = &mut self.domains[c.a as usize];
        if !p.is_valid() { return refuse(EINVAL, "not valid"); }
        if slots.iter().flatten().any(|q| p.overlaps(q)) { return refuse(EINVAL, "overlaps"); }
        let Some(free) = slots.iter().position(|q| q.is_none()) else { return refuse(ENOSPC, "full") };
        slots[free] = Some(p);
        Ok(Answer { code: OK, value: free as u32, why: "done" })
    }

    fn remove(&mut self, c: &Call) -> Judged {
        let slots = &mut self.domains[c.a as usize];
        if c.c == 0 { return refuse(ENOENT, "size 0"); }
        let Some(k) = slots.iter().position(|q| q.is_some_and(|p| p.start == c.b && p.size == c.c)) else { return refuse(ENOENT, "no match") };
        slots[k] = None;
        Ok(Answer { code: OK, value: k as u32, why: "done" })
    }
}
