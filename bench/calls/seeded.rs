// The benchmarks' input, made from a seed: a full state that keeps the rules, and calls on it, validate, grant and memory check in equal parts.
// bench/calls hands both to functions in memory, bench/replay writes them to files.

pub struct Rng(u64);

impl Rng {
    pub fn new(seed: u64) -> Rng {
        Rng(seed * 2 + 1)
    }

    pub fn below(&mut self, n: u64) -> u64 {
        self.0 ^= self.0 << 13;
        self.0 ^= self.0 >> 7;
        self.0 ^= self.0 << 17;
        (self.0 >> 11) % n
    }
}

#[derive(Clone, Copy)]
pub struct Object { pub kind: u8, pub flags: u8, pub word: u64 }

#[derive(Clone, Copy)]
pub struct Thread { pub supervisor: bool, pub domain: u32, pub handle: u32 }

#[derive(Clone, Copy)]
pub struct Slot { pub start: u32, pub size: u32, pub attr: u32 }

pub struct State { pub objects: [Object; 256], pub threads: [Thread; 64], pub domains: [[Slot; 16]; 8] }

// 256 objects, 64 live threads of which 2 are supervisors, 8 domains of 16 windows in mixed order, three of four next to each other.
pub fn state(r: &mut Rng) -> State {
    let mut s = State {
        objects: [Object { kind: 1, flags: 0, word: 0 }; 256],
        threads: [Thread { supervisor: false, domain: 0, handle: 0 }; 64],
        domains: [[Slot { start: 0, size: 0, attr: 0 }; 16]; 8],
    };
    for h in 0..256 {
        s.objects[h].kind = if h < 64 { 1 } else { 2 + r.below(14) as u8 };
        s.objects[h].flags = (r.below(2) + if r.below(8) == 0 { 2 } else { 0 }) as u8;
        for t in 0..64 { s.objects[h].word |= ((r.below(3) != 0) as u64) << t; }
    }
    for t in 0..64 {
        s.threads[t] = Thread { supervisor: t % 32 == 0, domain: r.below(8) as u32, handle: t as u32 };
    }
    for d in 0..8 {
        let mut at = 0x2000_0000u32;
        for k in 0..16 {
            let size = 64 + 32 * r.below(32) as u32;
            s.domains[d][k] = Slot { start: at, size, attr: [1, 3, 3, 7][r.below(4) as usize] };
            at += size + if r.below(4) == 0 { 32 } else { 0 };
        }
        for k in (1..16).rev() { let j = r.below(k as u64 + 1) as usize; s.domains[d].swap(k, j); }
    }
    s
}

pub fn call(r: &mut Rng) -> [u8; 16] {
    let caller = r.below(64) as u8;
    let (op, a, b, c, d) = match r.below(3) {
        0 => (0u8, r.below(256) as u16, [0, 1, 2, 3][r.below(4) as usize], [0, 1, u32::MAX][r.below(3) as usize], 0),
        1 => (1, r.below(256) as u16, r.below(64) as u32, 0, 0),
        _ => (3, 0, 0x2000_0000 + 32 * r.below(300) as u32, 1 + r.below(1024) as u32, r.below(2) as u32),
    };
    let mut bytes = [0; 16];
    bytes[0] = op;
    bytes[1] = caller;
    bytes[2..4].copy_from_slice(&a.to_le_bytes());
    bytes[4..8].copy_from_slice(&b.to_le_bytes());
    bytes[8..12].copy_from_slice(&c.to_le_bytes());
    bytes[12..16].copy_from_slice(&d.to_le_bytes());
    bytes
}
