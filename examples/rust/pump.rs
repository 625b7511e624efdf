// A small pump driven from Rust: five programs on one processor, and a radio that must never reach the rate setpoint.
// examples/c/pump.c is the same in C and prints the same lines (tests/firmware/run compares both with tests/firmware/pump.out).
// In the repository's folder, after `tools/make-library firmware`:
//
//     rustc -O --edition 2021 -L target/staticlib -l static=firmware -o /tmp/pump examples/rust/pump.rs && /tmp/pump

// include/wardlatch.h says what each function returns and leaves; here are those of its declarations that the pump uses, which are all.
mod wardlatch {
    extern "C" {
        pub fn wardlatch_call(
            objects: *mut u64, objects_len: usize, threads: *mut u32, threads_len: usize, slots: *mut u32, slots_len: usize,
            bytes: *const u8, bytes_len: usize, value: *mut u32,
        ) -> u32;
        pub fn wardlatch_run(
            objects: *mut u64, objects_len: usize, threads: *mut u32, threads_len: usize, slots: *mut u32, slots_len: usize,
            log: *const u8, log_len: usize, out: *mut u32, out_len: usize, answers: *mut usize,
        ) -> u32;
        pub fn wardlatch_read(
            image: *const u8, image_len: usize, objects: *mut u64, objects_len: usize, threads: *mut u32, threads_len: usize,
            slots: *mut u32, slots_len: usize, left: *mut usize,
        ) -> u32;
        pub fn wardlatch_write(
            objects: *const u64, objects_len: usize, threads: *const u32, threads_len: usize, slots: *const u32, slots_len: usize,
            out: *mut u8, out_len: usize, written: *mut u32,
        ) -> u32;
        pub fn wardlatch_plan(domain: *const u32, domain_len: usize, regions: u32, out: *mut u32, out_len: usize, words: *mut u32) -> u32;
        pub fn wardlatch_check(domain: *const u32, domain_len: usize, plan: *const u32, plan_len: usize) -> u32;
        pub fn wardlatch_domain_add(domain: *mut u32, domain_len: usize, start: u32, size: u32, attr: u32, slot: *mut u32) -> u32;
        pub fn wardlatch_domain_remove(domain: *mut u32, domain_len: usize, start: u32, size: u32, slot: *mut u32) -> u32;
        pub fn wardlatch_domain_get(domain: *const u32, domain_len: usize, index: u32, start: *mut u32, size: *mut u32, attr: *mut u32) -> u32;
        pub fn wardlatch_domain_has_free(domain: *const u32, domain_len: usize, value: *mut u32) -> u32;
        pub fn wardlatch_domain_contains(domain: *const u32, domain_len: usize, addr: u32, value: *mut u32) -> u32;
        pub fn wardlatch_partition_valid(start: u32, size: u32) -> bool;
        pub fn wardlatch_partitions_overlap(start: u32, size: u32, other_start: u32, other_size: u32) -> bool;
        pub fn wardlatch_grant(word: *mut u64, tid: u32) -> u32;
        pub fn wardlatch_revoke(word: *mut u64, tid: u32) -> u32;
        pub fn wardlatch_recycle(flags: *mut u8, word: *mut u64, tid: u32) -> u32;
        pub fn wardlatch_has_perm(word: u64, tid: u32, value: *mut u32) -> u32;
        pub fn wardlatch_check_access(flags: u8, word: u64, tid: u32, supervisor: bool) -> bool;
        pub fn wardlatch_validate(kind: u8, flags: u8, word: u64, expected: u8, tid: u32, supervisor: bool, mode: i32) -> u32;
        pub fn wardlatch_to_errno(answer: u32, value: *mut i32) -> u32;
    }
}

use wardlatch::*;

const NAMES: [&str; 13] =
    ["OK", "EINVAL", "EPERM", "EBADF", "EADDRINUSE", "ENOSPC", "ENOENT", "SHORT", "MAGIC", "VALUE", "NOPLAN", "ROOM", "DIFFERS"];

// Calls.
const VALIDATE: u8 = 0;
const GRANT: u8 = 1;
const MEMORY_CHECK: u8 = 3;
const EXIT: u8 = 4;
const CREATE_OBJECT: u8 = 16;
const INIT: u8 = 19;
const RECYCLE: u8 = 21;
const MAKE_PUBLIC: u8 = 22;
const CREATE_THREAD: u8 = 23;
const INHERIT: u8 = 25;
const ASSIGN: u8 = 26;
const ADD_PARTITION: u8 = 27;

// Types of objects.
const ANY: u32 = 0;
const THREAD: u32 = 1;
const SEM: u32 = 2;
const MUTEX: u32 = 3;
const EVENT: u32 = 9;

// The pump's threads. Each is served by the thread object whose handle is its own number.
const SUPERVISOR: u8 = 0;
const RADIO: u8 = 1;
const DISPLAY: u8 = 2;
const DRUG_LIBRARY: u8 = 3;
const MOTOR: u8 = 4;

// Its other objects, by their handles.
const RATE_SETPOINT: u16 = 10;
const ALARM: u16 = 11;

// Its domains: the radio's memory, the display's, and the dosing memory of drug library and motor.
const RADIO_MEMORY: u16 = 0;
const DISPLAY_MEMORY: u16 = 1;
const DOSE_MEMORY: u16 = 2;

const RADIO_BUFFER: u32 = 0x2000_0000;
const RATE_WORD: u32 = 0x2000_1000;
const DRUG_TABLE: u32 = 0x2000_2000;
const SCREEN: u32 = 0x2000_8000;

const DOMAIN_NUMBERS: usize = 48;
const IMAGE_LEAST: usize = 1552;
const IMAGE_MOST: usize = 5136;
const PLAN_MOST: usize = 32;

fn name(answer: u32) -> &'static str {
    NAMES.get(answer as usize).copied().unwrap_or("?")
}

fn yes(b: bool) -> &'static str {
    if b { "yes" } else { "no" }
}

// Operation, caller, a, b, c, d.
type Call = (u8, u8, u16, u32, u32, u32);

fn encode((op, caller, a, b, c, d): Call) -> [u8; 16] {
    let mut bytes = [0; 16];
    bytes[0] = op;
    bytes[1] = caller;
    bytes[2..4].copy_from_slice(&a.to_le_bytes());
    bytes[4..8].copy_from_slice(&b.to_le_bytes());
    bytes[8..12].copy_from_slice(&c.to_le_bytes());
    bytes[12..].copy_from_slice(&d.to_le_bytes());
    bytes
}

#[derive(PartialEq)]
struct Latch {
    objects: [u64; 512],
    threads: [u32; 192],
    slots: [u32; 384],
}

// Safe methods: a slice passes as its pointer and its length, and the functions have no other condition.
impl Latch {
    fn new() -> Self {
        Latch { objects: [0; 512], threads: [0; 192], slots: [0; 384] }
    }

    fn call(&mut self, bytes: &[u8]) -> (u32, u32) {
        let (o, t, s) = (&mut self.objects, &mut self.threads, &mut self.slots);
        let mut value = 0;
        let answer = unsafe {
            wardlatch_call(o.as_mut_ptr(), o.len(), t.as_mut_ptr(), t.len(), s.as_mut_ptr(), s.len(), bytes.as_ptr(), bytes.len(), &mut value)
        };
        (answer, value)
    }

    fn run(&mut self, log: &[u8], out: &mut [u32]) -> (u32, usize) {
        let (o, t, s) = (&mut self.objects, &mut self.threads, &mut self.slots);
        let mut answers = 0;
        let answer = unsafe {
            wardlatch_run(
                o.as_mut_ptr(), o.len(), t.as_mut_ptr(), t.len(), s.as_mut_ptr(), s.len(), log.as_ptr(), log.len(), out.as_mut_ptr(), out.len(), &mut answers,
            )
        };
        (answer, answers)
    }

    fn read(&mut self, image: &[u8]) -> (u32, usize) {
        let (o, t, s) = (&mut self.objects, &mut self.threads, &mut self.slots);
        let mut left = 0;
        let answer = unsafe {
            wardlatch_read(image.as_ptr(), image.len(), o.as_mut_ptr(), o.len(), t.as_mut_ptr(), t.len(), s.as_mut_ptr(), s.len(), &mut left)
        };
        (answer, left)
    }

    fn write(&self, out: &mut [u8]) -> (u32, u32) {
        let (o, t, s) = (&self.objects, &self.threads, &self.slots);
        let mut written = 0;
        let answer = unsafe {
            wardlatch_write(o.as_ptr(), o.len(), t.as_ptr(), t.len(), s.as_ptr(), s.len(), out.as_mut_ptr(), out.len(), &mut written)
        };
        (answer, written)
    }

    // Hears a call's bytes and prints what the latch says.
    fn hear(&mut self, what: &str, bytes: &[u8]) {
        match self.call(bytes) {
            (answer, 0) => println!("{what}: {}", name(answer)),
            (answer, value) => println!("{what}: {}, value 0x{value:08X}", name(answer)),
        }
    }

    fn ask(&mut self, what: &str, op: u8, caller: u8, a: u16, b: u32, c: u32, d: u32) {
        self.hear(what, &encode((op, caller, a, b, c, d)));
    }
}

// The image that the pump starts from: one object and one thread, the supervisor, and eight empty domains.
fn boot(l: &mut Latch) {
    let mut image = [0u8; IMAGE_LEAST + 12 + 8];
    let length = image.len();
    image[..8].copy_from_slice(b"WLATCH01");
    image[8..10].copy_from_slice(&1u16.to_le_bytes());
    image[10] = 1;
    image[11] = 8;
    image[12..16].copy_from_slice(&(length as u32).to_le_bytes());
    image[16] = THREAD as u8;
    image[17] = 1;
    image[28] = SUPERVISOR;
    image[29] = 1;
    image[30] = 255;
    let (answer, left) = l.read(&image);
    println!("start: an image of {length} bytes is read: {}, {left} bytes behind it", name(answer));
}

// What the supervisor does once: threads, objects, rights, memory.
const SET_UP: [Call; 23] = [
    (CREATE_OBJECT, SUPERVISOR, RADIO as u16, THREAD, 0, 0),
    (CREATE_OBJECT, SUPERVISOR, DISPLAY as u16, THREAD, 0, 0),
    (CREATE_OBJECT, SUPERVISOR, DRUG_LIBRARY as u16, THREAD, 0, 0),
    (CREATE_OBJECT, SUPERVISOR, MOTOR as u16, THREAD, 0, 0),
    (CREATE_THREAD, SUPERVISOR, RADIO as u16, RADIO as u32, 0, 0),
    (CREATE_THREAD, SUPERVISOR, DISPLAY as u16, DISPLAY as u32, 0, 0),
    (CREATE_THREAD, SUPERVISOR, DRUG_LIBRARY as u16, DRUG_LIBRARY as u32, 0, 0),
    (CREATE_THREAD, SUPERVISOR, MOTOR as u16, MOTOR as u32, 0, 0),
    (CREATE_OBJECT, SUPERVISOR, RATE_SETPOINT, MUTEX, 0, 0),
    (INIT, SUPERVISOR, RATE_SETPOINT, 0, 0, 0),
    (GRANT, SUPERVISOR, RATE_SETPOINT, DRUG_LIBRARY as u32, 0, 0),
    (GRANT, SUPERVISOR, RATE_SETPOINT, MOTOR as u32, 0, 0),
    (CREATE_OBJECT, SUPERVISOR, ALARM, EVENT, 0, 0),
    (INIT, SUPERVISOR, ALARM, 0, 0, 0),
    (MAKE_PUBLIC, SUPERVISOR, ALARM, 0, 0, 0),
    (ADD_PARTITION, SUPERVISOR, RADIO_MEMORY, RADIO_BUFFER, 4096, 3),
    (ADD_PARTITION, SUPERVISOR, DISPLAY_MEMORY, SCREEN, 8192, 3),
    (ADD_PARTITION, SUPERVISOR, DOSE_MEMORY, RATE_WORD, 4096, 3),
    (ADD_PARTITION, SUPERVISOR, DOSE_MEMORY, DRUG_TABLE, 1024, 1),
    (ASSIGN, SUPERVISOR, 0, RADIO as u32, RADIO_MEMORY as u32, 0),
    (ASSIGN, SUPERVISOR, 0, DISPLAY as u32, DISPLAY_MEMORY as u32, 0),
    (ASSIGN, SUPERVISOR, 0, DRUG_LIBRARY as u32, DOSE_MEMORY as u32, 0),
    (ASSIGN, SUPERVISOR, 0, MOTOR as u32, DOSE_MEMORY as u32, 0),
];

fn set_up(l: &mut Latch) {
    let log: Vec<u8> = SET_UP.iter().flat_map(|c| encode(*c)).collect();
    let mut out = [0u32; 2 * SET_UP.len()];
    let (answer, answers) = l.run(&log, &mut out);
    let ok = out.chunks(2).take(answers).filter(|x| x[0] == 0).count();
    println!("set up: a log of {} calls is run: {}, {answers} answers, {ok} of them OK", SET_UP.len(), name(answer));
}

// Everything that the radio might try.
fn radio_tries(l: &mut Latch) {
    let cut = encode((VALIDATE, RADIO, RATE_SETPOINT, MUTEX, 1, 0));
    l.ask("radio asks for the rate setpoint", VALIDATE, RADIO, RATE_SETPOINT, MUTEX, 0, 0);
    l.ask("radio asks for it as any type, in any condition", VALIDATE, RADIO, RATE_SETPOINT, ANY, 1, 0);
    l.ask("radio asks for it as a semaphore", VALIDATE, RADIO, RATE_SETPOINT, SEM, 1, 0);
    l.ask("radio grants it to itself", GRANT, RADIO, RATE_SETPOINT, RADIO as u32, 0, 0);
    l.ask("radio makes it public", MAKE_PUBLIC, RADIO, RATE_SETPOINT, 0, 0, 0);
    l.ask("radio recycles it", RECYCLE, RADIO, RATE_SETPOINT, 0, 0, 0);
    l.ask("radio inherits from the motor", INHERIT, RADIO, 0, MOTOR as u32, RADIO as u32, 0);
    l.ask("radio assigns itself the dosing memory", ASSIGN, RADIO, 0, RADIO as u32, DOSE_MEMORY as u32, 0);
    l.ask("radio makes a call that is none", 99, RADIO, 0, 0, 0, 0);
    l.hear("radio makes a call that is cut off", &cut[..12]);
    l.ask("radio writes 64 bytes of its own buffer", MEMORY_CHECK, RADIO, 0, RADIO_BUFFER, 64, 1);
    l.ask("radio writes at the rate setpoint's address", MEMORY_CHECK, RADIO, 0, RATE_WORD, 4, 1);
    l.ask("radio writes from its buffer's end into it", MEMORY_CHECK, RADIO, 0, RADIO_BUFFER + 4092, 8, 1);
    l.ask("radio raises the alarm, which is public", VALIDATE, RADIO, ALARM, EVENT, 0, 0);
}

// Those who dose may; what is read-only stays so; and a thread that ends takes its rights with it.
fn dosing(l: &mut Latch) {
    l.ask("drug library asks for the rate setpoint", VALIDATE, DRUG_LIBRARY, RATE_SETPOINT, MUTEX, 0, 0);
    l.ask("drug library grants it to the radio", GRANT, DRUG_LIBRARY, RATE_SETPOINT, RADIO as u32, 0, 0);
    l.ask("motor asks for the rate setpoint", VALIDATE, MOTOR, RATE_SETPOINT, MUTEX, 0, 0);
    l.ask("motor reads across rate setpoint and drug table", MEMORY_CHECK, MOTOR, 0, RATE_WORD + 4000, 200, 0);
    l.ask("motor writes across both", MEMORY_CHECK, MOTOR, 0, RATE_WORD + 4000, 200, 1);
    l.ask("motor exits", EXIT, MOTOR, 0, 0, 0, 0);
    l.ask("motor asks again, dead", VALIDATE, MOTOR, RATE_SETPOINT, MUTEX, 0, 0);
    l.ask("supervisor starts the motor anew", CREATE_THREAD, SUPERVISOR, MOTOR as u16, MOTOR as u32, 0, 0);
    l.ask("motor asks again, without a right", VALIDATE, MOTOR, RATE_SETPOINT, MUTEX, 0, 0);
    l.ask("supervisor asks for the rate setpoint", VALIDATE, SUPERVISOR, RATE_SETPOINT, ANY, 1, 0);
}

// The state as bytes and back.
fn images(l: &Latch) {
    let mut image = [0u8; IMAGE_MOST + 8];
    let mut again = Latch::new();
    let (answer, written) = l.write(&mut image[..100]);
    println!("image: written into 100 bytes: {}, {written} bytes", name(answer));
    let (answer, written) = l.write(&mut image);
    println!("image: written into {} bytes: {}, {written} bytes", image.len(), name(answer));
    let end = written as usize;
    let (answer, _) = again.read(&image[..end - 1]);
    println!("image: read without its last byte: {}", name(answer));
    let (answer, left) = again.read(&image[..end + 8]);
    println!("image: read back with 8 bytes behind it: {}, {left} bytes behind it, the same state: {}", name(answer), yes(*l == again));
    image[17] |= 16;
    let (answer, _) = again.read(&image[..end]);
    println!("image: read with a flag that is none: {}", name(answer));
    image[0] = b'V';
    let (answer, _) = again.read(&image[..end]);
    println!("image: read with another first letter: {}", name(answer));
}

fn plan(domain: &[u32], regions: u32, out: &mut [u32]) -> (u32, u32) {
    let mut words = 0;
    let answer = unsafe { wardlatch_plan(domain.as_ptr(), domain.len(), regions, out.as_mut_ptr(), out.len(), &mut words) };
    (answer, words)
}

fn check(domain: &[u32], plan: &[u32]) -> &'static str {
    name(unsafe { wardlatch_check(domain.as_ptr(), domain.len(), plan.as_ptr(), plan.len()) })
}

// The dosing memory as words for the MPU, and the checker's word on them.
fn regions(l: &Latch) {
    let first = DOMAIN_NUMBERS * DOSE_MEMORY as usize;
    let dose = &l.slots[first..first + DOMAIN_NUMBERS];
    let mut out = [0u32; PLAN_MOST];
    let (answer, _) = plan(dose, 1, &mut out);
    println!("MPU: the dosing memory in 1 region: {}", name(answer));
    let (answer, words) = plan(dose, 8, &mut out);
    println!("MPU: the dosing memory in 8 regions: {}, {words} words", name(answer));
    let n = words as usize;
    for region in out[..n].chunks(2) {
        println!("MPU: RBAR 0x{:08X} RASR 0x{:08X}", region[0], region[1]);
    }
    println!("MPU: the plan is checked: {}", check(dose, &out[..n]));
    println!("MPU: without its last region: {}", check(dose, &out[..n - 2]));
    println!("MPU: without its last word: {}", check(dose, &out[..n - 1]));
    out[1] = (out[1] & !0x0700_0000) | 0x0600_0000;
    println!("MPU: with the setpoint read-only: {}", check(dose, &out[..n]));
}

fn add(domain: &mut [u32], start: u32, size: u32, attr: u32) -> (u32, u32) {
    let mut slot = 0;
    let answer = unsafe { wardlatch_domain_add(domain.as_mut_ptr(), domain.len(), start, size, attr, &mut slot) };
    (answer, slot)
}

fn remove(domain: &mut [u32], start: u32, size: u32) -> (u32, u32) {
    let mut slot = 0;
    let answer = unsafe { wardlatch_domain_remove(domain.as_mut_ptr(), domain.len(), start, size, &mut slot) };
    (answer, slot)
}

fn get(domain: &[u32], index: u32) -> (u32, u32, u32, u32) {
    let (mut start, mut size, mut attr) = (0, 0, 0);
    let answer = unsafe { wardlatch_domain_get(domain.as_ptr(), domain.len(), index, &mut start, &mut size, &mut attr) };
    (answer, start, size, attr)
}

fn has_free(domain: &[u32]) -> (u32, u32) {
    let mut value = 0;
    let answer = unsafe { wardlatch_domain_has_free(domain.as_ptr(), domain.len(), &mut value) };
    (answer, value)
}

fn contains(domain: &[u32], addr: u32) -> (u32, u32) {
    let mut value = 0;
    let answer = unsafe { wardlatch_domain_contains(domain.as_ptr(), domain.len(), addr, &mut value) };
    (answer, value)
}

// A domain of the firmware's own, by itself.
fn domain_alone() {
    let mut domain = [0u32; DOMAIN_NUMBERS];
    let (answer, slot) = add(&mut domain, SCREEN, 100, 3);
    println!("domain: 100 bytes are added: {}, slot {slot}", name(answer));
    let (answer, _) = add(&mut domain, SCREEN + 50, 100, 3);
    println!("domain: 100 bytes that overlap them: {}", name(answer));
    let (answer, start, size, attr) = get(&domain, 0);
    println!("domain: slot 0: {}, start 0x{start:08X}, size {size}, attr {attr}", name(answer));
    let (answer, value) = contains(&domain, SCREEN + 99);
    println!("domain: holds its last address: {}, {value}", name(answer));
    let (answer, value) = contains(&domain, SCREEN + 100);
    println!("domain: holds the address behind: {}, {value}", name(answer));
    let (answer, _) = plan(&domain, 8, &mut [0; PLAN_MOST]);
    println!("domain: planned, though 100 is no power of two: {}", name(answer));
    let (answer, slot) = remove(&mut domain, SCREEN, 100);
    println!("domain: removed: {}, slot {slot}", name(answer));
    let (answer, _) = remove(&mut domain, 0, 0);
    println!("domain: nothing is removed: {}", name(answer));
    let (answer, _) = has_free(&domain[..DOMAIN_NUMBERS - 3]);
    println!("domain: lent with a slot too few: {}", name(answer));
    let (answer, value) = has_free(&domain);
    println!("domain: has a free slot: {}, {value}", name(answer));
    println!("window: 15 bytes at 0xFFFFFFF0 are valid: {}", yes(unsafe { wardlatch_partition_valid(0xFFFF_FFF0, 15) }));
    println!("window: 16 bytes at 0xFFFFFFF0 are valid: {}", yes(unsafe { wardlatch_partition_valid(0xFFFF_FFF0, 16) }));
    println!("window: neighbours overlap: {}", yes(unsafe { wardlatch_partitions_overlap(0, 32, 32, 32) }));
}

// One object of the firmware's own, and upstream's numbers. Each pointer is to a local.
fn object_alone() {
    let (mut word, mut flags, mut value, mut number) = (0u64, 2u8, 0u32, 0i32);
    let answer = unsafe { wardlatch_grant(&mut word, 63) };
    println!("object: granted to thread 63: {}, word 0x{word:016X}", name(answer));
    let answer = unsafe { wardlatch_grant(&mut word, 64) };
    println!("object: granted to thread 64: {}, word 0x{word:016X}", name(answer));
    let answer = unsafe { wardlatch_has_perm(word, 63, &mut value) };
    println!("object: thread 63 holds it: {}, {value}", name(answer));
    println!("object: thread 5 may use it: {}", yes(unsafe { wardlatch_check_access(0, word, 5, false) }));
    println!("object: a supervisor may use it: {}", yes(unsafe { wardlatch_check_access(0, word, 5, true) }));
    let answer = unsafe { wardlatch_validate(MUTEX as u8, 0, word, MUTEX as u8, 5, false, 1) };
    println!("object: validated for thread 5: {}", name(answer));
    let answer = unsafe { wardlatch_revoke(&mut word, 63) };
    println!("object: revoked: {}, word 0x{word:016X}", name(answer));
    let answer = unsafe { wardlatch_recycle(&mut flags, &mut word, 2) };
    println!("object: recycled by thread 2: {}, flags {flags}, word 0x{word:016X}", name(answer));
    let answer = unsafe { wardlatch_to_errno(2, &mut number) };
    println!("errno: EPERM is upstream's: {}, {number}", name(answer));
    let answer = unsafe { wardlatch_to_errno(11, &mut number) };
    println!("errno: ROOM has none: {}, {number}", name(answer));
}

fn main() {
    let mut pump = Latch::new();
    boot(&mut pump);
    set_up(&mut pump);
    radio_tries(&mut pump);
    dosing(&mut pump);
    images(&pump);
    regions(&pump);
    domain_alone();
    object_alone();
}
