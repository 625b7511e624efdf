// Calls the permission leaf at its limits from Rust and prints what it answers; `run` compiles, runs and compares.
extern "C" {
    fn userspace_grant(word: *mut u64, tid: u32) -> u32;
    fn userspace_revoke(word: *mut u64, tid: u32) -> u32;
    fn userspace_recycle(flags: *mut u8, word: *mut u64, tid: u32) -> u32;
    fn userspace_has_perm(word: u64, tid: u32, value: *mut u32) -> u32;
    fn userspace_check_access(flags: u8, word: u64, tid: u32, supervisor: bool) -> bool;
    fn userspace_validate(kind: u8, flags: u8, word: u64, expected: u8, tid: u32, supervisor: bool, mode: i32) -> u32;
}

fn main() {
    for tid in [0, 63, 64, u32::MAX] {
        for word in [0, 1, 1u64 << 63, u64::MAX] {
            for flags in [0u8, 1, 2, 255] {
                // SAFETY: each pointer is to a local of this turn, and the functions have no other condition.
                unsafe { one(tid, word, flags) }
            }
        }
    }
}

unsafe fn one(tid: u32, word: u64, flags: u8) {
    let mut after = word;
    let code = userspace_grant(&mut after, tid);
    println!("grant {code} {after}");
    after = word;
    let code = userspace_revoke(&mut after, tid);
    println!("revoke {code} {after}");
    let mut value = 7;
    let code = userspace_has_perm(word, tid, &mut value);
    println!("has_perm {code} {value}");
    for supervisor in [false, true] {
        println!("access {}", u8::from(userspace_check_access(flags, word, tid, supervisor)));
        for mode in [0, -1, 1, -2, i32::MAX, i32::MIN] {
            for expected in [0, 2, 4] {
                println!("validate {}", userspace_validate(2, flags, word, expected, tid, supervisor, mode));
            }
        }
    }
    after = word;
    let mut flags_after = flags;
    let code = userspace_recycle(&mut flags_after, &mut after, tid);
    println!("recycle {code} {flags_after} {after}");
}
