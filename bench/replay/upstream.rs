// What upstream's values are here (docs/SPEC.md, 1 and 2): types by number, answers, and a record with its flags and its word. It stands beside
// upstream's modules as bench/replay/strip leaves them; the benchmark's baseline and tests/oracle use it.
use crate::error;
use crate::userspace::{KernelObject, ObjType};

pub const TYPES: [ObjType; 16] = [
    ObjType::Any, ObjType::Thread, ObjType::Sem, ObjType::Mutex, ObjType::CondVar, ObjType::MsgQ, ObjType::Stack, ObjType::Pipe,
    ObjType::Timer, ObjType::Event, ObjType::MemSlab, ObjType::Fifo, ObjType::Lifo, ObjType::SysMutex, ObjType::Futex, ObjType::Mbox,
];

pub fn number(errno: i32) -> u32 {
    match errno {
        error::OK => 0,
        error::EINVAL => 1,
        error::EPERM => 2,
        error::EBADF => 3,
        error::EADDRINUSE => 4,
        error::ENOSPC => 5,
        error::ENOENT => 6,
        other => panic!("upstream answers {other}"),
    }
}

// Upstream has four flags; the bits above them have no meaning there.
pub fn record(kind: u8, flags: u8, word: u64) -> KernelObject {
    let mut o = KernelObject::new(TYPES[kind as usize]);
    o.flag_initialized = flags & 1 != 0;
    o.flag_public = flags & 2 != 0;
    o.flag_alloc = flags & 4 != 0;
    o.flag_driver = flags & 8 != 0;
    o.thread_perms = std::array::from_fn(|t| word >> t & 1 == 1);
    o
}
