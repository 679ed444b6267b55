//! The calls of libtazbrev, as `tazbrev.h` declares them. The header says what each does and what is owed to it; the
//! crate `tazbrev` is the safe form. `TAZBREV_LIB_DIR` names the folder of the library when this is built.
#![no_std]

use core::ffi::c_void;

/// What calls answer.
pub const TZB_OK: i32 = 0;
pub const TZB_REPLIED: i32 = 1;
pub const TZB_NO_MEMORY: i32 = -1;
pub const TZB_CLOSED: i32 = -2;
pub const TZB_OPEN: i32 = -3;
pub const TZB_WRONG: i32 = -4;
pub const TZB_UNFIT: i32 = -5;
pub const TZB_ROOM: i32 = -6;

/// Why the mesh refuses a command or a request.
pub const TZB_ENOENT: u32 = 1;
pub const TZB_EEXIST: u32 = 2;
pub const TZB_EBADF: u32 = 3;
pub const TZB_ENXIO: u32 = 4;
pub const TZB_EPERM: u32 = 5;
pub const TZB_EOVERFLOW: u32 = 6;
pub const TZB_EBUSY: u32 = 7;
pub const TZB_EINVAL: u32 = 8;
pub const TZB_EIO: u32 = 9;
pub const TZB_ELOOP: u32 = 10;
pub const TZB_EDEEP: u32 = 11;

/// What is due.
pub const TZB_IDLE: u32 = 0;
pub const TZB_ASK: u32 = 1;
pub const TZB_REPLY: u32 = 2;
pub const TZB_MOVED: u32 = 3;
pub const TZB_CHANGED: u32 = 4;

/// What a disk is asked for.
pub const TZB_READ: u32 = 1;
pub const TZB_WRITE: u32 = 2;
pub const TZB_DELETE: u32 = 3;
pub const TZB_FLUSH: u32 = 4;

/// The most bytes that a request has.
pub const TZB_MOST_BYTES: usize = 32768;

/// A handle. It begins as zeros; its fields are the library's own.
#[repr(C)]
#[derive(Debug)]
pub struct TzbCore {
    pub is_open: bool,
    pub held: *mut c_void,
}

/// How large a disk is.
#[repr(C)]
#[derive(Debug, Clone, Copy, Default)]
pub struct TzbSize {
    pub sectors: u64,
    pub sector: u32,
    pub spare: u32,
}

/// What is due.
#[repr(C)]
#[derive(Debug, Clone, Copy, Default)]
pub struct TzbEvent {
    pub kind: u32,
    pub op: u32,
    pub disk: u32,
    pub count: u32,
    pub bio: u64,
    pub first: u64,
    pub token: u64,
    pub len: u64,
    pub error: u32,
    pub spare: u32,
    pub generation: u64,
}

/// A step that is due.
#[repr(C)]
#[derive(Debug, Clone, Copy, Default)]
pub struct TzbStep {
    pub kind: u32,
    pub place: u32,
    pub bio: u64,
}

pub const TZB_STEP_NONE: u32 = 0;
pub const TZB_STEP_UP: u32 = 1;
pub const TZB_STEP_TAKE: u32 = 2;
pub const TZB_STEP_START: u32 = 3;
pub const TZB_STEP_JUDGE: u32 = 4;
pub const TZB_STEP_EVENT: u32 = 5;
pub const TZB_STEP_REAP: u32 = 6;
pub const TZB_STEP_WASH: u32 = 7;

extern "C" {
    pub fn tzb_core_open(
        core: *mut TzbCore,
        header: *const u8,
        header_len: usize,
        sizes: *const TzbSize,
        size_count: usize,
        fault: *mut u32,
    ) -> i32;
    pub fn tzb_core_close(core: *mut TzbCore);
    pub fn tzb_core_open_handle(
        core: *mut TzbCore,
        actor: u32,
        handle: *const u8,
        handle_len: usize,
        provider: *const u8,
        provider_len: usize,
        r: u32,
        w: u32,
        e: u32,
        token: u64,
        error: *mut u32,
    ) -> i32;
    pub fn tzb_core_close_handle(
        core: *mut TzbCore,
        actor: u32,
        handle: *const u8,
        handle_len: usize,
        token: u64,
        error: *mut u32,
    ) -> i32;
    pub fn tzb_core_submit_read(
        core: *mut TzbCore,
        actor: u32,
        handle: *const u8,
        handle_len: usize,
        offset: u64,
        len: u64,
        token: u64,
        error: *mut u32,
    ) -> i32;
    pub fn tzb_core_submit_write(
        core: *mut TzbCore,
        actor: u32,
        handle: *const u8,
        handle_len: usize,
        offset: u64,
        bytes: *const u8,
        len: usize,
        token: u64,
        error: *mut u32,
    ) -> i32;
    pub fn tzb_core_submit_delete(
        core: *mut TzbCore,
        actor: u32,
        handle: *const u8,
        handle_len: usize,
        offset: u64,
        len: u64,
        token: u64,
        error: *mut u32,
    ) -> i32;
    pub fn tzb_core_submit_flush(
        core: *mut TzbCore,
        actor: u32,
        handle: *const u8,
        handle_len: usize,
        token: u64,
        error: *mut u32,
    ) -> i32;
    pub fn tzb_core_insert(
        core: *mut TzbCore,
        actor: u32,
        disk: *const u8,
        disk_len: usize,
        token: u64,
        error: *mut u32,
    ) -> i32;
    pub fn tzb_core_pull(
        core: *mut TzbCore,
        actor: u32,
        disk: *const u8,
        disk_len: usize,
        token: u64,
        error: *mut u32,
    ) -> i32;
    pub fn tzb_core_command(
        core: *mut TzbCore,
        script: *const u8,
        script_len: usize,
        token: u64,
        error: *mut u32,
    ) -> i32;
    pub fn tzb_core_list(core: *mut TzbCore, bytes: *mut u8, len: usize, need: *mut u64) -> i32;
    pub fn tzb_core_due(core: *mut TzbCore, step: *mut TzbStep) -> i32;
    pub fn tzb_core_next(core: *mut TzbCore, event: *mut TzbEvent, bytes: *mut u8, len: usize) -> i32;
    pub fn tzb_core_answer_bytes(core: *mut TzbCore, bio: u64, bytes: *const u8, len: usize) -> i32;
    pub fn tzb_core_answer_done(core: *mut TzbCore, bio: u64) -> i32;
    pub fn tzb_core_answer_failed(core: *mut TzbCore, bio: u64, done: u32) -> i32;
    pub fn tzb_core_waiting(core: *mut TzbCore) -> u64;
    pub fn tzb_core_steps(core: *mut TzbCore) -> u64;
    pub fn tzb_core_generation(core: *mut TzbCore) -> u64;
}
