//! The declarations of takhvoi.h and takhvoi_file.h.
#![allow(dead_code)]

use std::ffi::{c_char, c_int, c_void};

/// A kernel as C has it.
#[repr(C)]
pub struct RawKernel {
    at: *mut c_void,
    live: u32,
}

/// A kernel on a file of the system as C has it; or on none.
#[repr(C)]
pub struct RawFile {
    pub kernel: RawKernel,
    fd: c_int,
    next: u32,
}

impl RawFile {
    /// No kernel: TAKHVOI_FILE_NONE.
    pub const NONE: RawFile = RawFile { kernel: RawKernel { at: std::ptr::null_mut(), live: 0 }, fd: -1, next: 0 };
}

/// A block in memory.
#[repr(C)]
#[derive(Clone, Copy, Debug, Default, PartialEq, Eq)]
pub struct RawPlace {
    /// Its number.
    pub block: u32,
    /// Where it begins in the region.
    pub at: u32,
    /// Its size in bytes.
    pub size: u32,
    /// How often it is locked.
    pub locks: u32,
}

/// A chunk of a block in memory.
#[repr(C)]
#[derive(Clone, Copy, Debug, Default, PartialEq, Eq)]
pub struct RawChunk {
    /// Its handle.
    pub handle: u32,
    /// Where its bytes begin in the region.
    pub at: u32,
    /// How many bytes it has.
    pub len: u32,
}

/// A block or group of the VM file.
#[repr(C)]
#[derive(Clone, Copy, Debug, Default, PartialEq, Eq)]
pub struct RawEntry {
    /// Its handle.
    pub handle: u32,
    /// Its user ID.
    pub user_id: u32,
    /// Its size in bytes.
    pub size: u32,
    /// 1 if it is in memory, otherwise 0.
    pub in_memory: u32,
    /// 1 if it is marked, otherwise 0.
    pub marked: u32,
    /// How often it is locked.
    pub locks: u32,
}

/// A routine of an image.
#[repr(C)]
#[derive(Clone, Copy, Debug, Default, PartialEq, Eq)]
pub struct RawRoutine {
    /// Its name, and zeros.
    pub name: [u8; 16],
    /// 1 if it is public, otherwise 0.
    pub is_public: u32,
    /// Its first instruction.
    pub first: u32,
    /// How many instructions it has.
    pub length: u32,
    /// Its budget.
    pub budget: u32,
    /// The bounds of w0 to w7 where it begins.
    pub bounds: [u16; 8],
    /// What s0 to s3 hold there, by numbers of takhvoi.h.
    pub slots: [u8; 4],
}

/// Why a text may not run.
#[repr(C)]
#[derive(Clone, Copy, Debug, Default, PartialEq, Eq)]
pub struct RawFinding {
    /// Which kind of finding it is.
    pub kind: u32,
    /// The line.
    pub line: u32,
    /// The column, or 0.
    pub column: u32,
    /// The rule, or 0.
    pub rule: u32,
    /// The routine of a refusal.
    pub routine: u32,
    /// The instruction that is refused.
    pub instruction: u32,
    /// Where the sentence begins.
    pub from: u32,
    /// How many bytes it has.
    pub len: u32,
}

/// A machine before a step.
#[repr(C)]
#[derive(Clone, Copy, Debug, Default, PartialEq, Eq)]
pub struct RawState {
    /// The instruction that comes next.
    pub instruction: u32,
    /// Where p0 to p3 lead in the region.
    pub pointers: [u32; 4],
    /// How many bytes there are from there on.
    pub spans: [u32; 4],
    /// The numbers of the blocks in s0 to s3.
    pub slots: [u32; 4],
    /// w0 to w7.
    pub words: [u16; 8],
    /// k0 to k3.
    pub counters: [u16; 4],
    /// Bit n is 1 if slot n holds a block.
    pub held: u16,
    /// Bit n is 1 if the verifier knows where pointer n leads; otherwise it may be stale.
    pub good: u16,
}

/// The interface that these declarations are of.
pub const ABI: u32 = 1;

/// The block of the VM file with a handle: TAKHVOI_VM.
pub const fn of_file(handle: u16) -> u32 {
    65_536 + handle as u32
}

extern "C" {
    pub fn takhvoi_abi() -> u32;
    pub fn takhvoi_new(kernel: *mut RawKernel, area: u32, region: u32) -> u32;
    pub fn takhvoi_create(kernel: *mut RawKernel, area: u32, region: u32) -> u32;
    pub fn takhvoi_open(kernel: *mut RawKernel, bytes: *const u8, len: usize, region: u32, fault: *mut u64) -> u32;
    pub fn takhvoi_close(kernel: *mut RawKernel) -> u32;
    pub fn takhvoi_is_sure(kernel: *mut RawKernel, sure: *mut u16) -> u32;
    pub fn takhvoi_limit(kernel: *mut RawKernel, more: u32) -> u32;
    pub fn takhvoi_limit_blocks(kernel: *mut RawKernel, last: u16) -> u32;
    pub fn takhvoi_mnew(kernel: *mut RawKernel, handle: *mut u16) -> u32;
    pub fn takhvoi_mlock(kernel: *mut RawKernel, handle: u16) -> u32;
    pub fn takhvoi_mfree(kernel: *mut RawKernel, handle: u16) -> u32;
    pub fn takhvoi_mlist(kernel: *mut RawKernel, into: *mut u16, room: usize, count: *mut u32) -> u32;
    pub fn takhvoi_unlock(kernel: *mut RawKernel, block: u32) -> u32;
    pub fn takhvoi_locks(kernel: *mut RawKernel, block: u32, count: *mut u16) -> u32;
    pub fn takhvoi_marked(kernel: *mut RawKernel, handle: u16, marked: *mut u16) -> u32;
    pub fn takhvoi_lalloc(kernel: *mut RawKernel, block: u32, len: u16, chunk: *mut u16) -> u32;
    pub fn takhvoi_lfree(kernel: *mut RawKernel, block: u32, chunk: u16) -> u32;
    pub fn takhvoi_lrealloc(kernel: *mut RawKernel, block: u32, chunk: u16, len: u16) -> u32;
    pub fn takhvoi_lins(kernel: *mut RawKernel, block: u32, chunk: u16, at: u16, len: u16) -> u32;
    pub fn takhvoi_ldel(kernel: *mut RawKernel, block: u32, chunk: u16, at: u16, len: u16) -> u32;
    pub fn takhvoi_lcontract(kernel: *mut RawKernel, block: u32) -> u32;
    pub fn takhvoi_lsize(kernel: *mut RawKernel, block: u32, chunk: u16, len: *mut u16) -> u32;
    pub fn takhvoi_llist(kernel: *mut RawKernel, block: u32, into: *mut u16, room: usize, count: *mut u32) -> u32;
    pub fn takhvoi_read(kernel: *mut RawKernel, block: u32, chunk: u16, at: u16, into: *mut u8, len: usize) -> u32;
    pub fn takhvoi_write(kernel: *mut RawKernel, block: u32, chunk: u16, at: u16, from: *const u8, len: usize) -> u32;
    pub fn takhvoi_canew(kernel: *mut RawKernel, block: u32, element_size: u16, chunk: *mut u16) -> u32;
    pub fn takhvoi_cacount(kernel: *mut RawKernel, block: u32, chunk: u16, count: *mut u16) -> u32;
    pub fn takhvoi_caadd(kernel: *mut RawKernel, block: u32, chunk: u16, len: u16) -> u32;
    pub fn takhvoi_cains(kernel: *mut RawKernel, block: u32, chunk: u16, index: u16, len: u16) -> u32;
    pub fn takhvoi_cadel(kernel: *mut RawKernel, block: u32, chunk: u16, index: u16) -> u32;
    pub fn takhvoi_cazero(kernel: *mut RawKernel, block: u32, chunk: u16) -> u32;
    pub fn takhvoi_caresize(kernel: *mut RawKernel, block: u32, chunk: u16, index: u16, len: u16) -> u32;
    pub fn takhvoi_casize(kernel: *mut RawKernel, block: u32, chunk: u16, index: u16, len: *mut u16) -> u32;
    pub fn takhvoi_caread(kernel: *mut RawKernel, block: u32, chunk: u16, index: u16, at: u16, into: *mut u8, len: usize) -> u32;
    pub fn takhvoi_cawrite(kernel: *mut RawKernel, block: u32, chunk: u16, index: u16, at: u16, from: *const u8, len: usize) -> u32;
    pub fn takhvoi_vnew(kernel: *mut RawKernel, user_id: u16, handle: *mut u16) -> u32;
    pub fn takhvoi_vlock(kernel: *mut RawKernel, handle: u16) -> u32;
    pub fn takhvoi_vdirty(kernel: *mut RawKernel, handle: u16) -> u32;
    pub fn takhvoi_vfree(kernel: *mut RawKernel, handle: u16) -> u32;
    pub fn takhvoi_vfind(kernel: *mut RawKernel, above: u16, user_id: u16, handle: *mut u16) -> u32;
    pub fn takhvoi_vuid(kernel: *mut RawKernel, handle: u16, user_id: *mut u16) -> u32;
    pub fn takhvoi_vlist(kernel: *mut RawKernel, into: *mut u16, room: usize, count: *mut u32) -> u32;
    pub fn takhvoi_vgetmap(kernel: *mut RawKernel, handle: *mut u16) -> u32;
    pub fn takhvoi_vsetmap(kernel: *mut RawKernel, handle: u16) -> u32;
    pub fn takhvoi_gnew(kernel: *mut RawKernel, group: *mut u16) -> u32;
    pub fn takhvoi_gfree(kernel: *mut RawKernel, group: u16) -> u32;
    pub fn takhvoi_inew(kernel: *mut RawKernel, group: u16, len: u16, item: *mut u16) -> u32;
    pub fn takhvoi_ifree(kernel: *mut RawKernel, group: u16, item: u16) -> u32;
    pub fn takhvoi_irealloc(kernel: *mut RawKernel, group: u16, item: u16, len: u16) -> u32;
    pub fn takhvoi_iins(kernel: *mut RawKernel, group: u16, item: u16, at: u16, len: u16) -> u32;
    pub fn takhvoi_idel(kernel: *mut RawKernel, group: u16, item: u16, at: u16, len: u16) -> u32;
    pub fn takhvoi_ilock(kernel: *mut RawKernel, group: u16, item: u16, len: *mut u16) -> u32;
    pub fn takhvoi_ilist(kernel: *mut RawKernel, group: u16, into: *mut u16, room: usize, count: *mut u32) -> u32;
    pub fn takhvoi_igetmap(kernel: *mut RawKernel, group: *mut u16, item: *mut u16) -> u32;
    pub fn takhvoi_isetmap(kernel: *mut RawKernel, group: u16, item: u16) -> u32;
    pub fn takhvoi_update(kernel: *mut RawKernel) -> u32;
    pub fn takhvoi_save(kernel: *mut RawKernel) -> u32;
    pub fn takhvoi_revert(kernel: *mut RawKernel) -> u32;
    pub fn takhvoi_step(kernel: *mut RawKernel, number: u32, kind: *mut u16, at: *mut u64, len: *mut u64) -> u32;
    pub fn takhvoi_step_bytes(kernel: *mut RawKernel, number: u32, from: u64, into: *mut u8, len: usize) -> u32;
    pub fn takhvoi_performed(kernel: *mut RawKernel) -> u32;
    pub fn takhvoi_load(kernel: *mut RawKernel, bytes: *const u8, len: usize, image: *mut u32, place: *mut u64, rule: *mut u32) -> u32;
    pub fn takhvoi_load_granted(
        kernel: *mut RawKernel,
        bytes: *const u8,
        len: usize,
        grants: u32,
        image: *mut u32,
        place: *mut u64,
        rule: *mut u32,
        routine: *mut u16,
        effect: *mut u32,
    ) -> u32;
    pub fn takhvoi_effects(kernel: *mut RawKernel, image: u32, routine: u16, effects: *mut u32) -> u32;
    pub fn takhvoi_budget(kernel: *mut RawKernel, image: u32, routine: u16, budget: *mut u32) -> u32;
    pub fn takhvoi_unload(kernel: *mut RawKernel, image: u32) -> u32;
    pub fn takhvoi_routine(kernel: *mut RawKernel, image: u32, name: *const u8, name_len: usize, routine: *mut u16) -> u32;
    pub fn takhvoi_run(
        kernel: *mut RawKernel,
        image: u32,
        routine: u16,
        words: *mut u16,
        lent: *const u16,
        output: *mut u16,
        room: usize,
        count: *mut u32,
        steps: *mut u32,
    ) -> u32;
    pub fn takhvoi_places(kernel: *mut RawKernel, into: *mut RawPlace, room: usize, count: *mut u32) -> u32;
    pub fn takhvoi_region(kernel: *mut RawKernel, at: u32, into: *mut u8, len: usize) -> u32;
    pub fn takhvoi_chunks(kernel: *mut RawKernel, block: u32, into: *mut RawChunk, room: usize, count: *mut u32) -> u32;
    pub fn takhvoi_entries(kernel: *mut RawKernel, into: *mut RawEntry, room: usize, count: *mut u32) -> u32;
    pub fn takhvoi_routines(kernel: *mut RawKernel, image: u32, into: *mut RawRoutine, room: usize, count: *mut u32) -> u32;
    pub fn takhvoi_lines(text: *const u8, text_len: usize, into: *mut u32, room: usize, told: *mut u64) -> u32;
    pub fn takhvoi_findings(
        text: *const u8,
        text_len: usize,
        into: *mut RawFinding,
        room: usize,
        count: *mut u32,
        said: *mut u8,
        said_room: usize,
        told: *mut u64,
    ) -> u32;
    pub fn takhvoi_trace(
        kernel: *mut RawKernel,
        image: u32,
        routine: u16,
        words: *mut u16,
        lent: *const u16,
        output: *mut u16,
        output_room: usize,
        count: *mut u32,
        steps: *mut u32,
        first: u32,
        into: *mut RawState,
        room: usize,
    ) -> u32;
    pub fn takhvoi_memory_at(
        kernel: *mut RawKernel,
        image: u32,
        routine: u16,
        words: *mut u16,
        lent: *const u16,
        step: u32,
        into: *mut RawPlace,
        room: usize,
        count: *mut u32,
        region: *mut u8,
        len: usize,
    ) -> u32;
    pub fn takhvoi_assemble(text: *const u8, text_len: usize, into: *mut u8, room: usize, told: *mut u64) -> u32;
    pub fn takhvoi_list(image: *const u8, image_len: usize, into: *mut u8, room: usize, told: *mut u64) -> u32;
    pub fn takhvoi_explain(image: *const u8, image_len: usize, into: *mut u8, room: usize, told: *mut u64) -> u32;
    pub fn takhvoi_explain_text(
        text: *const u8,
        text_len: usize,
        into: *mut u8,
        room: usize,
        told: *mut u64,
        line: *mut u64,
        column: *mut u64,
    ) -> u32;
    pub fn takhvoi_compile(source: *const u8, source_len: usize, into: *mut u8, room: usize, told: *mut u64) -> u32;
    pub fn takhvoi_explain_source(
        source: *const u8,
        source_len: usize,
        into: *mut u8,
        room: usize,
        told: *mut u64,
        line: *mut u64,
        column: *mut u64,
    ) -> u32;
    pub fn takhvoi_file_flush(file: *mut RawFile) -> u32;
    pub fn takhvoi_file_close(file: *mut RawFile) -> u32;
    pub fn takhvoi_file_open(file: *mut RawFile, path: *const c_char, region: u32, fault: *mut u64) -> u32;
    pub fn takhvoi_file_create(file: *mut RawFile, path: *const c_char, area: u32, region: u32) -> u32;
    pub fn takhvoi_file_update(file: *mut RawFile) -> u32;
    pub fn takhvoi_file_save(file: *mut RawFile) -> u32;
    pub fn takhvoi_file_revert(file: *mut RawFile) -> u32;
    pub fn takhvoi_file_run(
        file: *mut RawFile,
        image: u32,
        routine: u16,
        words: *mut u16,
        lent: *const u16,
        output: *mut u16,
        room: usize,
        count: *mut u32,
        steps: *mut u32,
    ) -> u32;
}
