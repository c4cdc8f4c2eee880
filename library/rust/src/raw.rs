//! The calls of `cuvragyen.h`.

use std::os::raw::c_char;

#[repr(C)]
pub struct Handle {
    log: *mut u8,
    state: *mut u8,
    options: *mut u8,
}

impl Handle {
    pub const CLOSED: Handle =
        Handle { log: std::ptr::null_mut(), state: std::ptr::null_mut(), options: std::ptr::null_mut() };
}

#[repr(C)]
pub struct View {
    pub at: *const u8,
    pub len: usize,
}

impl View {
    pub const EMPTY: View = View { at: std::ptr::null(), len: 0 };
}

#[repr(C)]
#[derive(Default)]
pub struct Header {
    pub time: u32,
    pub server_id: u32,
    pub position: u32,
}

#[repr(C)]
#[derive(Default)]
pub struct End {
    pub offset: u64,
    pub remaining: u64,
    pub verdict: u32,
    pub last_commit: u32,
    pub event_type: u32,
    pub event_size: u32,
    pub newest_type: u32,
    pub has_last_commit: bool,
    pub has_event: bool,
    pub has_newest_type: bool,
    pub is_open: bool,
    pub is_cut: bool,
}

#[repr(C)]
#[derive(Default)]
pub struct Kept {
    pub len: u64,
    pub file_len: u64,
    pub position: u32,
    pub has_position: bool,
}

pub const OK: u32 = 0;
pub const TRANSACTION: u32 = 1;
pub const BAD_OPTION: u32 = 3;
pub const BAD_VALUE: u32 = 4;
pub const BAD_SCHEMA: u32 = 6;

extern "C" {
    pub fn cuvragyen_version() -> *const c_char;
    pub fn cuvragyen_open(log: *mut Handle, options: *const c_char, len: usize) -> u32;
    pub fn cuvragyen_open_with_schema(
        log: *mut Handle,
        options: *const c_char,
        len: usize,
        schema: *const u8,
        schema_len: usize,
        line: *mut u64,
    ) -> u32;
    pub fn cuvragyen_push(log: *mut Handle, bytes: *const u8, len: usize) -> u32;
    pub fn cuvragyen_next(log: *mut Handle) -> u32;
    pub fn cuvragyen_show(log: *mut Handle, shown: *mut View) -> u32;
    pub fn cuvragyen_commit(log: *mut Handle, commit: *mut Header) -> u32;
    pub fn cuvragyen_stop(log: *mut Handle, end: *mut End) -> u32;
    pub fn cuvragyen_close(log: *mut Handle);
    pub fn cuvragyen_verdict_name(verdict: u32, name: *mut View);
    pub fn cuvragyen_crc32(bytes: *const u8, len: usize) -> u32;
    pub fn cuvragyen_request(
        position: u32,
        server_id: u32,
        name: *const u8,
        name_len: usize,
        packet: *mut u8,
        room: usize,
    ) -> usize;
    pub fn cuvragyen_kept_json(lines: *const u8, len: usize, kept: *mut Kept, file: *mut u8, room: usize) -> u32;
}
