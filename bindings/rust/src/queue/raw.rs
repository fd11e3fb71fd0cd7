//! The functions of libdsa_queue, as `dsa_queue.h` declares them.

use std::os::raw::{c_char, c_int};

/// `DSA_WHY_ROOM`.
pub const WHY_ROOM: usize = 1024;

pub const KEEP_FAULTS: u32 = 1;
pub const BLOCK_ON_FAULT: u32 = 2;
pub const OR_SOFTWARE: u32 = 4;
pub const SOFTWARE: u32 = 8;
pub const IN_FLIGHT: u32 = 16;

// how a list ends; any other answer is a refusal
pub const DONE: c_int = 0;
pub const FAILED: c_int = 1;
pub const LOST: c_int = 3;
pub const LEFT_OUT: c_int = 4;
pub const RUNNING: c_int = 5;

#[repr(C)]
pub struct Queue {
    _opaque: [u8; 0],
}

#[repr(C)]
pub struct List {
    _opaque: [u8; 0],
}

#[repr(C)]
pub struct Options {
    pub flags: u32,
    pub lists: u32,
    pub pieces: u32,
    pub wait_ms: u32,
    pub lone: u64,
    pub batch: u64,
    pub fence: u64,
}

#[repr(C)]
pub struct Outcome {
    pub status: u8,
    pub is_write: u8,
    pub result: u8,
    pub has_checksum: u8,
    pub checksum: u32,
    pub offset: u64,
    pub fault: u64,
}

extern "C" {
    pub fn dsa_queue_open(file: *const c_char, options: &Options, why: *mut c_char) -> *mut Queue;
    pub fn dsa_queue_close(queue: *mut Queue);
    pub fn dsa_queue_name(queue: *const Queue) -> *const c_char;
    pub fn dsa_queue_poll(queue: *mut Queue) -> *mut List;
    pub fn dsa_list_get(queue: *mut Queue) -> *mut List;
    pub fn dsa_list_drop(list: *mut List);
    pub fn dsa_list_clear(list: *mut List);
    pub fn dsa_list_add(list: *mut List, descriptor: *const u8, size: u64) -> c_int;
    pub fn dsa_list_barrier(list: *mut List);
    pub fn dsa_list_run(list: *mut List) -> c_int;
    pub fn dsa_list_start(list: *mut List) -> c_int;
    pub fn dsa_list_after(list: *mut List, other: *const List);
    pub fn dsa_list_test(list: *mut List) -> c_int;
    pub fn dsa_list_wait(list: *mut List) -> c_int;
    pub fn dsa_list_result(list: *const List, operation: c_int) -> Outcome;
    pub fn dsa_list_failed(list: *const List) -> c_int;
    pub fn dsa_list_why(list: *const List, why: *mut c_char) -> *mut c_char;
}
