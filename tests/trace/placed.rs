// A Rust program submits a batch that lacks a fence.
use std::arch::asm;
use std::ffi::{c_char, c_int, c_void};
use std::ptr::{addr_of, addr_of_mut, null_mut, read_volatile};

extern "C" {
    fn open(path: *const c_char, flags: c_int, ...) -> c_int;
    fn mmap(at: *mut c_void, size: usize, protection: c_int, flags: c_int, file: c_int, offset: i64) -> *mut c_void;
}

#[repr(C, align(64))]
struct Descriptor([u8; 64]);
#[repr(C, align(32))]
struct Completion([u8; 32]);

fn put(d: &mut Descriptor, at: usize, value: u64) {
    d.0[at..at + 8].copy_from_slice(&value.to_le_bytes());
}

fn copy(from: u64, to: u64) -> Descriptor {
    let mut d = Descriptor([0; 64]);
    d.0[7] = 3; // a move
    put(&mut d, 16, from);
    put(&mut d, 24, to);
    put(&mut d, 32, 4096);
    d
}

#[inline(always)]
fn submit(portal: *mut c_void, d: &Descriptor) {
    unsafe { asm!("movdir64b {}, [{}]", in(reg) portal, in(reg) d) }
}

#[inline(never)]
fn commit(portal: *mut c_void, list: &[Descriptor; 2]) {
    let mut completion = Completion([0; 32]);
    let mut batch = Descriptor([0; 64]);
    batch.0[7] = 1;
    batch.0[4] = 0x0c; // its record has an address, and is requested
    put(&mut batch, 8, addr_of!(completion) as u64);
    put(&mut batch, 16, list.as_ptr() as u64);
    put(&mut batch, 32, 2);
    let status = addr_of_mut!(completion.0[0]);
    submit(portal, &batch);
    while unsafe { read_volatile(status) } == 0 {
        std::hint::spin_loop();
    }
}

fn main() {
    let (read_write, write, shared) = (2, 2, 1); // O_RDWR, PROT_WRITE, MAP_SHARED
    let memory = vec![0u8; 3 * 4096];
    let at = memory.as_ptr() as u64;
    let list = [copy(at, at + 4096), copy(at + 4096, at + 8192)];
    let portal = unsafe {
        let file = open(b"/dev/dsa/wq0.0\0".as_ptr().cast(), read_write);
        mmap(null_mut(), 4096, write, shared, file, 0)
    };
    commit(portal, &list);
    println!("done {}", memory[0]);
}
