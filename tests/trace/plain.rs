// A Rust program submits: the standard library's handler of SIGSEGV has a stack of its own of a few pages.
use std::arch::asm;
use std::ffi::{c_char, c_int, c_void};
use std::ptr::{addr_of, addr_of_mut, null_mut, read_volatile, write_volatile};

extern "C" {
    fn open(path: *const c_char, flags: c_int, ...) -> c_int;
    fn mmap(at: *mut c_void, size: usize, protection: c_int, flags: c_int, file: c_int, offset: i64) -> *mut c_void;
}

#[repr(C, align(64))]
struct Descriptor([u8; 64]);
#[repr(C, align(32))]
struct Completion([u8; 32]);

fn main() {
    let (read_write, write, shared) = (2, 2, 1); // O_RDWR, PROT_WRITE, MAP_SHARED
    let mut descriptor = Descriptor([0; 64]); // a no-op
    let mut completion = Completion([0; 32]);
    descriptor.0[4] = 0x0c; // its record has an address, and is requested
    descriptor.0[8..16].copy_from_slice(&(addr_of!(completion) as u64).to_le_bytes());
    let status = addr_of_mut!(completion.0[0]);
    unsafe {
        let file = open(b"/dev/dsa/wq0.0\0".as_ptr().cast(), read_write);
        let portal = mmap(null_mut(), 4096, write, shared, file, 0);
        for _ in 0..5 {
            write_volatile(status, 0);
            asm!("movdir64b {}, [{}]", in(reg) portal, in(reg) &descriptor);
            while read_volatile(status) == 0 {
                std::hint::spin_loop();
            }
        }
        println!("status {}", read_volatile(status));
    }
}
