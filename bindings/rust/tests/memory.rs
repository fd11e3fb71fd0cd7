//! An allocator that refuses each allocation of a call in turn: the answer is `Memory`, the buffers are as before, and
//! every byte has come back.

use std::alloc::{GlobalAlloc, Layout, System};
use std::cell::Cell;
use std::ptr;

use dsa_planner::{
    judge, plan_into, plan_list, BatchPrice, Cause, Refusal, Settings, BEGINS, FENCED,
};

struct Refusing;

thread_local! {
    // How many allocations until one is refused, 0 for none, and how many bytes are out; of the thread that tests.
    static COUNTDOWN: Cell<u32> = const { Cell::new(0) };
    static LIVE: Cell<i64> = const { Cell::new(0) };
}

fn is_refused() -> bool {
    let left = COUNTDOWN.with(Cell::get);
    COUNTDOWN.with(|it| it.set(left.saturating_sub(1)));
    left == 1
}

// Some bytes go out, and some come back.
fn count(out: usize, back: usize) {
    LIVE.with(|live| live.set(live.get() + out as i64 - back as i64));
}

// SAFETY: each call is passed on to the system's allocator, or refused.
unsafe impl GlobalAlloc for Refusing {
    unsafe fn alloc(&self, layout: Layout) -> *mut u8 {
        if is_refused() {
            return ptr::null_mut();
        }
        count(layout.size(), 0);
        System.alloc(layout)
    }

    unsafe fn dealloc(&self, at: *mut u8, layout: Layout) {
        count(0, layout.size());
        System.dealloc(at, layout)
    }

    unsafe fn realloc(&self, at: *mut u8, layout: Layout, size: usize) -> *mut u8 {
        if is_refused() {
            return ptr::null_mut();
        }
        count(size, layout.size());
        System.realloc(at, layout, size)
    }
}

#[global_allocator]
static ALLOCATOR: Refusing = Refusing;

const SETTINGS: Settings = Settings {
    greatest_batch: 4,
    greatest_transfer: 4096,
    lone: 10,
    batch: BatchPrice::Flat(14),
    fence: 3,
    staging: 0x10000,
};

fn put_move(bytes: &mut [u8], src: u64, dst: u64, size: u8, record: u64) {
    (bytes[4], bytes[7], bytes[32]) = (0x0c, 0x03, size);
    bytes[8..16].copy_from_slice(&record.to_le_bytes());
    bytes[16..24].copy_from_slice(&src.to_le_bytes());
    bytes[24..32].copy_from_slice(&dst.to_le_bytes());
}

// 24 moves of 64 bytes, each of which reads what the one before writes.
fn chain() -> [u8; 64 * 24] {
    let mut list = [0; 64 * 24];
    for (k, bytes) in list.chunks_exact_mut(64).enumerate() {
        let at = 0x100_0000 + 0x1000 * k as u64;
        put_move(bytes, at, at + 0x1000, 64, 0x8000 + 32 * k as u64);
    }
    list
}

// Calls with each allocation refused in turn, until none is; answers how many there were.
fn refuse_in_turn(call: impl Fn() -> Result<u64, Refusal>) -> u32 {
    for at in 1.. {
        let before = LIVE.with(Cell::get);
        COUNTDOWN.with(|it| it.set(at));
        let answer = call();
        let is_left = COUNTDOWN.with(|it| it.replace(0)) > 0;
        assert_eq!(LIVE.with(Cell::get), before);
        match answer {
            Err(refusal) => assert_eq!(refusal.cause, Cause::Memory),
            Ok(_) => {
                assert!(is_left);
                return at - 1;
            }
        }
    }
    unreachable!("a call makes finitely many allocations")
}

#[test]
fn refused_allocations_are_answered() {
    let list = chain();
    let planned = refuse_in_turn(|| {
        let (mut portal, mut staging) = ([0xee; 64 * 24], [0xee; 80 * 24]);
        let answer = plan_into(&SETTINGS, &list, &mut portal, &mut staging);
        let is_same = portal.iter().chain(&staging).all(|byte| *byte == 0xee);
        assert_eq!(answer.is_err(), is_same);
        answer.map(|summary| summary.cost)
    });
    let mut marks = [FENCED; 24];
    marks.iter_mut().step_by(4).for_each(|mark| *mark = BEGINS);
    let judged = refuse_in_turn(|| judge(&SETTINGS, &list, &marks));
    assert!(planned > 0 && judged > 0);
}

// The most pieces, whose lists have mebibytes each.
#[test]
fn large_blocks_come_back() {
    let settings = Settings {
        greatest_batch: 1_024,
        staging: 0x4000_0000,
        ..SETTINGS
    };
    let mut list = vec![0; 64 * 65_536];
    for (k, bytes) in list.chunks_exact_mut(64).enumerate() {
        let k = k as u64;
        put_move(bytes, 8 * k, 0x10_0000 + 8 * k, 8, 0x20_0000 + 32 * k);
    }
    let before = LIVE.with(Cell::get);
    let cost = plan_list(&settings, &list).map(|planned| planned.cost);
    assert_eq!(cost, Ok(64 * 14));
    assert_eq!(LIVE.with(Cell::get), before);
}
