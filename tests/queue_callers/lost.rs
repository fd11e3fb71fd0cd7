//! A device that answers too late, as under `dsa_trace --delay 1000000`: the bytes of a list that is lost are leaked,
//! also if nobody asks how it has ended, and the device may write to them; those of other lists are freed.

use std::alloc::{GlobalAlloc, Layout, System};
use std::sync::atomic::{AtomicUsize, Ordering};
use std::thread::sleep;
use std::time::{Duration, Instant};

use dsa_planner::queue::{Error, Options, Queue};

/// Counts the blocks of one size, which no other code asks for.
struct Counting;

const RARE: usize = 12_347;
static BLOCKS: AtomicUsize = AtomicUsize::new(0);

// SAFETY: each call is passed on to the system's allocator.
unsafe impl GlobalAlloc for Counting {
    unsafe fn alloc(&self, layout: Layout) -> *mut u8 {
        BLOCKS.fetch_add(usize::from(layout.size() == RARE), Ordering::SeqCst);
        System.alloc(layout)
    }

    unsafe fn dealloc(&self, at: *mut u8, layout: Layout) {
        BLOCKS.fetch_sub(usize::from(layout.size() == RARE), Ordering::SeqCst);
        System.dealloc(at, layout)
    }
}

#[global_allocator]
static ALLOCATOR: Counting = Counting;

fn opened(in_flight: bool) -> Queue {
    let options = Options {
        in_flight,
        wait_ms: 100,
        lists: 3,
        ..Options::default()
    };
    Queue::open(None, &options).expect("a device")
}

fn main() {
    let queue = opened(true);
    let mut lists: Vec<_> = (0..3).map(|_| queue.list().unwrap()).collect();
    let mut bytes = Vec::new();
    for list in &mut lists {
        bytes.push(list.own(vec![7; RARE]));
    }
    let places: Vec<_> = (0..3).map(|k| lists[k][bytes[k]].as_ptr()).collect();
    lists[0].fill(bytes[0], 0).unwrap();
    let why = "/dev/dsa/wq0.0 has not answered for 100 ms; it is enabled; leave the buffers as they are, since the \
               device may still use them";
    assert_eq!(lists[0].run(), Err(Error::Lost(why.into())));
    assert!(lists[0].get(bytes[0]).is_none() && lists[0].take_buffers().is_empty());
    let other = lists[0].own(vec![0; 8]);
    lists[0].fill(other, 0).unwrap();
    let held =
        "the device has not answered what was submitted of this list before; use another list";
    assert_eq!(lists[0].run(), Err(Error::Refused(held.into())));
    lists[1].fill(bytes[1], 0).unwrap();
    lists[1].start().unwrap();
    assert_eq!(lists[1].start(), Err(Error::Refused(held.into()))); // it was lost meanwhile
    assert!(lists[1].get(bytes[1]).is_none());
    lists[2].fill(bytes[2], 0).unwrap();
    lists[2].start().unwrap();
    drop(lists);
    drop(queue);
    assert_eq!(BLOCKS.load(Ordering::SeqCst), 3);
    // SAFETY: the bytes are leaked.
    let is_written = || places.iter().all(|at| unsafe { at.read_volatile() } == 0);
    let until = Instant::now() + Duration::from_secs(30);
    while !is_written() {
        assert!(Instant::now() < until, "the device does not write");
        sleep(Duration::from_millis(100));
    }
    let unused = opened(false).list().unwrap().own(vec![7; RARE]);
    assert_eq!((unused, BLOCKS.load(Ordering::SeqCst)), (unused, 3)); // freed with its list
    println!("lost");
}
