//! Lists on a queue in software: operations and their results, how lists end, what is refused, and which bytes come
//! back or stay. What is right was typed by hand.

#![cfg(feature = "queue")]

use std::alloc::{GlobalAlloc, Layout, System};
use std::path::Path;
use std::sync::atomic::{AtomicUsize, Ordering};
use std::thread;

use dsa_planner::queue::{Error, List, Options, Outcome, Queue};
use dsa_planner::Descriptor;

/// Counts the blocks of one size, which no other code asks for.
struct Counting;

const RARE: usize = 12_347;
static RARE_BLOCKS: AtomicUsize = AtomicUsize::new(0);

// SAFETY: each call is passed on to the system's allocator.
unsafe impl GlobalAlloc for Counting {
    unsafe fn alloc(&self, layout: Layout) -> *mut u8 {
        RARE_BLOCKS.fetch_add(usize::from(layout.size() == RARE), Ordering::SeqCst);
        System.alloc(layout)
    }

    unsafe fn dealloc(&self, at: *mut u8, layout: Layout) {
        RARE_BLOCKS.fetch_sub(usize::from(layout.size() == RARE), Ordering::SeqCst);
        System.dealloc(at, layout)
    }
}

#[global_allocator]
static ALLOCATOR: Counting = Counting;

fn opened(in_flight: bool, lists: u32) -> Queue {
    let options = Options {
        software: true,
        in_flight,
        lists,
        pieces: 8,
        ..Options::default()
    };
    Queue::open(None, &options).unwrap()
}

fn refused(of: Result<usize, Error>) -> String {
    match of {
        Err(Error::Refused(why)) => why,
        other => panic!("{other:?} is no refusal"),
    }
}

const SUCCESS: Outcome = Outcome {
    status: 1,
    difference: None,
    checksum: None,
    fault: None,
};

#[test]
fn operations() {
    let queue = opened(false, 1);
    assert_eq!((queue.name().as_str(), queue.missing()), ("software", ""));
    let mut list = queue.list().unwrap();
    let (a, b) = (list.own((0..64).collect()), list.own(vec![0; 64]));
    let wide = list.own(vec![0; 3 * 4096]);
    let delta = list.own(vec![1, 0, 9, 9, 9, 9, 9, 9, 9, 9]); // offset 8: eight nines
    assert_eq!(list.memory_move(a.part(8..24), b.part(0..16)), Ok(0));
    assert_eq!(list.fill(b.part(16..28), 0x0807_0605_0403_0201), Ok(1));
    assert_eq!(list.compare(a.part(8..40), b.part(0..32)), Ok(2)); // 24 is not 1: after 16 bytes
    assert_eq!(
        list.compare_pattern(b.part(16..24), 0x0807_0605_0403_0201),
        Ok(3)
    );
    assert_eq!(
        list.dualcast(a, wide.part(0..64), wide.part(4096..4160)),
        Ok(4)
    );
    let at = list[wide].as_ptr() as usize;
    let first = 8192 + at.wrapping_neg() % 8; // a delta's target is a multiple of 8
    assert_eq!(list.apply_delta(delta, wide.part(first..first + 16)), Ok(5));
    list.run().unwrap();
    assert_eq!(
        list[b][..18],
        [8, 9, 10, 11, 12, 13, 14, 15, 16, 17, 18, 19, 20, 21, 22, 23, 1, 2]
    );
    assert_eq!(list[b][24..30], [1, 2, 3, 4, 0, 0]);
    assert!(list[wide][..64] == list[a] && list[wide][4096..4160] == list[a]);
    assert_eq!(
        list[wide][first..first + 17],
        [0, 0, 0, 0, 0, 0, 0, 0, 9, 9, 9, 9, 9, 9, 9, 9, 0]
    );
    let found = Outcome {
        difference: Some(16),
        ..SUCCESS
    };
    let outcomes: Vec<Outcome> = (0..7).map(|k| list.outcome(k)).collect();
    let none = Outcome::default();
    assert_eq!(
        outcomes,
        [SUCCESS, SUCCESS, found, SUCCESS, SUCCESS, SUCCESS, none]
    );
    assert_eq!(list.outcome(usize::MAX), none);
    list[a][8] = 77;
    list.run().unwrap(); // again, with other bytes
    assert_eq!(list[b][0], 77);
}

#[test]
fn checksums() {
    let mut list = opened(false, 1).list().unwrap();
    let (text, copied) = (list.own(b"123456789".to_vec()), list.own(vec![0; 4]));
    assert_eq!(list.crc(text, 0), Ok(0));
    assert_eq!(list.copy_crc(text.part(0..4), copied, 0), Ok(1));
    list.run().unwrap();
    assert_eq!(list.outcome(0).checksum, Some(0xe306_9283));
    assert_eq!(list[copied], *b"1234");
    let begun = list.outcome(1).checksum.unwrap();
    list.clear();
    list.crc(text.part(4..9), begun).unwrap(); // one checksum of both parts
    list.run().unwrap();
    assert_eq!(list.outcome(0).checksum, Some(0xe306_9283));
}

#[test]
fn a_failed_check() {
    let mut list = opened(false, 1).list().unwrap();
    let (a, b, flag) = (
        list.own(vec![1; 64]),
        list.own(vec![1; 64]),
        list.own(vec![0; 8]),
    );
    list[b][5] = 2;
    list.check(a.part(0..5), b.part(0..5)).unwrap();
    list.check(a, b).unwrap();
    list.fill(flag, u64::MAX).unwrap();
    let why =
        "operation 1: the check failed, the first difference is at byte 5; nothing after the \
               next barrier was begun";
    let failed = Error::Failed {
        operation: Some(1),
        why: why.into(),
    };
    let end = list.run().unwrap_err();
    assert_eq!((end.to_string(), &end), (why.into(), &failed));
    assert_eq!(
        (list.outcome(1).status, list.outcome(1).difference),
        (2, Some(5))
    );
    assert_eq!(
        (list.outcome(2), &list[flag]),
        (Outcome::default(), &[0; 8][..])
    );
    list[b][5] = 1;
    list.run().unwrap();
    assert_eq!(list[flag], [0xff; 8]);
}

#[test]
#[allow(clippy::reversed_empty_ranges)] // they are what is tried
fn what_is_refused() {
    let queue = opened(false, 1);
    let mut list = queue.list().unwrap();
    assert!(queue.list().is_none());
    let (a, b) = (list.own(vec![1; 64]), list.own(vec![1; 63]));
    assert_eq!(
        refused(list.run().map(|()| 0)),
        "the list is empty; add an operation"
    );
    let sizes = "one part has 64 bytes, and another 63; give them one size";
    assert_eq!(refused(list.memory_move(a, b)), sizes);
    for part in [
        a.part(0..65),
        a.part(1..0),
        b.part(60..64),
        b.part(usize::MAX..64),
    ] {
        assert_eq!(refused(list.fill(part, 0)), "the list owns no such part");
    }
    assert_eq!(
        refused(list.apply_delta(a.part(9..99), b)),
        "the list owns no such part"
    );
    let start = "the queue was not opened for lists in flight; open it for them, or run the list";
    list.fill(a, 0).unwrap();
    assert_eq!(refused(list.start().map(|()| 0)), start);
    for _ in 0..7 {
        list.fill(a, 0).unwrap();
    }
    let full = "operation 8: a list of this queue has at most 8 pieces; open the queue with more";
    assert_eq!(refused(list.fill(a, 0)), full);
    assert_eq!(refused(list.run().map(|()| 0)), full); // as of a file with an error
    assert_eq!(list[a], [1; 64]);
    list.clear();
    list.fill(a.part(0..0), 0).unwrap();
    let empty = refused(list.run().map(|()| 0));
    assert!(empty.starts_with("refused 5"), "{empty}");
    let other = opened(true, 1);
    let theirs = other.list().unwrap();
    let own = "a list can come after lists of its own queue alone";
    assert_eq!(refused(list.start_after(&[&theirs]).map(|()| 0)), own);
}

#[test]
fn opening() {
    let missing = Queue::open(Some(Path::new("/dev/dsa/wq9.9")), &Options::default()).unwrap_err();
    let why = "/dev/dsa/wq9.9: /sys/bus/dsa/devices has no such queue of DSA; accel-config list shows those that \
               there are";
    assert_eq!(missing.to_string(), why);
    let zero = Queue::open(Some(Path::new("a\0b")), &Options::default()).unwrap_err();
    assert_eq!(zero.0, "the name of the queue's file has a zero byte in it");
    let many = Options {
        lists: 65,
        ..Options::default()
    };
    let many = Queue::open(None, &many).unwrap_err();
    assert_eq!(
        many.0,
        "a queue has at most 64 lists, and a list at most 65536 pieces"
    );
    let or_software = Options {
        or_software: true,
        ..Options::default()
    };
    let queue = Queue::open(Some(Path::new("/dev/dsa/wq9.9")), &or_software).unwrap();
    assert_eq!((queue.name().as_str(), queue.missing()), ("software", why));
}

/// A list with one fill, whose byte is the number.
fn filling(queue: &Queue, byte: u8) -> (List, dsa_planner::queue::Buffer) {
    let mut list = queue.list().unwrap();
    let bytes = list.own(vec![0; 64]);
    list.fill(bytes, 0x0101_0101_0101_0101 * u64::from(byte))
        .unwrap();
    (list, bytes)
}

#[test]
fn in_flight() {
    let queue = opened(true, 4);
    let ((mut one, a), (mut two, b)) = (filling(&queue, 1), filling(&queue, 2));
    one.start().unwrap();
    assert!(one.get(a).is_none() && one.get_mut(a).is_none());
    assert_eq!(one.outcome(0), Outcome::default());
    two.start_after(&[&one]).unwrap();
    let mut ended = Vec::new();
    while ended.len() < 2 {
        ended.extend(queue.poll());
    }
    assert_eq!((ended, queue.poll()), (vec![one.id(), two.id()], None));
    assert_eq!((one.test(), two.wait()), (Ok(true), Ok(())));
    assert_eq!((&one[a], &two[b]), (&[1; 64][..], &[2; 64][..]));
    one.check(a, a.part(0..64)).unwrap();
    one.compare(a.part(0..8), a.part(8..16)).unwrap();
    one.start().unwrap();
    one.fill(a, 0).unwrap(); // waits for the list
    assert_eq!(one[a], [1; 64]);
}

#[test]
fn left_out() {
    let queue = opened(true, 4);
    let ((mut one, a), (mut two, b), (mut empty, _)) =
        (filling(&queue, 1), filling(&queue, 2), filling(&queue, 3));
    let (zero, ones) = (one.own(vec![0; 8]), a.part(0..8));
    one.check(zero, ones).unwrap();
    one.start().unwrap();
    two.start_after(&[&one]).unwrap();
    let why =
        "a list that this one comes after has not succeeded; that one says why, and what to do";
    assert_eq!(two.wait(), Err(Error::LeftOut(why.into())));
    assert_eq!(two[b], [0; 64]);
    assert!(matches!(
        one.wait(),
        Err(Error::Failed {
            operation: Some(1),
            ..
        })
    ));
    two.run().unwrap(); // it holds for one start
    assert_eq!(two[b], [2; 64]);
    empty.clear();
    assert_eq!(
        refused(empty.start_after(&[&two]).map(|()| 0)),
        "the list is empty; add an operation"
    );
    let again = "its last start was refused; clear the list, and add its operations again";
    assert_eq!(refused(empty.start().map(|()| 0)), again);
    assert_eq!(refused(empty.run().map(|()| 0)), again);
    empty.clear();
    assert_eq!(
        refused(empty.run().map(|()| 0)),
        "the list is empty; add an operation"
    );
}

/// Bytes come back by `take_buffers`, go with a list, and leak with one that is forgotten, in flight or not.
#[test]
fn bytes_of_lists() {
    let queue = opened(true, 4);
    let (mut list, a) = filling(&queue, 1);
    list.own(vec![5; RARE]);
    list.start().unwrap();
    let mut bytes = list.take_buffers();
    assert_eq!(bytes, [vec![1; 64], vec![5; RARE]]);
    assert!(list.get(a).is_none() && list.take_buffers().is_empty());
    assert_eq!(refused(list.fill(a, 0)), "the list owns no such part");
    let rare = bytes.pop().unwrap();
    assert_eq!(RARE_BLOCKS.load(Ordering::SeqCst), 1);
    let target = list.own(rare);
    list.fill(target, 0).unwrap();
    list.start().unwrap();
    drop(list); // waits for it
    assert_eq!(RARE_BLOCKS.load(Ordering::SeqCst), 0);
    let (mut list, _) = filling(&queue, 1);
    let target = list.own(vec![5; RARE]);
    list.fill(target, 0).unwrap();
    list.start().unwrap();
    std::mem::forget(list);
    drop(queue);
    assert_eq!(RARE_BLOCKS.load(Ordering::SeqCst), 1);
}

#[test]
fn threads() {
    let queue = opened(true, 8);
    let workers: Vec<_> = (0..4u8)
        .map(|thread| {
            let queue = queue.clone();
            thread::spawn(move || {
                let lists: Vec<_> = (0..2)
                    .map(|k| filling(&queue, 1 + thread * 2 + k))
                    .collect();
                for (mut list, bytes) in lists {
                    for _ in 0..50 {
                        list[bytes].fill(0);
                        list.start().unwrap();
                        list.wait().unwrap();
                        assert!(list[bytes][0] > 2 * thread && list[bytes][63] <= 2 * thread + 2);
                    }
                }
            })
        })
        .collect();
    for worker in workers {
        worker.join().unwrap();
    }
    let (list, bytes) = filling(&queue, 9);
    let (mut list, end) = thread::spawn(move || {
        let mut list = list;
        let end = list.run();
        (list, end)
    })
    .join()
    .unwrap();
    assert_eq!((end, &list[bytes]), (Ok(()), &[9; 64][..]));
    assert_eq!(list.take_buffers(), [vec![9; 64]]);
}

#[test]
fn memory_of_the_caller() {
    let queue = opened(false, 1);
    let mut list = queue.list().unwrap();
    let (source, mut target) = ([3u8; 64], [0u8; 64]);
    let address = |at: *const u8| at as u64;
    let moved = Descriptor::memory_move(
        address(source.as_ptr()),
        address(target.as_mut_ptr()),
        64,
        0,
    );
    // SAFETY: both arrays stay until the list has ended, and software always answers.
    unsafe {
        list.add(&moved, 64).unwrap();
        let long = refused(list.add(&moved, 1 << 32));
        let why =
            "operation 1 has 4294967296 bytes, and one may have at most 4294967295; use several";
        assert_eq!(long, why);
        list.clear();
        list.add(&moved, 64).unwrap();
    }
    list.run().unwrap();
    assert_eq!(target, [3; 64]);
}
