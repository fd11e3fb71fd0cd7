//! Descriptors and groups, and what calls answer of two checksums, worked by hand.

use dsa_planner::{check, explain_list, judge, plan_list, resume, warn_list, LeftOrder, Tracker};
use dsa_planner::{groups_of, list_of, BatchPrice, Cause, Descriptor, Hazard, Settings, Slots, Span};
use dsa_planner::{BEGINS, BLOCK_ON_FAULT, FENCED};

fn words(d: Descriptor) -> [u64; 8] {
    let word = |k: usize| u64::from_be_bytes(d.0[8 * k..8 * k + 8].try_into().unwrap());
    [0, 1, 2, 3, 4, 5, 6, 7].map(word)
}

#[test]
fn descriptors_have_their_fields() {
    let moved = Descriptor::memory_move(0x1000, 0x2000, 4096, 0x8000).with_flags(BLOCK_ON_FAULT);
    let record = 0x0080_0000_0000_0000;
    let (source, target) = (0x0010_0000_0000_0000, 0x0020_0000_0000_0000);
    let size = 0x0010_0000_0000_0000;
    assert_eq!(words(moved), [0x0e00_0003, record, source, target, size, 0, 0, 0]);
    let filled = Descriptor::fill(0x2000, 64, 0x0102_0304_0506_0708, 0x8000).owned_by(5, true);
    let (head, pattern, size) = (0x0500_0080_0c00_0004, 0x0807_0605_0403_0201, 0x4000_0000_0000_0000);
    assert_eq!(words(filled), [head, record, pattern, target, size, 0, 0, 0]);
    let compared = Descriptor::compare(0x1000, 0x2000, 64, 0x8000).expecting(true);
    let own = 0x0100_0000_0000_0000;
    assert_eq!(words(compared), [0x8c00_0005, record, source, target, size, own, 0, 0]);
    let sought = Descriptor::compare_pattern(0x1000, 64, 0xff, 0x8000).expecting(false);
    let pattern = 0xff00_0000_0000_0000;
    assert_eq!(words(sought), [0x8c00_0006, record, source, pattern, size, 0, 0, 0]);
    let applied = Descriptor::apply_delta(0x1000, 20, 0x2000, 64, 0x8000);
    let own = 0x1400_0000_0000_0000;
    assert_eq!(words(applied), [0x0c00_0008, record, source, target, size, own, 0, 0]);
    let twice = Descriptor::dualcast(0x1000, 0x2000, 0x5000, 64, 0x8000);
    let own = 0x0050_0000_0000_0000;
    assert_eq!(words(twice), [0x0c00_0009, record, source, target, size, own, 0, 0]);
    let sum = Descriptor::crc(0x1000, 64, 5, 0x8000);
    let (size, seed) = (0x4000_0000_0000_0000, 0x0500_0000_0000_0000);
    assert_eq!(words(sum), [0x0c00_0010, record, source, 0, size, seed, 0, 0]);
    let copied = Descriptor::copy_crc(0x1000, 0x2000, 64, 5, 0x8000).seeded_from(0x8030);
    let place = 0x3080_0000_0000_0000;
    assert_eq!(words(copied), [0x0c00_0111, record, source, target, size, 0, place, 0]);
    assert_eq!(list_of(&[moved, twice]), [moved.0, twice.0].concat());
}

/// The second goes on from the checksum in the record of the first, so it waits for that: a batch with a fence, for 17,
/// costs less than two lone descriptors.
#[test]
fn a_checksum_waits_for_its_seed() {
    let (lone, batch, fence) = (10, BatchPrice::Flat(14), 3);
    let settings = Settings { greatest_batch: 4, greatest_transfer: 4096, lone, batch, fence, staging: 0x10000 };
    let first = Descriptor::crc(0x1000, 64, 0, 0x8000);
    let second = Descriptor::copy_crc(0x2000, 0x3000, 64, 0, 0x8020).seeded_from(0x8010);
    let list = list_of(&[first, second]);
    let planned = plan_list(&settings, &list).unwrap();
    assert_eq!((planned.cost, &planned.marks[..]), (17, &[BEGINS, FENCED][..]));
    let checked = check(&settings, &planned.portal, &planned.staging, &planned.certificate);
    assert_eq!((checked, judge(&settings, &list, &[BEGINS, BEGINS])), (Ok(17), Ok(20)));
    assert_eq!(judge(&settings, &list, &[BEGINS, 0]).unwrap_err().cause, Cause::Unfenced);
    let reasons = explain_list(&settings, &list).unwrap();
    let conflict = reasons[0].conflict.unwrap();
    assert_eq!((reasons.len(), reasons[0].piece, reasons[0].more), (1, 1, 0));
    assert_eq!((conflict.earlier, conflict.later, conflict.hazard), (0, 1, Hazard::ReadAfterWrite));
    assert_eq!(conflict.record_of, Some(0));
    assert!(warn_list(&settings, &list).unwrap().is_empty());
    let mut tracker = Tracker::new(2, 4, 13, 12).unwrap();
    let area = |at: u64| Span { first: at, len: 96 };
    let before = tracker.submit(&settings, &first.0, area(0x10000), Slots::default()).unwrap();
    let after = tracker.submit(&settings, &second.0, area(0x11000), Slots::default()).unwrap();
    assert_eq!((before.slot, after.slot, after.waits.contains(0)), (0, 1, true));
    let left = resume(&settings, &list, &[0; 64], &[], LeftOrder::AsListed);
    assert_eq!(left.unwrap().rest, list);
}

#[test]
fn marks_are_read_as_groups() {
    let groups = groups_of(&[0, 0, 2, 1, 3]);
    let found: Vec<_> = groups.iter().map(|it| (it.pieces.clone(), &it.fenced[..])).collect();
    assert_eq!(found, [(0..3, &[2][..]), (3..4, &[]), (4..5, &[4])]);
    assert!(groups_of(&[]).is_empty());
}
