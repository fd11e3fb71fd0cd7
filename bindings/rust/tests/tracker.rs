//! Trackers: waits that were worked by hand, and each refusal.

use dsa_planner::{
    plan_list, BatchPrice, Cause, Refusal, Retired, Settings, Slots, Span, Submitted, Tracker,
};

const fn span(first: u64, len: u64) -> Span {
    Span { first, len }
}

fn refused(cause: Cause, first: u64) -> Refusal {
    Refusal {
        cause,
        inner: None,
        first,
        second: 0,
    }
}

fn fill_bytes(target: u64, record: u64, pasid: u32) -> [u8; 64] {
    let mut bytes = [0; 64];
    bytes[..4].copy_from_slice(&pasid.to_le_bytes());
    bytes[4..8].copy_from_slice(&0x0400_000cu32.to_le_bytes());
    bytes[8..16].copy_from_slice(&record.to_le_bytes());
    bytes[24..32].copy_from_slice(&target.to_le_bytes());
    bytes[32..36].copy_from_slice(&64u32.to_le_bytes());
    bytes
}

fn settings() -> Settings<'static> {
    Settings {
        greatest_batch: 2,
        greatest_transfer: 4096,
        lone: 10,
        batch: BatchPrice::Flat(14),
        fence: 3,
        staging: 0x10000,
    }
}

#[test]
fn waits_for_conflicts_and_named_slots() {
    let mut tracker = Tracker::new(3, 4, 8, 12).unwrap();
    let (a, b, c) = (span(0x1000, 64), span(0x2000, 64), span(0x3000, 64));
    let taken = |slot, waits| {
        Ok(Submitted {
            slot,
            waits: Slots(waits),
        })
    };
    assert_eq!(tracker.submit_spans(&[a], &[b], Slots::EMPTY), taken(0, 0));
    assert_eq!(
        tracker.submit_spans(&[b], &[c], Slots::EMPTY),
        taken(1, 0b001)
    );
    assert_eq!(tracker.ask(&[a], &[]), Ok(Slots::EMPTY));
    assert_eq!(tracker.ask(&[], &[a, c]), Ok(Slots(0b011)));
    assert_eq!(
        tracker.submit_spans(&[a], &[], Slots(0b110)),
        taken(2, 0b010)
    );
    assert_eq!(
        tracker.submit_spans(&[], &[], Slots::EMPTY),
        Err(refused(Cause::NoSlot, 0))
    );
    assert_eq!(tracker.complete(1), Err(refused(Cause::Held, 1)));
    let (waited, ready) = (Slots(0b010), Slots(0b010));
    assert_eq!(tracker.complete(0), Ok(Retired { waited, ready }));
    let (waited, ready) = (Slots(0b100), Slots(0b100));
    assert_eq!(tracker.withdraw(1), Ok(Retired { waited, ready }));
    assert_eq!(tracker.waits(2), Ok(Slots::EMPTY));
    assert_eq!(tracker.waits(1), Err(refused(Cause::NotOutstanding, 1)));
}

#[test]
fn takes_descriptors_of_one_owner() {
    let mut tracker = Tracker::new(4, 4, 8, 12).unwrap();
    let staging = span(0x10000, 96);
    let first = tracker.submit(&settings(), &fill_bytes(0x1000, 0x8000, 5), staging, Slots::EMPTY);
    assert_eq!(first.map(|one| one.waits), Ok(Slots::EMPTY));
    let same_staging = tracker.submit(&settings(), &fill_bytes(0x2000, 0x8020, 5), staging, Slots::EMPTY);
    assert_eq!(same_staging.map(|one| one.waits), Ok(Slots(1)));
    let other = tracker.submit(&settings(), &fill_bytes(0x2000, 0x8020, 6), staging, Slots::EMPTY);
    assert_eq!(other, Err(refused(Cause::OtherOwner, 0)));
    let past = tracker.submit(
        &settings(),
        &fill_bytes(0x2000, 0x8020, 5),
        span(0x40, u64::MAX - 0x40),
        Slots::EMPTY,
    );
    assert_eq!(past.map(|one| one.slot), Ok(2));
    let wrap = tracker.submit(
        &settings(),
        &fill_bytes(0x2000, 0x8020, 5),
        span(0x40, u64::MAX),
        Slots::EMPTY,
    );
    assert_eq!(wrap, Err(refused(Cause::SpanWrap, 0)));
    assert_eq!(
        tracker.submit(&settings(), &[0; 63], staging, Slots::EMPTY),
        Err(refused(Cause::Length, 0))
    );
    let two = [fill_bytes(0x1000, 0x8000, 5), fill_bytes(0x2000, 0x8020, 5)].concat();
    assert_eq!(
        tracker.submit(&settings(), &two, staging, Slots::EMPTY),
        Err(refused(Cause::TooManySpans, 7))
    );
}

#[test]
fn splits_lists_and_looks_through_barriers() {
    let mut tracker = Tracker::new(4, 8, 8, 12).unwrap();
    let none = span(0x20000, 0);
    // two pieces, with records at 0x8000 and 0x8020, after a barrier
    let mut long = fill_bytes(0x100000, 0x8000, 0);
    long[32..36].copy_from_slice(&8192u32.to_le_bytes());
    long[4] |= 1;
    let first = tracker.submit(&settings(), &long, none, Slots::EMPTY);
    assert_eq!(first.map(|one| one.waits), Ok(Slots::EMPTY));
    let second = tracker.submit(&settings(), &fill_bytes(0x2000, 0x8020, 0), none, Slots::EMPTY);
    assert_eq!(second.map(|one| one.waits), Ok(Slots(0b01)));
    let third = tracker.submit(&settings(), &fill_bytes(0x3000, 0x8040, 0), none, Slots::EMPTY);
    assert_eq!(third.map(|one| one.waits), Ok(Slots::EMPTY));
    let fill = fill_bytes(0x4000, 0x8060, 0);
    for (staging, cause, first) in [
        (0x4000, Cause::StagingMeets, 0),
        (0x4001, Cause::Settings, 7),
    ] {
        let got = tracker.submit(&settings(), &fill, span(staging, 0), Slots::EMPTY);
        assert_eq!(got, Err(refused(cause, first)));
    }
}

#[test]
fn takes_the_entries_of_a_portal() {
    let settings = settings();
    let fills = [0x1000, 0x2000, 0x3000, 0x4000, 0x5000, 0x1000];
    let records = 0x8000..;
    let list: Vec<u8> = fills
        .iter()
        .zip(records.step_by(32))
        .flat_map(|(&target, record)| fill_bytes(target, record, 5))
        .collect();
    let planned = plan_list(&settings, &list).unwrap();
    let mut tracker = Tracker::new(5, 8, 8, 12).unwrap();
    let taken = tracker.submit_groups(&settings, &planned.portal, &planned.staging, Slots::EMPTY);
    assert_eq!(taken, Ok(vec![0, 1, 2]));
    let waits = [0, 1, 2].map(|slot| tracker.waits(slot).unwrap());
    assert_eq!(waits, [Slots(0), Slots(0), Slots(0b001)]);
    let again = tracker.submit_groups(&settings, &planned.portal, &planned.staging, Slots::EMPTY);
    assert_eq!(again, Err(refused(Cause::FewSlots, 3)));
    let cut = tracker.submit_groups(&settings, &planned.portal[1..], &planned.staging, Slots(0));
    assert_eq!(cut, Err(refused(Cause::PortalLength, 0)));
    let mut in_order = Tracker::new(3, 8, 8, 12).unwrap();
    let all = Slots(u64::MAX);
    let taken = in_order.submit_groups(&settings, &planned.portal, &planned.staging, all);
    assert_eq!(taken, Ok(vec![0, 1, 2]));
    let waits = [0, 1, 2].map(|slot| in_order.waits(slot).unwrap());
    assert_eq!(waits, [Slots(0), Slots(0b001), Slots(0b011)]);
}

#[test]
fn refuses_measures() {
    let slots_first = [(65, 8, 12, 1), (65, 0, 0, 1)];
    let others = [(4, 0, 12, 3), (4, 33, 12, 3), (4, 8, 0, 4), (4, 8, 64, 4)];
    for (slots, rows, unit, measure) in slots_first.into_iter().chain(others) {
        assert_eq!(
            Tracker::new(slots, 4, rows, unit),
            Err(refused(Cause::NotATracker, measure))
        );
    }
}
