//! Prepared lists: what filling writes beside planning at the new addresses, refusals with their places, rows that were
//! damaged, and one prepared list on several threads.

use dsa_planner::{
    list_of, plan_list, prepare, BatchPrice, Cause, Descriptor, Prepared, Refusal, Region, Settings,
};

const SETTINGS: Settings = Settings {
    greatest_batch: 4,
    greatest_transfer: 4096,
    lone: 10,
    batch: BatchPrice::Flat(14),
    fence: 3,
    staging: 0x10000,
};
const REGIONS: [Region; 3] = [
    Region {
        first: 0x1000,
        len: 0x800,
    },
    Region {
        first: 0x2000,
        len: 0x800,
    },
    Region {
        first: 0x8000,
        len: 64,
    },
];

fn move_bytes(src: u64, dst: u64, size: u32, record_at: u64) -> [u8; 64] {
    let mut bytes = [0; 64];
    bytes[4..8].copy_from_slice(&0x0300_000cu32.to_le_bytes());
    bytes[8..16].copy_from_slice(&record_at.to_le_bytes());
    bytes[16..24].copy_from_slice(&src.to_le_bytes());
    bytes[24..32].copy_from_slice(&dst.to_le_bytes());
    bytes[32..36].copy_from_slice(&size.to_le_bytes());
    bytes
}

// Two moves within the regions at these bases, the second of which reads what the first writes.
fn moves(bases: [u64; 3]) -> Vec<u8> {
    let first = move_bytes(bases[0], bases[1] + 8, 64, bases[2]);
    let second = move_bytes(bases[1] + 8, bases[0] + 0x400, 64, bases[2] + 32);
    [first, second].concat()
}

fn prepared() -> Prepared {
    prepare(&SETTINGS, &moves([0x1000, 0x2000, 0x8000]), &REGIONS).unwrap()
}

fn filled(prepared: &Prepared, bases: &[u64], staging: u64) -> Result<(Vec<u8>, Vec<u8>), Refusal> {
    let (mut portal, mut area) = (
        vec![0; prepared.portal_len()],
        vec![0; prepared.staging_len()],
    );
    prepared.fill(bases, staging, &mut portal, &mut area)?;
    Ok((portal, area))
}

fn refused(cause: Cause, first: u64, second: u64) -> Refusal {
    Refusal {
        cause,
        inner: None,
        first,
        second,
    }
}

// The portal and the staging area of a list that is planned for a staging area at 0x40000.
fn planned(list: &[u8]) -> (Vec<u8>, Vec<u8>) {
    let settings = Settings {
        staging: 0x40000,
        ..SETTINGS
    };
    let answer = plan_list(&settings, list).unwrap();
    (answer.portal, answer.staging)
}

#[test]
fn what_is_filled_is_planned() {
    let prepared = prepared();
    assert_eq!((prepared.portal_len(), prepared.staging_len()), (64, 160));
    for bases in [[0x5001, 0x9003, 0x20], [1 << 60, 0, 0x20_0000]] {
        let wanted = planned(&moves(bases));
        assert_eq!(filled(&prepared, &bases, 0x40000), Ok(wanted));
    }
}

// A checksum of the first region, and a copy into it, whose seed is that checksum, in its record.
fn checksums(bases: [u64; 3]) -> Vec<u8> {
    let first = Descriptor::crc(bases[0], 64, 5, bases[2]);
    let second = Descriptor::copy_crc(bases[1], bases[0] + 0x400, 64, 0, bases[2] + 32);
    list_of(&[first, second.seeded_from(bases[2] + 16)])
}

#[test]
fn a_seed_goes_with_its_region() {
    let list = checksums([0x1000, 0x2000, 0x8000]);
    let prepared = prepare(&SETTINGS, &list, &REGIONS).unwrap();
    let bases = [0x5001, 0x9003, 0x20];
    let wanted = planned(&checksums(bases));
    assert_eq!(filled(&prepared, &bases, 0x40000), Ok(wanted));
    let outside = Descriptor::crc(0x1000, 64, 0, 0x8000).seeded_from(0x17fd);
    let refusal = prepare(&SETTINGS, &list_of(&[outside]), &REGIONS).unwrap_err();
    assert_eq!(refusal, refused(Cause::Outside, 0, 0));
}

#[test]
fn refusals_name_their_places() {
    let bases = [0x5000, 0x9000, 0x7000];
    let list = moves([0x1000, 0x2000, 0x8000]);
    let of = |regions: &[Region]| prepare(&SETTINGS, &list, regions).unwrap_err();
    let wrap = Region {
        first: u64::MAX,
        len: 2,
    };
    assert_eq!(of(&[wrap]), refused(Cause::RegionWrap, 0, 0));
    assert_eq!(
        of(&[REGIONS[1], REGIONS[0]]),
        refused(Cause::RegionOrder, 1, 0)
    );
    assert_eq!(of(&REGIONS[..2]), refused(Cause::Outside, 0, 0));
    assert_eq!(
        prepare(&SETTINGS, &list[1..], &REGIONS).unwrap_err().cause,
        Cause::Length
    );

    let of = |bases: &[u64], staging| filled(&prepared(), bases, staging).unwrap_err();
    assert_eq!(of(&bases[..2], 0x40000), refused(Cause::Bases, 0, 0));
    assert_eq!(
        of(&[u64::MAX, 0x9000, 0x7000], 0x40000),
        refused(Cause::BaseWrap, 0, 0)
    );
    assert_eq!(
        of(&[0x5000, 0x9000, 0x7010], 0x40000),
        refused(Cause::Misaligned, 2, 0)
    );
    assert_eq!(
        of(&[0x5000, 0x57ff, 0x7000], 0x40000),
        refused(Cause::RegionsMeet, 1, 0)
    );
    assert_eq!(of(&bases, 0x6fc0), refused(Cause::BaseStagingMeets, 2, 0));
    assert_eq!(of(&bases, 0x40020), refused(Cause::Staging, 0, 0));
    let (mut portal, mut area) = ([7; 63], [7; 160]);
    let short = prepared().fill(&bases, 0x40000, &mut portal, &mut area);
    assert_eq!(short, Err(refused(Cause::Room, 0, 0)));
    assert_eq!((portal, area), ([7; 63], [7; 160]));
}

#[test]
fn rows_are_kept_and_damage_is_refused() {
    let prepared = prepared();
    let bases = [0x5000, 0x9000, 0x7000];
    let mut rows = prepared.as_rows().to_vec();
    assert_eq!(&rows[0].words[0].to_le_bytes(), b"DSAPREP1");
    let again = Prepared::from_rows(rows.clone());
    assert_eq!(
        filled(&again, &bases, 0x40000),
        filled(&prepared, &bases, 0x40000)
    );
    rows[5].words[3] = 64; // past the region of the records
    let damaged = Prepared::from_rows(rows);
    assert_eq!(
        filled(&damaged, &bases, 0x40000),
        Err(refused(Cause::NotPrepared, 0, 0))
    );
    assert_eq!(
        filled(&Prepared::from_rows(Vec::new()), &[], 0),
        Err(refused(Cause::NotPrepared, 0, 0))
    );
}

#[test]
fn threads_share_one() {
    let prepared = prepared();
    std::thread::scope(|scope| {
        for k in 0..4u64 {
            let prepared = &prepared;
            scope.spawn(move || {
                let bases = [0x100_0000 * (k + 1), 0x5000, 0x7000];
                let (_, area) = filled(prepared, &bases, 0x40000).unwrap();
                assert_eq!(area[16..24], bases[0].to_le_bytes());
            });
        }
    });
}
