//! Rows worked by hand.

use dsa_planner::{
    check, count_pieces, judge, plan_into, plan_list, BatchPrice, Cause, Certificate, Refusal,
    Settings, Summary, BEGINS, FENCED,
};

const SETTINGS: Settings = Settings {
    greatest_batch: 4,
    greatest_transfer: 4096,
    lone: 10,
    batch: BatchPrice::Flat(14),
    fence: 3,
    staging: 0x10000,
};

fn move_bytes(src: u64, dst: u64, size: u32, record: u64) -> [u8; 64] {
    let mut bytes = [0; 64];
    bytes[4] = 0x0c;
    bytes[7] = 0x03;
    bytes[8..16].copy_from_slice(&record.to_le_bytes());
    bytes[16..24].copy_from_slice(&src.to_le_bytes());
    bytes[24..32].copy_from_slice(&dst.to_le_bytes());
    bytes[32..36].copy_from_slice(&size.to_le_bytes());
    bytes
}

fn two_moves() -> Vec<u8> {
    [
        move_bytes(0x1000, 0x2000, 64, 0x8000),
        move_bytes(0x2000, 0x4000, 64, 0x8020),
    ]
    .concat()
}

fn refused(number: u32, inner: u32, first: u64, second: u64) -> Refusal {
    Refusal {
        cause: Cause::of(number),
        inner: (inner != 0).then(|| Cause::of(inner)),
        first,
        second,
    }
}

#[test]
fn nothing_is_planned() {
    let planned = plan_list(&SETTINGS, &[]).unwrap();
    assert_eq!(
        (planned.cost, planned.portal.len(), planned.staging.len()),
        (0, 0, 0)
    );
    assert_eq!(
        planned.certificate,
        Certificate {
            version: 1,
            prices: vec![0],
            pairs: vec![]
        }
    );
}

#[test]
fn two_moves_are_planned() {
    let planned = plan_list(&SETTINGS, &two_moves()).unwrap();
    assert_eq!((planned.cost, planned.marks), (17, vec![BEGINS, FENCED]));
    assert_eq!((planned.portal.len(), planned.staging.len()), (64, 160));
    assert_eq!(
        planned.portal[8..24],
        [0x80, 0, 1, 0, 0, 0, 0, 0, 0, 0, 1, 0, 0, 0, 0, 0]
    );
    assert_eq!(planned.staging[68], 0x0d);
    let certificate = Certificate {
        version: 1,
        prices: vec![0, 10, 17],
        pairs: vec![Some((0, 1)), None],
    };
    assert_eq!(planned.certificate, certificate);
}

#[test]
fn an_overlapping_move_is_split_from_its_end() {
    let list = move_bytes(0x1000, 0x1008, 10_240, 0x8000);
    assert_eq!(count_pieces(&SETTINGS, &list), 3);
    let planned = plan_list(&SETTINGS, &list).unwrap();
    assert_eq!(
        (planned.cost, planned.marks),
        (20, vec![BEGINS, FENCED, FENCED])
    );
    assert_eq!(
        planned.certificate.pairs,
        [Some((0, 1)), Some((1, 2)), None]
    );
    assert_eq!(
        planned.staging[..64],
        move_bytes(0x3000, 0x3008, 2048, 0x8040)
    );
}

#[test]
fn certificates_are_checked() {
    let list = [
        move_bytes(0x1000, 0x2000, 64, 0x8000),
        move_bytes(0x3000, 0x4000, 64, 0x8020),
    ]
    .concat();
    let planned = plan_list(&SETTINGS, &list).unwrap();
    let checked = |version, prices: &[u64], pairs: &[Option<(u32, u32)>]| {
        let certificate = Certificate {
            version,
            prices: prices.to_vec(),
            pairs: pairs.to_vec(),
        };
        check(&SETTINGS, &planned.portal, &planned.staging, &certificate)
    };
    assert_eq!(checked(1, &[0, 10, 14], &[None, None]), Ok(14));
    assert_eq!(
        checked(1, &[0, 10, 17], &[Some((0, 1)), None]),
        Err(refused(62, 0, 0, 0))
    );
    assert_eq!(
        checked(1, &[0, 10, 15], &[None, None]),
        Err(refused(63, 0, 0, 2))
    );
    assert_eq!(
        checked(1, &[0, 10, 13], &[None, None]),
        Err(refused(64, 0, 0, 0))
    );
    assert_eq!(
        checked(2, &[0, 10, 14], &[None, None]),
        Err(refused(65, 0, 0, 0))
    );
    assert_eq!(
        checked(1, &[0, 10], &[None, None]),
        Err(refused(61, 0, 0, 0))
    );
}

#[test]
fn plans_are_judged() {
    let list = two_moves();
    assert_eq!(judge(&SETTINGS, &list, &[BEGINS, FENCED]), Ok(17));
    assert_eq!(judge(&SETTINGS, &list, &[BEGINS, BEGINS]), Ok(20));
    assert_eq!(
        judge(&SETTINGS, &list, &[BEGINS, 0]),
        Err(refused(43, 0, 0, 1))
    );
    assert_eq!(
        judge(&SETTINGS, &list, &[BEGINS]),
        Err(refused(40, 0, 0, 0))
    );
    assert_eq!(
        judge(&SETTINGS, &list, &[BEGINS, FENCED, BEGINS]),
        Err(refused(40, 0, 0, 0))
    );
    let fenced = [BEGINS + FENCED, FENCED];
    assert_eq!(judge(&SETTINGS, &list, &fenced), Err(refused(42, 0, 0, 0)));
}

#[test]
fn refusals_leave_the_buffers() {
    let list = two_moves();
    let (mut portal, mut staging) = ([0xee; 64], [0xee; 159]);
    let short = plan_into(&SETTINGS, &list, &mut portal, &mut staging);
    assert_eq!(short, Err(refused(90, 0, 64, 160)));
    let cut = plan_into(&SETTINGS, &list[..65], &mut portal, &mut staging);
    assert_eq!(cut, Err(refused(1, 0, 0, 0)));
    let small = Settings {
        greatest_batch: 1,
        ..SETTINGS
    };
    assert_eq!(
        plan_into(&small, &list, &mut portal, &mut staging),
        Err(refused(83, 0, 2, 0))
    );
    assert_eq!(count_pieces(&small, &list), 0);
    assert_eq!((portal, staging), ([0xee; 64], [0xee; 159]));
    assert_eq!(
        refused(60, 43, 0, 1).to_string(),
        "refused 60 Plan: the plan is not legal: 43 Unfenced: pieces 0 and 1 of one group conflict, or have a barrier between, but no fence"
    );
}

// 4,294,967,295 bytes by eights are more than 65,536 pieces.
#[test]
fn too_many_pieces_are_refused() {
    let mut fill = move_bytes(0, 0, u32::MAX, 0x2_0000_0000);
    fill[7] = 0x04;
    let by_eights = Settings {
        greatest_transfer: 8,
        ..SETTINGS
    };
    assert_eq!(count_pieces(&by_eights, &fill), 65_537);
    assert_eq!(plan_list(&by_eights, &fill), Err(refused(32, 0, 0, 0)));
}

// As many moves as may be, apart from one another, in 64 batches of 1,024 that cost 14 each.
#[test]
fn the_most_pieces_are_planned_checked_and_judged() {
    let settings = Settings {
        greatest_batch: 1_024,
        staging: 0x4000_0000,
        ..SETTINGS
    };
    let list: Vec<u8> = (0..65_536u64)
        .flat_map(|i| move_bytes(8 * i, 0x10_0000 + 8 * i, 8, 0x20_0000 + 32 * i))
        .collect();
    assert_eq!(count_pieces(&settings, &list), 65_536);
    let planned = plan_list(&settings, &list).unwrap();
    assert_eq!((planned.cost, planned.marks.len()), (64 * 14, 65_536));
    let checked = check(
        &settings,
        &planned.portal,
        &planned.staging,
        &planned.certificate,
    );
    assert_eq!(checked, Ok(64 * 14));
    assert_eq!(judge(&settings, &list, &planned.marks), Ok(64 * 14));
}

const BY_SIZE: Settings = Settings {
    batch: BatchPrice::BySize(&[5, 16, 30]),
    ..SETTINGS
};

#[test]
fn prices_by_size() {
    let planned = plan_list(&BY_SIZE, &two_moves()).unwrap();
    assert_eq!(planned.cost, 8); // a batch of two at 5, and its fence at 3
    let short = Settings {
        batch: BatchPrice::BySize(&[5, 16]),
        ..SETTINGS
    };
    assert_eq!(
        plan_list(&short, &two_moves()).unwrap_err(),
        refused(83, 0, 8, 0)
    );
}

// A certificate has the version of the settings that it was written for: 2 if prices are by size.
#[test]
fn certificates_by_size() {
    let planned = plan_list(&BY_SIZE, &two_moves()).unwrap();
    let certificate = Certificate {
        version: 2,
        prices: vec![0, 10, 8],
        pairs: vec![Some((0, 1)), None],
    };
    assert_eq!(planned.certificate, certificate);
    let checked =
        |settings, certificate| check(settings, &planned.portal, &planned.staging, certificate);
    assert_eq!(checked(&BY_SIZE, &certificate), Ok(8));
    assert_eq!(checked(&SETTINGS, &certificate), Err(refused(65, 0, 0, 0)));
    let first_version = Certificate {
        version: 1,
        ..certificate.clone()
    };
    assert_eq!(checked(&BY_SIZE, &first_version), Err(refused(65, 0, 0, 0)));
    let other = Settings {
        batch: BatchPrice::BySize(&[6, 16, 30]),
        ..SETTINGS
    };
    assert_eq!(checked(&other, &certificate), Err(refused(64, 0, 0, 0)));
    let short = Settings {
        batch: BatchPrice::BySize(&[5, 16]),
        ..SETTINGS
    };
    assert_eq!(checked(&short, &certificate), Err(refused(83, 0, 8, 0)));
}

// A fault of the plan or of a piece is within the one that `check` answers.
#[test]
fn causes_within_are_answered() {
    let planned = plan_list(&SETTINGS, &two_moves()).unwrap();
    let checked = |place: usize, byte| {
        let mut staging = planned.staging.clone();
        staging[place] = byte;
        check(&SETTINGS, &planned.portal, &staging, &planned.certificate)
    };
    // the second piece without its fence, and with a byte that is reserved
    assert_eq!(checked(64 + 4, 0x0c), Err(refused(60, 43, 0, 1)));
    assert_eq!(checked(64 + 63, 1), Err(refused(47, 4, 1, 0)));
}

// The price of a batch is the one of its size: 5, 16 and 30 for two, three and four pieces, which lie apart.
#[test]
fn plans_are_judged_by_size() {
    let moves: Vec<_> = (0..4)
        .map(|k| {
            let at = 0x10000 * (k + 2);
            move_bytes(at, at + 0x1000, 64, 0x8000 + 32 * k)
        })
        .collect();
    let list = moves.concat();
    assert_eq!(judge(&BY_SIZE, &list, &[BEGINS, 0, BEGINS, 0]), Ok(10));
    assert_eq!(judge(&BY_SIZE, &list, &[BEGINS, 0, 0, BEGINS]), Ok(26));
    assert_eq!(judge(&BY_SIZE, &list, &[BEGINS, 0, FENCED, 0]), Ok(33));
    assert_eq!(judge(&BY_SIZE, &list, &[BEGINS; 4]), Ok(40));
    assert_eq!(
        judge(&BY_SIZE, &two_moves(), &[BEGINS, 0]),
        Err(refused(43, 0, 0, 1))
    );
    let long = Settings {
        batch: BatchPrice::BySize(&[5, 16, 30, 40]),
        ..SETTINGS
    };
    assert_eq!(judge(&long, &list, &[BEGINS; 4]), Err(refused(83, 0, 8, 0)));
}

// The two ways to plan answer the same, and `plan_into` leaves what it need not write.
#[test]
fn planning_into_buffers_is_planning() {
    let split = move_bytes(0x1000, 0x1008, 10_240, 0x8000);
    let cut = &two_moves()[..65];
    for (settings, list, summary) in [
        (&SETTINGS, &[][..], Ok([0, 0, 0, 0])),
        (&SETTINGS, &two_moves()[..64], Ok([10, 1, 64, 0])),
        (&SETTINGS, &two_moves(), Ok([17, 2, 64, 160])),
        (&BY_SIZE, &two_moves(), Ok([8, 2, 64, 160])),
        (&SETTINGS, &split, Ok([20, 3, 64, 224])),
        (&SETTINGS, cut, Err(refused(1, 0, 0, 0))),
        (&SETTINGS, &[0; 64], Err(refused(2, 0, 0, 0))),
    ] {
        let (mut portal, mut staging) = ([0xee; 256], [0xee; 256]);
        let into = plan_into(settings, list, &mut portal, &mut staging);
        let wanted = summary.map(|[cost, pieces, portal_len, staging_len]| Summary {
            cost,
            pieces,
            portal_len,
            staging_len,
        });
        assert_eq!(into, wanted);
        let planned = plan_list(settings, list);
        assert_eq!(planned.as_ref().err(), into.as_ref().err());
        let (cost, pieces, bytes) = planned.map_or((0, 0, (vec![], vec![])), |it| {
            (it.cost, it.marks.len() as u64, (it.portal, it.staging))
        });
        let into = into.unwrap_or_default();
        assert_eq!((cost, pieces), (into.cost, into.pieces));
        let (to_portal, to_staging) = (into.portal_len as usize, into.staging_len as usize);
        assert_eq!(bytes.0, portal[..to_portal]);
        assert_eq!(bytes.1, staging[..to_staging]);
        assert!(portal[to_portal..].iter().all(|byte| *byte == 0xee));
        assert!(staging[to_staging..].iter().all(|byte| *byte == 0xee));
    }
}

#[test]
fn refusals_are_shown() {
    for (refusal, shown) in [
        (
            refused(83, 0, 7, 0),
            "83 Settings: the staging address is no multiple of 64, or above 2^63",
        ),
        (
            refused(83, 0, 0, 0),
            "83 Settings: a setting is outside its limits, the version is neither 1 nor 2, or the table of prices has a wrong length",
        ),
        (
            refused(63, 0, 4, 9),
            "63 Price: one group from piece 4 on gives a lower price at 9 (0 and 0: the first price is not 0)",
        ),
        (
            refused(90, 0, 64, 160),
            "90 NoRoom: a buffer is too small for the bytes to submit: portal needs 64 bytes and staging 160",
        ),
        (
            refused(47, 5, 7, 0),
            "47 Entry: piece 7 is refused: 5 SizeZero: descriptor 7: the transfer size is 0",
        ),
        (
            refused(99, 0, 1, 2),
            "99 Unknown: a cause of a later version of the library",
        ),
    ] {
        assert_eq!(refusal.to_string(), format!("refused {shown}"));
    }
}

// A refusal is an error as others are, and goes to other threads.
#[test]
fn refusals_are_errors() {
    let error: Box<dyn std::error::Error + Send + Sync> = refused(83, 0, 0, 0).into();
    assert!(error.source().is_none());
    for cause in Cause::ALL {
        assert_eq!(Cause::of(cause.number()), *cause);
        assert!(!cause.name().is_empty() && !cause.to_string().is_empty());
    }
}

#[test]
fn the_library_has_the_version_of_the_crate() {
    let (major, minor, patch) = dsa_planner::library_version();
    assert_eq!(
        format!("{major}.{minor}.{patch}"),
        env!("CARGO_PKG_VERSION")
    );
}

// Calls on several threads at once answer as calls one after another do.
#[test]
fn calls_run_side_by_side() {
    let wanted = plan_list(&SETTINGS, &two_moves());
    std::thread::scope(|scope| {
        for _ in 0..8 {
            scope.spawn(|| {
                for _ in 0..200 {
                    let planned = plan_list(&SETTINGS, &two_moves());
                    assert_eq!(planned, wanted);
                    let it = planned.unwrap();
                    let checked = check(&SETTINGS, &it.portal, &it.staging, &it.certificate);
                    assert_eq!(checked, Ok(17));
                }
            });
        }
    });
}
