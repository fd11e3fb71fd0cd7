//! The functions of the archive, as `dsa_planner.h` declares them.

use crate::{Region, Row, Span, Summary};

#[repr(C)]
pub struct Settings {
    pub version: u64,
    pub greatest_batch: u64,
    pub greatest_transfer: u64,
    pub lone: u64,
    pub batch: u64,
    pub fence: u64,
    pub staging: u64,
}

#[repr(C)]
#[derive(Clone, Copy, PartialEq, Eq)]
pub struct Pair {
    pub first: u32,
    pub second: u32,
}

#[repr(C)]
#[derive(Default)]
pub struct Refusal {
    pub number: u32,
    pub inner: u32,
    pub first: u64,
    pub second: u64,
}

#[repr(C)]
#[derive(Default)]
pub struct Resumed {
    pub rest_len: u64,
    pub left_out: u64,
    pub stopped_by: u64,
}

#[repr(C)]
#[derive(Default)]
pub struct Info {
    pub cost: u64,
    pub pieces: u64,
    pub rows: u64,
    pub portal_len: u64,
    pub staging_len: u64,
}

#[repr(C)]
#[derive(Clone, Copy, Default)]
pub struct Reason {
    pub piece: u64,
    pub group: u64,
    pub earlier: u64,
    pub later: u64,
    pub address: u64,
    pub more: u64,
    pub mark: u32,
    pub barrier: u32,
    pub hazard: u32,
    pub in_record: u32,
}

#[repr(C)]
#[derive(Clone, Copy, Default)]
pub struct Warning {
    pub kind: u64,
    pub piece: u64,
    pub other: u64,
}

extern "C" {
    pub fn dsa_planner_version() -> u32;

    pub fn dsa_refusal_text(refusal: &Refusal, text: *mut u8, text_capacity: usize) -> u64;

    pub fn dsa_count_pieces(
        settings: &Settings,
        table: *const u64,
        table_len: usize,
        list: *const u8,
        list_len: usize,
    ) -> u64;

    pub fn dsa_plan_list(
        settings: &Settings,
        table: *const u64,
        table_len: usize,
        list: *const u8,
        list_len: usize,
        portal: *mut u8,
        portal_capacity: usize,
        staging: *mut u8,
        staging_capacity: usize,
        planned: &mut Summary,
        refusal: &mut Refusal,
    ) -> u32;

    pub fn dsa_plan_list_certified(
        settings: &Settings,
        table: *const u64,
        table_len: usize,
        list: *const u8,
        list_len: usize,
        portal: *mut u8,
        portal_capacity: usize,
        staging: *mut u8,
        staging_capacity: usize,
        prices: *mut u64,
        prices_capacity: usize,
        pairs: *mut Pair,
        pairs_capacity: usize,
        marks: *mut u8,
        marks_capacity: usize,
        planned: &mut Summary,
        refusal: &mut Refusal,
    ) -> u32;

    pub fn dsa_explain_list(
        settings: &Settings,
        table: *const u64,
        table_len: usize,
        list: *const u8,
        list_len: usize,
        reasons: *mut Reason,
        reasons_capacity: usize,
        count: &mut u64,
        refusal: &mut Refusal,
    ) -> u32;

    pub fn dsa_reason_text(reason: &Reason, text: *mut u8, text_capacity: usize) -> u64;

    pub fn dsa_warn_list(
        settings: &Settings,
        table: *const u64,
        table_len: usize,
        list: *const u8,
        list_len: usize,
        warnings: *mut Warning,
        warnings_capacity: usize,
        count: &mut u64,
        refusal: &mut Refusal,
    ) -> u32;

    pub fn dsa_warning_text(warning: &Warning, text: *mut u8, text_capacity: usize) -> u64;

    pub fn dsa_check(
        settings: &Settings,
        table: *const u64,
        table_len: usize,
        portal: *const u8,
        portal_len: usize,
        staging: *const u8,
        staging_len: usize,
        version: u64,
        prices: *const u64,
        prices_len: usize,
        pairs: *const Pair,
        pairs_len: usize,
        cost: &mut u64,
        refusal: &mut Refusal,
    ) -> u32;

    pub fn dsa_check_list(
        settings: &Settings,
        table: *const u64,
        table_len: usize,
        list: *const u8,
        list_len: usize,
        portal: *const u8,
        portal_len: usize,
        staging: *const u8,
        staging_len: usize,
        version: u64,
        prices: *const u64,
        prices_len: usize,
        pairs: *const Pair,
        pairs_len: usize,
        cost: &mut u64,
        refusal: &mut Refusal,
    ) -> u32;

    pub fn dsa_resume(
        settings: &Settings,
        table: *const u64,
        table_len: usize,
        list: *const u8,
        list_len: usize,
        records: *const u8,
        records_len: usize,
        given_up: *const u8,
        given_up_len: usize,
        failed_first: u32,
        rest: *mut u8,
        rest_capacity: usize,
        resumed: &mut Resumed,
        refusal: &mut Refusal,
    ) -> u32;

    pub fn dsa_judge(
        settings: &Settings,
        table: *const u64,
        table_len: usize,
        list: *const u8,
        list_len: usize,
        marks: *const u8,
        marks_len: usize,
        cost: &mut u64,
        refusal: &mut Refusal,
    ) -> u32;

    pub fn dsa_prepare(
        settings: &Settings,
        table: *const u64,
        table_len: usize,
        list: *const u8,
        list_len: usize,
        regions: *const Region,
        regions_len: usize,
        rows: *mut Row,
        rows_capacity: usize,
        info: &mut Info,
        refusal: &mut Refusal,
    ) -> u32;

    pub fn dsa_fill(
        rows: *const Row,
        rows_len: usize,
        bases: *const u64,
        bases_len: usize,
        staging_address: u64,
        portal: *mut u8,
        portal_capacity: usize,
        staging: *mut u8,
        staging_capacity: usize,
        refusal: &mut Refusal,
    ) -> u32;

    pub fn dsa_track_begin(
        words: *mut u64,
        words_len: usize,
        slots: u32,
        spans: u32,
        log2_rows: u32,
        log2_unit: u32,
        refusal: &mut Refusal,
    ) -> u32;

    pub fn dsa_track_list(
        words: *mut u64,
        words_len: usize,
        settings: *const Settings,
        table: *const u64,
        table_len: usize,
        list: *const u8,
        list_len: usize,
        staging: u64,
        staging_len: u64,
        also: u64,
        slot: &mut u32,
        waits: &mut u64,
        refusal: &mut Refusal,
    ) -> u32;

    pub fn dsa_track_spans(
        words: *mut u64,
        words_len: usize,
        reads: *const Span,
        reads_len: usize,
        writes: *const Span,
        writes_len: usize,
        also: u64,
        slot: &mut u32,
        waits: &mut u64,
        refusal: &mut Refusal,
    ) -> u32;

    pub fn dsa_track_groups(
        words: *mut u64,
        words_len: usize,
        settings: &Settings,
        table: *const u64,
        table_len: usize,
        portal: *const u8,
        portal_len: usize,
        staging: *const u8,
        staging_len: usize,
        also: u64,
        slots: *mut u32,
        slots_capacity: usize,
        refusal: &mut Refusal,
    ) -> u32;

    pub fn dsa_track_ask(
        words: *const u64,
        words_len: usize,
        reads: *const Span,
        reads_len: usize,
        writes: *const Span,
        writes_len: usize,
        waits: &mut u64,
        refusal: &mut Refusal,
    ) -> u32;

    pub fn dsa_track_waits(
        words: *const u64,
        words_len: usize,
        slot: u32,
        waits: &mut u64,
        refusal: &mut Refusal,
    ) -> u32;

    pub fn dsa_track_complete(
        words: *mut u64,
        words_len: usize,
        slot: u32,
        waited: &mut u64,
        ready: &mut u64,
        refusal: &mut Refusal,
    ) -> u32;

    pub fn dsa_track_withdraw(
        words: *mut u64,
        words_len: usize,
        slot: u32,
        waited: &mut u64,
        ready: &mut u64,
        refusal: &mut Refusal,
    ) -> u32;
}

/// `dsa_track_complete` or `dsa_track_withdraw`.
pub type Retire =
    unsafe extern "C" fn(*mut u64, usize, u32, &mut u64, &mut u64, &mut Refusal) -> u32;
