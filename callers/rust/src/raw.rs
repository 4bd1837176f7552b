// SPDX-License-Identifier: Apache-2.0
//! What crosses to the library, as callers/c/vortex.h declares it.
use std::marker::PhantomData;

#[cfg(not(all(target_endian = "little", target_pointer_width = "64")))]
compile_error!("the library's arrays are little-endian, and its lengths have 64 bits");

/// `vortex_status`.
pub mod status {
    pub const OK: u8 = 0;
    pub const BAD_LINE: u8 = 2;
    pub const TOO_SHORT: u8 = 3;
    pub const NO_MEMORY: u8 = 4;
    pub const BAD_KIND: u8 = 5;
    pub const BAD_STAT: u8 = 6;
    pub const BAD_KNOWN: u8 = 7;
    pub const BAD_LENGTH: u8 = 8;
    pub const BAD_ENDS: u8 = 9;
    pub const BAD_VALUE: u8 = 10;
    pub const BAD_NULL: u8 = 11;
    pub const UNTRUE: u8 = 12;
    pub const BAD_NAME: u8 = 14;
    pub const NOT_A_PREDICATE: u8 = 15;
    pub const TOO_DEEP: u8 = 17;
    pub const BAD_SQL: u8 = 18;
    pub const MISFIT: u8 = 19;
    pub const BAD_FOOTER: u8 = 20;
    pub const NOT_READ: u8 = 21;
}

/// `VORTEX_LAST_NAME`, a flag of `vortex_prune_sql`, `vortex_parquet_prune` and `vortex_parquet_prune_pages`.
pub const LAST_NAME: u8 = 2;

/// `vortex_fault`.
#[repr(C)]
#[derive(Clone, Copy, Debug, Default)]
pub struct Fault {
    pub row: usize,
    pub column: usize,
    pub entry: usize,
}

/// `vortex_span`.
#[repr(C)]
#[derive(Clone, Copy, Debug, Default)]
pub struct Span {
    pub start: usize,
    pub end: usize,
}

/// `vortex_row_group`.
#[repr(C)]
#[derive(Clone, Copy, Debug, Default)]
pub struct RowGroup {
    pub rows: u64,
    pub size: u64,
    pub answer: u8,
}

/// `vortex_row_range`.
#[repr(C)]
#[derive(Clone, Copy, Debug, Default)]
pub struct RowRange {
    pub group: usize,
    pub first: u64,
    pub end: u64,
    pub answer: u8,
}

/// `vortex_data_page`.
#[repr(C)]
#[derive(Clone, Copy, Debug, Default)]
pub struct DataPage {
    pub group: usize,
    pub column: usize,
    pub first: u64,
    pub end: u64,
    pub offset: u64,
    pub size: u64,
}

/// `vortex_values`, whose arrays are lent for `'a`.
#[repr(C)]
#[derive(Clone, Copy, Debug)]
pub struct Values<'a> {
    pub kind: u8,
    pub nullable: u8,
    pub rows: usize,
    pub size: u64,
    pub start: u64,
    pub values: *const u8,
    pub values_len: usize,
    pub ends: *const u64,
    pub ends_len: usize,
    pub nulls: *const u8,
    pub nulls_len: usize,
    pub lent: PhantomData<&'a [u8]>,
}

/// `vortex_statistic`, whose arrays are lent for `'a`.
#[repr(C)]
#[derive(Clone, Copy, Debug)]
pub struct Statistic<'a> {
    pub column: usize,
    pub stat: u8,
    pub start: u64,
    pub known: *const u8,
    pub known_len: usize,
    pub values: *const u8,
    pub values_len: usize,
    pub ends: *const u64,
    pub ends_len: usize,
    pub lent: PhantomData<&'a [u8]>,
}

/// `vortex_field`, whose name is lent for `'a`.
#[repr(C)]
#[derive(Clone, Copy, Debug)]
pub struct Field<'a> {
    pub name: *const u8,
    pub name_len: usize,
    pub kind: u8,
    pub nullable: u8,
    pub unit: u8,
    pub precision: u8,
    pub scale: u8,
    pub lent: PhantomData<&'a str>,
}

impl<'a> Field<'a> {
    // A column by its name, and its kind, unit, digits and those behind the point.
    pub fn new(name: &'a str, [kind, unit, precision, scale]: [u8; 4], nullable: bool) -> Self {
        let (nullable, lent) = (u8::from(nullable), PhantomData);
        Field { name: name.as_ptr(), name_len: name.len(), kind, nullable, unit, precision, scale, lent }
    }
}

unsafe extern "C" {
    pub fn vortex_version() -> u32;

    pub fn vortex_run(input: *const u8, input_len: usize, output: *mut u8, output_len: usize, len: *mut usize) -> u8;

    pub fn vortex_measure(
        column: *const Values<'_>,
        stats: *const u8,
        stats_len: usize,
        known: *mut u8,
        known_len: usize,
        ends: *mut u64,
        ends_len: usize,
        values: *mut u8,
        values_len: usize,
        len: *mut usize,
        fault: *mut Fault,
    ) -> u8;

    pub fn vortex_check(
        column: *const Values<'_>,
        rows: u64,
        stats: *const Statistic<'_>,
        stats_len: usize,
        zone: usize,
        fault: *mut Fault,
    ) -> u8;

    pub fn vortex_merge(
        kind: u8,
        nullable: u8,
        zones: usize,
        left: *const Statistic<'_>,
        left_len: usize,
        right: *const Statistic<'_>,
        right_len: usize,
        known: *mut u8,
        known_len: usize,
        ends: *mut u64,
        ends_len: usize,
        values: *mut u8,
        values_len: usize,
        len: *mut usize,
        fault: *mut Fault,
    ) -> u8;

    pub fn vortex_merge_zones(
        kind: u8,
        nullable: u8,
        zones: usize,
        stats: *const Statistic<'_>,
        stats_len: usize,
        known: *mut u8,
        known_len: usize,
        ends: *mut u64,
        ends_len: usize,
        values: *mut u8,
        values_len: usize,
        len: *mut usize,
        fault: *mut Fault,
    ) -> u8;

    pub fn vortex_prune(
        scope: *const Field<'_>,
        scope_len: usize,
        rows: *const u64,
        rows_len: usize,
        stats: *const Statistic<'_>,
        stats_len: usize,
        predicate: *const u8,
        predicate_len: usize,
        flags: u8,
        answers: *mut u8,
        answers_len: usize,
        fault: *mut Fault,
    ) -> u8;

    pub fn vortex_prune_sql(
        scope: *const Field<'_>,
        scope_len: usize,
        rows: *const u64,
        rows_len: usize,
        stats: *const Statistic<'_>,
        stats_len: usize,
        text: *const u8,
        text_len: usize,
        flags: u8,
        answers: *mut u8,
        answers_len: usize,
        unread: *mut Span,
        unread_len: usize,
        len: *mut usize,
        fault: *mut Fault,
    ) -> u8;

    pub fn vortex_parquet_footer(tail: *const u8, tail_len: usize, length: *mut usize, fault: *mut Fault) -> u8;

    pub fn vortex_parquet_prune(
        footer: *const u8,
        footer_len: usize,
        text: *const u8,
        text_len: usize,
        flags: u8,
        groups: *mut RowGroup,
        groups_len: usize,
        unread: *mut Span,
        unread_len: usize,
        groups_found: *mut usize,
        unread_found: *mut usize,
        fault: *mut Fault,
    ) -> u8;

    pub fn vortex_parquet_indexes(footer: *const u8, footer_len: usize, begin: *mut u64, fault: *mut Fault) -> u8;

    pub fn vortex_parquet_data_pages(
        footer: *const u8,
        footer_len: usize,
        tail: *const u8,
        tail_len: usize,
        tail_begin: u64,
        pages: *mut DataPage,
        pages_len: usize,
        pages_found: *mut usize,
        fault: *mut Fault,
    ) -> u8;

    pub fn vortex_parquet_prune_pages(
        footer: *const u8,
        footer_len: usize,
        tail: *const u8,
        tail_len: usize,
        tail_begin: u64,
        text: *const u8,
        text_len: usize,
        flags: u8,
        ranges: *mut RowRange,
        ranges_len: usize,
        unread: *mut Span,
        unread_len: usize,
        ranges_found: *mut usize,
        unread_found: *mut usize,
        fault: *mut Fault,
    ) -> u8;
}
