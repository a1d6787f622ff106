//! The declarations of `dmclock.h`, which says what each call does. The crate `dmclock` has a safe
//! interface over them.
//!
//! The build script finds the library in the folder that `DMCLOCK_LIB_DIR` names, or by pkg-config,
//! or in the unpacked archive.

#![no_std]
#![allow(non_camel_case_types)]

use core::ffi::c_void;

pub const DMC_VERSION: u32 = 200;

pub const DMC_OK: u32 = 0;
pub const DMC_MEMORY: u32 = 1;
pub const DMC_NONE_HELD: u32 = 2;
pub const DMC_HELD: u32 = 3;
pub const DMC_BAD_MOMENT: u32 = 10;
pub const DMC_BAD_PARAMS: u32 = 11;
pub const DMC_BAD_RATE: u32 = 12;
pub const DMC_BAD_CONFIG: u32 = 13;
pub const DMC_BAD_PHASE: u32 = 14;
pub const DMC_LIMIT: u32 = 15;
pub const DMC_BAD_COST: u32 = 16;
pub const DMC_KNOWN: u32 = 20;
pub const DMC_UNKNOWN: u32 = 21;
pub const DMC_INEXACT_RESERVATION: u32 = 22;
pub const DMC_INEXACT_WEIGHT: u32 = 23;
pub const DMC_INEXACT_LIMIT: u32 = 24;
pub const DMC_CLIENTS: u32 = 25;
pub const DMC_QUEUE_FULL: u32 = 26;
pub const DMC_RANGE: u32 = 27;
pub const DMC_BUSY: u32 = 28;
pub const DMC_OVER_LIMIT: u32 = 29;
pub const DMC_NO_SERVER: u32 = 30;
pub const DMC_TRACK_FULL: u32 = 31;
pub const DMC_NOT_SENT: u32 = 32;

pub const DMC_TICK: u32 = 0;
pub const DMC_RATIO: u32 = 1;
pub const DMC_WAIT: u32 = 0;
pub const DMC_ALLOW: u32 = 1;
pub const DMC_REJECT: u32 = 2;
pub const DMC_CLOCK: u32 = 0;
pub const DMC_VIRTUAL: u32 = 1;
pub const DMC_ALL: u32 = 0;
pub const DMC_OTHERS: u32 = 1;
pub const DMC_RESERVATION: u32 = 0;
pub const DMC_PRIORITY: u32 = 1;
pub const DMC_GRANTED: u32 = 0;
pub const DMC_FUTURE: u32 = 1;
pub const DMC_NOTHING: u32 = 2;

pub const DMC_MAX_AGE: u64 = 1 << 62;
pub const DMC_FINE_HZ: u32 = 735_134_400;

#[repr(C)]
#[derive(Debug)]
pub struct dmc_queue {
    pub at: *mut c_void,
    pub held: u64,
}

#[repr(C)]
#[derive(Debug)]
pub struct dmc_tracker {
    pub at: *mut c_void,
    pub held: u64,
}

#[repr(C)]
#[derive(Debug)]
pub struct dmc_shards {
    pub at: *mut c_void,
    pub held: u64,
}

pub const DMC_QUEUE_NONE: dmc_queue = dmc_queue {
    at: core::ptr::null_mut(),
    held: 0,
};

pub const DMC_TRACKER_NONE: dmc_tracker = dmc_tracker {
    at: core::ptr::null_mut(),
    held: 0,
};

pub const DMC_SHARDS_NONE: dmc_shards = dmc_shards {
    at: core::ptr::null_mut(),
    held: 0,
};

#[repr(C)]
#[derive(Clone, Copy, Debug)]
pub struct dmc_config {
    pub hz: u64,
    pub idle_age: u64,
    pub erase_age: u64,
    pub threshold: u64,
    pub tag_kind: u32,
    pub at_limit: u32,
    pub shares: u32,
}

pub const fn dmc_config_of(hz: u64) -> dmc_config {
    dmc_config {
        hz,
        idle_age: DMC_MAX_AGE,
        erase_age: DMC_MAX_AGE,
        threshold: 0,
        tag_kind: DMC_TICK,
        at_limit: DMC_WAIT,
        shares: DMC_CLOCK,
    }
}

#[repr(C)]
#[derive(Clone, Copy, Debug)]
pub struct dmc_tag {
    pub high: i64,
    pub low: u64,
    pub denom: u64,
}

#[repr(C)]
#[derive(Clone, Copy, Debug)]
pub struct dmc_tags {
    pub reserved: bool,
    pub r: dmc_tag,
    pub l: dmc_tag,
    pub p: dmc_tag,
}

#[repr(C)]
#[derive(Clone, Copy, Debug)]
pub struct dmc_pulled {
    pub kind: u32,
    pub client: u32,
    pub token: u32,
    pub phase: u32,
    pub cost: u32,
    pub beyond: bool,
    pub due_low: u64,
    pub due_high: u64,
}

#[repr(C)]
#[derive(Clone, Copy, Debug)]
pub struct dmc_stamp {
    pub delta: u32,
    pub rho: u32,
    pub cost: u32,
}

#[repr(C)]
#[derive(Clone, Copy, Debug)]
pub struct dmc_track {
    pub pending_delta: u64,
    pub pending_rho: u64,
    pub sent_delta: u64,
    pub sent_rho: u64,
    pub completions: u64,
    pub reservation: u64,
}

extern "C" {
    pub fn dmc_version() -> u32;

    pub fn dmc_queue_new(queue: *mut dmc_queue, config: *const dmc_config) -> u32;
    pub fn dmc_queue_free(queue: *mut dmc_queue);
    pub fn dmc_queue_register(
        queue: *mut dmc_queue,
        client: u32,
        reservation: u32,
        weight: u32,
        limit: u32,
        at: u64,
    ) -> u32;
    pub fn dmc_queue_update(
        queue: *mut dmc_queue,
        client: u32,
        reservation: u32,
        weight: u32,
        limit: u32,
        at: u64,
    ) -> u32;
    pub fn dmc_queue_add(
        queue: *mut dmc_queue,
        client: u32,
        token: u32,
        delta: u32,
        rho: u32,
        cost: u32,
        at: u64,
        tags: *mut dmc_tags,
    ) -> u32;
    pub fn dmc_queue_pull(queue: *mut dmc_queue, at: u64, pulled: *mut dmc_pulled) -> u32;
    pub fn dmc_queue_remove(queue: *mut dmc_queue, client: u32, removed: *mut u32) -> u32;
    pub fn dmc_queue_cancel(
        queue: *mut dmc_queue,
        client: u32,
        token: u32,
        counting: u32,
        removed: *mut u32,
    ) -> u32;
    pub fn dmc_queue_clean(
        queue: *mut dmc_queue,
        at: u64,
        idled: *mut u32,
        erased: *mut u32,
    ) -> u32;
    pub fn dmc_queue_counts(queue: *mut dmc_queue, clients: *mut u32, requests: *mut u32) -> u32;

    pub fn dmc_tracker_new(
        tracker: *mut dmc_tracker,
        servers: u32,
        most: u64,
        counting: u32,
    ) -> u32;
    pub fn dmc_tracker_free(tracker: *mut dmc_tracker);
    pub fn dmc_tracker_stamp(
        tracker: *mut dmc_tracker,
        server: u32,
        cost: u32,
        stamp: *mut dmc_stamp,
    ) -> u32;
    pub fn dmc_stamp_with_returned(
        stamp: *mut dmc_stamp,
        returned: *const dmc_stamp,
        counting: u32,
    ) -> u32;
    pub fn dmc_tracker_skip(tracker: *mut dmc_tracker, server: u32) -> u32;
    pub fn dmc_tracker_respond(
        tracker: *mut dmc_tracker,
        server: u32,
        phase: u32,
        cost: u32,
    ) -> u32;
    pub fn dmc_tracker_status(tracker: *mut dmc_tracker, server: u32, track: *mut dmc_track)
        -> u32;

    pub fn dmc_shards_new(shards: *mut dmc_shards, count: u32, most: u64) -> u32;
    pub fn dmc_shards_free(shards: *mut dmc_shards);
    pub fn dmc_shards_arrive(shards: *mut dmc_shards, shard: u32, stamp: *mut dmc_stamp) -> u32;
    pub fn dmc_shards_next(shards: *mut dmc_shards, shard: u32, stamp: *mut dmc_stamp) -> u32;
    pub fn dmc_shards_give_back(
        shards: *mut dmc_shards,
        shard: u32,
        stamp: *const dmc_stamp,
    ) -> u32;
    pub fn dmc_shards_skip(shards: *mut dmc_shards, shard: u32) -> u32;
    pub fn dmc_shards_status(shards: *mut dmc_shards, shard: u32, track: *mut dmc_track) -> u32;

    pub fn dmc_rate_at_most(hz: u64, rate: u32, found: *mut u32) -> u32;
    pub fn dmc_rate_at_least(hz: u64, rate: u32, found: *mut u32) -> u32;
    pub fn dmc_moment_from_nanos(hz: u64, nanos: u64, moment: *mut u64) -> u32;
    pub fn dmc_nanos_from_moment(hz: u64, moment: u64, nanos: *mut u64) -> u32;
    pub fn dmc_nanos_from_due(hz: u64, due_low: u64, due_high: u64, nanos: *mut u64) -> u32;
}
