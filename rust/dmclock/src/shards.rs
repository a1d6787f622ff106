//! A client's tracker for the shards of one server.

use crate::calls::written;
use crate::error::{ArriveError, GiveBackError, Refusal, SkipError, StatusError, TrackerError};
use crate::tracker::TrackStatus;
use crate::values::{ReqParams, ServerId};
use dmclock_sys as sys;
use std::cell::UnsafeCell;
use std::fmt;

/// The tracker of a client for the shards of one server, each with a [`Queue`](crate::Queue) of its
/// own. To the rules a shard is a server: each queue has the client's full rates, and learns from
/// the stamp what the client was served elsewhere.
///
/// It may move to another thread. Threads that share it need a lock: hold it from
/// [`next`](ShardTracker::next), which makes the stamp for the shard's queue, until the request was
/// refused there, or was accepted and has come in by [`arrive`](ShardTracker::arrive). So a client's
/// requests reach a shard in the order of their stamps, and one that is refused leaves no trace.
///
/// A client whose requests bring no stamps, since its [`Tracker`](crate::Tracker) is at this
/// server, needs none: its tracker stamps for the shards, as its servers.
pub struct ShardTracker {
    /// It always holds a shard tracker.
    shards: UnsafeCell<sys::dmc_shards>,
}

// SAFETY: a shard tracker may move from thread to thread between calls, as the header says.
unsafe impl Send for ShardTracker {}

impl ShardTracker {
    /// A tracker of shards 0, 1, .. (1 to 64 of them), to which deltas of `most` in all can come
    /// (1 to 2^62).
    pub fn new(shards: u32, most: u64) -> Result<ShardTracker, TrackerError> {
        let mut held = sys::DMC_SHARDS_NONE;
        // SAFETY: the pointer is a reference, and the struct is its `NONE`.
        TrackerError::check(unsafe { sys::dmc_shards_new(&mut held, shards, most) })?;
        let shards = UnsafeCell::new(held);
        Ok(ShardTracker { shards })
    }

    /// A request that came in with these params goes to a shard: what it returns is the
    /// stamp for the shard's queue, with all that came in since the last stamp for this
    /// shard, and the request's cost.
    #[inline]
    pub fn arrive(&mut self, shard: ServerId, params: ReqParams) -> Result<ReqParams, ArriveError> {
        let mut stamp = params.stamp();
        // SAFETY: the pointers are references.
        ArriveError::check(unsafe {
            sys::dmc_shards_arrive(self.shards.get_mut(), shard.0, &mut stamp)
        })?;
        Ok(ReqParams::of(stamp))
    }

    /// The stamp that [`arrive`](ShardTracker::arrive) would return; nothing changes. If the shard's
    /// queue refuses the request, it is then as if it had not come.
    pub fn next(&mut self, shard: ServerId, params: ReqParams) -> Result<ReqParams, ArriveError> {
        let mut stamp = params.stamp();
        // SAFETY: the pointers are references.
        ArriveError::check(unsafe {
            sys::dmc_shards_next(self.shards.get_mut(), shard.0, &mut stamp)
        })?;
        Ok(ReqParams::of(stamp))
    }

    /// The shard's queue refused the request of this stamp, which `arrive` made: the next stamp for
    /// the shard carries its counts too. Once for each such request, in any order.
    pub fn give_back(&mut self, shard: ServerId, stamp: ReqParams) -> Result<(), GiveBackError> {
        let stamp = stamp.stamp();
        // SAFETY: the pointers are references.
        GiveBackError::check(unsafe {
            sys::dmc_shards_give_back(self.shards.get_mut(), shard.0, &stamp)
        })
    }

    /// Skips what is pending at a shard: the next stamp for it counts only what comes later. It
    /// sends nothing. If an arrival is [`ArriveError::TrackFull`] for its delta, since the client
    /// sent nothing to the shard for more than 2^32-1, this ends that.
    pub fn skip(&mut self, shard: ServerId) -> Result<(), SkipError> {
        let shards = self.shards.get_mut();
        // SAFETY: the pointer is a reference.
        SkipError::check(unsafe { sys::dmc_shards_skip(shards, shard.0) })
    }

    /// What it knows of a shard; its completions are what came in.
    pub fn status(&self, shard: ServerId) -> Result<TrackStatus, StatusError> {
        let shards = self.shards.get();
        // SAFETY: a shard tracker is not `Sync`, so this is the only call on it now; its cell is not
        // lent to anyone.
        let track: Result<sys::dmc_track, _> =
            unsafe { written(|track| sys::dmc_shards_status(shards, shard.0, track)) };
        track.map(TrackStatus::of)
    }
}

impl Drop for ShardTracker {
    fn drop(&mut self) {
        // SAFETY: the pointer is a reference.
        unsafe { sys::dmc_shards_free(self.shards.get_mut()) }
    }
}

impl fmt::Debug for ShardTracker {
    fn fmt(&self, f: &mut fmt::Formatter<'_>) -> fmt::Result {
        f.debug_struct("ShardTracker").finish_non_exhaustive()
    }
}
