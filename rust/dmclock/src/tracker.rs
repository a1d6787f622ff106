//! The service tracker of a client.

use crate::calls::written;
use crate::error::{Refusal, RespondError, SkipError, StampError, StatusError, TrackerError};
use crate::values::{Cost, Counting, PhaseType, ReqParams, ServerId};
use dmclock_sys as sys;
use std::cell::UnsafeCell;
use std::fmt;

/// What a tracker knows of a server, and its completions at all servers, all in units of [`Cost`].
#[derive(Clone, Copy, Debug, PartialEq, Eq, Hash)]
pub struct TrackStatus {
    /// The delta that the next stamp to this server would carry; without the request itself in
    /// [`Counting::Others`].
    pub pending_delta: u64,
    /// The rho that the next stamp to this server would carry; without the request itself in
    /// [`Counting::Others`].
    pub pending_rho: u64,
    /// The sum of the deltas that were sent to this server.
    pub sent_delta: u64,
    /// The sum of the rhos that were sent to this server.
    pub sent_rho: u64,
    /// The completions at all servers.
    pub completions: u64,
    /// The completions at all servers by reservation.
    pub reservation: u64,
}

/// The service tracker of a client: it counts the client's completions by their costs, and stamps
/// each request with two counts.
///
/// It may move to another thread. Threads that share it need a lock, as with a
/// [`Queue`](crate::Queue).
pub struct Tracker {
    /// It always holds a tracker.
    tracker: UnsafeCell<sys::dmc_tracker>,
}

// SAFETY: a tracker may move from thread to thread between calls, as the header says.
unsafe impl Send for Tracker {}

impl Tracker {
    /// A tracker of servers 0, 1, .. (1 to 64 of them), which counts completions of at most `most`
    /// units of cost (1 to 2^62).
    pub fn new(servers: u32, most: u64, counting: Counting) -> Result<Tracker, TrackerError> {
        let mut tracker = sys::DMC_TRACKER_NONE;
        // SAFETY: the pointer is a reference, and the struct is its `NONE`.
        TrackerError::check(unsafe {
            sys::dmc_tracker_new(&mut tracker, servers, most, counting.number())
        })?;
        let tracker = UnsafeCell::new(tracker);
        Ok(Tracker { tracker })
    }

    /// Stamps a request of a cost to a server: what it returns has the cost too.
    #[inline]
    pub fn get_req_params(
        &mut self,
        server: ServerId,
        cost: Cost,
    ) -> Result<ReqParams, StampError> {
        let tracker = self.tracker.get_mut();
        // SAFETY: the pointers are a reference and that of `written`.
        let stamp: Result<sys::dmc_stamp, _> = unsafe {
            written(|stamp| sys::dmc_tracker_stamp(tracker, server.0, cost.units(), stamp))
        };
        stamp.map(ReqParams::of)
    }

    /// Skips what is pending at a server: the next stamp to it counts only later completions. It
    /// sends nothing. Where a stamp is [`StampError::TrackFull`] for its delta, this ends that.
    pub fn skip(&mut self, server: ServerId) -> Result<(), SkipError> {
        let tracker = self.tracker.get_mut();
        // SAFETY: the pointer is a reference.
        SkipError::check(unsafe { sys::dmc_tracker_skip(tracker, server.0) })
    }

    /// Counts a completion: the response to a request of a cost that a server granted in a phase.
    #[inline]
    pub fn track_resp(
        &mut self,
        server: ServerId,
        phase: PhaseType,
        cost: Cost,
    ) -> Result<(), RespondError> {
        let phase = match phase {
            PhaseType::Reservation => sys::DMC_RESERVATION,
            PhaseType::Priority => sys::DMC_PRIORITY,
        };
        let tracker = self.tracker.get_mut();
        // SAFETY: the pointer is a reference.
        RespondError::check(unsafe {
            sys::dmc_tracker_respond(tracker, server.0, phase, cost.units())
        })
    }

    /// What it knows of a server.
    pub fn status(&self, server: ServerId) -> Result<TrackStatus, StatusError> {
        let tracker = self.tracker.get();
        // SAFETY: a tracker is not `Sync`, so this is the only call on it now; its cell is not lent
        // to anyone.
        let track: Result<sys::dmc_track, _> =
            unsafe { written(|track| sys::dmc_tracker_status(tracker, server.0, track)) };
        track.map(TrackStatus::of)
    }
}

impl TrackStatus {
    /// What a tracker reported.
    pub(crate) fn of(track: sys::dmc_track) -> TrackStatus {
        TrackStatus {
            pending_delta: track.pending_delta,
            pending_rho: track.pending_rho,
            sent_delta: track.sent_delta,
            sent_rho: track.sent_rho,
            completions: track.completions,
            reservation: track.reservation,
        }
    }
}

impl Drop for Tracker {
    fn drop(&mut self) {
        // SAFETY: the pointer is a reference.
        unsafe { sys::dmc_tracker_free(self.tracker.get_mut()) }
    }
}

impl fmt::Debug for Tracker {
    fn fmt(&self, f: &mut fmt::Formatter<'_>) -> fmt::Result {
        f.debug_struct("Tracker").finish_non_exhaustive()
    }
}
