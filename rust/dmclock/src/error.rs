//! Why a value or a call is refused. A refused call has changed nothing.

use dmclock_sys as sys;
use std::fmt;

/// An error that some codes of the library represent.
pub(crate) trait Refusal: Sized {
    /// The error of a code that is not `DMC_OK`.
    fn of(code: u32) -> Self;

    /// What a call's code says.
    #[inline(always)]
    fn check(code: u32) -> Result<(), Self> {
        if code == sys::DMC_OK {
            return Ok(());
        }
        Err(Self::of(code))
    }
}

/// No call gets here: the types of this crate leave a call no other codes than those of its error.
#[cold]
pub(crate) fn unexpected(code: u32) -> ! {
    panic!("libdmclock returned the code {code}, which this call does not have: is it of this version?")
}

macro_rules! errors {
    ($($(#[$doc:meta])* $name:ident { $($(#[$why:meta])* $variant:ident = $text:literal $(, $code:ident)?;)+ })+) => {$(
        $(#[$doc])*
        #[derive(Clone, Copy, Debug, PartialEq, Eq, Hash)]
        #[non_exhaustive]
        pub enum $name {
            $($(#[$why])* $variant,)+
        }

        impl fmt::Display for $name {
            fn fmt(&self, f: &mut fmt::Formatter<'_>) -> fmt::Result {
                f.write_str(match self {
                    $($name::$variant => $text,)+
                })
            }
        }

        impl std::error::Error for $name {}

        impl Refusal for $name {
            #[cold]
            fn of(code: u32) -> $name {
                match code {
                    $($(sys::$code => $name::$variant,)?)+
                    _ => unexpected(code),
                }
            }
        }
    )+};
}

errors! {
    /// Why [`Moment::new`](crate::Moment::new) refuses a number.
    MomentError {
        /// The moment is past [`Moment::MAX`](crate::Moment::MAX).
        Past = "the moment is past 2^62 ticks";
    }

    /// Why [`Cost::new`](crate::Cost::new) refuses a number.
    CostError {
        /// The cost is 0.
        Zero = "the cost is 0";
    }

    /// Why [`ReqParams::new`](crate::ReqParams::new) refuses two counts.
    ParamsError {
        /// The rho is past its delta.
        Rho = "rho is past delta";
    }

    /// Why [`ClientInfo::new`](crate::ClientInfo::new) refuses rates.
    RateError {
        /// A rate is 0.
        Zero = "the rate is 0";
    }

    /// Why [`QueueConfig::new`](crate::QueueConfig::new) refuses numbers.
    ConfigError {
        /// The hz is not 1 to 1,000,000,000.
        Hz = "hz is not 1 to 1,000,000,000";
        /// The idle age is 0 or past the erase age, or the erase age is past 2^62.
        Ages = "the ages are not 1 to 2^62, the idle age at most the erase age";
        /// The threshold is past 2^62.
        Threshold = "the threshold is past 2^62";
    }

    /// Why [`Queue::new`](crate::Queue::new) makes no queue.
    QueueError {
        /// An allocation failed.
        Memory = "out of memory", DMC_MEMORY;
    }

    /// Why [`Queue::register`](crate::Queue::register) refuses a client, in the order of the tests.
    RegisterError {
        /// The client is registered already.
        Known = "the client is registered already", DMC_KNOWN;
        /// The spacing hz/reservation is no value of the tags: in ticks, the reservation does not
        /// divide hz.
        InexactReservation = "the spacing of the reservation is no value of the tags", DMC_INEXACT_RESERVATION;
        /// The spacing hz/weight is no value of the tags.
        InexactWeight = "the spacing of the weight is no value of the tags", DMC_INEXACT_WEIGHT;
        /// The spacing hz/limit is no value of the tags.
        InexactLimit = "the spacing of the limit is no value of the tags", DMC_INEXACT_LIMIT;
        /// 65,536 clients are registered.
        Clients = "65,536 clients are registered", DMC_CLIENTS;
        /// An allocation failed.
        Memory = "out of memory", DMC_MEMORY;
    }

    /// Why [`Queue::update_info`](crate::Queue::update_info) refuses rates, in the order of the
    /// tests.
    UpdateError {
        /// The client is not registered.
        Unknown = "the client is not registered", DMC_UNKNOWN;
        /// The spacing hz/reservation is no value of the tags: in ticks, the reservation does not
        /// divide hz.
        InexactReservation = "the spacing of the reservation is no value of the tags", DMC_INEXACT_RESERVATION;
        /// The spacing hz/weight is no value of the tags.
        InexactWeight = "the spacing of the weight is no value of the tags", DMC_INEXACT_WEIGHT;
        /// The spacing hz/limit is no value of the tags.
        InexactLimit = "the spacing of the limit is no value of the tags", DMC_INEXACT_LIMIT;
        /// The update gives or takes a reservation while the client has a queued request.
        Busy = "the client has a queued request", DMC_BUSY;
    }

    /// Why [`Queue::add_request`](crate::Queue::add_request) refuses a request, in the order of the
    /// tests.
    AddError {
        /// The client is not registered.
        Unknown = "the client is not registered", DMC_UNKNOWN;
        /// 2^20 requests are queued.
        QueueFull = "2^20 requests are queued", DMC_QUEUE_FULL;
        /// A sum that the call needs is no value of the tags.
        Range = "a sum is no value of the tags", DMC_RANGE;
        /// With [`AtLimit::Reject`](crate::AtLimit::Reject): the request would wait for its limit
        /// longer than the threshold. It may come again later, with the same stamp.
        OverLimit = "the request is over its client's limit", DMC_OVER_LIMIT;
        /// An allocation failed.
        Memory = "out of memory", DMC_MEMORY;
    }

    /// Why [`Queue::pull_request`](crate::Queue::pull_request) is refused.
    PullError {
        /// A sum that the grant needs is no value of the tags.
        Range = "a sum is no value of the tags", DMC_RANGE;
    }

    /// Why [`Queue::remove_by_client`](crate::Queue::remove_by_client) is refused.
    RemoveError {
        /// The client is not registered.
        Unknown = "the client is not registered", DMC_UNKNOWN;
    }

    /// Why [`Queue::cancel`](crate::Queue::cancel) is refused.
    CancelError {
        /// The client is not registered.
        Unknown = "the client is not registered", DMC_UNKNOWN;
    }

    /// Why [`Tracker::new`](crate::Tracker::new) or
    /// [`ShardTracker::new`](crate::ShardTracker::new) makes no tracker, in the order of the tests.
    TrackerError {
        /// The servers or shards are not 1 to 64, or `most` is not 1 to 2^62.
        Limit = "the servers or the most completions are out of their limits", DMC_LIMIT;
        /// An allocation failed.
        Memory = "out of memory", DMC_MEMORY;
    }

    /// Why [`Tracker::get_req_params`](crate::Tracker::get_req_params) makes no stamp, in the order
    /// of the tests.
    StampError {
        /// The tracker has no such server.
        NoServer = "the tracker has no such server", DMC_NO_SERVER;
        /// The delta would pass 2^32-1, or take what was sent to the server past the tracker's
        /// `most`.
        TrackFull = "a count would pass the most of the tracker, or a stamp's 2^32-1", DMC_TRACK_FULL;
    }

    /// Why [`Tracker::skip`](crate::Tracker::skip) or
    /// [`ShardTracker::skip`](crate::ShardTracker::skip) skips nothing.
    SkipError {
        /// The tracker has no such server.
        NoServer = "the tracker has no such server", DMC_NO_SERVER;
    }

    /// Why [`Tracker::track_resp`](crate::Tracker::track_resp) counts no completion, in the order
    /// of the tests.
    RespondError {
        /// The tracker has no such server.
        NoServer = "the tracker has no such server", DMC_NO_SERVER;
        /// A count would pass the tracker's `most`.
        TrackFull = "a count would pass the most of the tracker", DMC_TRACK_FULL;
    }

    /// Why [`ShardTracker::arrive`](crate::ShardTracker::arrive) makes no stamp, in the order of the
    /// tests.
    ArriveError {
        /// The tracker has no such shard.
        NoServer = "the tracker has no such shard", DMC_NO_SERVER;
        /// What came would pass the tracker's `most`, or the stamped delta 2^32-1.
        TrackFull = "a count would pass the most of the tracker, or a stamp's 2^32-1", DMC_TRACK_FULL;
    }

    /// Why [`ShardTracker::give_back`](crate::ShardTracker::give_back) gives nothing back, in the
    /// order of the tests.
    GiveBackError {
        /// The tracker has no such shard.
        NoServer = "the tracker has no such shard", DMC_NO_SERVER;
        /// It is more than was sent to the shard, and not given back, in one of the counts.
        NotSent = "more is given back than was sent to the shard", DMC_NOT_SENT;
    }

    /// Why [`Tracker::status`](crate::Tracker::status) or
    /// [`ShardTracker::status`](crate::ShardTracker::status) knows nothing.
    StatusError {
        /// The tracker has no such server.
        NoServer = "the tracker has no such server", DMC_NO_SERVER;
    }
}
