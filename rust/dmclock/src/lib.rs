//! A verified dmClock scheduler for storage back ends.
//!
//! dmClock decides whose request a storage server serves next: each client has a weight (its
//! share), and may have a reservation (a least rate) and a limit (a greatest rate). A server has a
//! [`Queue`], a client a [`Tracker`], and nothing else is shared: a request carries the two counts
//! of its stamp and its cost, and the response the phase of its grant and the cost.
//!
//! Queue and tracker are proved, in Rattle, to keep to the rules of dmClock. This crate calls them
//! through the C library `libdmclock`, and is not proved itself: it is tested beside a slow queue
//! in plain Rust.
//!
//! ```
//! use dmclock::*;
//!
//! # fn main() -> Result<(), Box<dyn std::error::Error>> {
//! # let (client, server, token, nanos) = (ClientId(1), ServerId(0), Token(1), 5_000_000);
//! let minute = 60 * u64::from(FINE_HZ); // a fine clock, for rates that an operator typed
//! let config = QueueConfig::new(u64::from(FINE_HZ), minute, 10 * minute, AtLimit::Wait)?
//!     .with_shares(Shares::Virtual);
//! let mut queue = Queue::new(TagKind::Tick, config)?;
//! // in requests a second: at least 1,234 reserved, a weight of 2, a limit of at most 5,000
//! let info = ClientInfo::new(config.rate_at_least(1234), 2, config.rate_at_most(5000))?;
//! let now = Moment::from_nanos(FINE_HZ, nanos).unwrap(); // of your monotonic clock
//! queue.register(client, info, now)?;
//! let mut tracker = Tracker::new(1, 1_000_000, Counting::All)?;
//! queue.add_request(client, token, tracker.get_req_params(server, Cost::ONE)?, now)?;
//! if let Pulled::Returning { client, token, phase, cost, .. } = queue.pull_request(now)? {
//!     // serve it; then the response goes to the client's tracker
//!     tracker.track_resp(server, phase, cost)?;
//! #   assert_eq!((client, token, phase), (ClientId(1), Token(1), PhaseType::Reservation));
//! }
//! # Ok(())
//! # }
//! ```

#![forbid(unsafe_op_in_unsafe_fn)]
#![deny(missing_docs)]

mod calls;
mod error;
mod queue;
mod shards;
mod tag;
mod tracker;
mod values;

pub use error::{
    AddError, ArriveError, CancelError, ConfigError, CostError, GiveBackError, MomentError,
    ParamsError, PullError, QueueError, RateError, RegisterError, RemoveError, RespondError,
    SkipError, StampError, StatusError, TrackerError, UpdateError,
};
pub use queue::{Cleaned, Pulled, Queue};
pub use shards::ShardTracker;
pub use tag::{Tag, Tags};
pub use tracker::{TrackStatus, Tracker};
pub use values::{
    nanos_until, rate_at_least, rate_at_most, AtLimit, ClientId, ClientInfo, Cost, Counting,
    Moment, PhaseType, QueueConfig, ReqParams, ServerId, Shares, TagKind, Token, FINE_HZ,
};
