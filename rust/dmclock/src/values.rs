//! Checked values: ids, moments, rates, costs, counts, settings.

use crate::error::{unexpected, ConfigError, CostError, MomentError, ParamsError, RateError};
use dmclock_sys as sys;

/// A client of a queue, by a number of the caller's choice.
#[derive(Clone, Copy, Debug, PartialEq, Eq, PartialOrd, Ord, Hash)]
pub struct ClientId(pub u32);

/// A server of a tracker: 0, 1, ..
#[derive(Clone, Copy, Debug, PartialEq, Eq, PartialOrd, Ord, Hash)]
pub struct ServerId(pub u32);

/// A request, by a number of the caller's choice.
#[derive(Clone, Copy, Debug, PartialEq, Eq, PartialOrd, Ord, Hash)]
pub struct Token(pub u32);

/// Ticks a second for rates that an operator typed: 1,344 rates divide it, every one from 1 to 18
/// among them.
pub const FINE_HZ: u32 = sys::DMC_FINE_HZ;

/// What a call that writes a number found, where it found one.
fn found<N: Default>(call: impl FnOnce(&mut N) -> u32) -> Option<N> {
    let mut number = N::default();
    (call(&mut number) == sys::DMC_OK).then_some(number)
}

/// The greatest rate at most this one that divides hz: for a limit. `None` for a rate of 0, and
/// where hz is not 1 to 1,000,000,000.
pub fn rate_at_most(hz: u32, rate: u32) -> Option<u32> {
    // SAFETY: the pointer is a reference.
    found(|found| unsafe { sys::dmc_rate_at_most(hz.into(), rate, found) })
}

/// The least rate at least this one that divides hz: for a reservation. `None` for a rate of 0 or
/// past hz, and where hz is not 1 to 1,000,000,000.
pub fn rate_at_least(hz: u32, rate: u32) -> Option<u32> {
    // SAFETY: the pointer is a reference.
    found(|found| unsafe { sys::dmc_rate_at_least(hz.into(), rate, found) })
}

/// The least nanoseconds after which a request is due that
/// [`Pulled::Future`](crate::Pulled::Future) speaks of: who sleeps until then finds it due. `None`
/// where they are past 2^64-1, and where hz is not 1 to 1,000,000,000.
pub fn nanos_until(hz: u32, due: u128) -> Option<u64> {
    let (low, high) = (due as u64, (due >> 64) as u64);
    // SAFETY: the pointer is a reference.
    found(|nanos| unsafe { sys::dmc_nanos_from_due(hz.into(), low, high, nanos) })
}

/// A moment in ticks, 0 to 2^62.
#[derive(Clone, Copy, Debug, PartialEq, Eq, PartialOrd, Ord, Hash)]
pub struct Moment(u64);

impl Moment {
    /// The last moment, 2^62.
    pub const MAX: Moment = Moment(1 << 62);

    /// The moment of this many ticks.
    pub const fn new(ticks: u64) -> Result<Moment, MomentError> {
        if ticks > Moment::MAX.0 {
            return Err(MomentError::Past);
        }
        Ok(Moment(ticks))
    }

    /// The moment 0.
    pub const fn zero() -> Moment {
        Moment(0)
    }

    /// How many ticks it is.
    pub const fn ticks(self) -> u64 {
        self.0
    }

    /// The moment of a clock that has counted `nanos` nanoseconds: the whole ticks that have
    /// passed. `None` where that is past [`Moment::MAX`], and where hz is not 1 to 1,000,000,000.
    pub fn from_nanos(hz: u32, nanos: u64) -> Option<Moment> {
        // SAFETY: the pointer is a reference.
        found(|ticks| unsafe { sys::dmc_moment_from_nanos(hz.into(), nanos, ticks) }).map(Moment)
    }

    /// The least nanoseconds after which the moment has come. `None` where they are past 2^64-1,
    /// and where hz is not 1 to 1,000,000,000.
    pub fn to_nanos(self, hz: u32) -> Option<u64> {
        // SAFETY: the pointer is a reference.
        found(|nanos| unsafe { sys::dmc_nanos_from_moment(hz.into(), self.0, nanos) })
    }
}

/// A client's rates, in units of [`Cost`] a second, so in requests a second if each costs 1: at
/// least the reservation, at most the limit, and a share of the rest by its weight.
#[derive(Clone, Copy, Debug, PartialEq, Eq, Hash)]
pub struct ClientInfo {
    reservation: Option<u32>,
    weight: u32,
    limit: Option<u32>,
}

impl ClientInfo {
    /// These rates, none of which is 0.
    pub const fn new(
        reservation: Option<u32>,
        weight: u32,
        limit: Option<u32>,
    ) -> Result<ClientInfo, RateError> {
        match (reservation, weight, limit) {
            (Some(0), _, _) | (_, 0, _) | (_, _, Some(0)) => Err(RateError::Zero),
            _ => Ok(ClientInfo {
                reservation,
                weight,
                limit,
            }),
        }
    }

    /// The least rate, where there is one.
    pub const fn reservation(self) -> Option<u32> {
        self.reservation
    }

    /// The weight.
    pub const fn weight(self) -> u32 {
        self.weight
    }

    /// The greatest rate, where there is one.
    pub const fn limit(self) -> Option<u32> {
        self.limit
    }
}

/// How much of its client's rates a request takes: 1 to 2^32-1, in units of the caller's choice,
/// such as requests, blocks of 4 KiB, or microseconds of a device. Rates and weights are then in
/// these units a second.
#[derive(Clone, Copy, Debug, PartialEq, Eq, PartialOrd, Ord, Hash)]
pub struct Cost(u32);

impl Cost {
    /// The cost of a request if only requests are counted.
    pub const ONE: Cost = Cost(1);

    /// A cost of this many units, at least one.
    pub const fn new(units: u32) -> Result<Cost, CostError> {
        if units == 0 {
            return Err(CostError::Zero);
        }
        Ok(Cost(units))
    }

    /// What the library wrote, which is not 0.
    #[inline]
    pub(crate) fn of(units: u32) -> Cost {
        Cost(units)
    }

    /// How many units it is.
    pub const fn units(self) -> u32 {
        self.0
    }
}

/// What goes with a request to a server: the two counts of its stamp, in units of [`Cost`], and its
/// own cost.
#[derive(Clone, Copy, Debug, PartialEq, Eq, Hash)]
pub struct ReqParams {
    delta: u32,
    rho: u32,
    cost: Cost,
}

impl ReqParams {
    /// What a tracker stamped.
    #[inline]
    pub(crate) fn of(stamp: sys::dmc_stamp) -> ReqParams {
        ReqParams {
            delta: stamp.delta,
            rho: stamp.rho,
            cost: Cost::of(stamp.cost),
        }
    }

    /// What the library is given.
    pub(crate) fn stamp(self) -> sys::dmc_stamp {
        sys::dmc_stamp {
            delta: self.delta,
            rho: self.rho,
            cost: self.cost.units(),
        }
    }

    /// The counts that came with a request of cost 1; rho is at most delta.
    pub const fn new(delta: u32, rho: u32) -> Result<ReqParams, ParamsError> {
        if rho > delta {
            return Err(ParamsError::Rho);
        }
        Ok(ReqParams {
            delta,
            rho,
            cost: Cost::ONE,
        })
    }

    /// The same counts for a request of this cost.
    pub const fn with_cost(self, cost: Cost) -> ReqParams {
        ReqParams { cost, ..self }
    }

    /// The same request, with the counts of another stamp to the same server besides, which no
    /// server took, since its request was refused or lost and is given up. The client's completions
    /// stay counted, and that request costs it nothing; in [`Counting::Others`] its own cost is left
    /// out, since it was not served. `None` if delta would pass 2^32-1.
    pub fn with_returned(self, returned: ReqParams, counting: Counting) -> Option<ReqParams> {
        let (mut stamp, returned, form) = (self.stamp(), returned.stamp(), counting.number());
        // SAFETY: the pointers are references.
        match unsafe { sys::dmc_stamp_with_returned(&mut stamp, &returned, form) } {
            sys::DMC_OK => Some(ReqParams::of(stamp)),
            sys::DMC_TRACK_FULL => None,
            code => unexpected(code),
        }
    }

    /// Completions since the last stamp to the same server.
    pub const fn delta(self) -> u32 {
        self.delta
    }

    /// Those of them by reservation.
    pub const fn rho(self) -> u32 {
        self.rho
    }

    /// The cost of the request itself.
    pub const fn cost(self) -> Cost {
        self.cost
    }
}

/// Whether tags are whole ticks, for rates that divide hz, or fractions, for any rate.
#[derive(Clone, Copy, Debug, PartialEq, Eq, Hash)]
pub enum TagKind {
    /// Whole ticks: the fastest.
    Tick,
    /// Fractions: nothing is rounded.
    Ratio,
}

/// What a pull does where every queued request is past its client's limit.
#[derive(Clone, Copy, Debug, PartialEq, Eq, Hash)]
pub enum AtLimit {
    /// It says when the next one is due.
    Wait,
    /// It grants the best by weight.
    Allow,
    /// It says when the next one is due, and
    /// [`add_request`](crate::Queue::add_request) refuses a request that would wait for its limit
    /// longer than this.
    Reject {
        /// Ticks, 0 to 2^62.
        threshold: u64,
    },
}

/// In which time shares are compared.
#[derive(Clone, Copy, Debug, PartialEq, Eq, Hash)]
pub enum Shares {
    /// By the clock, as mClock does: a client that was served more than its share waits while
    /// others catch up.
    Clock,
    /// In the time of the service: what a client got before others came is neither a credit nor a
    /// debt.
    Virtual,
}

/// Which completions a stamp counts.
#[derive(Clone, Copy, Debug, PartialEq, Eq, Hash)]
pub enum Counting {
    /// Those at all servers, since the last stamp to the same one.
    All,
    /// The request itself, and those at the other servers.
    Others,
}

impl Counting {
    /// Its number in the header.
    pub(crate) fn number(self) -> u32 {
        match self {
            Counting::All => sys::DMC_ALL,
            Counting::Others => sys::DMC_OTHERS,
        }
    }
}

/// Why a request is granted.
#[derive(Clone, Copy, Debug, PartialEq, Eq, Hash)]
pub enum PhaseType {
    /// By its client's reservation.
    Reservation,
    /// By weight.
    Priority,
}

/// How a queue is set up.
#[derive(Clone, Copy, Debug, PartialEq, Eq, Hash)]
pub struct QueueConfig {
    hz: u32,
    idle_age: u64,
    erase_age: u64,
    at_limit: AtLimit,
    shares: Shares,
}

impl QueueConfig {
    /// Ticks a second (1 to 1,000,000,000), after how many ticks without a request
    /// [`clean`](crate::Queue::clean) marks a client idle and erases it (1 to 2^62, the first at
    /// most the second), and what is done at the limit. Shares are by the clock.
    pub const fn new(
        hz: u64,
        idle_age: u64,
        erase_age: u64,
        at_limit: AtLimit,
    ) -> Result<QueueConfig, ConfigError> {
        if hz == 0 || hz > 1_000_000_000 {
            return Err(ConfigError::Hz);
        }
        if idle_age == 0 || idle_age > erase_age || erase_age > 1 << 62 {
            return Err(ConfigError::Ages);
        }
        if let AtLimit::Reject { threshold } = at_limit {
            if threshold > 1 << 62 {
                return Err(ConfigError::Threshold);
            }
        }
        Ok(QueueConfig {
            hz: hz as u32,
            idle_age,
            erase_age,
            at_limit,
            shares: Shares::Clock,
        })
    }

    /// The same with shares by the clock or in the time of the service.
    pub const fn with_shares(self, shares: Shares) -> QueueConfig {
        QueueConfig { shares, ..self }
    }

    /// What the library is asked for.
    pub(crate) fn asked(self, tags: TagKind) -> sys::dmc_config {
        let (at_limit, threshold) = match self.at_limit {
            AtLimit::Wait => (sys::DMC_WAIT, 0),
            AtLimit::Allow => (sys::DMC_ALLOW, 0),
            AtLimit::Reject { threshold } => (sys::DMC_REJECT, threshold),
        };
        sys::dmc_config {
            threshold,
            at_limit,
            idle_age: self.idle_age,
            erase_age: self.erase_age,
            tag_kind: match tags {
                TagKind::Tick => sys::DMC_TICK,
                TagKind::Ratio => sys::DMC_RATIO,
            },
            shares: match self.shares {
                Shares::Clock => sys::DMC_CLOCK,
                Shares::Virtual => sys::DMC_VIRTUAL,
            },
            ..sys::dmc_config_of(self.hz.into())
        }
    }

    /// Ticks a second.
    pub const fn hz(self) -> u32 {
        self.hz
    }

    /// After how many ticks without a request a client is idle.
    pub const fn idle_age(self) -> u64 {
        self.idle_age
    }

    /// After how many ticks without a request a client is erased.
    pub const fn erase_age(self) -> u64 {
        self.erase_age
    }

    /// What is done at the limit.
    pub const fn at_limit(self) -> AtLimit {
        self.at_limit
    }

    /// In which time shares are compared.
    pub const fn shares(self) -> Shares {
        self.shares
    }

    /// The greatest rate at most this one that divides hz: for a limit. `None` for a rate of 0.
    pub fn rate_at_most(self, rate: u32) -> Option<u32> {
        rate_at_most(self.hz, rate)
    }

    /// The least rate at least this one that divides hz: for a reservation. `None` for a rate of 0
    /// or past hz.
    pub fn rate_at_least(self, rate: u32) -> Option<u32> {
        rate_at_least(self.hz, rate)
    }
}
