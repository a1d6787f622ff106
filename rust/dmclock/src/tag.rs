//! Tags: exact fractions of ticks.

use dmclock_sys as sys;
use std::cmp::Ordering;
use std::fmt;

/// A tag in ticks: an exact fraction in lowest terms, which is a whole number with
/// [`TagKind::Tick`](crate::TagKind::Tick).
///
/// It is displayed as `1000` or `1000/3`.
#[derive(Clone, Copy, Debug, PartialEq, Eq, Hash)]
pub struct Tag {
    numer: i128,
    denom: u64,
}

impl Tag {
    #[inline]
    fn of(tag: sys::dmc_tag) -> Tag {
        Tag {
            numer: (i128::from(tag.high) << 64) | i128::from(tag.low),
            denom: tag.denom,
        }
    }

    /// The numerator, of an absolute value of at most 2^90.
    pub const fn numer(self) -> i128 {
        self.numer
    }

    /// The denominator, 1 to 2^32.
    pub const fn denom(self) -> u64 {
        self.denom
    }

    /// About as many ticks, for display.
    pub fn to_f64(self) -> f64 {
        self.numer as f64 / self.denom as f64
    }
}

impl Ord for Tag {
    fn cmp(&self, other: &Tag) -> Ordering {
        // At most 2^90 * 2^32 each.
        (self.numer * i128::from(other.denom)).cmp(&(other.numer * i128::from(self.denom)))
    }
}

impl PartialOrd for Tag {
    fn partial_cmp(&self, other: &Tag) -> Option<Ordering> {
        Some(self.cmp(other))
    }
}

impl fmt::Display for Tag {
    fn fmt(&self, f: &mut fmt::Formatter<'_>) -> fmt::Result {
        match self.denom {
            1 => write!(f, "{}", self.numer),
            denom => write!(f, "{}/{denom}", self.numer),
        }
    }
}

/// The tags of a request that is queued.
#[derive(Clone, Copy, Debug, PartialEq, Eq, Hash)]
pub struct Tags {
    /// The reservation tag, where the client has a reservation.
    pub r: Option<Tag>,
    /// The limit tag.
    pub l: Tag,
    /// The weight tag.
    pub p: Tag,
}

impl Tags {
    #[inline]
    pub(crate) fn of(tags: sys::dmc_tags) -> Tags {
        Tags {
            r: tags.reserved.then(|| Tag::of(tags.r)),
            l: Tag::of(tags.l),
            p: Tag::of(tags.p),
        }
    }
}
