//! The queue of a server.

use crate::calls::written;
use crate::error::{
    unexpected, AddError, CancelError, PullError, QueueError, Refusal, RegisterError, RemoveError,
    UpdateError,
};
use crate::tag::Tags;
use crate::values::{
    ClientId, ClientInfo, Cost, Counting, Moment, PhaseType, QueueConfig, ReqParams, TagKind, Token,
};
use dmclock_sys as sys;
use std::cell::UnsafeCell;
use std::fmt;

/// What a pull returns.
#[derive(Clone, Copy, Debug, PartialEq, Eq, Hash)]
pub enum Pulled {
    /// A request is granted.
    Returning {
        /// Whose request it is.
        client: ClientId,
        /// Which request it is.
        token: Token,
        /// Why it is granted, which the client's tracker is to count.
        phase: PhaseType,
        /// What it costs, which the client's tracker is to count.
        cost: Cost,
        /// Whether it is past its client's limit ([`AtLimit::Allow`](crate::AtLimit::Allow)).
        beyond: bool,
    },
    /// No request is due before this moment, in ticks, and one is due then.
    /// [`nanos_until`](crate::nanos_until) says when that is.
    Future(u128),
    /// Nothing is queued.
    Nothing,
}

impl Pulled {
    #[inline]
    fn of(pulled: sys::dmc_pulled) -> Pulled {
        match pulled.kind {
            sys::DMC_GRANTED => Pulled::Returning {
                client: ClientId(pulled.client),
                token: Token(pulled.token),
                phase: match pulled.phase {
                    sys::DMC_RESERVATION => PhaseType::Reservation,
                    _ => PhaseType::Priority,
                },
                cost: Cost::of(pulled.cost),
                beyond: pulled.beyond,
            },
            sys::DMC_FUTURE => {
                Pulled::Future(u128::from(pulled.due_high) << 64 | u128::from(pulled.due_low))
            }
            _ => Pulled::Nothing,
        }
    }
}

/// What a clean did.
#[derive(Clone, Copy, Debug, PartialEq, Eq, Hash)]
pub struct Cleaned {
    /// How many clients became idle.
    pub idled: u32,
    /// How many clients were erased.
    pub erased: u32,
}

/// The queue of a server.
///
/// It may move to another thread. Threads that share it need a lock:
///
/// ```
/// use dmclock::{AtLimit, Queue, QueueConfig, TagKind};
/// # fn main() -> Result<(), Box<dyn std::error::Error>> {
/// let config = QueueConfig::new(1000, 600_000, 1_200_000, AtLimit::Wait)?;
/// let queue = std::sync::Mutex::new(Queue::new(TagKind::Tick, config)?);
/// std::thread::scope(|threads| {
///     threads.spawn(|| queue.lock().unwrap().client_count());
///     threads.spawn(|| queue.lock().unwrap().request_count());
/// });
/// # Ok(())
/// # }
/// ```
///
/// Without one the compiler refuses it:
///
/// ```compile_fail,E0277
/// use dmclock::{AtLimit, Queue, QueueConfig, TagKind};
/// # fn main() -> Result<(), Box<dyn std::error::Error>> {
/// let config = QueueConfig::new(1000, 600_000, 1_200_000, AtLimit::Wait)?;
/// let queue = Queue::new(TagKind::Tick, config)?;
/// std::thread::scope(|threads| {
///     threads.spawn(|| queue.client_count());
///     threads.spawn(|| queue.request_count());
/// });
/// # Ok(())
/// # }
/// ```
pub struct Queue {
    /// It always holds a queue. The calls that count take the queue out and put it back, so it is a
    /// cell, which no two threads share.
    queue: UnsafeCell<sys::dmc_queue>,
}

// SAFETY: a queue may move from thread to thread between calls, as the header says.
unsafe impl Send for Queue {}

impl Queue {
    /// A queue with no client.
    pub fn new(tags: TagKind, config: QueueConfig) -> Result<Queue, QueueError> {
        let asked = config.asked(tags);
        let mut queue = sys::DMC_QUEUE_NONE;
        // SAFETY: the pointers are references, and the struct is its `NONE`.
        QueueError::check(unsafe { sys::dmc_queue_new(&mut queue, &asked) })?;
        let queue = UnsafeCell::new(queue);
        Ok(Queue { queue })
    }

    /// Registers a client.
    pub fn register(
        &mut self,
        client: ClientId,
        info: ClientInfo,
        at: Moment,
    ) -> Result<(), RegisterError> {
        let (reservation, limit) = rates(info);
        let queue = self.queue.get_mut();
        // SAFETY: the pointer is a reference.
        RegisterError::check(unsafe {
            sys::dmc_queue_register(
                queue,
                client.0,
                reservation,
                info.weight(),
                limit,
                at.ticks(),
            )
        })
    }

    /// Replaces a client's rates, for requests to come.
    pub fn update_info(
        &mut self,
        client: ClientId,
        info: ClientInfo,
        at: Moment,
    ) -> Result<(), UpdateError> {
        let (reservation, limit) = rates(info);
        let queue = self.queue.get_mut();
        // SAFETY: the pointer is a reference.
        UpdateError::check(unsafe {
            sys::dmc_queue_update(
                queue,
                client.0,
                reservation,
                info.weight(),
                limit,
                at.ticks(),
            )
        })
    }

    /// Queues a request with the counts of its stamp and its cost, and returns its tags.
    #[inline]
    pub fn add_request(
        &mut self,
        client: ClientId,
        token: Token,
        params: ReqParams,
        at: Moment,
    ) -> Result<Tags, AddError> {
        let (delta, rho, cost) = (params.delta(), params.rho(), params.cost().units());
        let queue = self.queue.get_mut();
        // SAFETY: the pointers are a reference and that of `written`.
        let added = unsafe {
            written(|tags| {
                sys::dmc_queue_add(queue, client.0, token.0, delta, rho, cost, at.ticks(), tags)
            })
        };
        added.map(Tags::of)
    }

    /// Grants the next request, or says when one is due.
    #[inline]
    pub fn pull_request(&mut self, at: Moment) -> Result<Pulled, PullError> {
        let queue = self.queue.get_mut();
        // SAFETY: the pointers are a reference and that of `written`.
        let pulled = unsafe { written(|pulled| sys::dmc_queue_pull(queue, at.ticks(), pulled)) };
        pulled.map(Pulled::of)
    }

    /// Takes out a client's queued requests, and returns how many.
    pub fn remove_by_client(&mut self, client: ClientId) -> Result<u32, RemoveError> {
        let queue = self.queue.get_mut();
        // SAFETY: the pointers are a reference and that of `written`.
        unsafe { written(|removed| sys::dmc_queue_remove(queue, client.0, removed)) }
    }

    /// Takes back a client's queued requests with a token, wherever they are in the queue, when they
    /// are given up, and returns how many: none if they were granted before.
    ///
    /// `counting` is that of the tracker that stamped them. In [`Counting::Others`] a stamp counts
    /// its own request, so what they were charged is given back to the client's later requests:
    /// after it pull again, since one may be due earlier. In [`Counting::All`] they were not charged
    /// yet. At a single server, where each request counts its own cost, it is `Counting::Others`.
    pub fn cancel(
        &mut self,
        client: ClientId,
        token: Token,
        counting: Counting,
    ) -> Result<u32, CancelError> {
        let form = counting.number();
        let queue = self.queue.get_mut();
        // SAFETY: the pointers are a reference and that of `written`.
        unsafe { written(|removed| sys::dmc_queue_cancel(queue, client.0, token.0, form, removed)) }
    }

    /// Marks clients idle and erases old ones.
    pub fn clean(&mut self, at: Moment) -> Cleaned {
        let (mut idled, mut erased) = (0, 0);
        let queue = self.queue.get_mut();
        // SAFETY: the pointers are references.
        done(unsafe { sys::dmc_queue_clean(queue, at.ticks(), &mut idled, &mut erased) });
        Cleaned { idled, erased }
    }

    /// How many clients are registered.
    pub fn client_count(&self) -> u32 {
        self.counts().0
    }

    /// How many requests are queued.
    pub fn request_count(&self) -> u32 {
        self.counts().1
    }

    fn counts(&self) -> (u32, u32) {
        let (mut clients, mut requests) = (0, 0);
        // SAFETY: a queue is not `Sync`, so this is the only call on it now; its cell is not lent
        // to anyone.
        done(unsafe { sys::dmc_queue_counts(self.queue.get(), &mut clients, &mut requests) });
        (clients, requests)
    }
}

impl Drop for Queue {
    fn drop(&mut self) {
        // SAFETY: the pointer is a reference.
        unsafe { sys::dmc_queue_free(self.queue.get_mut()) }
    }
}

impl fmt::Debug for Queue {
    fn fmt(&self, f: &mut fmt::Formatter<'_>) -> fmt::Result {
        let (clients, requests) = self.counts();
        f.debug_struct("Queue")
            .field("clients", &clients)
            .field("requests", &requests)
            .finish()
    }
}

/// The reservation and the limit, 0 where there is none.
fn rates(info: ClientInfo) -> (u32, u32) {
    (info.reservation().unwrap_or(0), info.limit().unwrap_or(0))
}

/// A call that refuses nothing.
fn done(code: u32) {
    if code != sys::DMC_OK {
        unexpected(code)
    }
}
