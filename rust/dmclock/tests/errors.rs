//! Each error of each call once, and that nothing has changed then. Allocations are refused by a
//! `malloc` and a `realloc` of this program's own.

use dmclock::*;
use std::cell::Cell;
use std::ffi::c_void;

thread_local! {
    /// Whether allocations of this thread are refused.
    static REFUSES: Cell<bool> = const { Cell::new(false) };
}

extern "C" {
    fn __libc_malloc(size: usize) -> *mut c_void;
    fn __libc_realloc(at: *mut c_void, size: usize) -> *mut c_void;
}

/// The C library's, where it is not refused.
#[no_mangle]
extern "C" fn malloc(size: usize) -> *mut c_void {
    if REFUSES.with(Cell::get) {
        return std::ptr::null_mut();
    }
    // SAFETY: it takes any size.
    unsafe { __libc_malloc(size) }
}

/// The C library's, where it is not refused.
///
/// # Safety
///
/// As of the C library's.
#[no_mangle]
unsafe extern "C" fn realloc(at: *mut c_void, size: usize) -> *mut c_void {
    if REFUSES.with(Cell::get) {
        return std::ptr::null_mut();
    }
    // SAFETY: the caller's.
    unsafe { __libc_realloc(at, size) }
}

/// A call all of whose allocations are refused.
fn refusing<T>(call: impl FnOnce() -> T) -> T {
    REFUSES.with(|it| it.set(true));
    let result = call();
    REFUSES.with(|it| it.set(false));
    result
}

const CLIENT: ClientId = ClientId(1);
const NOBODY: ClientId = ClientId(2);
const ZERO: Moment = Moment::zero();

fn config() -> QueueConfig {
    QueueConfig::new(1000, 600_000, 1_200_000, AtLimit::Wait).unwrap()
}

fn info(reservation: Option<u32>, weight: u32, limit: Option<u32>) -> ClientInfo {
    ClientInfo::new(reservation, weight, limit).unwrap()
}

fn params(delta: u32, rho: u32) -> ReqParams {
    ReqParams::new(delta, rho).unwrap()
}

/// A queue with one client.
fn queue(tags: TagKind) -> Queue {
    let mut queue = Queue::new(tags, config()).unwrap();
    queue.register(CLIENT, info(None, 1, None), ZERO).unwrap();
    queue
}

#[test]
fn values() {
    assert_eq!(Moment::new((1 << 62) + 1), Err(MomentError::Past));
    assert_eq!(Moment::new(1 << 62), Ok(Moment::MAX));
    assert_eq!(ReqParams::new(1, 2), Err(ParamsError::Rho));
    assert_eq!(Cost::new(0), Err(CostError::Zero));
    assert_eq!(Cost::new(1), Ok(Cost::ONE));
    assert_eq!(Cost::new(u32::MAX).map(Cost::units), Ok(u32::MAX));
    assert_eq!(params(2, 1).cost(), Cost::ONE);
    assert_eq!(ClientInfo::new(Some(0), 1, None), Err(RateError::Zero));
    assert_eq!(ClientInfo::new(None, 0, None), Err(RateError::Zero));
    assert_eq!(ClientInfo::new(None, 1, Some(0)), Err(RateError::Zero));
}

/// The settings that this crate lets through are those that the library does.
#[test]
fn settings() {
    let last = 1 << 62;
    for (hz, idle, erase, wanted) in [
        (1, 1, 1, None),
        (1_000_000_000, last, last, None),
        (1000, 1, last, None),
        (0, 1, 1, Some(ConfigError::Hz)),
        (1_000_000_001, 1, 1, Some(ConfigError::Hz)),
        (u64::MAX, 0, 0, Some(ConfigError::Hz)),
        (1000, 0, 1, Some(ConfigError::Ages)),
        (1000, 2, 1, Some(ConfigError::Ages)),
        (1000, 1, last + 1, Some(ConfigError::Ages)),
    ] {
        let mut raw = dmclock_sys::DMC_QUEUE_NONE;
        // SAFETY: the pointers are references; what is made is freed.
        let code = unsafe {
            let config = dmclock_sys::dmc_config {
                idle_age: idle,
                erase_age: erase,
                ..dmclock_sys::dmc_config_of(hz)
            };
            let code = dmclock_sys::dmc_queue_new(&mut raw, &config);
            dmclock_sys::dmc_queue_free(&mut raw);
            code
        };
        let made = QueueConfig::new(hz, idle, erase, AtLimit::Wait);
        assert_eq!(made.err(), wanted);
        assert_eq!(code == dmclock_sys::DMC_OK, wanted.is_none());
        if let Ok(config) = made {
            Queue::new(TagKind::Tick, config).unwrap();
        }
    }
    let reject = |threshold| QueueConfig::new(1000, 1, 1, AtLimit::Reject { threshold });
    assert_eq!(reject(last + 1).err(), Some(ConfigError::Threshold));
    Queue::new(TagKind::Tick, reject(last).unwrap()).unwrap();
}

#[test]
fn no_queue() {
    let made = refusing(|| Queue::new(TagKind::Tick, config()));
    assert_eq!(made.err(), Some(QueueError::Memory));
}

/// `Clients` is met in `queue_limits` of worked.rs.
#[test]
fn register() {
    let mut queue = Queue::new(TagKind::Tick, config()).unwrap();
    let mut register = |client, info| queue.register(client, info, ZERO);
    let plain = info(None, 1, None);
    assert_eq!(
        refusing(|| register(CLIENT, plain)),
        Err(RegisterError::Memory)
    );
    assert_eq!(register(CLIENT, plain), Ok(()));
    assert_eq!(
        register(CLIENT, info(Some(3), 3, Some(3))),
        Err(RegisterError::Known)
    );
    let refused = register(NOBODY, info(Some(3), 3, Some(3)));
    assert_eq!(refused, Err(RegisterError::InexactReservation));
    let refused = register(NOBODY, info(Some(10), 3, Some(3)));
    assert_eq!(refused, Err(RegisterError::InexactWeight));
    let refused = register(NOBODY, info(Some(10), 1, Some(3)));
    assert_eq!(refused, Err(RegisterError::InexactLimit));
    assert_eq!(queue.client_count(), 1);
}

#[test]
fn update_info() {
    let mut queue = queue(TagKind::Tick);
    queue
        .add_request(CLIENT, Token(1), params(0, 0), ZERO)
        .unwrap();
    let mut update = |client, info| queue.update_info(client, info, ZERO);
    assert_eq!(
        update(NOBODY, info(Some(3), 3, Some(3))),
        Err(UpdateError::Unknown)
    );
    let refused = update(CLIENT, info(Some(3), 3, Some(3)));
    assert_eq!(refused, Err(UpdateError::InexactReservation));
    let refused = update(CLIENT, info(Some(10), 3, Some(3)));
    assert_eq!(refused, Err(UpdateError::InexactWeight));
    let refused = update(CLIENT, info(Some(10), 1, Some(3)));
    assert_eq!(refused, Err(UpdateError::InexactLimit));
    assert_eq!(
        update(CLIENT, info(Some(10), 1, None)),
        Err(UpdateError::Busy)
    );
    assert_eq!(update(CLIENT, info(None, 2, Some(20))), Ok(()));
}

/// `QueueFull` is met in `queue_limits` of worked.rs.
#[test]
fn add_request() {
    let mut queue = queue(TagKind::Tick);
    let mut add = |client| queue.add_request(client, Token(1), params(1, 0), ZERO);
    assert_eq!(add(NOBODY), Err(AddError::Unknown));
    assert!(add(CLIENT).is_ok());
    // A client's first request does not allocate.
    assert_eq!(refusing(|| add(CLIENT)), Err(AddError::Memory));
    assert!(add(CLIENT).is_ok());
    assert_eq!(queue.request_count(), 2);
}

/// A sum with a denominator past 2^32.
#[test]
fn out_of_range() {
    let one = QueueConfig::new(1, 1, 1, AtLimit::Wait).unwrap();
    let mut queue = Queue::new(TagKind::Ratio, one).unwrap();
    queue
        .register(CLIENT, info(Some(65_537), 1, None), ZERO)
        .unwrap();
    let add = |queue: &mut Queue| queue.add_request(CLIENT, Token(1), params(1, 1), ZERO);
    add(&mut queue).unwrap();
    add(&mut queue).unwrap();
    let next = info(Some(65_539), 1, None);
    queue.update_info(CLIENT, next, ZERO).unwrap();
    assert_eq!(add(&mut queue), Err(AddError::Range));
    assert_eq!(queue.pull_request(ZERO), Err(PullError::Range));
    assert_eq!(queue.request_count(), 2);
}

#[test]
fn remove_by_client() {
    let mut queue = queue(TagKind::Tick);
    assert_eq!(queue.remove_by_client(NOBODY), Err(RemoveError::Unknown));
    assert_eq!(queue.remove_by_client(CLIENT), Ok(0));
}

#[test]
fn cancel() {
    let mut queue = queue(TagKind::Tick);
    queue
        .add_request(CLIENT, Token(1), params(1, 0), ZERO)
        .unwrap();
    let mut cancel = |client, token| queue.cancel(client, Token(token), Counting::Others);
    assert_eq!(cancel(NOBODY, 1), Err(CancelError::Unknown));
    assert_eq!(cancel(CLIENT, 2), Ok(0));
    assert_eq!(cancel(CLIENT, 1), Ok(1));
    assert_eq!(queue.request_count(), 0);
}

#[test]
fn no_tracker() {
    let made = |servers, most| Tracker::new(servers, most, Counting::All).err();
    assert_eq!(made(0, 1), Some(TrackerError::Limit));
    assert_eq!(made(65, 1), Some(TrackerError::Limit));
    assert_eq!(made(1, 0), Some(TrackerError::Limit));
    assert_eq!(made(1, (1 << 62) + 1), Some(TrackerError::Limit));
    assert_eq!(made(1, u64::MAX), Some(TrackerError::Limit));
    assert_eq!(made(64, 1 << 62), None);
    assert_eq!(refusing(|| made(1, 1)), Some(TrackerError::Memory));
}

#[test]
fn tracker() {
    let mut tracker = Tracker::new(1, 1, Counting::Others).unwrap();
    let (first, none) = (ServerId(0), ServerId(1));
    let stamp = |tracker: &mut Tracker, server| tracker.get_req_params(server, Cost::ONE);
    assert_eq!(stamp(&mut tracker, none), Err(StampError::NoServer));
    assert_eq!(stamp(&mut tracker, first), Ok(params(1, 1)));
    assert_eq!(stamp(&mut tracker, first), Err(StampError::TrackFull));
    let respond =
        |tracker: &mut Tracker, server| tracker.track_resp(server, PhaseType::Priority, Cost::ONE);
    assert_eq!(respond(&mut tracker, none), Err(RespondError::NoServer));
    assert_eq!(respond(&mut tracker, first), Ok(()));
    assert_eq!(respond(&mut tracker, first), Err(RespondError::TrackFull));
    assert_eq!(tracker.skip(none), Err(SkipError::NoServer));
    assert_eq!(tracker.skip(first), Ok(()));
    assert_eq!(tracker.status(none), Err(StatusError::NoServer));
    assert_eq!(tracker.status(first).unwrap().completions, 1);
}

#[test]
fn no_shard_tracker() {
    let made = |shards, most| ShardTracker::new(shards, most).err();
    assert_eq!(made(0, 1), Some(TrackerError::Limit));
    assert_eq!(made(65, 1), Some(TrackerError::Limit));
    assert_eq!(made(1, 0), Some(TrackerError::Limit));
    assert_eq!(made(1, (1 << 62) + 1), Some(TrackerError::Limit));
    assert_eq!(made(64, 1 << 62), None);
    assert_eq!(refusing(|| made(1, 1)), Some(TrackerError::Memory));
}

#[test]
fn shard_tracker() {
    let mut shards = ShardTracker::new(1, 5).unwrap();
    let (first, none) = (ServerId(0), ServerId(1));
    assert_eq!(
        shards.arrive(none, params(1, 1)),
        Err(ArriveError::NoServer)
    );
    assert_eq!(shards.arrive(first, params(4, 1)), Ok(params(4, 1)));
    assert_eq!(
        shards.arrive(first, params(2, 0)),
        Err(ArriveError::TrackFull)
    );
    assert_eq!(
        shards.give_back(none, params(4, 1)),
        Err(GiveBackError::NoServer)
    );
    assert_eq!(
        shards.give_back(first, params(4, 2)),
        Err(GiveBackError::NotSent)
    );
    assert_eq!(shards.give_back(first, params(4, 1)), Ok(()));
    assert_eq!(
        shards.give_back(first, params(4, 1)),
        Err(GiveBackError::NotSent)
    );
    assert_eq!(shards.status(none), Err(StatusError::NoServer));
    assert_eq!(shards.status(first).unwrap().pending_delta, 4);
    assert_eq!(shards.skip(none), Err(SkipError::NoServer));
    assert_eq!(shards.skip(first), Ok(()));
    assert_eq!(shards.status(first).unwrap().pending_delta, 0);
}

#[test]
fn rates_and_clocks() {
    assert_eq!(rate_at_most(1000, 0), None);
    assert_eq!(rate_at_most(0, 1), None);
    assert_eq!(rate_at_most(1000, 777), Some(500));
    assert_eq!(rate_at_least(1000, 1001), None);
    assert_eq!(config().rate_at_least(126), Some(200));
    assert_eq!(Moment::from_nanos(1_000_000_000, u64::MAX), None);
    assert_eq!(
        Moment::from_nanos(3, 333_333_334),
        Some(Moment::new(1).unwrap())
    );
    assert_eq!(Moment::MAX.to_nanos(1), None);
    assert_eq!(Moment::new(1).unwrap().to_nanos(3), Some(333_333_334));
    assert_eq!(nanos_until(1000, 2), Some(2_000_000));
    assert_eq!(nanos_until(1000, 1 << 64), None);
}

#[test]
fn texts() {
    let error: Box<dyn std::error::Error + Send + Sync> = AddError::QueueFull.into();
    assert_eq!(error.to_string(), "2^20 requests are queued");
    assert_eq!(
        format!("{:?}", queue(TagKind::Tick)),
        "Queue { clients: 1, requests: 0 }"
    );
    assert_eq!(
        format!("{:?}", Tracker::new(1, 1, Counting::All).unwrap()),
        "Tracker { .. }"
    );
}
