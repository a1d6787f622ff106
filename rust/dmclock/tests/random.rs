//! Random lists of commands at the library and at a slow queue in plain Rust: each reply is the
//! same.

mod slow;

use dmclock::{
    rate_at_most, AddError, AtLimit, CancelError, ClientId, ClientInfo, Cost, Counting, Moment,
    PhaseType, PullError, Pulled, Queue, QueueConfig, RegisterError, RemoveError, ReqParams,
    Shares, Tag, TagKind, Tags, Token, UpdateError, FINE_HZ,
};
use slow::{Fraction, Slow, SlowTags};
use std::collections::BTreeMap;

/// Random numbers (PCG's XSH-RR, 64 bits of state).
struct Random(u64);

impl Random {
    fn word(&mut self) -> u32 {
        let old = self.0;
        self.0 = old
            .wrapping_mul(6_364_136_223_846_793_005)
            .wrapping_add(1_442_695_040_888_963_407);
        let mixed = (((old >> 18) ^ old) >> 27) as u32;
        mixed.rotate_right((old >> 59) as u32)
    }

    /// A number below another.
    fn below(&mut self, end: u64) -> u64 {
        (u64::from(self.word()) << 32 | u64::from(self.word())) % end
    }

    fn one_in(&mut self, count: u64) -> bool {
        self.below(count) == 0
    }

    fn pick<T: Copy>(&mut self, from: &[T]) -> T {
        from[self.below(from.len() as u64) as usize]
    }
}

/// What the lists of one kind of tags have in common.
struct Run {
    random: Random,
    kind: TagKind,
    config: QueueConfig,
    /// The moment, which mostly goes on by up to `pace`.
    now: u64,
    pace: u64,
    rates: Vec<u32>,
    /// How often each reply came.
    seen: BTreeMap<&'static str, u32>,
}

const GREATEST: u32 = u32::MAX;

impl Run {
    fn new(seed: u64, kind: TagKind) -> Run {
        Run {
            random: Random(seed),
            kind,
            config: QueueConfig::new(1, 1, 1, AtLimit::Wait).unwrap(),
            now: 0,
            pace: 1,
            rates: Vec::new(),
            seen: BTreeMap::new(),
        }
    }

    /// Settings of another list.
    fn begin(&mut self) {
        let random = &mut self.random;
        let hz = random.pick(&[1, 97, 1000, 5040, FINE_HZ, 1_000_000_000]);
        let last = Moment::MAX.ticks();
        let idle = random.pick(&[1, 50, u64::from(hz), 3 * u64::from(hz), last]);
        let erase = random.pick(&[
            idle,
            last.min(2 * idle),
            last.min(idle.saturating_mul(9)),
            last,
        ]);
        let threshold = random.pick(&[0, 1, u64::from(hz) / 10, u64::from(hz), last]);
        let reject = AtLimit::Reject { threshold };
        let at_limit = random.pick(&[AtLimit::Wait, AtLimit::Wait, AtLimit::Allow, reject]);
        let shares = random.pick(&[Shares::Clock, Shares::Virtual]);
        let config = QueueConfig::new(hz.into(), idle, erase, at_limit).unwrap();
        self.config = config.with_shares(shares);
        self.pace = 1 + random.pick(&[0, 3, u64::from(hz) / 10, u64::from(hz)]);
        self.now = random.pick(&[0, 0, 0, 12_345, last - 100 * self.pace.min(last / 200)]);
        self.rates = match self.kind {
            TagKind::Tick => [1, 2, 3, 4, 10, 20, 50, 333, 1000, 100_000, GREATEST]
                .map(|rate| rate_at_most(hz, rate).unwrap())
                .to_vec(),
            TagKind::Ratio if random.one_in(2) => vec![1, 2, 3, 4, 5, 6, 10, 12, 20],
            TagKind::Ratio => vec![1, 2, 3, 7, 10, 97, 1000, 65_521, 65_537, GREATEST],
        };
    }

    fn rate(&mut self) -> u32 {
        if self.random.one_in(40) {
            return self.random.pick(&[7, 1_000_003, GREATEST - 1, GREATEST]);
        }
        let rates = self.rates.clone();
        self.random.pick(&rates)
    }

    fn some_rate(&mut self) -> Option<u32> {
        self.random.one_in(2).then(|| self.rate())
    }

    fn info(&mut self) -> ClientInfo {
        let (reservation, limit) = (self.some_rate(), self.some_rate());
        ClientInfo::new(reservation, self.rate(), limit).unwrap()
    }

    fn client(&mut self) -> ClientId {
        ClientId(self.random.pick(&[0, 1, 2, 3, 4, 5, 1000, GREATEST]))
    }

    /// One of a few, so that a client's requests have some in common.
    fn token(&mut self) -> Token {
        Token(self.random.pick(&[0, 1, 2, 3, 4, 5, 6, GREATEST]))
    }

    fn params(&mut self) -> ReqParams {
        let delta = match self.random.below(100) {
            0 => GREATEST,
            1..=4 => self.random.word(),
            5..=30 => 0,
            _ => self.random.below(6) as u32,
        };
        let rho = match self.random.below(4) {
            0 => delta,
            _ => self.random.below(u64::from(delta) + 1) as u32,
        };
        let units = match self.random.below(20) {
            0 => 1 + self.random.below(u64::from(GREATEST)) as u32,
            1..=9 => 1 + self.random.below(9) as u32,
            _ => 1,
        };
        let cost = Cost::new(units).unwrap();
        ReqParams::new(delta, rho).unwrap().with_cost(cost)
    }

    /// The next moment: on, back, or at an end.
    fn at(&mut self) -> Moment {
        let ticks = match self.random.below(200) {
            0..=19 => self.random.below(self.now + 1),
            20 => 0,
            21 if self.random.one_in(4) => Moment::MAX.ticks(),
            _ => {
                self.now += self.random.below(self.pace);
                self.now
            }
        };
        Moment::new(ticks.min(Moment::MAX.ticks())).unwrap()
    }

    fn saw(&mut self, reply: &'static str) {
        *self.seen.entry(reply).or_default() += 1;
    }

    /// One command at both queues.
    fn step(&mut self, fast: &mut Queue, slow: &mut Slow) {
        let (client, at) = (self.client(), self.at());
        match self.random.below(100) {
            0..=9 => {
                let info = self.info();
                let reply = fast.register(client, info, at);
                assert_eq!(reply, slow.register(client, info, at));
                self.saw(register_name(reply));
            }
            10..=19 => {
                let info = self.info();
                let reply = fast.update_info(client, info, at);
                assert_eq!(reply, slow.update_info(client, info, at));
                self.saw(update_name(reply));
            }
            20..=59 => {
                let (token, params) = (self.token(), self.params());
                let reply = fast.add_request(client, token, params, at);
                let wanted = slow.add_request(client, token, params, at);
                assert_eq!(reply.map(slow_tags), wanted);
                self.saw(add_name(reply));
            }
            60..=88 => {
                let reply = fast.pull_request(at);
                assert_eq!(reply, slow.pull_request(at));
                self.saw(pull_name(reply));
            }
            89..=92 => {
                let token = self.token();
                let form = self.random.pick(&[Counting::All, Counting::Others]);
                let reply = fast.cancel(client, token, form);
                assert_eq!(reply, slow.cancel(client, token, form));
                self.saw(cancel_name(reply, form));
            }
            93..=94 => {
                let reply = fast.remove_by_client(client);
                assert_eq!(reply, slow.remove_by_client(client));
                self.saw(remove_name(reply));
            }
            _ => {
                let reply = fast.clean(at);
                assert_eq!(reply, slow.clean(at));
                if reply.idled > 0 {
                    self.saw("idled");
                }
                if reply.erased > 0 {
                    self.saw("erased");
                }
            }
        }
        assert_eq!(fast.client_count(), slow.client_count());
        assert_eq!(fast.request_count(), slow.request_count());
    }
}

fn fraction(tag: Tag) -> Fraction {
    Fraction {
        numer: tag.numer(),
        denom: tag.denom().into(),
    }
}

fn slow_tags(tags: Tags) -> SlowTags {
    SlowTags {
        r: tags.r.map(fraction),
        l: fraction(tags.l),
        p: fraction(tags.p),
    }
}

fn register_name(reply: Result<(), RegisterError>) -> &'static str {
    match reply {
        Ok(()) => "registered",
        Err(RegisterError::Known) => "known",
        Err(RegisterError::InexactReservation) => "inexact reservation",
        Err(RegisterError::InexactWeight) => "inexact weight",
        Err(RegisterError::InexactLimit) => "inexact limit",
        Err(other) => panic!("{other}"),
    }
}

fn update_name(reply: Result<(), UpdateError>) -> &'static str {
    match reply {
        Ok(()) => "updated",
        Err(UpdateError::Unknown) => "update unknown",
        Err(UpdateError::InexactReservation) => "update inexact reservation",
        Err(UpdateError::InexactWeight) => "update inexact weight",
        Err(UpdateError::InexactLimit) => "update inexact limit",
        Err(UpdateError::Busy) => "busy",
        Err(other) => panic!("{other}"),
    }
}

fn add_name(reply: Result<Tags, AddError>) -> &'static str {
    match reply {
        Ok(tags) if tags.r.is_some() => "tags with a reservation",
        Ok(_) => "tags",
        Err(AddError::Unknown) => "add unknown",
        Err(AddError::Range) => "add range",
        Err(AddError::OverLimit) => "add over limit",
        Err(other) => panic!("{other}"),
    }
}

fn pull_name(reply: Result<Pulled, PullError>) -> &'static str {
    match reply {
        Ok(Pulled::Returning { beyond: true, .. }) => "beyond",
        Ok(Pulled::Returning {
            phase: PhaseType::Reservation,
            ..
        }) => "by reservation",
        Ok(Pulled::Returning { .. }) => "by weight",
        Ok(Pulled::Future(due)) if due > Moment::MAX.ticks().into() => "future past all moments",
        Ok(Pulled::Future(_)) => "future",
        Ok(Pulled::Nothing) => "nothing",
        Err(PullError::Range) => "pull range",
        Err(other) => panic!("{other}"),
    }
}

fn remove_name(reply: Result<u32, RemoveError>) -> &'static str {
    match reply {
        Ok(0) => "none removed",
        Ok(_) => "removed",
        Err(_) => "remove unknown",
    }
}

fn cancel_name(reply: Result<u32, CancelError>, form: Counting) -> &'static str {
    match (reply, form) {
        (Ok(0), _) => "none cancelled",
        (Ok(1), Counting::All) => "one cancelled in the form All",
        (Ok(1), Counting::Others) => "one cancelled in the form Others",
        (Ok(_), _) => "several cancelled",
        (Err(_), _) => "cancel unknown",
    }
}

/// 250 lists of 400 commands, and how often each reply came.
fn compare(kind: TagKind) -> BTreeMap<&'static str, u32> {
    let mut run = Run::new(2010, kind);
    for _ in 0..250 {
        run.begin();
        let mut fast = Queue::new(kind, run.config).unwrap();
        let mut slow = Slow::new(kind, run.config);
        for _ in 0..400 {
            run.step(&mut fast, &mut slow);
        }
    }
    println!("{:#?}", run.seen);
    run.seen
}

/// The replies that both kinds of tags have.
const REPLIES: &[&str] = &[
    "add over limit",
    "add unknown",
    "beyond",
    "busy",
    "by reservation",
    "by weight",
    "cancel unknown",
    "erased",
    "future",
    "future past all moments",
    "idled",
    "known",
    "none cancelled",
    "none removed",
    "nothing",
    "one cancelled in the form All",
    "one cancelled in the form Others",
    "registered",
    "remove unknown",
    "removed",
    "several cancelled",
    "tags",
    "tags with a reservation",
    "update unknown",
    "updated",
];

/// In ticks a rate may be inexact.
const IN_TICKS: &[&str] = &[
    "inexact limit",
    "inexact reservation",
    "inexact weight",
    "update inexact limit",
    "update inexact reservation",
    "update inexact weight",
];

/// Only fractions are out of range here: ticks are after 2^28 requests.
const IN_RATIOS: &[&str] = &["add range", "pull range"];

#[test]
fn ticks_beside_a_slow_queue() {
    let seen = compare(TagKind::Tick);
    let mut wanted = [REPLIES, IN_TICKS].concat();
    wanted.sort();
    assert_eq!(seen.into_keys().collect::<Vec<_>>(), wanted);
}

#[test]
fn ratios_beside_a_slow_queue() {
    let seen = compare(TagKind::Ratio);
    let mut wanted = [REPLIES, IN_RATIOS].concat();
    wanted.sort();
    assert_eq!(seen.into_keys().collect::<Vec<_>>(), wanted);
}
