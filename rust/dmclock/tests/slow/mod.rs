//! A dmClock queue as slow and as plain as can be: the rules, over a list of requests and a list of
//! clients. The tests run it beside the library.

use dmclock::{
    AddError, AtLimit, CancelError, Cleaned, ClientId, ClientInfo, Cost, Counting, Moment,
    PhaseType, PullError, Pulled, QueueConfig, RegisterError, RemoveError, ReqParams, Shares,
    TagKind, Token, UpdateError,
};
use std::cmp::Ordering;

fn gcd(a: i128, b: i128) -> i128 {
    if b == 0 {
        a
    } else {
        gcd(b, a % b)
    }
}

/// A fraction in lowest terms, its denominator above 0.
#[derive(Clone, Copy, Debug, PartialEq, Eq)]
pub struct Fraction {
    pub numer: i128,
    pub denom: i128,
}

impl Fraction {
    /// The fraction, where it is a value of the tags.
    fn new(kind: TagKind, numer: i128, denom: i128) -> Option<Fraction> {
        let by = gcd(numer.abs(), denom);
        let (numer, denom) = (numer / by, denom / by);
        let greatest_denom = match kind {
            TagKind::Tick => 1,
            TagKind::Ratio => 1 << 32,
        };
        let is_value = numer.abs() <= 1 << 90 && denom <= greatest_denom;
        is_value.then_some(Fraction { numer, denom })
    }

    fn whole(number: u64) -> Fraction {
        Fraction {
            numer: number.into(),
            denom: 1,
        }
    }

    fn plus(self, kind: TagKind, other: Fraction) -> Option<Fraction> {
        let numer = self.numer * other.denom + other.numer * self.denom;
        Fraction::new(kind, numer, self.denom * other.denom)
    }

    fn minus(self, kind: TagKind, other: Fraction) -> Option<Fraction> {
        let other = Fraction {
            numer: -other.numer,
            denom: other.denom,
        };
        self.plus(kind, other)
    }

    fn times(self, kind: TagKind, count: u32) -> Option<Fraction> {
        Fraction::new(kind, self.numer * i128::from(count), self.denom)
    }

    /// How far a tag is past another; 0 if that is no value.
    fn above(self, kind: TagKind, floor: Fraction) -> Fraction {
        self.minus(kind, floor).unwrap_or(Fraction::whole(0))
    }

    /// The least whole number that is not below, and not below 0.
    fn ceil(self) -> u128 {
        let ceil = -(-self.numer).div_euclid(self.denom);
        u128::try_from(ceil).unwrap_or(0)
    }
}

impl Ord for Fraction {
    fn cmp(&self, other: &Fraction) -> Ordering {
        (self.numer * other.denom).cmp(&(other.numer * self.denom))
    }
}

impl PartialOrd for Fraction {
    fn partial_cmp(&self, other: &Fraction) -> Option<Ordering> {
        Some(self.cmp(other))
    }
}

/// The tags of a request, or the previous tags of a client, where `r` is always there.
#[derive(Clone, Copy, Debug, PartialEq, Eq)]
pub struct SlowTags {
    pub r: Option<Fraction>,
    pub l: Fraction,
    pub p: Fraction,
}

/// How far each tag, in the order R, L, P, may fall by cancels.
type Slack = [Fraction; 3];

#[derive(Clone)]
struct Request {
    client: ClientId,
    token: Token,
    cost: Cost,
    tags: SlowTags,
    slack: Slack,
}

#[derive(Clone)]
struct Client {
    id: ClientId,
    info: ClientInfo,
    previous: SlowTags,
    /// That of the last accepted request, and whether that one was cancelled.
    slack: Slack,
    cancelled: bool,
    idle: bool,
    last_arrival: u64,
}

/// A tag and its slack.
#[derive(Clone, Copy)]
struct Level {
    tag: Fraction,
    slack: Fraction,
}

impl Level {
    /// The level less an amount, where both stay values.
    fn less(self, kind: TagKind, amount: Fraction) -> Level {
        match (self.tag.minus(kind, amount), self.slack.minus(kind, amount)) {
            (Some(tag), Some(slack)) => Level { tag, slack },
            _ => self,
        }
    }
}

/// What became of a tag, for the request behind.
#[derive(Clone, Copy)]
struct Passed {
    was: Fraction,
    now_at: Level,
    cancelled: bool,
}

/// A cancel passes a tag, whose request is charged so much if it is taken back.
fn pass(kind: TagKind, front: Option<Passed>, was: Level, charged: Option<Fraction>) -> Passed {
    let mut now_at = was;
    if let Some(front) = front {
        let fall = front.was.above(kind, front.now_at.tag);
        now_at = now_at.less(kind, fall.min(was.slack));
        if front.cancelled {
            now_at.slack = now_at.slack.min(front.now_at.slack);
        }
    }
    if let Some(charged) = charged {
        let past = front.map_or(now_at.slack, |front| {
            now_at.tag.above(kind, front.now_at.tag)
        });
        now_at = now_at.less(kind, charged.min(past).min(now_at.slack));
    }
    Passed {
        was: was.tag,
        now_at,
        cancelled: charged.is_some(),
    }
}

/// A cancel passes the tags of a request, or the previous tags.
fn pass_tags(
    kind: TagKind,
    passed: &mut [Option<Passed>; 3],
    tags: &mut SlowTags,
    slack: &mut Slack,
    charged: Option<Slack>,
) {
    let tags = [tags.r.as_mut(), Some(&mut tags.l), Some(&mut tags.p)];
    for (n, tag) in tags.into_iter().enumerate() {
        if let Some(tag) = tag {
            let level = Level {
                tag: *tag,
                slack: slack[n],
            };
            let after = pass(kind, passed[n], level, charged.map(|charged| charged[n]));
            (*tag, slack[n]) = (after.now_at.tag, after.now_at.slack);
            passed[n] = Some(after);
        }
    }
}

impl Client {
    /// How far the tags of a request that arrives are past these, and behind a cancelled request at
    /// most as far as that might still have fallen.
    fn slack_of(&self, kind: TagKind, tags: SlowTags, floors: [Fraction; 3]) -> Slack {
        let tags = [tags.r, Some(tags.l), Some(tags.p)];
        [0, 1, 2].map(|n| match tags[n].map(|tag| tag.above(kind, floors[n])) {
            Some(slack) if self.cancelled => slack.min(self.slack[n]),
            Some(slack) => slack,
            None => self.slack[n],
        })
    }
}

/// The queue.
pub struct Slow {
    kind: TagKind,
    config: QueueConfig,
    requests: Vec<Request>,
    clients: Vec<Client>,
    last: u64,
    /// The virtual time, and the greatest share that was queued; both stay 0 by the clock.
    virtual_time: Fraction,
    furthest: Fraction,
}

/// Which rate has no spacing.
enum Inexact {
    Reservation,
    Weight,
    Limit,
}

impl Slow {
    pub fn new(kind: TagKind, config: QueueConfig) -> Slow {
        Slow {
            kind,
            config,
            requests: Vec::new(),
            clients: Vec::new(),
            last: 0,
            virtual_time: Fraction::whole(0),
            furthest: Fraction::whole(0),
        }
    }

    pub fn client_count(&self) -> u32 {
        self.clients.len() as u32
    }

    pub fn request_count(&self) -> u32 {
        self.requests.len() as u32
    }

    fn effective(&self, at: Moment) -> u64 {
        at.ticks().max(self.last)
    }

    fn place(&self, id: ClientId) -> Option<usize> {
        self.clients.iter().position(|client| client.id == id)
    }

    fn has_queued(&self, id: ClientId) -> bool {
        self.requests.iter().any(|request| request.client == id)
    }

    fn spacing(&self, rate: u32) -> Option<Fraction> {
        Fraction::new(self.kind, self.config.hz().into(), rate.into())
    }

    fn check_rates(&self, info: ClientInfo) -> Result<(), Inexact> {
        let has_spacing =
            |rate: Option<u32>| rate.map_or(true, |rate| self.spacing(rate).is_some());
        if !has_spacing(info.reservation()) {
            return Err(Inexact::Reservation);
        }
        if !has_spacing(Some(info.weight())) {
            return Err(Inexact::Weight);
        }
        if !has_spacing(info.limit()) {
            return Err(Inexact::Limit);
        }
        Ok(())
    }

    pub fn register(
        &mut self,
        id: ClientId,
        info: ClientInfo,
        at: Moment,
    ) -> Result<(), RegisterError> {
        let t = self.effective(at);
        if self.place(id).is_some() {
            return Err(RegisterError::Known);
        }
        self.check_rates(info).map_err(|field| match field {
            Inexact::Reservation => RegisterError::InexactReservation,
            Inexact::Weight => RegisterError::InexactWeight,
            Inexact::Limit => RegisterError::InexactLimit,
        })?;
        if self.clients.len() >= 65_536 {
            return Err(RegisterError::Clients);
        }
        let zero = Fraction::whole(0);
        let previous = SlowTags {
            r: Some(zero),
            l: zero,
            p: zero,
        };
        self.clients.push(Client {
            id,
            info,
            previous,
            slack: [zero; 3],
            cancelled: false,
            idle: true,
            last_arrival: t,
        });
        self.last = t;
        Ok(())
    }

    pub fn update_info(
        &mut self,
        id: ClientId,
        info: ClientInfo,
        at: Moment,
    ) -> Result<(), UpdateError> {
        let t = self.effective(at);
        let place = self.place(id).ok_or(UpdateError::Unknown)?;
        self.check_rates(info).map_err(|field| match field {
            Inexact::Reservation => UpdateError::InexactReservation,
            Inexact::Weight => UpdateError::InexactWeight,
            Inexact::Limit => UpdateError::InexactLimit,
        })?;
        let had = self.clients[place].info.reservation().is_some();
        if had != info.reservation().is_some() && self.has_queued(id) {
            return Err(UpdateError::Busy);
        }
        self.clients[place].info = info;
        self.last = t;
        Ok(())
    }

    /// By the clock: the queue with all that is not idle shifted, so that the least share begins at
    /// `t`.
    fn adjusted(&self, place: usize, t: u64) -> Option<(Vec<Request>, Vec<Client>)> {
        let (mut requests, mut clients) = (self.requests.clone(), self.clients.clone());
        if !self.clients[place].idle || self.config.shares() == Shares::Virtual {
            return Some((requests, clients));
        }
        let least = match self.requests.iter().map(|request| request.tags.p).min() {
            Some(least) => least,
            None => return Some((requests, clients)),
        };
        let amount = least.minus(self.kind, Fraction::whole(t))?;
        for request in &mut requests {
            let owner = self.place(request.client).unwrap();
            if !self.clients[owner].idle {
                request.tags.p = request.tags.p.minus(self.kind, amount)?;
            }
        }
        for client in clients.iter_mut().filter(|client| !client.idle) {
            client.previous.p = client.previous.p.minus(self.kind, amount)?;
        }
        Some((requests, clients))
    }

    /// What a share is at least: the clock's time, or the virtual time, which goes on to the
    /// furthest share where nothing is queued.
    fn least_share(&self, t: u64) -> Fraction {
        match self.config.shares() {
            Shares::Clock => Fraction::whole(t),
            Shares::Virtual if self.requests.is_empty() => self.virtual_time.max(self.furthest),
            Shares::Virtual => self.virtual_time,
        }
    }

    /// A tag: max(previous + count * spacing, least).
    fn next(
        &self,
        previous: Fraction,
        count: u32,
        rate: Option<u32>,
        least: Fraction,
    ) -> Option<Fraction> {
        let step = match rate {
            Some(rate) => self.spacing(rate)?.times(self.kind, count)?,
            None => Fraction::whole(0),
        };
        Some(previous.plus(self.kind, step)?.max(least))
    }

    pub fn add_request(
        &mut self,
        id: ClientId,
        token: Token,
        params: ReqParams,
        at: Moment,
    ) -> Result<SlowTags, AddError> {
        let t = self.effective(at);
        let place = self.place(id).ok_or(AddError::Unknown)?;
        if self.requests.len() >= 1 << 20 {
            return Err(AddError::QueueFull);
        }
        let (mut requests, mut clients) = self.adjusted(place, t).ok_or(AddError::Range)?;
        let Client { info, previous, .. } = clients[place].clone();
        let (now, least) = (Fraction::whole(t), self.least_share(t));
        let r = match info.reservation() {
            Some(rate) => Some(
                self.next(previous.r.unwrap(), params.rho(), Some(rate), now)
                    .ok_or(AddError::Range)?,
            ),
            None => None,
        };
        let l = self.next(previous.l, params.delta(), info.limit(), now);
        let p = self.next(previous.p, params.delta(), Some(info.weight()), least);
        let tags = SlowTags {
            r,
            l: l.ok_or(AddError::Range)?,
            p: p.ok_or(AddError::Range)?,
        };
        if let AtLimit::Reject { threshold } = self.config.at_limit() {
            if tags.l.ceil() > u128::from(t) + u128::from(threshold) {
                return Err(AddError::OverLimit);
            }
        }
        let client = &mut clients[place];
        let slack = client.slack_of(self.kind, tags, [now, now, least]);
        client.previous = SlowTags {
            r: tags.r.or(previous.r),
            ..tags
        };
        (client.slack, client.cancelled) = (slack, false);
        client.idle = false;
        client.last_arrival = t;
        requests.push(Request {
            client: id,
            token,
            cost: params.cost(),
            tags,
            slack,
        });
        (self.requests, self.clients, self.last) = (requests, clients, t);
        if self.config.shares() == Shares::Virtual {
            (self.virtual_time, self.furthest) = (least, self.furthest.max(tags.p));
        }
        Ok(tags)
    }

    /// The index of the best request by a tag, among those that pass a test: the least tag, then
    /// the least client, then the first to arrive.
    fn best(
        &self,
        tag: impl Fn(&SlowTags) -> Option<Fraction>,
        test: impl Fn(&SlowTags) -> bool,
    ) -> Option<usize> {
        let passing = self.requests.iter().enumerate();
        passing
            .filter(|(_, request)| test(&request.tags))
            .filter_map(|(place, request)| Some((tag(&request.tags)?, request.client, place)))
            .min()
            .map(|(_, _, place)| place)
    }

    /// Grants by weight: a spacing for each unit of its cost goes off the client's reservation tags.
    fn grant_by_weight(&mut self, place: usize, beyond: bool, t: u64) -> Result<Pulled, PullError> {
        let (mut requests, mut clients) = (self.requests.clone(), self.clients.clone());
        let granted = requests.remove(place);
        let owner = self.place(granted.client).unwrap();
        if let Some(rate) = clients[owner].info.reservation() {
            let less = |tag: Fraction| {
                let amount = self.spacing(rate)?.times(self.kind, granted.cost.units())?;
                tag.minus(self.kind, amount)
            };
            for request in requests.iter_mut().filter(|r| r.client == granted.client) {
                if let Some(tag) = request.tags.r {
                    request.tags.r = Some(less(tag).ok_or(PullError::Range)?);
                }
            }
            let previous = clients[owner].previous.r.unwrap();
            clients[owner].previous.r = Some(less(previous).ok_or(PullError::Range)?);
        }
        (self.requests, self.clients, self.last) = (requests, clients, t);
        if self.config.shares() == Shares::Virtual {
            self.virtual_time = self.virtual_time.max(granted.tags.p);
        }
        Ok(Pulled::Returning {
            client: granted.client,
            token: granted.token,
            phase: PhaseType::Priority,
            cost: granted.cost,
            beyond,
        })
    }

    pub fn pull_request(&mut self, at: Moment) -> Result<Pulled, PullError> {
        let t = self.effective(at);
        let now = Fraction::whole(t);
        if let Some(place) = self.best(|tags| tags.r, |tags| tags.r.map_or(false, |r| r <= now)) {
            let granted = self.requests.remove(place);
            self.last = t;
            return Ok(Pulled::Returning {
                client: granted.client,
                token: granted.token,
                phase: PhaseType::Reservation,
                cost: granted.cost,
                beyond: false,
            });
        }
        if let Some(place) = self.best(|tags| Some(tags.p), |tags| tags.l <= now) {
            return self.grant_by_weight(place, false, t);
        }
        match (
            self.best(|tags| Some(tags.p), |_| true),
            self.config.at_limit(),
        ) {
            (Some(place), AtLimit::Allow) => self.grant_by_weight(place, true, t),
            (Some(_), AtLimit::Wait | AtLimit::Reject { .. }) => {
                self.last = t;
                let tags = self.requests.iter().map(|request| request.tags);
                let due = tags.flat_map(|tags| tags.r.into_iter().chain([tags.l]));
                Ok(Pulled::Future(due.map(Fraction::ceil).min().unwrap()))
            }
            (None, _) => {
                self.last = t;
                Ok(Pulled::Nothing)
            }
        }
    }

    pub fn remove_by_client(&mut self, id: ClientId) -> Result<u32, RemoveError> {
        self.place(id).ok_or(RemoveError::Unknown)?;
        let before = self.requests.len();
        self.requests.retain(|request| request.client != id);
        Ok((before - self.requests.len()) as u32)
    }

    /// What a request of this cost was charged: with its rates now, if its stamp counted it.
    fn charged(&self, info: ClientInfo, cost: Cost, counting: Counting) -> Slack {
        let rates = [info.reservation(), info.limit(), Some(info.weight())];
        rates.map(|rate| match (rate, counting) {
            (Some(rate), Counting::Others) => self
                .spacing(rate)
                .and_then(|spacing| spacing.times(self.kind, cost.units()))
                .unwrap_or(Fraction::whole(0)),
            _ => Fraction::whole(0),
        })
    }

    pub fn cancel(
        &mut self,
        id: ClientId,
        token: Token,
        counting: Counting,
    ) -> Result<u32, CancelError> {
        let place = self.place(id).ok_or(CancelError::Unknown)?;
        let (info, mut passed, mut last) = (self.clients[place].info, [None; 3], false);
        let (mut kept, before) = (Vec::new(), self.requests.len());
        for mut request in std::mem::take(&mut self.requests) {
            if request.client != id {
                kept.push(request);
                continue;
            }
            last = request.token == token;
            let charged = last.then(|| self.charged(info, request.cost, counting));
            let Request { tags, slack, .. } = &mut request;
            pass_tags(self.kind, &mut passed, tags, slack, charged);
            if !last {
                kept.push(request);
            }
        }
        self.requests = kept;
        let client = &mut self.clients[place];
        let previous = (&mut client.previous, &mut client.slack);
        pass_tags(self.kind, &mut passed, previous.0, previous.1, None);
        client.cancelled |= last;
        Ok((before - self.requests.len()) as u32)
    }

    pub fn clean(&mut self, at: Moment) -> Cleaned {
        let t = self.effective(at);
        let (mut idled, mut erased) = (0, 0);
        let mut kept = Vec::new();
        for mut client in self.clients.clone() {
            let age = t - client.last_arrival;
            if !self.has_queued(client.id) {
                if age >= self.config.erase_age() {
                    erased += 1;
                    continue;
                }
                if age >= self.config.idle_age() && !client.idle {
                    client.idle = true;
                    idled += 1;
                }
            }
            kept.push(client);
        }
        (self.clients, self.last) = (kept, t);
        Cleaned { idled, erased }
    }
}
