//! The worked examples, each under its name: a script, its lines separated by `;`, and the replies.

use dmclock::{
    AddError, ArriveError, AtLimit, Cleaned, ClientId, ClientInfo, Cost, Counting, Moment,
    PhaseType, Pulled, Queue, QueueConfig, RegisterError, ReqParams, ServerId, ShardTracker,
    Shares, StampError, TagKind, Tags, Token, Tracker, UpdateError,
};
use std::str::SplitWhitespace;

/// The next word as a number.
fn number(words: &mut SplitWhitespace<'_>) -> u64 {
    words.next().unwrap().parse().unwrap()
}

fn small(words: &mut SplitWhitespace<'_>) -> u32 {
    number(words).try_into().unwrap()
}

fn rate(words: &mut SplitWhitespace<'_>) -> Option<u32> {
    let word = words.next().unwrap();
    (word != "-").then(|| word.parse().unwrap())
}

fn refused(error: impl std::fmt::Debug) -> String {
    format!("refused {error:?}")
}

fn tags_text(tags: Tags) -> String {
    let r = tags.r.map_or("-".to_string(), |r| r.to_string());
    format!("tags {r} {} {}", tags.l, tags.p)
}

fn pulled_text(pulled: Pulled) -> String {
    let Pulled::Returning {
        client,
        token,
        phase,
        cost,
        beyond,
    } = pulled
    else {
        return match pulled {
            Pulled::Future(due) => format!("future {due}"),
            _ => "none".to_string(),
        };
    };
    let phase = match phase {
        PhaseType::Reservation => "reservation",
        PhaseType::Priority => "priority",
    };
    let beyond = if beyond { " beyond" } else { "" };
    let cost = match cost {
        Cost::ONE => String::new(),
        cost => format!(" cost {}", cost.units()),
    };
    format!("grant {} {} {phase}{beyond}{cost}", client.0, token.0)
}

fn counting(word: &str) -> Counting {
    match word {
        "all" => Counting::All,
        _ => Counting::Others,
    }
}

/// The reply to a line. Values are checked in the order moment, params, cost, rate.
fn reply(queue: &mut Queue, line: &str) -> Result<String, String> {
    let words = &mut line.split_whitespace();
    let verb = words.next().unwrap();
    if verb == "pull" || verb == "clean" {
        let at = Moment::new(number(words)).map_err(refused)?;
        if verb == "pull" {
            return queue.pull_request(at).map(pulled_text).map_err(refused);
        }
        let Cleaned { idled, erased } = queue.clean(at);
        return Ok(format!("cleaned {idled} {erased}"));
    }
    let client = ClientId(small(words));
    if verb == "drop" {
        let removed = queue.remove_by_client(client).map_err(refused)?;
        return Ok(format!("dropped {removed}"));
    }
    if verb == "cancel" {
        let (token, form) = (Token(small(words)), counting(words.next().unwrap()));
        let removed = queue.cancel(client, token, form).map_err(refused)?;
        return Ok(format!("dropped {removed}"));
    }
    if verb == "add" {
        let (token, delta, rho) = (Token(small(words)), small(words), small(words));
        let at = Moment::new(number(words)).map_err(refused)?;
        let mut params = ReqParams::new(delta, rho).map_err(refused)?;
        if words.next() == Some("cost") {
            params = params.with_cost(Cost::new(small(words)).map_err(refused)?);
        }
        let added = queue.add_request(client, token, params, at);
        return added.map(tags_text).map_err(refused);
    }
    let (reservation, weight, limit) = (rate(words), small(words), rate(words));
    let at = Moment::new(number(words)).map_err(refused)?;
    let info = ClientInfo::new(reservation, weight, limit).map_err(refused)?;
    if verb == "client" {
        queue.register(client, info, at).map_err(refused)?;
        return Ok("ok".to_string());
    }
    queue.update_info(client, info, at).map_err(refused)?;
    Ok("updated".to_string())
}

fn run(tags: TagKind, config: QueueConfig, script: &str) -> String {
    let mut queue = Queue::new(tags, config).unwrap();
    let lines = script.split(';').map(|line| reply(&mut queue, line));
    let replies: Vec<_> = lines
        .map(|reply| reply.unwrap_or_else(|refused| refused))
        .collect();
    replies.join("; ")
}

fn setting(hz: u64, at_limit: AtLimit) -> QueueConfig {
    QueueConfig::new(hz, 600_000, 1_200_000, at_limit).unwrap()
}

fn ticks(script: &str) -> String {
    run(TagKind::Tick, setting(1000, AtLimit::Wait), script)
}

fn ratios(hz: u64, script: &str) -> String {
    run(TagKind::Ratio, setting(hz, AtLimit::Wait), script)
}

#[test]
fn granted_by_reservation() {
    let replies = ticks("client 1 10 1 - 0; add 1 9 0 0 0; pull 0");
    assert_eq!(replies, "ok; tags 0 0 0; grant 1 9 reservation");
}

#[test]
fn granted_at_limit() {
    let replies = ticks("client 1 10 1 20 0; add 1 7 1 1 0; pull 0; pull 50; pull 50");
    let wanted = "ok; tags 100 50 1000; future 50; grant 1 7 priority; none";
    assert_eq!(replies, wanted);
}

#[test]
fn allowed_beyond() {
    let script = "client 1 10 1 20 0; add 1 1 1 1 0; add 1 2 1 1 0; pull 0; pull 100; pull 100";
    let replies = run(TagKind::Tick, setting(1000, AtLimit::Allow), script);
    let wanted = "ok; tags 100 50 1000; tags 200 100 2000; grant 1 1 priority beyond; \
                  grant 1 2 reservation; none";
    assert_eq!(replies, wanted);
}

#[test]
fn refused_over_limit() {
    let script = "client 1 - 1 10 0; add 1 11 1 0 0; add 1 11 1 0 50; add 1 12 1 0 100; \
                  add 1 12 1 0 150; pull 150; pull 199";
    let reject = AtLimit::Reject { threshold: 50 };
    let replies = run(TagKind::Tick, setting(1000, reject), script);
    let wanted = "ok; refused OverLimit; tags - 100 1000; refused OverLimit; tags - 200 2000; \
                  grant 1 11 priority; future 200";
    assert_eq!(replies, wanted);
}

#[test]
fn updates() {
    let replies = ticks(
        "client 1 - 1 - 0; add 1 1 1 0 0; update 1 - 2 - 0; add 1 2 1 0 0; update 1 10 2 - 0; \
         drop 1; update 1 10 2 - 0; add 1 3 1 1 0; update 1 - 3 - 0; update 2 - 1 - 0",
    );
    let wanted = "ok; tags - 0 1000; updated; tags - 0 1500; refused Busy; dropped 2; updated; \
                  tags 100 0 2000; refused InexactWeight; refused Unknown";
    assert_eq!(replies, wanted);
}

/// A client is alone, and another comes.
const NEWCOMER: &str = "client 1 - 1 - 0; client 2 - 1 - 0; add 1 11 1 1 0; add 1 12 1 1 0; \
                        pull 0; pull 0; add 2 21 1 1 0; add 1 13 1 1 0; add 2 22 1 1 0; pull 0; \
                        pull 0; pull 0";

#[test]
fn newcomer_clock() {
    let wanted = "ok; ok; tags - 0 1000; tags - 0 2000; grant 1 11 priority; grant 1 12 priority; \
                  tags - 0 1000; tags - 0 3000; tags - 0 2000; grant 2 21 priority; \
                  grant 2 22 priority; grant 1 13 priority";
    assert_eq!(ticks(NEWCOMER), wanted);
}

#[test]
fn newcomer_virtual() {
    let config = setting(1000, AtLimit::Wait).with_shares(Shares::Virtual);
    let replies = run(TagKind::Tick, config, NEWCOMER);
    let wanted = "ok; ok; tags - 0 1000; tags - 0 2000; grant 1 11 priority; grant 1 12 priority; \
                  tags - 0 2000; tags - 0 3000; tags - 0 3000; grant 2 21 priority; \
                  grant 1 13 priority; grant 2 22 priority";
    assert_eq!(replies, wanted);
}

#[test]
fn exact_thirds() {
    let replies = ratios(
        1000,
        "client 1 - 3 - 0; add 1 1 1 0 0; add 1 2 1 0 0; add 1 3 1 0 0",
    );
    let wanted = "ok; tags - 0 1000/3; tags - 0 2000/3; tags - 0 1000";
    assert_eq!(replies, wanted);
}

#[test]
fn a_request_of_four() {
    let replies = ticks(
        "client 1 100 1 - 0; client 2 - 1 - 0; add 1 11 0 0 0 cost 4; add 1 12 4 0 0 cost 4; \
         add 2 21 0 0 0; pull 0; pull 0; pull 0; pull 0",
    );
    let wanted = "ok; ok; tags 0 0 0; tags 0 0 4000; tags - 0 0; grant 1 11 reservation cost 4; \
                  grant 1 12 reservation cost 4; grant 2 21 priority; none";
    assert_eq!(replies, wanted);
}

/// The grant of 12 takes four spacings off the reservation tag of 13.
#[test]
fn reduced_by_the_cost() {
    for (at, phase) in [(799, "priority"), (800, "reservation")] {
        let replies = ticks(&format!(
            "client 1 10 1 - 0; add 1 11 0 0 0; add 1 12 8 8 0 cost 4; add 1 13 4 4 0; pull 0; \
             pull 0; pull {at}"
        ));
        let wanted = format!(
            "ok; tags 0 0 0; tags 800 0 8000; tags 1200 0 12000; grant 1 11 reservation; \
             grant 1 12 priority cost 4; grant 1 13 {phase}"
        );
        assert_eq!(replies, wanted);
    }
}

/// Four requests of a client with a limit, one of which comes later.
const FOUR: &str = "client 1 - 1 10 0; add 1 11 1 1 0; add 1 12 1 1 0; add 1 13 1 1 0; \
                    add 1 14 1 1 250";
const FOUR_TAGS: &str = "ok; tags - 100 1000; tags - 200 2000; tags - 300 3000; tags - 400 4000";

#[test]
fn cancelled() {
    let replies = ticks(&format!(
        "{FOUR}; cancel 1 12 others; pull 100; pull 200; pull 299; cancel 1 14 others; \
         add 1 15 1 1 299"
    ));
    let wanted = format!(
        "{FOUR_TAGS}; dropped 1; grant 1 11 priority; grant 1 13 priority; future 300; dropped 1; \
         tags - 350 3000"
    );
    assert_eq!(replies, wanted);
}

#[test]
fn cancelled_idle_between() {
    let replies = ticks(
        "client 1 - 1 10 0; add 1 11 1 1 0; add 1 12 1 1 200; add 1 13 1 1 200; \
         cancel 1 12 others; cancel 1 11 others; pull 250; pull 300",
    );
    let wanted = "ok; tags - 100 1000; tags - 200 2000; tags - 300 3000; dropped 1; dropped 1; \
                  future 300; grant 1 13 priority";
    assert_eq!(replies, wanted);
}

#[test]
fn cancelled_all() {
    let replies = ticks(&format!(
        "{FOUR}; cancel 1 12 all; pull 100; pull 200; pull 299; pull 300"
    ));
    let wanted = format!(
        "{FOUR_TAGS}; dropped 1; grant 1 11 priority; future 300; future 300; grant 1 13 priority"
    );
    assert_eq!(replies, wanted);
}

#[test]
fn idle_then_erased() {
    let config = QueueConfig::new(1000, 100, 1000, AtLimit::Wait).unwrap();
    let script = "client 1 - 1 - 0; clean 100; add 1 1 0 0 100; pull 100; clean 199; clean 200; \
                  clean 1099; clean 1100; add 1 2 0 0 1100";
    let replies = run(TagKind::Tick, config, script);
    let wanted = "ok; cleaned 0 0; tags - 100 100; grant 1 1 priority; cleaned 0 0; cleaned 1 0; \
                  cleaned 0 0; cleaned 0 1; refused Unknown";
    assert_eq!(replies, wanted);
}

#[test]
fn reduction_out_of_range() {
    let replies = ratios(
        1,
        "client 1 65537 1 - 0; add 1 1 1 1 0; add 1 2 1 1 0; update 1 65539 1 - 0; pull 0; \
         pull 1; pull 1",
    );
    let wanted = "ok; tags 1/65537 0 1; tags 2/65537 0 2; updated; refused Range; \
                  grant 1 1 reservation; grant 1 2 reservation";
    assert_eq!(replies, wanted);
}

#[test]
fn refused_values() {
    let replies = ticks(
        "client 1 - 1 - 0; client 1 - 0 - 18446744073709551615; client 1 - 0 - 0; \
         client 1 3 3 3 0; client 2 3 3 3 0; client 2 10 3 3 0; client 2 10 1 3 0; \
         add 2 1 0 1 18446744073709551615 cost 0; add 2 1 0 1 0 cost 0; add 2 1 0 0 0 cost 0; \
         add 2 1 0 0 0; \
         pull 18446744073709551615; clean 18446744073709551615; drop 2; \
         cancel 2 1 others; cancel 1 1 all",
    );
    let wanted = "ok; refused Past; refused Zero; refused Known; refused InexactReservation; \
                  refused InexactWeight; refused InexactLimit; refused Past; refused Rho; \
                  refused Zero; refused Unknown; refused Past; refused Past; refused Unknown; \
                  refused Unknown; dropped 0";
    assert_eq!(replies, wanted);
}

/// A stamp to server 0, a response, a stamp to server 1, a response, a stamp to server 0; and what
/// the tracker then knows of both.
fn three_stamps(counting: Counting) -> (Vec<(u32, u32)>, [[u64; 6]; 2]) {
    let mut tracker = Tracker::new(2, 10, counting).unwrap();
    let mut stamps = Vec::new();
    let responses = [
        Some(PhaseType::Reservation),
        Some(PhaseType::Priority),
        None,
    ];
    for (server, response) in [0, 1, 0].map(ServerId).into_iter().zip(responses) {
        let params = tracker.get_req_params(server, Cost::ONE).unwrap();
        stamps.push((params.delta(), params.rho()));
        if let Some(phase) = response {
            tracker.track_resp(server, phase, Cost::ONE).unwrap();
        }
    }
    let known = [0, 1].map(|server| {
        let status = tracker.status(ServerId(server)).unwrap();
        [
            status.sent_delta,
            status.sent_rho,
            status.pending_delta,
            status.pending_rho,
            status.completions,
            status.reservation,
        ]
    });
    (stamps, known)
}

/// Two responses of server 0, a skip of server 1, and a stamp to each; and what is pending at
/// server 1 after the skip.
fn skip_between(counting: Counting) -> ([(u32, u32); 2], (u64, u64)) {
    let mut tracker = Tracker::new(2, 1 << 62, counting).unwrap();
    for phase in [PhaseType::Reservation, PhaseType::Priority] {
        tracker.track_resp(ServerId(0), phase, Cost::ONE).unwrap();
    }
    tracker.skip(ServerId(1)).unwrap();
    let status = tracker.status(ServerId(1)).unwrap();
    let stamps = [0, 1].map(|server| {
        let params = tracker.get_req_params(ServerId(server), Cost::ONE).unwrap();
        (params.delta(), params.rho())
    });
    (stamps, (status.pending_delta, status.pending_rho))
}

#[test]
fn skipped_server() {
    let wanted = ([(2, 1), (0, 0)], (0, 0));
    assert_eq!(skip_between(Counting::All), wanted);
    let wanted = ([(1, 1), (1, 1)], (0, 0));
    assert_eq!(skip_between(Counting::Others), wanted);
}

#[test]
fn two_server_tracker() {
    let known = [[2, 1, 0, 0, 2, 1], [1, 1, 1, 0, 2, 1]];
    let wanted = (vec![(0, 0), (1, 1), (2, 1)], known);
    assert_eq!(three_stamps(Counting::All), wanted);
}

/// A request to shard 0, one to shard 1 that its queue refuses, and one to shard 1 again.
#[test]
fn two_shards() {
    let mut shards = ShardTracker::new(2, 6).unwrap();
    let cost = |cost| Cost::new(cost).unwrap();
    let came = |delta, rho, cost| ReqParams::new(delta, rho).unwrap().with_cost(cost);
    let (zero, one) = (ServerId(0), ServerId(1));
    let first = shards.arrive(zero, came(2, 1, cost(1)));
    assert_eq!(first, Ok(came(2, 1, cost(1))));
    let second = shards.arrive(one, came(3, 0, cost(4))).unwrap();
    assert_eq!(second, came(5, 1, cost(4)));
    shards.give_back(one, second).unwrap();
    let third = shards.arrive(one, came(1, 1, cost(2)));
    assert_eq!(third, Ok(came(6, 2, cost(2))));
    let known = |shard| {
        let s = shards.status(shard).unwrap();
        let counts = [s.sent_delta, s.sent_rho, s.pending_delta, s.pending_rho];
        (counts, s.completions, s.reservation)
    };
    assert_eq!(known(zero), ([2, 1, 4, 1], 6, 2));
    assert_eq!(known(one), ([6, 2, 0, 0], 6, 2));
}

/// The next stamp is that of the arrival, and without an arrival nothing has come in.
#[test]
fn next_stamp() {
    let mut shards = ShardTracker::new(2, 6).unwrap();
    let params = |delta, rho| ReqParams::new(delta, rho).unwrap();
    let (zero, one) = (ServerId(0), ServerId(1));
    shards.arrive(zero, params(2, 1)).unwrap();
    for _ in 0..2 {
        assert_eq!(shards.next(one, params(3, 0)), Ok(params(5, 1)));
        assert_eq!(shards.status(one).unwrap().completions, 2);
    }
    assert_eq!(shards.arrive(one, params(3, 0)), Ok(params(5, 1)));
    let full = shards.next(one, params(2, 0));
    assert_eq!(full, Err(ArriveError::TrackFull));
}

/// A shard that was not used while 2^32-1 came for the other, before it is skipped and after.
#[test]
fn skipped_shard() {
    let mut shards = ShardTracker::new(2, 1 << 62).unwrap();
    let params = |delta, rho| ReqParams::new(delta, rho).unwrap();
    let (zero, one) = (ServerId(0), ServerId(1));
    shards.arrive(zero, params(u32::MAX, 1)).unwrap();
    let stuck = shards.arrive(one, params(1, 0));
    assert_eq!(stuck, Err(ArriveError::TrackFull));
    shards.skip(one).unwrap();
    assert_eq!(shards.arrive(one, params(1, 0)), Ok(params(1, 0)));
    let status = shards.status(one).unwrap();
    assert_eq!((status.sent_delta, status.pending_delta), (1, 0));
    assert_eq!(status.completions, 1 << 32);
}

#[test]
fn others_tracker() {
    let known = [[3, 2, 0, 0, 2, 1], [2, 2, 0, 0, 2, 1]];
    let wanted = (vec![(1, 1), (2, 2), (2, 1)], known);
    assert_eq!(three_stamps(Counting::Others), wanted);
    let mut tracker = Tracker::new(2, 1, Counting::Others).unwrap();
    let params = tracker.get_req_params(ServerId(0), Cost::ONE).unwrap();
    assert_eq!((params.delta(), params.rho()), (1, 1));
    let again = tracker.get_req_params(ServerId(0), Cost::ONE);
    assert_eq!(again, Err(StampError::TrackFull));
}

fn cost(units: u32) -> Cost {
    Cost::new(units).unwrap()
}

/// A stamp of this cost and its response, another stamp and a response of another request, and a
/// last stamp: delta, rho and cost of each stamp.
fn stamps_of_costs(counting: Counting, costs: [u32; 4]) -> [(u32, u32, u32); 3] {
    let [first, second, other, last] = costs.map(cost);
    let mut tracker = Tracker::new(2, 100, counting).unwrap();
    let one = tracker.get_req_params(ServerId(0), first).unwrap();
    let reserved = tracker.track_resp(ServerId(0), PhaseType::Reservation, first);
    let two = tracker.get_req_params(ServerId(1), second).unwrap();
    let by_weight = tracker.track_resp(ServerId(1), PhaseType::Priority, other);
    let three = tracker.get_req_params(ServerId(0), last).unwrap();
    assert_eq!((reserved, by_weight), (Ok(()), Ok(())));
    [one, two, three].map(|params| (params.delta(), params.rho(), params.cost().units()))
}

#[test]
fn costs_are_counted() {
    let wanted = [(0, 0, 8), (8, 8, 1), (10, 8, 1)];
    assert_eq!(stamps_of_costs(Counting::All, [8, 1, 2, 1]), wanted);
    let wanted = [(8, 8, 8), (11, 11, 3), (4, 1, 1)];
    assert_eq!(stamps_of_costs(Counting::Others, [8, 3, 3, 1]), wanted);
}

/// A tracker's stamp carries the cost to the queue, and the grant carries it back.
#[test]
fn a_cost_goes_round() {
    let mut queue = Queue::new(TagKind::Tick, setting(1000, AtLimit::Wait)).unwrap();
    let mut tracker = Tracker::new(1, 100, Counting::Others).unwrap();
    let (client, server, zero) = (ClientId(1), ServerId(0), Moment::zero());
    let info = ClientInfo::new(Some(10), 1, None).unwrap();
    queue.register(client, info, zero).unwrap();
    let params = tracker.get_req_params(server, cost(5)).unwrap();
    queue.add_request(client, Token(1), params, zero).unwrap();
    let pulled = queue.pull_request(Moment::new(500).unwrap()).unwrap();
    let Pulled::Returning { phase, cost, .. } = pulled else {
        panic!("{pulled:?}");
    };
    assert_eq!((phase, cost.units()), (PhaseType::Reservation, 5));
    tracker.track_resp(server, phase, cost).unwrap();
    let status = tracker.status(server).unwrap();
    assert_eq!((status.completions, status.reservation), (5, 5));
}

#[test]
fn returned_stamps() {
    let params = |delta, rho, units| ReqParams::new(delta, rho).unwrap().with_cost(cost(units));
    let (stamp, returned) = (params(3, 1, 2), params(7, 5, 4));
    let with = |counting| stamp.with_returned(returned, counting);
    assert_eq!(with(Counting::All), Some(params(10, 6, 2)));
    assert_eq!(with(Counting::Others), Some(params(6, 2, 2)));
    let full = params(u32::MAX - 6, 0, 1);
    let with = |delta, counting| full.with_returned(params(delta, 4, 4), counting);
    assert_eq!(with(6, Counting::All), Some(params(u32::MAX, 4, 1)));
    assert_eq!(with(7, Counting::All), None);
    assert_eq!(with(10, Counting::Others), Some(params(u32::MAX, 0, 1)));
    assert_eq!(with(11, Counting::Others), None);
}

#[test]
fn queue_limits() {
    let config = QueueConfig::new(1000, 1, 1, AtLimit::Wait).unwrap();
    let mut queue = Queue::new(TagKind::Tick, config).unwrap();
    let info = ClientInfo::new(None, 1, None).unwrap();
    let (zero, params) = (Moment::zero(), ReqParams::new(1, 0).unwrap());
    for client in 0..65_536 {
        queue.register(ClientId(client), info, zero).unwrap();
    }
    let one_more = queue.register(ClientId(65_536), info, zero);
    assert_eq!(one_more, Err(RegisterError::Clients));
    for token in 0..1_048_576 {
        queue
            .add_request(ClientId(1), Token(token), params, zero)
            .unwrap();
    }
    let one_more = queue.add_request(ClientId(1), Token(0), params, zero);
    assert_eq!(one_more, Err(AddError::QueueFull));
    assert_eq!(
        (queue.client_count(), queue.request_count()),
        (65_536, 1_048_576)
    );
    queue.pull_request(zero).unwrap();
    queue
        .add_request(ClientId(1), Token(0), params, zero)
        .unwrap();
    assert_eq!(
        queue.update_info(ClientId(65_536), info, zero),
        Err(UpdateError::Unknown)
    );
}

/// Five requests of the greatest delta take the limit tag past 2^64 ticks.
#[test]
fn due_past_all_words() {
    let config = setting(1_000_000_000, AtLimit::Wait);
    let mut queue = Queue::new(TagKind::Tick, config).unwrap();
    let (client, zero) = (ClientId(1), Moment::zero());
    queue
        .register(client, ClientInfo::new(None, 1, Some(1)).unwrap(), zero)
        .unwrap();
    let params = ReqParams::new(u32::MAX, 0).unwrap();
    for token in 0..4 {
        queue
            .add_request(client, Token(token), params, zero)
            .unwrap();
    }
    assert_eq!(queue.remove_by_client(client), Ok(4));
    let tags = queue.add_request(client, Token(4), params, zero).unwrap();
    let due = 5 * u128::from(u32::MAX) * 1_000_000_000;
    assert!(due > 1 << 64);
    assert_eq!(tags.l.numer(), i128::try_from(due).unwrap());
    assert_eq!(queue.pull_request(zero), Ok(Pulled::Future(due)));
}

#[test]
fn tags_in_order() {
    let config = setting(1000, AtLimit::Wait);
    let mut queue = Queue::new(TagKind::Ratio, config).unwrap();
    let info = ClientInfo::new(Some(7), 3, None).unwrap();
    let (client, zero) = (ClientId(1), Moment::zero());
    queue.register(client, info, zero).unwrap();
    let params = ReqParams::new(1, 1).unwrap();
    let one = queue.add_request(client, Token(1), params, zero).unwrap();
    let two = queue.add_request(client, Token(2), params, zero).unwrap();
    assert!(one.r.unwrap() < one.p && one.p < two.p && one.l == two.l);
    assert_eq!((one.p.numer(), one.p.denom()), (1000, 3));
    assert!((one.p.to_f64() - 333.333).abs() < 0.001);
}
