//! A queue that threads share behind a lock, and values that move into threads.

use dmclock::*;
use std::sync::{mpsc, Mutex};
use std::thread;

const ZERO: Moment = Moment::zero();

fn queue() -> Queue {
    let config = QueueConfig::new(1000, 600_000, 1_200_000, AtLimit::Wait).unwrap();
    Queue::new(TagKind::Tick, config).unwrap()
}

/// Eight threads register a client each, queue 1,000 requests of it each, and pull as many: each
/// request is granted once, a client's in the order of their tokens.
#[test]
fn eight_threads_share_a_queue() {
    let queue = Mutex::new(queue());
    let granted = Mutex::new(vec![Vec::new(); 8]);
    let work = |thread: u32| {
        let (client, info) = (ClientId(thread), ClientInfo::new(None, 1, None).unwrap());
        queue.lock().unwrap().register(client, info, ZERO).unwrap();
        let params = ReqParams::new(1, 0).unwrap();
        for token in 0..1000 {
            let mut queue = queue.lock().unwrap();
            queue
                .add_request(client, Token(token), params, ZERO)
                .unwrap();
        }
        for _ in 0..1000 {
            let mut queue = queue.lock().unwrap();
            let pulled = queue.pull_request(ZERO).unwrap();
            let Pulled::Returning { client, token, .. } = pulled else {
                panic!("{pulled:?}");
            };
            // Both locks are held, so the grants are noted in their order.
            granted.lock().unwrap()[client.0 as usize].push(token.0);
        }
    };
    thread::scope(|threads| {
        for thread in 0..8 {
            threads.spawn(move || work(thread));
        }
    });
    let granted = granted.into_inner().unwrap();
    assert!(granted
        .iter()
        .all(|tokens| tokens.iter().copied().eq(0..1000)));
    let mut queue = queue.into_inner().unwrap();
    assert_eq!(queue.pull_request(ZERO), Ok(Pulled::Nothing));
    assert_eq!((queue.client_count(), queue.request_count()), (8, 0));
}

/// A queue and a tracker go to a server's thread, and the tracker back.
#[test]
fn a_tracker_moves_through_a_channel() {
    let (to_server, at_server) = mpsc::channel::<(Queue, Tracker)>();
    let (to_client, at_client) = mpsc::channel::<Tracker>();
    let server = thread::spawn(move || {
        let (mut queue, mut tracker) = at_server.recv().unwrap();
        let params = tracker.get_req_params(ServerId(0), Cost::ONE).unwrap();
        queue
            .add_request(ClientId(1), Token(1), params, ZERO)
            .unwrap();
        let pulled = queue.pull_request(ZERO).unwrap();
        let Pulled::Returning { phase, cost, .. } = pulled else {
            panic!("{pulled:?}");
        };
        tracker.track_resp(ServerId(0), phase, cost).unwrap();
        to_client.send(tracker).unwrap();
    });
    let mut queue = queue();
    let info = ClientInfo::new(None, 1, None).unwrap();
    queue.register(ClientId(1), info, ZERO).unwrap();
    let tracker = Tracker::new(1, 10, Counting::All).unwrap();
    to_server.send((queue, tracker)).unwrap();
    let mut tracker = at_client.recv().unwrap();
    server.join().unwrap();
    let params = tracker.get_req_params(ServerId(0), Cost::ONE).unwrap();
    assert_eq!((params.delta(), params.rho()), (1, 0));
}
