//! A storage back end in small: one server, three clients, rates that an operator typed, and a
//! monotonic clock. Run it by `cargo run --example back_end`.

use dmclock::*;
use std::error::Error;
use std::io::{self, Write};
use std::thread;
use std::time::{Duration, Instant};

/// How many requests each client makes.
const REQUESTS: u32 = 4;

/// The one server.
const SERVER: ServerId = ServerId(0);

/// A client: the end that makes requests, all of one cost, and gets the responses.
struct Client {
    tracker: Tracker,
    cost: Cost,
    sent: u32,
    served: u32,
}

/// The server's queue, its clock, and its clients, whose ids are their indexes.
struct BackEnd {
    queue: Queue,
    start: Instant,
    clients: Vec<Client>,
}

impl BackEnd {
    /// The moment of the clock.
    fn now(&self) -> Result<Moment, Box<dyn Error>> {
        let nanos = u64::try_from(self.start.elapsed().as_nanos())?;
        Moment::from_nanos(FINE_HZ, nanos).ok_or("the clock is past the last moment".into())
    }

    /// Registers the next client, and makes its first request.
    fn join(&mut self, info: ClientInfo, cost: Cost) -> Result<(), Box<dyn Error>> {
        let id = ClientId(u32::try_from(self.clients.len())?);
        let now = self.now()?;
        self.queue.register(id, info, now)?;
        self.clients.push(Client {
            tracker: Tracker::new(1, 1_000_000, Counting::All)?,
            cost,
            sent: 0,
            served: 0,
        });
        self.submit(id)
    }

    /// Makes a client's next request: its two counts and its cost go with it to the server's queue.
    fn submit(&mut self, id: ClientId) -> Result<(), Box<dyn Error>> {
        let now = self.now()?;
        let client = &mut self.clients[id.0 as usize];
        let params = client.tracker.get_req_params(SERVER, client.cost)?;
        self.queue
            .add_request(id, Token(client.sent), params, now)?;
        client.sent += 1;
        Ok(())
    }

    /// Here a device would do the work. The response says the phase and the cost to the client's
    /// tracker.
    fn serve(&mut self, id: ClientId, phase: PhaseType, cost: Cost) -> Result<(), Box<dyn Error>> {
        let client = &mut self.clients[id.0 as usize];
        client.tracker.track_resp(SERVER, phase, cost)?;
        client.served += 1;
        if client.sent < REQUESTS {
            self.submit(id)?;
        }
        Ok(())
    }

    /// Serves what is granted, until nothing is queued.
    fn serve_all(&mut self) -> Result<(), Box<dyn Error>> {
        loop {
            let now = self.now()?;
            match self.queue.pull_request(now)? {
                Pulled::Returning {
                    client,
                    phase,
                    cost,
                    ..
                } => self.serve(client, phase, cost)?,
                Pulled::Future(due) => {
                    let nanos = nanos_until(FINE_HZ, due).ok_or("due past all clocks")?;
                    let due = Duration::from_nanos(nanos);
                    thread::sleep(due.saturating_sub(self.start.elapsed()));
                }
                Pulled::Nothing => return Ok(()),
            }
        }
    }
}

/// Runs it, and writes what was served.
pub fn run(out: &mut impl Write) -> Result<(), Box<dyn Error>> {
    let minute = 60 * u64::from(FINE_HZ);
    let config = QueueConfig::new(FINE_HZ.into(), minute, 10 * minute, AtLimit::Wait)?
        .with_shares(Shares::Virtual);
    // A request costs 1 for each block of 4 KiB, so rates are in blocks a second. They are rounded to
    // rates that are exact: a reservation up, a limit down.
    let reservation = config.rate_at_least(1234);
    let limit = config.rate_at_most(777);
    writeln!(
        out,
        "1234 reserved: {reservation:?}, at most 777: {limit:?}"
    )?;

    let mut back_end = BackEnd {
        queue: Queue::new(TagKind::Tick, config)?,
        start: Instant::now(),
        clients: Vec::new(),
    };
    back_end.join(ClientInfo::new(reservation, 1, None)?, Cost::ONE)?;
    back_end.join(ClientInfo::new(None, 2, None)?, Cost::new(4)?)?;
    back_end.join(ClientInfo::new(None, 2, limit)?, Cost::ONE)?;
    back_end.serve_all()?;
    for (id, client) in back_end.clients.iter().enumerate() {
        let blocks = client.tracker.status(SERVER)?.completions;
        writeln!(
            out,
            "client {id}: {} served, {blocks} blocks",
            client.served
        )?;
    }
    Ok(())
}

fn main() -> Result<(), Box<dyn Error>> {
    run(&mut io::stdout())
}
