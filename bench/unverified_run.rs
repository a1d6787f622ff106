// The run of `dmclock run` as one writes it by hand: threads, a Mutex and a Condvar round each server's queue, a Mutex round
// each tracker, and channels of the standard library, over the unverified queue of queue.rs, for the scenes of scene.rs. It
// writes the same report. A run returns the histories, so it records them too: each command with the worker and the reply,
// appended under the queue's lock. It replays them over new queues of the same kind. It keeps no lists
// of its trackers' calls and no ledgers, so the units in its report are always 0.
// Build: rustc -O -o unverified_run bench/unverified_run.rs
// Run: ./unverified_run < examples/storage_cluster.toml
mod queue;
mod scene;

use queue::{Queue, Tags};
use scene::{read_scene, Client, Scene, Tracker};
use std::collections::HashMap;
use std::fmt::Write;
use std::sync::atomic::{AtomicU64, Ordering};
use std::sync::mpsc::{sync_channel, Receiver, SyncSender};
use std::sync::{Condvar, Mutex};
use std::thread;

#[derive(Clone, Copy)]
enum Command {
    Register { client: u32, spacings: (Option<u64>, u64, u64) },
    Add { client: u32, token: u32, delta: u32, rho: u32, at: u64 },
    Pull { at: u64 },
}

#[derive(Clone, Copy, PartialEq)]
enum Reply {
    Registered,
    Tagged(Tags),
    Granted { client: u32, token: u32, is_priority: bool },
    Later(i128),
    Nothing,
}

struct Event {
    #[allow(dead_code)] // for those who get the histories
    worker: usize,
    command: Command,
    reply: Reply,
}

fn answer(queue: &mut Queue, command: Command) -> Reply {
    match command {
        Command::Register { client, spacings } => {
            queue.register(client, spacings);
            Reply::Registered
        }
        Command::Add { client, token, delta, rho, at } => {
            Reply::Tagged(queue.add(client, token, delta as i128, rho as i128, at as i128))
        }
        Command::Pull { at } => match (queue.pull(at as i128), queue.due()) {
            (Some((client, token, is_priority)), _) => Reply::Granted { client, token, is_priority },
            (None, Some(due)) => Reply::Later(due),
            (None, None) => Reply::Nothing,
        },
    }
}

/// The first event, counted from 0, whose reply at a new queue is another.
fn first_difference(history: &[Event]) -> Option<usize> {
    let mut queue = Queue::new();
    history.iter().position(|event| answer(&mut queue, event.command) != event.reply)
}

struct Book {
    queue: Queue,
    history: Vec<Event>,
    is_closed: bool,
}

impl Book {
    fn answer(&mut self, worker: usize, command: Command) -> Reply {
        let reply = answer(&mut self.queue, command);
        self.history.push(Event { worker, command, reply });
        reply
    }
}

struct Server {
    book: Mutex<Book>,
    // notified where a request is queued, and where the book is closed
    changed: Condvar,
}

impl Server {
    /// A queue at which the first worker registers every client.
    fn new(clients: &[Client]) -> Server {
        let mut book = Book { queue: Queue::new(), history: Vec::new(), is_closed: false };
        for client in clients {
            book.answer(0, Command::Register { client: client.id, spacings: client.spacings });
        }
        Server { book: Mutex::new(book), changed: Condvar::new() }
    }

    fn submit(&self, worker: usize, command: Command) {
        self.book.lock().unwrap().answer(worker, command);
        self.changed.notify_one();
    }

    fn pull_or_wait(&self, worker: usize, at: u64) -> Reply {
        let book = self.book.lock().unwrap();
        let mut book = self.changed.wait_while(book, |book| book.queue.is_empty() && !book.is_closed).unwrap();
        book.answer(worker, Command::Pull { at })
    }

    fn close(&self) {
        self.book.lock().unwrap().is_closed = true;
        self.changed.notify_all();
    }
}

/// A clock that goes on by a step at each reading.
struct StepClock {
    step: u64,
    readings: AtomicU64,
}

impl StepClock {
    fn now(&self) -> u64 {
        self.readings.fetch_add(1, Ordering::SeqCst).saturating_mul(self.step).min(1 << 62)
    }
}

enum Ring {
    Completed,
    Stop,
}

struct Cluster {
    servers: Vec<Server>,
    clients: Vec<Client>,
    trackers: Vec<Mutex<Tracker>>,
    places: HashMap<u32, usize>,
    clock: StepClock,
    max_pulls: u64,
}

/// The work of a client: it sends its requests, with at most its window outstanding. How many it sent.
fn run_client(cluster: &Cluster, place: usize, bell: &Receiver<Ring>) -> usize {
    let client = &cluster.clients[place];
    for (request, server) in client.plan.iter().enumerate() {
        if request >= client.window && !matches!(bell.recv(), Ok(Ring::Completed)) {
            return request;
        }
        let at = cluster.clock.now();
        let (delta, rho) = cluster.trackers[place].lock().unwrap().stamp(*server as usize);
        let command = Command::Add { client: client.id, token: request as u32, delta, rho, at };
        cluster.servers[*server as usize].submit(place, command);
    }
    client.plan.len()
}

/// What is done for a granted request, under no lock.
fn serve(_server: usize, _client: u32, _token: u32) -> bool {
    true
}

/// The work of a server's worker: it pulls, serves and responds until the closed queue has nothing left. The clients' failures.
fn run_worker(cluster: &Cluster, worker: usize, server: usize, ringers: &[SyncSender<Ring>]) -> Vec<u64> {
    let mut failures = vec![0; ringers.len()];
    for _ in 0..cluster.max_pulls {
        match cluster.servers[server].pull_or_wait(worker, cluster.clock.now()) {
            Reply::Granted { client, token, is_priority } => {
                let place = cluster.places[&client];
                failures[place] += !serve(server, client, token) as u64;
                cluster.trackers[place].lock().unwrap().respond(is_priority);
                let _ = ringers[place].try_send(Ring::Completed);
            }
            Reply::Nothing => return failures,
            _ => {}
        }
    }
    for ringer in ringers {
        let _ = ringer.try_send(Ring::Stop);
    }
    failures
}

/// Runs a thread for each client and each worker of a server. Of each client, how many it sent, and how many failed.
fn run(cluster: &Cluster, workers: usize) -> (Vec<usize>, Vec<u64>) {
    let (clients, servers) = (cluster.clients.len(), cluster.servers.len());
    let hang = |client: &Client| sync_channel(client.window + servers * workers);
    let (ringers, bells): (Vec<_>, Vec<_>) = cluster.clients.iter().map(hang).unzip();
    thread::scope(|scope| {
        let spawn_worker = |worker| {
            let ringers = ringers.clone();
            scope.spawn(move || run_worker(cluster, clients + worker, worker / workers, &ringers))
        };
        let pulling: Vec<_> = (0..servers * workers).map(spawn_worker).collect();
        drop(ringers);
        let spawn_client = |(place, bell)| scope.spawn(move || run_client(cluster, place, &bell));
        let sending: Vec<_> = bells.into_iter().enumerate().map(spawn_client).collect();
        let sent = sending.into_iter().map(|thread| thread.join().unwrap()).collect();
        for server in &cluster.servers {
            server.close();
        }
        let mut failed = vec![0; clients];
        for thread in pulling {
            for (sum, failures) in failed.iter_mut().zip(thread.join().unwrap()) {
                *sum += failures;
            }
        }
        (sent, failed)
    })
}

fn report(cluster: Cluster, sent: &[usize], failed: &[u64]) -> String {
    let mut report = String::new();
    let mut completed = 0;
    for (place, client) in cluster.clients.iter().enumerate() {
        let done = cluster.trackers[place].lock().unwrap().completions.0;
        let (id, sent, failed) = (client.id, sent[place], failed[place]);
        writeln!(report, "client {id} sent {sent} completed {done} failed {failed} units 0").unwrap();
        completed += done;
    }
    for (server, locked) in cluster.servers.into_iter().enumerate() {
        let book = locked.book.into_inner().unwrap();
        let left = book.queue.len();
        match first_difference(&book.history) {
            None => writeln!(report, "server {server} left {left} units 0 replays").unwrap(),
            Some(index) => writeln!(report, "server {server} left {left} units 0 differs {index}").unwrap(),
        }
    }
    writeln!(report, "total sent {} completed {completed}", sent.iter().sum::<usize>()).unwrap();
    report
}

fn main() {
    let Scene { servers, workers, step, max_pulls, clients } = read_scene();
    let cluster = Cluster {
        servers: (0..servers).map(|_| Server::new(&clients)).collect(),
        trackers: clients.iter().map(|_| Mutex::new(Tracker::new(servers))).collect(),
        places: clients.iter().enumerate().map(|(place, client)| (client.id, place)).collect(),
        clock: StepClock { step, readings: AtomicU64::new(0) },
        clients,
        max_pulls,
    };
    let (sent, failed) = run(&cluster, workers);
    print!("{}", report(cluster, &sent, &failed));
}
