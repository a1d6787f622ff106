// The simulation of `dmclock sim` over the unverified queue of queue.rs, for the scenes of scene.rs. It writes the same report.
// Build: rustc -O -o unverified_sim bench/unverified_sim.rs
// Run: ./unverified_sim < examples/storage_cluster.toml
mod queue;
mod scene;

use queue::Queue;
use scene::{read_scene, Client, Scene, Tracker};
use std::collections::HashMap;
use std::fmt::Write;

struct Sender {
    client: Client,
    tracker: Tracker,
    sent: usize,
    // grants of each phase
    reservation: usize,
    priority: usize,
}

impl Sender {
    fn new(client: Client, servers: usize) -> Sender {
        Sender { client, tracker: Tracker::new(servers), sent: 0, reservation: 0, priority: 0 }
    }

    fn completed(&self) -> usize {
        self.reservation + self.priority
    }
}

#[derive(Clone, Copy, Default)]
struct Server {
    reservation: usize,
    priority: usize,
    left: usize,
}

fn main() {
    let Scene { servers, step, max_pulls, clients, .. } = read_scene();
    let mut queues: Vec<Queue> = (0..servers).map(|_| Queue::new()).collect();
    let mut rows = vec![Server::default(); servers];
    let (mut places, mut senders) = (HashMap::new(), Vec::new());
    for client in clients {
        for queue in queues.iter_mut() {
            queue.register(client.id, client.spacings);
        }
        places.insert(client.id, senders.len());
        senders.push(Sender::new(client, servers));
    }
    let mut end = 0;
    for round in 0..max_pulls {
        if senders.iter().all(|sender| sender.completed() == sender.client.plan.len()) {
            break;
        }
        end = round * step;
        for sender in senders.iter_mut() {
            let Client { id, plan, window, .. } = &sender.client;
            if sender.sent < plan.len() && sender.sent - sender.completed() < *window {
                let server = plan[sender.sent] as usize;
                let (delta, rho) = sender.tracker.stamp(server);
                queues[server].add(*id, sender.sent as u32, delta as i128, rho as i128, end as i128);
                sender.sent += 1;
                rows[server].left += 1;
            }
        }
        for (queue, row) in queues.iter_mut().zip(rows.iter_mut()) {
            if let Some((id, _, is_priority)) = queue.pull(end as i128) {
                let sender = &mut senders[places[&id]];
                sender.tracker.respond(is_priority);
                sender.reservation += !is_priority as usize;
                sender.priority += is_priority as usize;
                row.reservation += !is_priority as usize;
                row.priority += is_priority as usize;
                row.left -= 1;
            }
        }
    }
    let mut report = String::new();
    for sender in &senders {
        let (id, sent, completed) = (sender.client.id, sender.sent, sender.completed());
        let (reservation, priority) = (sender.reservation, sender.priority);
        writeln!(report, "client {id} sent {sent} completed {completed} reservation {reservation} priority {priority}").unwrap();
    }
    for (server, row) in rows.iter().enumerate() {
        let Server { reservation, priority, left } = row;
        writeln!(report, "server {server} reservation {reservation} priority {priority} left {left}").unwrap();
    }
    writeln!(report, "end {end}").unwrap();
    print!("{report}");
}
