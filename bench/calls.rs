//! The load `heap` of bench/calls.c through the crate dmclock: calls CLIENTS ROUNDS. Its checksum
//! is that of bench/calls.c.

use dmclock::*;
use std::env;
use std::error::Error;

fn add(queue: &mut Queue, client: ClientId, at: Moment) -> Result<(), Box<dyn Error>> {
    queue.add_request(client, Token(client.0), ReqParams::new(1, 1)?, at)?;
    Ok(())
}

/// Batches of pulls and adds, one moment each, of about half of the clients.
fn serve(queue: &mut Queue, clients: u32, rounds: u32) -> Result<u64, Box<dyn Error>> {
    let batch = rounds.min(clients / 2 + 1);
    let mut granted = Vec::with_capacity(batch as usize);
    let mut checksum = 0u64;
    for round in 0..rounds / batch {
        let at = Moment::new(round.into())?;
        granted.clear();
        for _ in 0..batch {
            if let Pulled::Returning { client, .. } = queue.pull_request(at)? {
                granted.push(client);
            }
        }
        for client in &granted {
            add(queue, *client, at)?;
            checksum = checksum.wrapping_mul(31).wrapping_add(client.0.into());
        }
    }
    Ok(checksum)
}

fn main() -> Result<(), Box<dyn Error>> {
    let words: Vec<u32> = env::args()
        .skip(1)
        .map(|word| word.parse())
        .collect::<Result<_, _>>()?;
    let [clients, rounds] = words[..] else {
        return Err("calls CLIENTS ROUNDS".into());
    };
    let config = QueueConfig::new(1_000_000, 1, 1, AtLimit::Wait)?;
    let mut queue = Queue::new(TagKind::Tick, config)?;
    let info = ClientInfo::new(Some(10), 1, None)?;
    for id in 0..clients {
        queue.register(ClientId(id), info, Moment::zero())?;
    }
    for id in 0..clients {
        add(&mut queue, ClientId(id), Moment::zero())?;
    }
    println!("{}", serve(&mut queue, clients, rounds)?);
    Ok(())
}
