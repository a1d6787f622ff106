// What unverified_sim.rs and unverified_run.rs share: the reader of scenes in the layout of examples/storage_cluster.toml (tick
// tags, counting in the form All, at limit Wait), the clients' plans and their trackers.
#![allow(dead_code)] // neither program uses all of it

use std::collections::HashMap;
use std::io::Read;

/// The two counts of a tracker, all and in the constraint phase.
type Counts = (u32, u32);

pub struct Tracker {
    pub completions: Counts,
    // the completions at the last stamp to each server
    stamped: Vec<Counts>,
}

impl Tracker {
    pub fn new(servers: usize) -> Tracker {
        Tracker { completions: (0, 0), stamped: vec![(0, 0); servers] }
    }

    pub fn stamp(&mut self, server: usize) -> Counts {
        let last = self.stamped[server];
        self.stamped[server] = self.completions;
        (self.completions.0 - last.0, self.completions.1 - last.1)
    }

    pub fn respond(&mut self, is_priority: bool) {
        self.completions.0 += 1;
        self.completions.1 += !is_priority as u32;
    }
}

/// PCG32: the words of a client's plan.
struct Words {
    state: u64,
    increment: u64,
}

impl Words {
    fn new(seed: u64, stream: u64) -> Words {
        let increment = stream << 1 | 1;
        let mut words = Words { state: seed.wrapping_add(increment), increment };
        words.advance();
        words
    }

    fn advance(&mut self) {
        self.state = self.state.wrapping_mul(6364136223846793005).wrapping_add(self.increment);
    }

    fn next(&mut self) -> u32 {
        let state = self.state;
        self.advance();
        ((((state >> 18) ^ state) >> 27) as u32).rotate_right((state >> 59) as u32)
    }
}

pub struct Client {
    pub id: u32,
    /// Of its reservation, limit and weight.
    pub spacings: (Option<u64>, u64, u64),
    /// The server of each of its requests.
    pub plan: Vec<u32>,
    pub window: usize,
}

pub struct Scene {
    pub servers: usize,
    /// Of each server.
    pub workers: usize,
    pub step: u64,
    pub max_pulls: u64,
    pub clients: Vec<Client>,
}

/// A table's whole numbers by their keys.
type Table<'a> = HashMap<&'a str, u64>;

/// The scene's own table, and those of its clients.
fn tables(text: &str) -> (Table<'_>, Vec<Table<'_>>) {
    let (mut scene, mut clients) = (Table::new(), Vec::new());
    for line in text.lines() {
        if line == "[[client]]" {
            clients.push(Table::new());
        } else if let Some((key, value)) = line.split_once(" = ") {
            if let Ok(number) = value.parse() {
                clients.last_mut().unwrap_or(&mut scene).insert(key, number);
            }
        }
    }
    (scene, clients)
}

fn client(scene: &Table, table: &Table) -> Client {
    let spacing = |rate: &u64| scene["hz"] / rate;
    let mut words = Words::new(scene["seed"], table["id"]);
    Client {
        id: table["id"] as u32,
        spacings: (table.get("reservation").map(spacing), table.get("limit").map_or(0, spacing), spacing(&table["weight"])),
        plan: (0..table["requests"]).map(|_| words.next() % scene["servers"] as u32).collect(),
        window: table["window"] as usize,
    }
}

/// The scene on standard input.
pub fn read_scene() -> Scene {
    let mut text = String::new();
    std::io::stdin().read_to_string(&mut text).unwrap();
    let (scene, tables) = tables(&text);
    Scene {
        servers: scene["servers"] as usize,
        workers: scene["workers"] as usize,
        step: scene["step"],
        max_pulls: scene["max_pulls"],
        clients: tables.iter().map(|table| client(&scene, table)).collect(),
    }
}
