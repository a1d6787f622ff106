// An unverified indexed queue in plain Rust: tags of 128 bits, no test of ranges, no limit on clients or requests, at limit Wait.
#![allow(dead_code)] // not every program calls all of it

use std::collections::{HashMap, VecDeque};

const VACANT: usize = usize::MAX;

/// A binary heap of ranks, with the index of each key.
struct Heap<R> {
    heap: Vec<(R, usize)>,
    places: Vec<usize>,
}

impl<R: Copy + Ord> Heap<R> {
    fn new() -> Heap<R> {
        Heap { heap: Vec::new(), places: Vec::new() }
    }

    fn put(&mut self, at: usize, entry: (R, usize)) {
        self.heap[at] = entry;
        self.places[entry.1] = at;
    }

    fn settle(&mut self, mut at: usize, entry: (R, usize)) {
        while at > 0 && entry.0 < self.heap[(at - 1) / 2].0 {
            self.put(at, self.heap[(at - 1) / 2]);
            at = (at - 1) / 2;
        }
        loop {
            let left = 2 * at + 1;
            if left >= self.heap.len() {
                break;
            }
            let right = left + 1;
            let child = if right < self.heap.len() && self.heap[right].0 < self.heap[left].0 { right } else { left };
            if self.heap[child].0 >= entry.0 {
                break;
            }
            self.put(at, self.heap[child]);
            at = child;
        }
        self.put(at, entry);
    }

    fn insert(&mut self, key: usize, rank: R) {
        self.heap.push((rank, key));
        self.settle(self.heap.len() - 1, (rank, key));
    }

    fn change(&mut self, key: usize, rank: R) {
        self.settle(self.places[key], (rank, key));
    }

    fn remove(&mut self, key: usize) {
        let at = self.places[key];
        let last = self.heap.pop().unwrap();
        self.places[key] = VACANT;
        if at < self.heap.len() {
            self.settle(at, last);
        }
    }

    fn least(&self) -> Option<(R, usize)> {
        self.heap.first().copied()
    }
}

#[derive(Clone, Copy, PartialEq)]
pub struct Tags {
    r: Option<i128>,
    l: i128,
    p: i128,
}

struct Client {
    id: u32,
    spacing: (Option<i128>, i128, i128),
    previous: (i128, i128, i128),
    idle: bool,
    requests: VecDeque<(u32, Tags)>,
}

pub struct Queue {
    ids: HashMap<u32, usize>,
    clients: Vec<Client>,
    // None is the greatest R.
    early: Heap<(bool, i128, u32)>,
    limits: Heap<(bool, i128, u32)>,
    shares: Heap<(bool, i128, u32)>,
    least: Option<i128>,
    last: i128,
}

impl Queue {
    pub fn new() -> Queue {
        Queue {
            ids: HashMap::new(),
            clients: Vec::new(),
            early: Heap::new(),
            limits: Heap::new(),
            shares: Heap::new(),
            least: None,
            last: 0,
        }
    }

    pub fn register(&mut self, id: u32, spacing: (Option<u64>, u64, u64)) {
        let spacing = (spacing.0.map(i128::from), spacing.1.into(), spacing.2.into());
        self.ids.insert(id, self.clients.len());
        self.clients.push(Client { id, spacing, previous: (0, 0, 0), idle: true, requests: VecDeque::new() });
        self.early.places.push(VACANT);
        self.limits.places.push(VACANT);
        self.shares.places.push(VACANT);
    }

    fn head(&mut self, key: usize, is_new: bool) {
        let client = &self.clients[key];
        let tags = client.requests[0].1;
        let early = (tags.r.is_none(), tags.r.unwrap_or(0), client.id);
        let limit = (false, tags.l, client.id);
        let share = (true, tags.p, client.id);
        if is_new {
            self.early.insert(key, early);
            self.limits.insert(key, limit);
            self.shares.insert(key, share);
        } else {
            self.early.change(key, early);
            self.limits.change(key, limit);
            self.shares.change(key, share);
        }
    }

    fn shift(&mut self, t: i128) {
        if self.shares.heap.is_empty() {
            return;
        }
        let least = match self.least {
            Some(least) => least,
            None => self.shares.heap.iter().map(|entry| entry.0 .1).min().unwrap(),
        };
        self.least = Some(least);
        let shift = least - t;
        if shift == 0 {
            return;
        }
        for client in self.clients.iter_mut().filter(|client| !client.idle) {
            client.previous.2 -= shift;
            for request in client.requests.iter_mut() {
                request.1.p -= shift;
            }
        }
        for entry in self.shares.heap.iter_mut() {
            entry.0 .1 -= shift;
        }
        self.least = Some(t);
    }

    /// The tags of the request.
    pub fn add(&mut self, id: u32, token: u32, delta: i128, rho: i128, at: i128) -> Tags {
        let t = at.max(self.last);
        let key = self.ids[&id];
        if self.clients[key].idle {
            self.shift(t);
        }
        let client = &mut self.clients[key];
        let r = client.spacing.0.map(|spacing| (client.previous.0 + rho * spacing).max(t));
        let l = (client.previous.1 + delta * client.spacing.1).max(t);
        let p = (client.previous.2 + delta * client.spacing.2).max(t);
        client.previous = (r.unwrap_or(client.previous.0), l, p);
        client.idle = false;
        let is_first = client.requests.is_empty();
        let tags = Tags { r, l, p };
        client.requests.push_back((token, tags));
        if is_first {
            if self.shares.heap.is_empty() {
                self.least = Some(p);
            } else {
                self.least = self.least.map(|least| least.min(p));
            }
            self.head(key, true);
        }
        self.last = t;
        tags
    }

    /// The client and token of the request that is granted, and whether by its weight.
    pub fn pull(&mut self, at: i128) -> Option<(u32, u32, bool)> {
        let t = at.max(self.last);
        self.last = t;
        let (early, key) = self.early.least()?;
        if !early.0 && early.1 <= t {
            return Some(self.grant(key, false));
        }
        while let Some((limit, key)) = self.limits.least() {
            if limit.0 || limit.1 > t {
                break;
            }
            let share = self.shares.heap[self.shares.places[key]].0;
            self.limits.change(key, (true, limit.1, limit.2));
            self.shares.change(key, (false, share.1, share.2));
        }
        let (share, key) = self.shares.least()?;
        if share.0 {
            return None;
        }
        Some(self.grant(key, true))
    }

    /// The least moment at which a request is granted, where the last pull granted none.
    pub fn due(&self) -> Option<i128> {
        let (early, limit) = (self.early.least()?.0, self.limits.least()?.0);
        Some(if early.0 { limit.1 } else { early.1.min(limit.1) })
    }

    pub fn is_empty(&self) -> bool {
        self.shares.heap.is_empty()
    }

    /// How many requests are queued.
    pub fn len(&self) -> usize {
        self.clients.iter().map(|client| client.requests.len()).sum()
    }

    fn grant(&mut self, key: usize, reduces: bool) -> (u32, u32, bool) {
        let client = &mut self.clients[key];
        let (token, tags) = client.requests.pop_front().unwrap();
        if let (true, Some(spacing)) = (reduces, client.spacing.0) {
            client.previous.0 -= spacing;
            for request in client.requests.iter_mut() {
                request.1.r = request.1.r.map(|r| r - spacing);
            }
        }
        if self.least == Some(tags.p) {
            self.least = None;
        }
        let answer = (client.id, token, reduces);
        if client.requests.is_empty() {
            self.early.remove(key);
            self.limits.remove(key);
            self.shares.remove(key);
        } else {
            self.head(key, false);
        }
        answer
    }
}
