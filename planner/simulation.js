"use strict";

// Servers and clients by the rule of docs/PLANNER.md. Times are ticks. The library decides each grant; twin.c has the same in C.

const NEVER = Infinity;
const ERASE_AGE = 1000000 * HZ;

// What the library makes of the rates that were typed: reservations rounded up, limits and weights down, to divisors of HZ.
function exactRates(library, client) {
  return {
    reservation: client.reservation && library.rateAtLeast(client.reservation),
    weight: library.rateAtMost(client.weight),
    limit: client.limit && library.rateAtMost(client.limit),
  };
}

// Where in its spacing a client's first request comes, in parts of PHASES: no two of the first clients come together.
const PHASES = 65536;
const phaseOf = id => (id + 1) * 40503 % PHASES;

class Client {
  constructor(library, settings, client, id) {
    this.tracker = library.newTracker(settings.servers, settings.counting);
    this.window = client.window;
    this.cost = client.cost;
    this.spacing = Math.floor(client.cost * HZ / client.demand);
    this.until = Math.min(client.until, settings.seconds) * HZ;
    // When it wants to send. The product may be past 2^53, which numbers do not have exactly.
    this.next = client.from * HZ + Number(BigInt(this.spacing) * BigInt(phaseOf(id)) / BigInt(PHASES));
    this.underWay = 0;
    this.sent = []; // when, by token
    this.skipIfOver();
  }

  skipIfOver() {
    if (this.next >= this.until) this.next = NEVER;
  }
}

class Server {
  constructor(library, settings, rates) {
    this.queue = library.newQueue(settings.idle * HZ, ERASE_AGE, settings.atLimit, settings.shares);
    rates.forEach((its, id) => library.register(this.queue, id, its));
    this.capacity = settings.capacity;
    this.depth = settings.depth;
    this.grants = []; // the requests that it serves, in the order in which they are done
    this.pulls = NEVER; // when it pulls
  }

  hasRoom() {
    return this.grants.length < this.depth;
  }

  // Serves a grant from now on. Of those that are done at the same time the first one is done first.
  serve(grant, time) {
    const done = time + Math.floor(this.depth * grant.cost * HZ / this.capacity);
    let place = this.grants.length;
    while (place && this.grants[place - 1].done > done) place--;
    this.grants.splice(place, 0, { ...grant, done });
  }

  // When something happens: a request is done, or it pulls.
  get next() {
    return Math.min(this.grants.length ? this.grants[0].done : NEVER, this.pulls);
  }
}

// Runs the settings with these rates. It calls watch.sent(time, client), watch.granted(time, server, grant, wait),
// watch.turnedAway(client), and watch.second(time) once a second.
function simulate(library, settings, rates, watch) {
  const clients = settings.clients.map((client, id) => new Client(library, settings, client, id));
  const servers = Array.from({ length: settings.servers }, () => new Server(library, settings, rates));
  let second = HZ;

  const complete = (server, id, time) => {
    const { client, phase, cost } = server.grants.shift();
    library.respond(clients[client].tracker, id, phase, cost);
    clients[client].underWay--;
    server.pulls = time;
  };
  const send = (client, id, time) => {
    client.next = time + client.spacing;
    client.skipIfOver();
    if (client.underWay === client.window) return watch.turnedAway(id);
    const token = client.sent.push(time) - 1;
    const to = token % servers.length;
    const server = servers[to];
    library.add(server.queue, id, token, library.stamp(client.tracker, to, client.cost), time);
    client.underWay++;
    if (server.hasRoom()) server.pulls = time;
    watch.sent(time, id);
  };
  const pull = (server, id, time) => {
    const pulled = library.pull(server.queue, time);
    if (pulled.due !== undefined) {
      server.pulls = pulled.due;
      return;
    }
    server.serve(pulled, time);
    if (!server.hasRoom()) server.pulls = NEVER;
    watch.granted(time, id, pulled, time - clients[pulled.client].sent[pulled.token]);
  };

  for (;;) {
    let time = second;
    for (const { next } of clients) if (next < time) time = next;
    for (const { next } of servers) if (next < time) time = next;
    if (time >= settings.seconds * HZ) return;
    servers.forEach((server, id) => { while (server.grants.length && server.grants[0].done === time) complete(server, id, time); });
    if (time === second) {
      for (const { queue } of servers) library.clean(queue, time);
      watch.second(time);
      second += HZ;
    }
    clients.forEach((client, id) => { if (client.next === time) send(client, id, time); });
    servers.forEach((server, id) => { while (server.hasRoom() && server.pulls === time) pull(server, id, time); });
  }
}
