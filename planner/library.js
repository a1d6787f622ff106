"use strict";

// The calls of c/dmclock.h, in one instance of the module. A pointer or a number of 64 bits goes in and out as a BigInt.

const HZ = 735134400; // DMC_FINE_HZ
const TICK = 0; // DMC_TICK
const AT_LIMIT = { wait: 0, allow: 1 };
const SHARES = { clock: 0, virtual: 1 };
const COUNTING = { all: 0, others: 1 };
const RESERVATION = 0; // DMC_RESERVATION
const GRANTED = 0; // DMC_GRANTED
const FUTURE = 1; // DMC_FUTURE
const TEXTS = new Map([
  [1, "out of memory"], [2, "none held"], [3, "held already"], [10, "bad moment"], [11, "bad params"], [12, "bad rate"],
  [13, "bad config"], [14, "bad phase"], [15, "limit"], [16, "bad cost"], [20, "known"], [21, "unknown"],
  [22, "inexact reservation"], [23, "inexact weight"], [24, "inexact limit"], [25, "clients"], [26, "queue full"], [27, "range"],
  [28, "busy"], [29, "over limit"], [30, "no server"], [31, "tracker full"],
]);
// Of the structs: their bytes, and where their fields are, in words of 32 bits.
const HANDLE = { bytes: 16 };
const CONFIG = { bytes: 48, hz: 0, idleAge: 2, eraseAge: 4, tagKind: 8, atLimit: 9, shares: 10 };
const STAMP = { bytes: 12, delta: 0, rho: 1, cost: 2 };
const TAGS = { bytes: 80 };
const PULLED = { bytes: 40, kind: 0, client: 1, token: 2, phase: 3, cost: 4, beyond: 5, dueLow: 6, dueHigh: 8 };

// A call's code that is not DMC_OK.
class Refused extends Error {}

class Library {
  constructor(module) {
    this.calls = new WebAssembly.Instance(module).exports;
    this.bytes = new Uint8Array();
    this.number = this.room(4);
    this.other = this.room(4);
    this.config = this.room(CONFIG.bytes);
    this.stamped = this.room(STAMP.bytes);
    this.tags = this.room(TAGS.bytes);
    this.pulled = this.room(PULLED.bytes);
  }

  // New bytes of 0, as DMC_QUEUE_NONE and DMC_TRACKER_NONE are.
  room(bytes) {
    const at = this.calls.planner_room(BigInt(bytes));
    this.must(at === 0n ? 1 : 0);
    this.memory();
    this.bytes.fill(0, Number(at), Number(at) + bytes);
    return at;
  }

  must(code) {
    if (code !== 0) throw new Refused(TEXTS.get(code) ?? `code ${code}`);
  }

  // Views of the memory, made again after it has grown.
  memory() {
    const { buffer } = this.calls.memory;
    if (this.bytes.buffer !== buffer) {
      this.bytes = new Uint8Array(buffer);
      this.words = new Uint32Array(buffer);
      this.longs = new BigUint64Array(buffer);
    }
  }

  // The word at this many words from a pointer.
  word(at, words = 0) {
    this.memory();
    return this.words[Number(at) / 4 + words];
  }

  rateAtMost(rate) {
    this.must(this.calls.dmc_rate_at_most(BigInt(HZ), rate, this.number));
    return this.word(this.number);
  }

  rateAtLeast(rate) {
    this.must(this.calls.dmc_rate_at_least(BigInt(HZ), rate, this.number));
    return this.word(this.number);
  }

  newQueue(idleAge, eraseAge, atLimit, shares) {
    const queue = this.room(HANDLE.bytes);
    const at = Number(this.config) / 4;
    for (const [field, number] of [[CONFIG.hz, HZ], [CONFIG.idleAge, idleAge], [CONFIG.eraseAge, eraseAge]])
      this.longs[(at + field) / 2] = BigInt(number);
    this.words[at + CONFIG.tagKind] = TICK;
    this.words[at + CONFIG.atLimit] = AT_LIMIT[atLimit];
    this.words[at + CONFIG.shares] = SHARES[shares];
    this.must(this.calls.dmc_queue_new(queue, this.config));
    return queue;
  }

  register(queue, client, rates) {
    this.must(this.calls.dmc_queue_register(queue, client, rates.reservation, rates.weight, rates.limit, 0n));
  }

  add(queue, client, token, stamp, time) {
    this.must(this.calls.dmc_queue_add(queue, client, token, stamp.delta, stamp.rho, stamp.cost, BigInt(time), this.tags));
  }

  // What is granted, or the time at which a request is due: infinite where none is, or past all times of the page.
  pull(queue, time) {
    this.must(this.calls.dmc_queue_pull(queue, BigInt(time), this.pulled));
    const read = field => this.word(this.pulled, field);
    const kind = read(PULLED.kind);
    if (kind === GRANTED) {
      return { client: read(PULLED.client), token: read(PULLED.token), phase: read(PULLED.phase), cost: read(PULLED.cost),
        beyond: (read(PULLED.beyond) & 1) === 1 };
    }
    const at = Number(this.pulled) / 8;
    const due = this.longs[at + PULLED.dueLow / 2] + (this.longs[at + PULLED.dueHigh / 2] << 64n);
    return { due: kind === FUTURE && due <= Number.MAX_SAFE_INTEGER ? Number(due) : Infinity };
  }

  clean(queue, time) {
    this.must(this.calls.dmc_queue_clean(queue, BigInt(time), this.number, this.other));
  }

  newTracker(servers, counting) {
    const tracker = this.room(HANDLE.bytes);
    this.must(this.calls.dmc_tracker_new(tracker, servers, 1n << 62n, COUNTING[counting]));
    return tracker;
  }

  stamp(tracker, server, cost) {
    this.must(this.calls.dmc_tracker_stamp(tracker, server, cost, this.stamped));
    const read = field => this.word(this.stamped, field);
    return { delta: read(STAMP.delta), rho: read(STAMP.rho), cost: read(STAMP.cost) };
  }

  respond(tracker, server, phase, cost) {
    this.must(this.calls.dmc_tracker_respond(tracker, server, phase, cost));
  }
}
