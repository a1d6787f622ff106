"use strict";

// What a run's grants add up to: rates over time, in units of cost, waits, and whether each reservation was met.

const WIDTHS = [0.1, 0.2, 0.5, 1, 2, 5]; // of a column of the pictures, in seconds
const MOST_COLUMNS = 150;
const LONG = 2; // seconds without a grant
// Requests that cost more than 1 may be few. A column of a picture, and what a reservation is compared with, have room for this many of
// them, so that one more or less is 5%.
const MANY = 20;

// The width of a column.
function widthOf({ capacity, servers, seconds, clients }) {
  const greatest = Math.max(...clients.map(({ cost }) => cost));
  const least = greatest > 1 ? MANY * greatest / (capacity * servers) : 0;
  return WIDTHS.find(width => width >= least && seconds / width <= MOST_COLUMNS) ?? WIDTHS.at(-1);
}

// How many of these seconds have less than is due in each, by more than 5% and more than a request.
function shortSeconds(bySecond, due, cost) {
  const span = cost > 1 ? Math.ceil(MANY * cost / due) : 1;
  let short = 0;
  for (let from = 0; from < bySecond.length; from += span) {
    const granted = bySecond.slice(from, from + span);
    const wanted = due * granted.length;
    if (granted.reduce((sum, units) => sum + units, 0) < wanted - Math.max(cost, 0.05 * wanted)) short += granted.length;
  }
  return short;
}

class Results {
  // A listing has a line for each grant: tick, server, client, token, phase, beyond, wait.
  constructor(settings, rates, listing) {
    this.settings = settings;
    this.rates = rates;
    this.lines = listing ? [] : undefined;
    this.width = widthOf(settings);
    const columns = Math.ceil(settings.seconds / this.width);
    this.clients = settings.clients.map(() => ({
      byReservation: new Array(columns).fill(0), byWeight: new Array(columns).fill(0),
      bySecond: new Array(settings.seconds).fill(0), waits: [], reserved: 0, last: 0, turnedAway: 0, beyond: 0,
      waiting: 0, since: 0, othersThen: 0, starved: undefined,
    }));
    this.weighted = 0; // grants by weight, of all clients
  }

  sent(time, client) {
    const its = this.clients[client];
    if (its.waiting++ === 0) this.beginWait(its, time);
  }

  // From now on the client waits for a grant.
  beginWait(its, time) {
    its.since = time;
    its.othersThen = this.weightedOfOthers(its);
  }

  weightedOfOthers(its) {
    return this.weighted - (its.waits.length - its.reserved);
  }

  // A client's wait for a grant ends. It counts if it was far longer than the client's share explains, while others were granted by
  // weight.
  endWait(id, time) {
    const its = this.clients[id];
    const seconds = (time - its.since) / HZ;
    const others = this.weightedOfOthers(its) - its.othersThen;
    if (seconds >= this.longWait(id) && others > 0 && seconds > (its.starved?.seconds ?? 0)) its.starved = { seconds, others };
  }

  longWait(id) {
    const { capacity, servers, clients } = this.settings;
    const weights = this.rates.reduce((sum, { weight }) => sum + weight, 0);
    return Math.max(LONG, 3 * clients[id].cost * weights / (this.rates[id].weight * capacity * servers));
  }

  granted(time, server, grant, wait) {
    const to = this.clients[grant.client];
    this.endWait(grant.client, time);
    const column = Math.floor(time / (this.width * HZ));
    if (grant.phase === RESERVATION) {
      to.byReservation[column] += grant.cost;
      to.reserved++;
    } else {
      to.byWeight[column] += grant.cost;
      this.weighted++;
    }
    to.waits.push(wait);
    to.waiting--;
    this.beginWait(to, time);
    to.last = time;
    if (grant.beyond) to.beyond++;
    to.bySecond[Math.floor(time / HZ)] += grant.cost;
    this.lines?.push([time, server, grant.client, grant.token, grant.phase, Number(grant.beyond), wait].join(" "));
  }

  turnedAway(client) {
    this.clients[client].turnedAway++;
  }

  summary() {
    this.clients.forEach((its, id) => { if (its.waiting) this.endWait(id, this.settings.seconds * HZ); });
    return {
      width: this.width,
      granted: this.clients.reduce((sum, { waits }) => sum + waits.length, 0),
      units: this.clients.reduce((sum, { waits }, id) => sum + waits.length * this.settings.clients[id].cost, 0),
      clients: this.clients.map((_, id) => this.client(id)),
      lines: this.lines,
    };
  }

  client(id) {
    const { waits, reserved, last, turnedAway, beyond, byReservation, byWeight } = this.clients[id];
    const { from, until, cost } = this.settings.clients[id];
    const { seconds } = this.settings;
    const sorted = Float64Array.from(waits).sort();
    const busy = Math.max(Math.min(until, seconds), last / HZ) - from;
    const perSecond = units => units.map((sum, k) => sum / Math.min(this.width, seconds - k * this.width));
    return {
      granted: waits.length, turnedAway, beyond,
      rate: waits.length * cost / busy,
      share: waits.length && reserved / waits.length,
      meanWait: waits.length && waits.reduce((sum, wait) => sum + wait, 0) / waits.length / HZ,
      lateWait: waits.length && sorted[Math.ceil(0.99 * waits.length) - 1] / HZ,
      longestWait: waits.length && sorted[waits.length - 1] / HZ,
      byReservation: perSecond(byReservation), byWeight: perSecond(byWeight),
      met: this.met(id),
      starved: this.clients[id].starved,
    };
  }

  // Whether a client got its reservation, or its demand if that is less, in each second in which it asked for it, and why not.
  met(id) {
    const { reservation } = this.rates[id];
    if (!reservation) return { is: undefined, why: "none" };
    const { from, until, demand, cost } = this.settings.clients[id];
    const asked = this.clients[id].bySecond.slice(from, until);
    const due = Math.min(reservation, demand);
    const short = shortSeconds(asked, due, cost);
    if (!short) return { is: true, why: demand < reservation ? "yes, it asks for less" : "yes" };
    return { is: false, why: `no, in ${short} of ${asked.length} seconds${this.advice(id, due)}` };
  }

  // Why a reservation is not met, and what would help.
  advice(id, due) {
    const { capacity, servers, depth } = this.settings;
    const { from, until, window, cost } = this.settings.clients[id];
    const { waits, turnedAway } = this.clients[id];
    const text = number => number.toLocaleString("en");
    const most = this.mostReserved(from, until);
    if (most > capacity * servers)
      return `: ${text(most)} a second are reserved at once; lower them by ${text(most - capacity * servers)}`;
    if (!turnedAway || !waits.length) return "";
    // As many are under way as come while one is: at the rate that is due, and as long as one took.
    const took = waits.reduce((sum, wait) => sum + wait, 0) / waits.length / HZ + depth * cost / capacity;
    return `: its window of ${text(window)} is too small; try ${text(Math.max(window + 1, Math.ceil(due / cost * took)))}`;
  }

  // The most that clients who reserve it also ask for at one time of this span. It rises only where a client begins.
  mostReserved(from, until) {
    const { clients } = this.settings;
    const at = time => clients.reduce((sum, client, id) =>
      sum + (client.from <= time && time < client.until ? Math.min(this.rates[id].reservation, client.demand) : 0), 0);
    return Math.max(...clients.map(client => Math.max(client.from, from)).filter(time => time < until).map(at));
  }
}
