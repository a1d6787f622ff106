"use strict";

// Where two runs of the same settings differ, one with shares in virtual time and one by the clock.

const DIFFERS = 0.05; // of what the servers have: less is not worth a picture
const FEW = 3; // grants of a column: fewer come only earlier or later

const grantedOf = ({ byReservation, byWeight }) => byReservation.map((rate, k) => rate + byWeight[k]);

// The stretches of columns in which the one list has this much more than the other, or this much less.
function* stretches(ones, others, least) {
  const side = k => (Math.abs(ones[k] - others[k]) < least ? 0 : Math.sign(ones[k] - others[k]));
  for (let from = 0, until; from < ones.length; from = until) {
    for (until = from + 1; until < ones.length && side(until) === side(from);) until++;
    if (side(from)) yield [from, until];
  }
}

const sum = rates => rates.reduce((sofar, rate) => sofar + rate, 0);

// The stretch, a second or longer, in which a client is granted the most more, or less, in the one run than in the other:
// { client, from, until, rate, other }, in seconds and units a second. Undefined if there is none.
function differenceOf({ capacity, servers, seconds, clients }, result, other) {
  const { width } = result;
  let found, most = 0;
  result.clients.forEach((its, client) => {
    const least = Math.max(DIFFERS * capacity * servers, FEW * clients[client].cost / width);
    const [ones, others] = [its, other.clients[client]].map(grantedOf);
    for (const [from, until] of stretches(ones, others, least)) {
      const [one, another] = [ones, others].map(rates => sum(rates.slice(from, until)));
      if ((until - from) * width < 1 || Math.abs(one - another) <= most) continue;
      most = Math.abs(one - another);
      const columns = until - from;
      found = { client, from: from * width, until: Math.min(seconds, until * width), rate: one / columns, other: another / columns };
    }
  });
  return found;
}

// What the difference is.
function differenceText({ shares, clients }, { client, from, until, rate, other }) {
  const [virtual, clock] = shares === "virtual" ? [rate, other] : [other, rate];
  const number = value => plain(Math.round(value));
  return `From second ${plain(from)} to ${plain(until)} ${clients[client].name} is granted ${number(virtual)} a second in virtual time, `
    + `and ${number(clock)} by the clock. In virtual time a client that comes, or comes back, starts where the others are; by the clock `
    + "those who had more than their share before get less until it has caught up.";
}
