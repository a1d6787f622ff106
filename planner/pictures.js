"use strict";

// Draws what a run returned: all clients stacked, each client, and the table.

const COLORS = 8;
const SVG = ["svg", "path", "text", "clipPath", "rect"];
const MARGIN = { left: 46, right: 10, top: 8, bottom: 22 };
const TOPS = [1, 1.2, 1.5, 2, 2.5, 3, 4, 5, 6, 8, 10];
const STEPS = [1, 2, 5, 10, 20, 30, 60, 120];
const SHARES_TITLES = { virtual: "In virtual time", clock: "By the clock" };

const byId = id => document.getElementById(id);

function make(name, attributes, ...inside) {
  const space = SVG.includes(name) ? "http://www.w3.org/2000/svg" : "http://www.w3.org/1999/xhtml";
  const made = document.createElementNS(space, name);
  for (const [key, value] of Object.entries(attributes)) made.setAttribute(key, value);
  made.append(...inside);
  return made;
}

const colorOf = id => `--own: var(--c${id % COLORS})`;
const chip = id => make("span", { class: "chip", style: colorOf(id), "aria-hidden": "true" });
const whole = number => plain(Math.round(number));
const percent = part => `${Math.round(100 * part)}%`;

function duration(seconds) {
  const millis = 1000 * seconds;
  if (millis >= 9999.5) return `${seconds.toFixed(1)} s`;
  return `${millis >= 9.95 ? whole(millis) : millis.toFixed(1)} ms`;
}

function roundUp(value) {
  const power = 10 ** Math.floor(Math.log10(value));
  return TOPS.map(top => top * power).find(top => top >= value - 1e-9);
}

// An empty picture, and where a second and a rate are in it.
function axes(width, height, top, seconds) {
  const right = width - MARGIN.right;
  const bottom = height - MARGIN.bottom;
  const x = second => MARGIN.left + (right - MARGIN.left) * second / seconds;
  const y = rate => bottom - (bottom - MARGIN.top) * rate / top;
  const svg = make("svg", { viewBox: `0 0 ${width} ${height}`, height, "aria-hidden": "true" });
  for (const rate of [0, top / 2, top]) {
    svg.append(make("path", { class: "grid", d: `M${MARGIN.left} ${y(rate)}H${right}` }));
    svg.append(make("text", { x: MARGIN.left - 8, y: y(rate) + 4, "text-anchor": "end" }, plain(rate)));
  }
  const step = STEPS.find(each => (right - MARGIN.left) * each / seconds >= 44) ?? STEPS.at(-1);
  for (let second = 0; second <= seconds; second += step)
    svg.append(make("text", { x: x(second), y: height - 5, "text-anchor": "middle" }, second ? String(second) : "0 s"));
  return { svg, x, y };
}

// The area between two lists of rates, a step a column.
function area({ x, y }, lows, highs, width, seconds) {
  const at = column => x(Math.min(seconds, column * width)).toFixed(1);
  const there = highs.map((rate, k) => `L${at(k)} ${y(rate).toFixed(1)}H${at(k + 1)}`).join("");
  const back = lows.map((rate, k) => `L${at(k + 1)} ${y(rate).toFixed(1)}H${at(k)}`).reverse().join("");
  return `M${there.slice(1)}${back}Z`;
}

const sums = (ones, others) => ones.map((one, k) => one + others[k]);

// The rates of the first client, of the first two, and so on, from none to all.
function levelsOf({ clients }) {
  const levels = [clients[0].byWeight.map(() => 0)];
  for (const its of clients) levels.push(sums(levels.at(-1), grantedOf(its)));
  return levels;
}

const topOf = ({ capacity, servers }, ...results) =>
  roundUp(Math.max(capacity * servers * 1.02, ...results.flatMap(result => levelsOf(result).at(-1))));

// All clients of a result, stacked, below what the servers have.
function stacked({ capacity, servers, seconds }, result, width, top) {
  const at = axes(width, Math.max(180, Math.min(280, width * 0.5)), top, seconds);
  const levels = levelsOf(result);
  result.clients.forEach((_, id) =>
    at.svg.append(make("path", { class: "stack", style: colorOf(id), d: area(at, levels[id], levels[id + 1], result.width, seconds) })));
  at.svg.append(make("path", { class: "line whole", d: `M${at.x(0)} ${at.y(capacity * servers)}H${at.x(seconds)}` }));
  return at.svg;
}

const keyOf = clients => make("ul", { class: "key", "aria-hidden": "true" },
  ...clients.map(({ name }, id) => make("li", {}, chip(id), ` ${name}`)),
  make("li", {}, make("i", { class: "line reservation" }), "what the servers have"));

function drawAll({ settings, result }) {
  const { capacity, servers, seconds, clients } = settings;
  const most = capacity * servers;
  const counted = { requests: "Requests", units: "Units" }[countedOf(settings)];
  const figure = byId("all");
  figure.replaceChildren(keyOf(clients));
  const svg = stacked(settings, result, figure.clientWidth - 32, topOf(settings, result));
  const used = result.units / (most * seconds);
  const caption = `${counted} a second. Of the ${plain(most)} a second that the servers have, ${percent(used)} are granted.`;
  figure.append(svg, make("figcaption", {}, caption));
}

// Both kinds of shares beside each other, if the results differ.
function drawCompared({ settings, result, other }) {
  const found = other && differenceOf(settings, result, other);
  byId("compared").hidden = !found;
  if (!found) return;
  const figure = byId("both");
  const pair = make("div", { class: "pair" }, make("div", {}), make("div", {}));
  figure.replaceChildren(keyOf(settings.clients), pair, make("figcaption", {}, differenceText(settings, found)));
  const width = pair.firstChild.clientWidth;
  const top = topOf(settings, result, other);
  const plot = shares => make("div", {}, make("b", {}, SHARES_TITLES[shares]),
    stacked(settings, shares === settings.shares ? result : other, width, top));
  pair.replaceChildren(...SHARES_WORDS.map(plot));
}

// A rate of units in requests of a cost.
const requestsOf = (rate, cost) => `${plain(rate / cost)} requests`;

function sentenceOf({ reservation, weight, limit, demand, cost }, rates, its) {
  const said = [];
  if (reservation) {
    said.push(`${plain(its.rate * its.share)} for its reservation of ${plain(rates.reservation)}`);
    said.push(`${plain(its.rate * (1 - its.share))} by weight`);
  } else said.push(`all by its weight of ${plain(weight)}`);
  if (limit) said.push(`limit ${plain(rates.limit)}`);
  if (its.beyond) said.push(`${plain(its.beyond)} grants beyond it`);
  const requests = cost > 1 ? `, in ${requestsOf(its.rate, cost)} of ${plain(cost)} each` : "";
  return `${plain(its.rate)} a second of the ${plain(demand)} it asks for${requests}: ${said.join(", ")}.`;
}

function drawClient({ settings, rates, result }, id, width, top) {
  const { seconds } = settings;
  const { name, from, until, demand } = settings.clients[id];
  const { reservation, limit } = rates[id];
  const its = result.clients[id];
  const both = grantedOf(its);
  const at = axes(width, 150, top, seconds);
  at.svg.append(make("clipPath", { id: `inside${id}` }, make("rect", { x: 0, y: at.y(top) - 1, width, height: at.y(0) - at.y(top) + 1 })));
  const draw = (kind, d) => at.svg.append(make("path", { class: kind, d, style: colorOf(id), "clip-path": `url(#inside${id})` }));
  draw("by-reservation", area(at, both.map(() => 0), its.byReservation, result.width, seconds));
  draw("by-weight", area(at, its.byReservation, both, result.width, seconds));
  draw("line demand", `M${at.x(from)} ${at.y(0)}V${at.y(demand)}H${at.x(Math.min(until, seconds))}V${at.y(0)}`);
  if (limit) draw("line limit", `M${at.x(0)} ${at.y(limit)}H${at.x(seconds)}`);
  if (reservation) draw("line reservation", `M${at.x(0)} ${at.y(reservation)}H${at.x(seconds)}`);
  const title = make("b", { id: `client${id}` }, chip(id), ` ${name}`);
  return make("figure", { class: "card", "aria-labelledby": `client${id}` },
    make("figcaption", {}, title, sentenceOf(settings.clients[id], rates[id], its)), at.svg);
}

function drawEach(run) {
  const { settings, rates, result } = run;
  const most = settings.capacity * settings.servers;
  const seen = result.clients.flatMap(grantedOf);
  const lines = rates.flatMap(({ reservation, limit }) => [reservation, limit]).filter(rate => rate <= most);
  const top = roundUp(Math.max(1, ...seen, ...lines) * 1.04);
  const grid = byId("each");
  grid.replaceChildren(make("figure", { class: "card" }));
  const width = grid.firstChild.clientWidth - 32;
  grid.replaceChildren(...settings.clients.map((_, id) => drawClient(run, id, width, top)));
}

function drawTable({ settings, result }) {
  byId("table").replaceChildren(...settings.clients.map(({ name, cost }, id) => {
    const its = result.clients[id];
    const waits = its.granted ? [its.meanWait, its.lateWait, its.longestWait].map(duration) : ["–", "–", "–"];
    const requests = cost > 1 ? ` (${requestsOf(its.rate, cost)})` : "";
    const cells = [plain(its.rate) + requests, percent(its.share), ...waits, plain(its.turnedAway)];
    return make("tr", {}, make("th", { scope: "row" }, chip(id), name), ...cells.map(text => make("td", {}, text)),
      make("td", its.met.is === false ? { class: "unmet" } : {}, its.met.why));
  }));
}

function draw(run) {
  drawAll(run);
  drawCompared(run);
  drawEach(run);
  drawTable(run);
}
