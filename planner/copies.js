"use strict";

// What the page has to copy: its settings for the nbdkit filter and for the module of nginx, where a comment says what these refuse, and
// its table as CSV.

const MOST_SERVED_WEIGHT = 1000;
const UNIT = 4; // KiB: what a unit of cost is taken as. The page knows no bytes, so a comment says that it may be another

const hasCosts = ({ clients }) => clients.some(({ cost }) => cost > 1);

// What the filter or nginx refuses of a client.
function refusedOf(who, clients, id) {
  const { name, reservation, weight, limit } = clients[id];
  const found = [];
  if (weight > MOST_SERVED_WEIGHT) found.push(`# ${who} takes weights up to ${MOST_SERVED_WEIGHT}`);
  if (limit && reservation > limit) found.push(`# ${who} takes no reservation above the limit`);
  if (clients.slice(0, id).some(other => other.name === name)) found.push(`# ${who} takes each name once`);
  return found;
}

// ---- nbdkit

// The settings as the nbdkit filter takes them, a line each.
function nbdkitSettings(settings) {
  const { capacity, servers, atLimit, depth, idle, shares, clients } = settings;
  const lines = [`dmclock-depth=${depth}`, `dmclock-capacity=${capacity}`, `dmclock-at-limit=${atLimit}`, `dmclock-shares=${shares}`,
    `dmclock-idle=${idle}`];
  if (servers > 1) lines.unshift(`# for each of the ${servers} servers; the filter knows of no other server`);
  if (idle > 900) lines.push(`dmclock-erase=${idle}`);
  if (hasCosts(settings)) {
    lines.push(`# a unit is ${UNIT} KiB here, and may be another: a request costs 1 for each that it begins`);
    lines.push(`dmclock-unit=${UNIT}KiB`);
  }
  clients.forEach(({ name, reservation, weight, limit, cost }, id) => {
    lines.push(...refusedOf("the filter", clients, id));
    if (cost > 1) lines.push(`# requests of ${plain(cost * UNIT)} KiB cost ${plain(cost)}`);
    lines.push(`dmclock-client=${name}:${reservation || "-"}:${weight}:${limit || "-"}`);
  });
  return lines.join("\n") + "\n";
}

// ---- nginx

// What a zone has if its parameters do not say it: as many requests wait, and a quarter of them of one client.
const NGINX_QUEUE = 10000;
const NGINX_PARTS = 4;
const MOST_NGINX_NAME = 255; // bytes
const NGINX_OWN_NAME = "dmclock-default";

const nginxWord = text => (/^[\w.:@-]+$/.test(text) ? text : `"${text.replace(/["\\]/g, "\\$&")}"`);

// The zone, which lets as many requests wait as the clients' windows have.
function nginxZone({ atLimit, depth, idle, shares, clients }) {
  const windows = clients.map(({ window }) => window);
  const queue = Math.max(NGINX_QUEUE, sum(windows));
  const most = Math.max(...windows);
  const words = [`dmclock_zone store $http_x_tenant depth=${depth}\n   `, `at_limit=${atLimit}`, `shares=${shares}`, `idle=${idle}s`];
  if (queue > NGINX_QUEUE) words.push(`queue=${queue}`);
  if (most > Math.floor(queue / NGINX_PARTS)) words.push(`client_queue=${most}`);
  return words.join(" ") + ";";
}

function nginxClient({ name, reservation, weight, limit }) {
  const rates = Object.entries({ reservation, weight, limit }).filter(([, rate]) => rate);
  return ["dmclock_client store", nginxWord(name), ...rates.map(([key, rate]) => `${key}=${rate}`)].join(" ") + ";";
}

// The settings as nginx takes them within http.
function nginxSettings(settings) {
  const { servers, counting, clients } = settings;
  const lines = [nginxZone(settings)];
  if (servers > 1) {
    lines.unshift(`# the same at each of the ${servers} nodes, with dmclock_trust for their front, which has`,
      `# dmclock_tracker cluster $tenant ${counting};`,
      `# and in the upstream dmclock_track cluster;${hasCosts(settings) ? " and dmclock_cost as here" : ""}`);
  }
  if (hasCosts(settings)) {
    lines.push(`# a unit is ${UNIT} KiB here, and may be another: an upload costs 1 for each that it begins, a download 1`);
    lines.push(`dmclock_cost $content_length unit=${UNIT}k;`);
  }
  clients.forEach((client, id) => {
    const { name, cost } = client;
    lines.push(...refusedOf("nginx", clients, id));
    if (new TextEncoder().encode(name).length > MOST_NGINX_NAME || name === NGINX_OWN_NAME)
      lines.push(`# nginx takes a name of at most ${MOST_NGINX_NAME} bytes, and not ${NGINX_OWN_NAME}`);
    if (cost > 1) lines.push(`# uploads of ${plain(cost * UNIT)} KiB cost ${plain(cost)}`);
    lines.push(nginxClient(client));
  });
  return lines.join("\n") + "\n";
}

// ---- the table

const CSV_HEADS = ["client", "units a second", "requests a second", "part for its reservation", "mean wait in seconds",
  "99th percentile in seconds", "longest wait in seconds", "turned away", "reservation met"];

// A text that a spreadsheet would take as a formula gets an apostrophe, since the names in an address are somebody else's.
function csvCell(value) {
  const text = typeof value === "string" && /^[=+@\t-]/.test(value) ? `'${value}` : String(value);
  return /[",\r\n]/.test(text) ? `"${text.replaceAll('"', '""')}"` : text;
}

function tableCsv({ settings, result }) {
  const rows = result.clients.map((its, id) => {
    const { name, cost } = settings.clients[id];
    const waits = its.granted ? [its.meanWait, its.lateWait, its.longestWait] : ["", "", ""];
    return [name, its.rate, its.rate / cost, its.share, ...waits, its.turnedAway, its.met.why];
  });
  return [CSV_HEADS, ...rows].map(row => row.map(csvCell).join(",") + "\r\n").join("");
}

// ---- what may be copied, by the id of the element that shows it

const COPIES = {
  nbdkit: { what: "The nbdkit settings", textOf: ({ settings }) => nbdkitSettings(settings) },
  nginx: { what: "The nginx settings", textOf: ({ settings }) => nginxSettings(settings) },
  table: { what: "The numbers", textOf: tableCsv },
};
