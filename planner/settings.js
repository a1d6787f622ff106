"use strict";

// What can be set: its limits, the presets, its form in the page's address, and what is wrong with it. As long as it is text it
// is a scene, as the fields and the address have it: { server: { key: text }, clients: [{ key: text }] }.

const MOST_CLIENTS = 64;
const MOST_REQUESTS = 5000000;
const MOST_COST = 10000; // with it all ticks are below 2^53, so that numbers have them exactly
const AT_LIMIT_WORDS = ["wait", "allow"];
const COUNTING_WORDS = ["others", "all"];
const SHARES_WORDS = ["virtual", "clock"];

// The fields, in the order of the form and of the address. One with `none` may be left empty. One with `absent` may be missing in an
// address, which then means this; of a client those at the end may be.
const SERVER_FIELDS = [
  { key: "capacity", label: "Capacity", least: 1, most: 100000 },
  { key: "servers", label: "Servers", least: 1, most: 16 },
  { key: "seconds", label: "Seconds", least: 1, most: 600 },
  { key: "atLimit", label: "At the limit", words: AT_LIMIT_WORDS },
  { key: "counting", label: "Stamps count completions", words: COUNTING_WORDS },
  { key: "depth", label: "Depth", least: 1, most: 1024, absent: "1" },
  { key: "idle", label: "Idle after seconds", least: 1, most: 100000, absent: "5" },
  { key: "shares", label: "Shares are compared", words: SHARES_WORDS, absent: "virtual" },
];
const CLIENT_FIELDS = [
  { key: "name", label: "Name", isName: true },
  { key: "reservation", label: "Reservation", least: 1, most: 1000000, none: true },
  { key: "weight", label: "Weight", least: 1, most: 1000000 },
  { key: "limit", label: "Limit", least: 1, most: 1000000, none: true },
  { key: "demand", label: "Demand", least: 1, most: 100000 },
  { key: "from", label: "From", least: 0, most: 599 },
  { key: "until", label: "Until", least: 1, most: 600 },
  { key: "window", label: "Window", least: 1, most: 10000 },
  { key: "cost", label: "Cost", least: 1, most: MOST_COST, absent: "1" },
];

const scene = (server, ...clients) => ({
  server: Object.fromEntries(SERVER_FIELDS.map(({ key }, k) => [key, String(server[k])])),
  clients: clients.map(client => Object.fromEntries(CLIENT_FIELDS.map(({ key }, k) => [key, String(client[k])]))),
});
const PRESETS = [
  ["Three tenants", scene([2000, 1, 60, "wait", "others", 4, 5, "virtual"],
    ["database", 800, 2, "", 1000, 0, 60, 64, 1],
    ["website", "", 3, "", 1600, 15, 45, 64, 1],
    ["backup", 100, 1, 500, 1500, 0, 60, 64, 1])],
  ["Noisy neighbour", scene([1000, 1, 60, "wait", "others", 4, 5, "virtual"],
    ["steady", 300, 1, "", 300, 0, 60, 32, 1],
    ["modest", "", 1, "", 250, 0, 60, 32, 1],
    ["noisy", "", 1, "", 4000, 20, 40, 1024, 1])],
  ["Backlog", scene([1000, 1, 60, "wait", "others", 4, 5, "virtual"],
    ["interactive", 400, 4, "", 700, 0, 60, 32, 1],
    ["nightly batch", "", 1, 300, 20000, 10, 11, 8000, 1])],
  ["Too much reserved", scene([1000, 1, 60, "wait", "others", 4, 5, "virtual"],
    ["first", 600, 1, "", 700, 0, 60, 64, 1],
    ["second", 600, 1, "", 700, 20, 60, 64, 1],
    ["third", "", 4, "", 500, 0, 60, 64, 1])],
  ["Three servers", scene([600, 3, 60, "wait", "others", 4, 5, "virtual"],
    ["database", 800, 2, "", 1000, 0, 60, 96, 1],
    ["website", "", 3, "", 1600, 15, 45, 96, 1],
    ["backup", 100, 1, 500, 1200, 0, 60, 96, 1])],
  ["Large requests", scene([8000, 1, 60, "wait", "others", 4, 5, "virtual"],
    ["database", 1000, 2, "", 1500, 0, 60, 64, 1],
    ["website", "", 2, "", 6000, 15, 45, 64, 4],
    ["backup", "", 1, "", 20000, 0, 60, 16, 64])],
];

// ---- the address: #capacity=2000&..&client=database,800,2,,1000,0,60,64,1

function toAddress({ server, clients }) {
  const part = text => encodeURIComponent(text).replace(/%20/g, "+");
  const pairs = SERVER_FIELDS.map(({ key }) => `${key}=${part(server[key])}`);
  return "#" + [...pairs, ...clients.map(client => "client=" + CLIENT_FIELDS.map(({ key }) => part(client[key])).join(","))].join("&");
}

// The scene of an address; undefined where it has none, or parts that a scene doesn't have.
function fromAddress(address) {
  const found = { server: {}, clients: [] };
  try {
    for (const pair of address.replace(/^#/, "").split("&")) {
      const [key, value, more] = pair.split("=");
      if (more !== undefined) return undefined;
      const parts = value.split(",").map(part => decodeURIComponent(part.replace(/\+/g, " ")));
      if (key === "client" && parts.length <= CLIENT_FIELDS.length)
        found.clients.push(Object.fromEntries(CLIENT_FIELDS.map((field, k) => [field.key, parts[k] ?? field.absent])));
      else if (SERVER_FIELDS.some(field => field.key === key) && parts.length === 1) [found.server[key]] = parts;
      else return undefined;
    }
  } catch {
    return undefined;
  }
  for (const { key, absent } of SERVER_FIELDS) found.server[key] ??= absent;
  const isWhole = (fields, texts) => fields.every(({ key }) => texts[key] !== undefined);
  return isWhole(SERVER_FIELDS, found.server) && found.clients.every(client => isWhole(CLIENT_FIELDS, client)) ? found : undefined;
}

// ---- what is wrong

const plain = number => number.toLocaleString("en", { maximumFractionDigits: 1 });

// What is wrong with the text of a field, if anything is.
function faultOf(text, { least, most, none, words, isName }) {
  if (isName) return text.trim() ? undefined : "is missing";
  if (words) return words.includes(text) ? undefined : `is one of ${words.join(", ")}`;
  const number = Number(text);
  if (text === "" && none) return undefined;
  if (/^[0-9]{1,9}$/.test(text) && number >= least && number <= most) return undefined;
  return `is a whole number from ${plain(least)} to ${plain(most)}${none ? ", or left empty for none" : ""}`;
}

const tooMany = clients => clients.length > MOST_CLIENTS
  && `There are ${plain(clients.length)} clients in the address: the page takes at most ${MOST_CLIENTS}.`;

const valueOf = (text, { words, isName }) => (isName ? text.trim() : words ? text : Number(text));

// The settings of a scene, or its faults: for each a field's key, the client's index if it is a client's, and a sentence.
function readScene({ server, clients }) {
  const faults = [];
  const read = (fields, texts, client) => Object.fromEntries(fields.map(field => {
    const fault = faultOf(texts[field.key], field);
    const whose = client === undefined ? "" : ` of ${texts.name.trim() || `client ${client + 1}`}`;
    if (fault) faults.push({ key: field.key, client, text: `${field.label}${whose} ${fault}.` });
    return [field.key, valueOf(texts[field.key], field)];
  }));
  const settings = { ...read(SERVER_FIELDS, server), clients: clients.map((texts, k) => read(CLIENT_FIELDS, texts, k)) };
  if (!clients.length) faults.push({ text: "There is no client: add one." });
  if (!faults.length) checkTogether(settings, faults);
  return { settings: faults.length ? undefined : settings, faults };
}

function checkTogether({ seconds, clients }, faults) {
  const askedBy = ({ demand, from, until }) => demand * Math.max(0, Math.min(until, seconds) - from); // units
  clients.forEach((its, client) => {
    const { name, from, until, cost } = its;
    const text = `From of ${name} is less than the ${plain(seconds)} seconds of the run.`;
    if (from >= seconds) faults.push({ key: "from", client, text });
    else if (until <= from) faults.push({ key: "until", client, text: `Until of ${name} is more than its from.` });
    else if (askedBy(its) < cost)
      faults.push({ key: "cost", client, text: `Cost of ${name} is at most the ${plain(askedBy(its))} units that it asks for.` });
  });
  const requests = Math.ceil(clients.reduce((sum, its) => sum + askedBy(its) / its.cost, 0));
  const advice = `the page takes at most ${plain(MOST_REQUESTS)}. Take fewer seconds, or less demand.`;
  if (requests > MOST_REQUESTS) faults.push({ text: `The clients ask for ${plain(requests)} requests: ${advice}` });
}

// What rates count: units of cost, which are requests if each costs 1.
const countedOf = ({ clients }) => (clients.some(({ cost }) => cost > 1) ? "units" : "requests");

// What is right but may surprise, given what the rates became.
function warningsOf(settings, rates) {
  const { capacity, servers, shares, clients } = settings;
  const whole = capacity * servers;
  const weights = rates.reduce((sum, { weight }) => sum + weight, 0);
  const found = [];
  if (shares === "clock" && weights > whole)
    found.push(`The weights sum to ${plain(weights)}, which is more than the ${plain(whole)} ${countedOf(settings)} a second that are `
      + "served: by the clock, clients don't get shares by them. Take small numbers such as 1, 2 and 3, or virtual time.");
  clients.forEach(({ name }, id) => {
    const { reservation, limit } = rates[id];
    if (limit && reservation > limit) found.push(`The reservation of ${name} is above its limit: the reservation wins.`);
  });
  return found;
}

// What a run shows that may surprise: clients that were not granted anything for long, although they asked for it.
function waitsOf({ shares, clients }, result) {
  const advice = shares === "clock" ? "A reservation, virtual time, or a shorter time until a client is idle, may help." : "A reservation may help.";
  return result.clients.flatMap(({ starved }, id) => starved
    ? [`For ${plain(starved.seconds)} s nothing was granted to ${clients[id].name}, which waited, while ${plain(starved.others)} `
      + `requests of others were granted by weight. ${advice}`] : []);
}
