"use strict";

// The form, the address, and the runs: each change starts one, in a worker of its own.

const byKey = (within, key) => within.querySelector(`[data-key=${key}]`);
const rows = () => [...byId("clients").children];

const WORDS = {
  wait: "wait until one is due", allow: "grant beyond it",
  others: "at the other servers", all: "at all servers",
  virtual: "in virtual time", clock: "by the clock",
};

// ---- the fields

function field({ key, label, words, none }) {
  const input = words ? make("select", {}, ...words.map(word => make("option", { value: word }, WORDS[word])))
    : make("input", key === "name" ? { maxlength: 24 } : { inputmode: "numeric", maxlength: 9, ...(none && { placeholder: "none" }) });
  input.dataset.key = key;
  return make("label", { class: key }, make("span", {}, label), input, make("small", {}));
}

function addRow(client) {
  const row = make("fieldset", { class: "client" }, ...CLIENT_FIELDS.map(field));
  for (const { key } of CLIENT_FIELDS) byKey(row, key).value = client[key];
  const remove = make("button", { type: "button" }, "✕");
  remove.addEventListener("click", () => {
    const next = row.nextElementSibling ?? row.previousElementSibling;
    row.remove();
    (next?.querySelector("button") ?? byId("add")).focus();
    changed();
  });
  row.querySelector(".name input").before(make("span", { class: "chip", "aria-hidden": "true" }));
  row.append(remove);
  byId("clients").append(row);
}

// What depends on how many clients there are and how they are named.
function nameRows() {
  rows().forEach((row, id) => {
    const name = byKey(row, "name").value.trim() || `client ${id + 1}`;
    row.style = colorOf(id);
    row.setAttribute("aria-label", name);
    row.querySelector("button").setAttribute("aria-label", `Remove ${name}`);
  });
  byId("add").disabled = rows().length >= MOST_CLIENTS;
}

function showScene({ server, clients }) {
  for (const { key } of SERVER_FIELDS) byKey(byId("server"), key).value = server[key];
  byId("clients").replaceChildren();
  clients.forEach(addRow);
  nameRows();
}

const sceneShown = () => ({
  server: Object.fromEntries(SERVER_FIELDS.map(({ key }) => [key, byKey(byId("server"), key).value])),
  clients: rows().map(row => Object.fromEntries(CLIENT_FIELDS.map(({ key }) => [key, byKey(row, key).value]))),
});

const list = (id, texts) => byId(id).replaceChildren(...texts.map(text => make("li", {}, text)));

function showFaults(faults) {
  for (const input of byId("form").querySelectorAll("[aria-invalid]")) input.removeAttribute("aria-invalid");
  for (const { key, client } of faults.filter(fault => fault.key))
    byKey(client === undefined ? byId("server") : rows()[client], key).setAttribute("aria-invalid", "true");
  list("faults", faults.map(({ text }) => text));
  byId("results").classList.toggle("old", faults.length > 0);
}

// Under each rate, what it became where that is another.
function showRates(rates) {
  rows().forEach((row, id) => {
    for (const [key, rate] of Object.entries(rates[id])) {
      const became = rate && rate !== Number(byKey(row, key).value);
      byKey(row, key).nextElementSibling.textContent = became ? `becomes ${plain(rate)}` : "";
    }
  });
}

function say(text, progress) {
  byId("said").textContent = text;
  byId("progress").hidden = progress === undefined;
  byId("progress").value = progress ?? 0;
}

// ---- the runs

const TOO_OLD = "This browser has no 64-bit WebAssembly memory, in which the library runs: take a newer one.";
const text = id => byId(id).textContent;
const workerUrl = URL.createObjectURL(new Blob([text("worker")], { type: "text/javascript" }));
const compiled = Promise.resolve().then(() => WebAssembly.compile(Uint8Array.from(atob(text("module")), letter => letter.charCodeAt(0))));

// Runs settings, and calls a function with each message of worker.js. Returns what ends the run.
function start(settings, hear, listing = false) {
  const worker = new Worker(workerUrl);
  worker.onmessage = ({ data }) => hear(data);
  worker.onerror = ({ message }) => hear({ fault: `The run broke off: ${message}` });
  compiled.then(module => worker.postMessage({ module, settings, listing }), () => hear({ fault: TOO_OLD }));
  return () => {
    worker.onmessage = null;
    worker.terminate();
  };
}

let end = () => {};
let shown;

function run() {
  const scene = sceneShown();
  const { settings, faults } = readScene(scene);
  end();
  showFaults(faults);
  say("");
  if (!settings) return;
  history.replaceState(null, "", toAddress(scene));
  const began = performance.now();
  let exact, warnings;
  end = start(settings, ({ rates, progress, result, other, fault }) => {
    if (rates) {
      exact = rates;
      showRates(rates);
      warnings = warningsOf(settings, rates);
      list("warnings", warnings);
    }
    if (progress !== undefined && performance.now() - began > 300) say("Simulating", progress);
    if (fault) {
      showFaults([{ text: fault }]);
      say("");
    }
    if (result) {
      shown = { settings, rates: exact, result };
      byId("results").hidden = false;
      draw(shown);
      list("warnings", [...warnings, ...waitsOf(settings, result)]);
      for (const shows of document.querySelectorAll("pre")) shows.textContent = COPIES[shows.id].textOf(shown);
      const took = duration((performance.now() - began) / 1000);
      say(`${plain(settings.seconds)} seconds with ${plain(result.granted)} grants, simulated in ${took}.`);
    }
    if (other) {
      shown.other = other;
      drawCompared(shown);
    }
    if (fault || other) end();
  });
}

let soon;
function changed() {
  nameRows();
  for (const button of byId("presets").querySelectorAll("button"))
    button.setAttribute("aria-pressed", String(toAddress(sceneShown()) === button.dataset.address));
  clearTimeout(soon);
  soon = setTimeout(run, 200);
}

// ---- the start

function open() {
  const found = location.hash.length > 1 ? fromAddress(location.hash) : PRESETS[0][1];
  const fault = found ? tooMany(found.clients) : "The address has no settings of this page.";
  showScene(fault ? PRESETS[0][1] : found);
  changed();
  clearTimeout(soon);
  run();
  if (fault) list("faults", [`${fault} Here is the first of the presets.`]);
}

byId("server").append(...SERVER_FIELDS.map(field));
byId("heads").append(...CLIENT_FIELDS.map(({ label }) => make("span", {}, label)));
for (const [name, scene] of PRESETS) {
  const button = make("button", { type: "button", "data-address": toAddress(scene) }, name);
  button.addEventListener("click", () => {
    showScene(scene);
    changed();
  });
  byId("presets").append(button);
}
byId("add").addEventListener("click", () => {
  const seconds = byKey(byId("server"), "seconds").value;
  const name = `client ${rows().length + 1}`;
  addRow({ name, reservation: "", weight: "1", limit: "", demand: "300", from: "0", until: seconds, window: "64", cost: "1" });
  byKey(rows().at(-1), "name").select();
  changed();
});
for (const button of document.querySelectorAll("[data-copies]")) {
  const { copies } = button.dataset;
  button.addEventListener("click", async () => {
    getSelection().selectAllChildren(byId(copies));
    await navigator.clipboard.writeText(COPIES[copies].textOf(shown));
    say(`${COPIES[copies].what} are copied.`);
  });
}
byId("form").addEventListener("input", changed);
byId("form").addEventListener("submit", event => event.preventDefault());
addEventListener("hashchange", open);
addEventListener("resize", () => { if (shown) draw(shown); });
open();
