"use strict";

// What the grants of one run add up to, in an instance of the module of its own. It calls a function with each second.
function resultOf(module, settings, rates, listing, second) {
  const results = new Results(settings, rates, listing);
  results.second = second;
  simulate(new Library(module), settings, rates, results);
  return results.summary();
}

// One run, in a worker of its own: what the rates became, progress, and the result, or why there is none; then the result with the
// other shares, unless a listing is asked for.
onmessage = ({ data: { module, settings, listing } }) => {
  try {
    const library = new Library(module);
    const rates = settings.clients.map(client => exactRates(library, client));
    postMessage({ rates });
    let last = performance.now();
    const result = resultOf(module, settings, rates, listing, time => {
      if (performance.now() - last < 100) return;
      last = performance.now();
      postMessage({ progress: time / HZ / settings.seconds });
    });
    postMessage({ result });
    const shares = settings.shares === "virtual" ? "clock" : "virtual";
    if (!listing) postMessage({ other: resultOf(module, { ...settings, shares }, rates, false, () => {}) });
  } catch (fault) {
    const what = fault instanceof Refused ? "The library refuses a call" : "The run broke off";
    postMessage({ fault: `${what}: ${fault.message}.` });
  }
};
