// The page of a control plane. It shows what the plane's JSON routes answer, and decides nothing.
// All text goes into the page as text, never as HTML.
"use strict";

const EVERY = 2000; // milliseconds from one refresh to the next
const STORED = "hourstable-secret"; // in the storage of this tab alone
const SVG = "http://www.w3.org/2000/svg";
const MEANINGS = {
  "held": "a lease of the generation before was not over",
  "grace": "leases of before a restart may still be held",
  "job-held": "another assigner holds the job lease",
  "not-holder": "the term is not the one that runs",
  "stale-base": "the assignment is not the next generation",
  "pending": "an assignment is proposed already",
  "nothing-pending": "no assignment is proposed",
  "no-row": "no open row of that lease",
  "no-assignment": "no assignment is committed or proposed",
  "numbers-spent": "all grants of the policy are given",
  "clock-back": "a reading below the last one that was accepted",
  "reading-range": "a reading that is too great",
  "too-many-owners-for-job": "a slice has more owners than the policy allows",
  "down": "the task has begun no life",
  "ended": "a lease covered the key and had ended",
  "not-owned": "the lease that ran did not cover the key",
  "no-lease": "no lease ran, and none covered the key",
  "moving": "the task was giving the key up",
  "clock-behind": "the task had not heard the table for too long",
};

const at = (id) => document.getElementById(id);
const known = {}; // what the places of the page show, as text
const asked = { phase: "", at: 0, slices: null }; // the slices that were answered last
let timer = 0;
let turn = 0;

// Building ------------------------------------------------------------------------------------

function made(name, text, attributes) {
  const element = document.createElement(name);
  if (text !== undefined) element.textContent = text;
  for (const [key, value] of Object.entries(attributes || {})) element.setAttribute(key, value);
  return element;
}

function drawn(name, attributes, title) {
  const element = document.createElementNS(SVG, name);
  for (const [key, value] of Object.entries(attributes)) element.setAttribute(key, value);
  if (title) {
    const told = document.createElementNS(SVG, "title");
    told.textContent = title;
    element.append(told);
  }
  return element;
}

function written(x, y, text, kind) {
  const element = drawn("text", { x, y, class: kind || "" });
  element.textContent = text;
  return element;
}

function ofTask(element, task) {
  element.style.setProperty("--hue", String(Math.round((task * 137.5 + 190) % 360)));
  return element;
}

function table(heads, rows, none) {
  if (!rows.length) return made("p", none);
  const element = made("table");
  const head = made("tr");
  head.append(...heads.map((it) => made("th", it, { scope: "col" })));
  const top = made("thead");
  top.append(head);
  const body = made("tbody");
  for (const row of rows) {
    const line = made("tr");
    line.append(...row.map((it, n) => made("td", String(it), { "data-label": heads[n] })));
    body.append(line);
  }
  element.append(top, body);
  return element;
}

// Shows elements in a place if what they show has changed, so that a reader is not disturbed.
function show(id, value, build) {
  const text = JSON.stringify(value);
  if (known[id] === text) return;
  known[id] = text;
  at(id).replaceChildren(...build());
}

function list(id, texts) {
  show(id, texts, () => texts.map((it) => made("li", it)));
}

// Asking --------------------------------------------------------------------------------------

class Unauthorized extends Error {}
class Forbidden extends Error {}

async function ask(path) {
  const secret = sessionStorage.getItem(STORED);
  const headers = secret ? { Authorization: `Bearer ${secret}` } : {};
  const answer = await fetch(path, { headers, cache: "no-store", credentials: "omit" });
  if (answer.status === 401) throw new Unauthorized();
  const value = await answer.json();
  if (answer.status === 403) throw new Forbidden(value.error);
  if (!answer.ok) throw new Error(value.error || `status ${answer.status}`);
  return value;
}

function chosen() {
  const words = new URLSearchParams(location.hash.slice(1));
  return { job: words.get("job"), key: words.get("key") };
}

function linkTo(job, key) {
  const words = new URLSearchParams({ job });
  if (key) words.set("key", key);
  return `#${words}`;
}

// What is shown -------------------------------------------------------------------------------

const seconds = (ticks) => `${(ticks / 1000).toFixed(1)} s`;
const number = (value) => value.toLocaleString("en");
const plural = (count, word) => `${count} ${word}${count === 1 ? "" : "s"}`;

function away(reading, now) {
  if (now === null) return "";
  return reading > now ? ` (in ${seconds(reading - now)})` : ` (${seconds(now - reading)} ago)`;
}

function showJobs(jobs, job) {
  const lines = jobs.map((it) => [it.job, stateOf(it)]);
  show("jobs", [lines, job], () => lines.map(([name, state]) => {
    const link = made("a", name, { href: linkTo(name) });
    if (name === job) link.setAttribute("aria-current", "page");
    const item = made("li");
    item.append(link, made("span", state));
    return item;
  }));
  if (!lines.length) show("jobs", [], () => [made("li", "There is no job yet.")]);
}

function stateOf(it) {
  const committed = it.committed ? `generation ${it.committed}` : "no assignment yet";
  if (!it.holder) return `${committed}, not held by this plane`;
  const phase = it.proposed ? `generation ${it.proposed} proposed` : committed;
  return `${phase}, ${plural(it.alive, "task")}${it.grace ? ", grace" : ""}`;
}

function summaryOf(it) {
  const told = [];
  if (!it.holder) {
    told.push("This control plane does not hold the job: it was not called lately, or another plane does. " +
      "What is stored is shown.");
  }
  if (it.proposed) {
    told.push(`Generation ${it.proposed} has been proposed for ${it.phase_seconds} s; ` +
      `generation ${it.committed} is committed.`);
  } else {
    told.push(it.committed ? `Generation ${it.committed} is committed, and none is proposed.`
      : "No assignment is committed.");
  }
  if (it.term) {
    const held = it.reading !== null && it.term.until <= it.reading ? "held" : "holds";
    const until = `${number(it.term.until)}${away(it.term.until, it.reading)}`;
    told.push(`Assigner ${it.term.assigner} ${held} the job lease by term ${it.term.number} until ${until}.`);
  } else {
    told.push("No assigner has held the job lease.");
  }
  if (it.grace.left) {
    told.push(`The table was restored: no commit is accepted until ${number(it.grace.until)} ` +
      `(in ${seconds(it.grace.left)}).`);
  }
  const draining = it.draining.length ? ` Drained: ${it.draining.join(", ")}.` : "";
  told.push(`Tasks that asked for a lease in the last guard term: ${it.alive.join(", ") || "none"}.${draining}`);
  if (it.reading !== null) told.push(`The table's clock shows ${number(it.reading)}, in milliseconds.`);
  return told;
}

function showRows(it) {
  const rows = it.rows.map((row) => [
    row.task, row.kind, row.generation, row.life, row.number,
    `${number(row.until)}${away(row.until, it.reading)}`,
  ]);
  const heads = ["Task", "Kind", "Generation", "Life", "Grant", "Ends"];
  show("rows", rows, () => [table(heads, rows, "The table has no open row.")]);
}

function showRefusals(it) {
  const rows = it.refusals.map((one) => [
    one.call, one.refused, one.count, MEANINGS[one.refused] || "",
  ]);
  const heads = ["Call", "Ground", "Times", "Meaning"];
  show("refusals", rows, () => [table(heads, rows, "None since this plane started.")]);
}

function showDenials(it) {
  const grounds = new Map();
  for (const one of it.tasks) {
    for (const [ground, count] of Object.entries(one.denied)) {
      if (!grounds.has(ground)) grounds.set(ground, []);
      grounds.get(ground).push([one.task, count]);
    }
  }
  const rows = [...grounds].sort().map(([ground, counts]) => [
    ground, counts.reduce((sum, [, count]) => sum + count, 0),
    counts.map(([task, count]) => `task ${task}: ${count}`).join(", "), MEANINGS[ground] || "",
  ]);
  const heads = ["Ground", "Times", "By", "Meaning"];
  show("denials", rows, () => [table(heads, rows, "No task has reported a denial.")]);
}

function clocksOf(it) {
  const told = [];
  for (const one of it.tasks) {
    if (one.clock_behind) told.push(`Task ${one.task}: its clock stopped it ${plural(one.clock_behind, "time")}.`);
    if (one.calls_left !== null && one.calls_left < 1000) {
      told.push(`Task ${one.task}: its slicelet accepts ${plural(one.calls_left, "more call")}, ` +
        "and is replaced before it is full.");
    }
  }
  for (const one of it.refusals) {
    if (one.refused === "clock-back") {
      told.push(`The table refused ${one.call} ${plural(one.count, "time")}, since a reading fell.`);
    }
  }
  if (it.holder && it.reading === null) {
    told.push("The table's clock is not yet at the last reading that was stored.");
  }
  return told.length ? told : ["No trouble of clocks was reported, and no history is nearly full."];
}

// Slices --------------------------------------------------------------------------------------

function showSlices(it, told) {
  const width = Math.max(240, at("slices").clientWidth);
  const place = told ? Number(BigInt(told.slice_key) * 1000000n >> 63n) / 1000000 : null;
  show("slices", [it, width, place], () => [slicesPicture(it, width, place)]);
  const shares = new Map();
  for (const one of it.slices) {
    for (const owner of one.owners) {
      const share = shares.get(owner) || [0, 0];
      const count = one.owners.length;
      shares.set(owner, [share[0] + (one.to - one.from) / count, share[1] + one.load / count]);
    }
  }
  const owners = [...shares].sort((one, other) => one[0] - other[0]);
  show("owners", [owners, it.load], () => owners.map(([task, part]) => ownerItem(task, ...part, it.load)));
  at("slices-note").textContent = slicesNote(it);
  const rows = it.slices.map((one) => [
    one.start, one.owners.join(", "), `${(100 * (one.to - one.from)).toFixed(2)} %`, one.load,
  ]);
  const heads = ["First slice key", "Owners", "Of all keys", "Load"];
  show("slices-table", rows, () => [table(heads, rows, "There are none.")]);
}

function slicesNote(it) {
  if (!it.slices.length) return "No assignment is committed.";
  const proposed = it.proposed.length ? "; below, what is proposed" : "";
  const load = it.load ? `Bars show the ${plural(it.load, "request")} that tasks reported last.`
    : "No load was reported lately.";
  return `${plural(it.slices.length, "slice")} of generation ${it.generation}${proposed}. ${load}`;
}

function ownerItem(task, share, load, all) {
  const item = made("li");
  const sample = drawn("svg", { viewBox: "0 0 10 10", "aria-hidden": "true" });
  sample.append(ofTask(drawn("rect", { width: 10, height: 10, class: "task" }), task));
  const part = all ? `, ${(100 * load / all).toFixed(0)} % of the load` : "";
  item.append(sample, `task ${task}: ${(100 * share).toFixed(0)} % of the keys${part}`);
  return item;
}

function slicesPicture(it, width, place) {
  const pad = 8;
  const x = (part) => pad + part * (width - 2 * pad);
  const height = it.proposed.length ? 128 : 96;
  const picture = drawn("svg", { viewBox: `0 0 ${width} ${height}`, height, role: "img" },
    `The key space from 0 to 2^63 with ${plural(it.slices.length, "slice")}`);
  const most = Math.max(1, ...it.slices.map((one) => one.load / (one.to - one.from)));
  for (const one of it.slices) {
    picture.append(...sliceBand(one, x, 16, 34));
    const height = 32 * one.load / (one.to - one.from) / most;
    const width = Math.max(0.5, x(one.to) - x(one.from) - 0.5);
    const shape = { x: x(one.from), y: 88 - height, width, height, class: "load" };
    picture.append(ofTask(drawn("rect", shape, `load ${one.load}`), one.owners[0]));
  }
  for (const one of it.proposed) picture.append(...sliceBand(one, x, 98, 22));
  if (place !== null) {
    const middle = x(place);
    picture.append(drawn("path", { d: `M${middle - 5} 2h10l-5 10z`, class: "mark" }, "the key"));
    picture.append(drawn("path", { d: `M${middle} 12V50`, class: "mark-line" }));
  }
  return picture;
}

function sliceBand(one, x, y, height) {
  const tall = height / one.owners.length;
  const wide = Math.max(0.5, x(one.to) - x(one.from));
  const parts = [];
  const owners = `${plural(one.owners.length, "owner")}, ${one.owners.join(", ")}`;
  const title = `from ${one.start} up to ${one.end}: ${owners}; load ${one.load}`;
  one.owners.forEach((task, n) => {
    const shape = { x: x(one.from), y: y + n * tall, width: wide, height: tall, class: "task" };
    parts.push(ofTask(drawn("rect", shape, title), task));
    if (wide > 18 && tall > 11) {
      parts.push(written(x(one.from) + wide / 2, y + (n + 0.5) * tall + 4, String(task), "middle"));
    }
  });
  return parts;
}

// Lanes ---------------------------------------------------------------------------------------

function showLanes(it) {
  if (it.reading === null) {
    show("lanes", null, () => [made("p", "This plane does not hold the table now, so there is no picture.")]);
    at("lanes-note").textContent = "";
    return;
  }
  const width = Math.max(240, at("lanes").clientWidth);
  known.lanes = undefined;
  show("lanes", [it.reading, width], () => [lanesPicture(it, width)]);
  at("lanes-note").textContent = "A bar is a lease from its first grant to its end: a guard lease above, a bridge " +
    "lease below. What is to come is pale. A cross is a call that the table refused, a dot a restart.";
}

function lanesPicture(it, width) {
  const span = 60000 * Number(at("minutes").value);
  const from = it.reading - span;
  const last = Math.max(it.reading, ...it.stretches.map((one) => one.until));
  const to = Math.max(it.reading + span / 20, Math.min(it.reading + span / 4, last));
  const left = 62;
  const x = (reading) => left +
    (Math.min(Math.max(reading, from), to) - from) / (to - from) * (width - left - 8);
  const seen = it.stretches.filter((one) => (one.freed === null ? one.until : one.freed) > from);
  const tasks = [...new Set(seen.map((one) => one.task))].sort((one, other) => one - other);
  const top = 84;
  const height = top + 40 * tasks.length + 6;
  const picture = drawn("svg", { viewBox: `0 0 ${width} ${height}`, height, role: "img" },
    `The last ${at("minutes").value} minutes: the table, and the leases of ${plural(tasks.length, "task")}`);
  picture.append(...axis(it, x, from, width, height));
  picture.append(...tableLane(it, x, from, left));
  tasks.forEach((task, n) => {
    const y = top + 40 * n;
    picture.append(drawn("path", { d: `M0 ${y - 2}H${width}`, class: "grid" }));
    picture.append(written(6, y + 22, `task ${task}`));
    for (const one of seen) if (one.task === task) picture.append(...stretchBar(one, x, y, it.reading));
  });
  return picture;
}

function axis(it, x, from, width, height) {
  const parts = [];
  const minutes = Number(at("minutes").value);
  const step = minutes * 60 / (width < 500 ? 2 : 4);
  for (let n = 0; n * step < minutes * 60; n += 1) {
    const reading = from + n * step * 1000;
    const back = minutes * 60 - n * step;
    parts.push(drawn("path", { d: `M${x(reading)} 16V${height}`, class: "grid" }));
    const label = back >= 60 ? `${back / 60} min ago` : `${back} s ago`;
    parts.push(written(x(reading), 12, label, n ? "soft middle" : "soft"));
  }
  parts.push(drawn("path", { d: `M${x(it.reading)} 16V${height}`, class: "now" }));
  parts.push(written(x(it.reading), 12, "now", "middle"));
  return parts;
}

function tableLane(it, x, from, left) {
  const parts = [written(6, 33, "phase"), written(6, 52, "job lease"), written(6, 71, "refused")];
  it.phases.forEach((one, n) => {
    const end = n + 1 < it.phases.length ? it.phases[n + 1].at : it.reading;
    if (end <= from) return;
    const [kind, label] = one.proposed ? ["waits", `${one.proposed} waits`] : ["phase", `${one.committed}`];
    const proposed = one.proposed ? `, ${one.proposed} proposed` : "";
    parts.push(...bar(x(one.at), x(end), 21, kind, label, `generation ${one.committed} committed${proposed}`));
  });
  for (const one of it.terms) {
    if (one.until <= from) continue;
    const title = `term ${one.number} of assigner ${one.assigner}, until ${number(one.until)}`;
    parts.push(...bar(x(one.since), x(one.until), 40, "term", `${one.number}`, title));
  }
  let last = -9;
  for (const one of it.events) {
    const place = x(one.at);
    if (one.at < from || place - last < 3) continue;
    last = place;
    const title = `${one.do} at ${number(one.at)}: ${one.words}`;
    parts.push(one.do === "restore" ? drawn("circle", { cx: place, cy: 67, r: 5, class: "dot" }, title)
      : drawn("path", { d: `M${place - 3} 64l6 6m0 -6l-6 6`, class: "cross" }, title));
  }
  return parts;
}

function bar(start, end, y, kind, label, title) {
  const shape = { x: start, y, width: Math.max(1.5, end - start), height: 15, rx: 2, class: kind };
  const parts = [drawn("rect", shape, title)];
  if (end - start > 7 * label.length + 6) parts.push(written((start + end) / 2, y + 11.5, label, "middle"));
  return parts;
}

function stretchBar(one, x, y, now) {
  const end = one.freed === null ? one.until : one.freed;
  const row = one.kind === "guard" ? y : y + 18;
  const grants = one.first === one.last ? `grant ${one.first}` : `grants ${one.first} to ${one.last}`;
  const freed = one.freed === null ? "" : `, given back at ${number(one.freed)}`;
  const title = `task ${one.task}: ${one.kind} lease of generation ${one.generation}, life ${one.life}, ` +
    `${grants}; from ${number(one.since)} until ${number(one.until)}${freed}`;
  const start = x(one.since);
  const kind = one.kind === "bridge" && x(end) - start > 12 ? "task bridge" : "task";
  const parts = bar(start, x(Math.min(end, now)), row, kind, `${one.kind} ${one.generation}`, title);
  if (end > now) parts.push(...bar(x(now), x(end), row, `${kind} ahead`, "", title));
  for (const part of parts) ofTask(part, one.task);
  return parts;
}

// A key ---------------------------------------------------------------------------------------

function showKey(told) {
  const place = at("answer");
  place.className = !told || told.reading === null ? "" : told.served.length ? "served" : "denied";
  show("answer", told ? [told.sentences, told.key] : null, () => told ? [
    keyLine(told), ...told.sentences.map((it) => made("p", it)),
  ] : [made("p", "Type a key to see who owns it, who may serve it until when, and why others may not.")]);
}

function keyLine(told) {
  const line = made("p");
  line.append("Key ", made("code", told.key), ` has slice key ${told.slice_key}.`);
  return line;
}

// Refreshing ----------------------------------------------------------------------------------

function tell(text, isBad) {
  at("state").textContent = text;
  at("state").className = isBad ? "bad" : "";
}

async function refresh() {
  const mine = turn += 1;
  clearTimeout(timer);
  try {
    await look(mine);
  } catch (error) {
    if (mine !== turn) return;
    if (error instanceof Unauthorized) return askForSecret("The control plane does not know this secret.");
    if (error instanceof Forbidden && at("content").hidden) return askForSecret("This secret may not read the page.");
    tell(`Not up to date: ${error.message}.`, true);
  }
  if (mine === turn && at("follow").checked) {
    timer = setTimeout(refresh, document.hidden ? 5 * EVERY : EVERY);
  }
}

async function look(mine) {
  const { jobs } = await ask("/overview");
  if (mine !== turn) return;
  at("secret-form").hidden = true;
  at("content").hidden = false;
  let { job, key } = chosen();
  if (!job && jobs.length === 1) job = jobs[0].job;
  showJobs(jobs, job);
  at("job").hidden = !job;
  if (job) await lookAt(mine, job, key);
  else tell(`${plural(jobs.length, "job")}, at ${new Date().toLocaleTimeString()}. Choose one.`);
}

async function lookAt(mine, job, key) {
  const path = `/jobs/${encodeURIComponent(job)}`;
  const words = new URLSearchParams({ key });
  const [leases, told] = await Promise.all([
    ask(`${path}/leases`), key ? ask(`${path}/key?${words}`) : null,
  ]);
  const slices = await slicesOf(path, leases);
  if (mine !== turn) return;
  document.title = `${job} - Hourstable`;
  at("name").textContent = job;
  list("summary", summaryOf(leases));
  showKey(told);
  showSlices(slices, told);
  showLanes(leases);
  showRows(leases);
  showRefusals(leases);
  showDenials(leases);
  list("clocks", clocksOf(leases));
  tell(`As of ${new Date().toLocaleTimeString()}.`);
}

// The slices are asked for again if the phase has changed, and else every ten seconds, for their loads.
async function slicesOf(path, leases) {
  const phase = `${path} ${leases.committed} ${leases.proposed} ${leases.holder}`;
  if (phase !== asked.phase || Date.now() > asked.at + 5 * EVERY) {
    asked.slices = await ask(`${path}/slices`);
    asked.phase = phase;
    asked.at = Date.now();
  }
  return asked.slices;
}

function askForSecret(wrong) {
  const had = sessionStorage.getItem(STORED) !== null;
  sessionStorage.removeItem(STORED);
  at("content").hidden = true;
  at("secret-form").hidden = false;
  at("secret-note").textContent = had ? wrong
    : "It is in the file that --callers or --secret-file names. This tab keeps it until it is closed.";
  at("secret-note").className = had ? "bad" : "";
  tell("The control plane wants its secret.", true);
  at("secret").focus();
}

at("secret-form").addEventListener("submit", (event) => {
  event.preventDefault();
  sessionStorage.setItem(STORED, at("secret").value.trim());
  at("secret").value = "";
  refresh();
});
at("key-form").addEventListener("submit", (event) => {
  event.preventDefault();
  const link = linkTo(chosen().job || at("name").textContent, at("key").value);
  if (link === location.hash) refresh();
  else location.hash = link;
});
at("minutes").addEventListener("change", refresh);
at("follow").addEventListener("change", refresh);
addEventListener("resize", refresh);
addEventListener("hashchange", () => {
  at("key").value = chosen().key || "";
  refresh();
});
at("key").value = chosen().key || "";
refresh();
